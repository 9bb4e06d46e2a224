"""How a task hears a grant: the library decodes the message once, and decides of all of it."""

import json
from collections.abc import AsyncIterator
from pathlib import Path
from typing import Any

import pytest
from aiohttp import web

from hourstable import library
from hourstable.leases import Held, held_in
from hourstable.task import Task
from planes import JOB, Plane
from waits import HALF, LOWER, counted, ground, until

WRONG = "hourstable_control_wrong_answers_total"


@pytest.fixture
async def plane(tmp_path: Path) -> AsyncIterator[Plane]:
    made = await Plane(tmp_path, guard=10_000).start()
    made.settle(1, [(0, 1), (HALF, 2)])
    yield made
    await made.stop()


class Counting:
    """The loaded library, and the names of its calls that took a grant."""

    def __init__(self) -> None:
        self.loaded, self.takers = library.library, list[str]()

    def __getattr__(self, name: str) -> Any:
        function = getattr(self.loaded, name)

        def call(*given: object) -> Any:
            self.takers += [name for it in given if isinstance(it, bytes) and b'"type":"grant"' in it]
            return function(*given)

        return call


@pytest.mark.parametrize("is_logged", [True, False])
async def test_a_grant_is_decoded_once(
    plane: Plane, tmp_path: Path, monkeypatch: pytest.MonkeyPatch, is_logged: bool
) -> None:
    counting = Counting()
    monkeypatch.setattr(library, "library", counting)
    logs = tmp_path if is_logged else None
    async with Task(plane.url, JOB, 1, logs=logs, policy=plane.policy) as task:
        await until(lambda: task.served() == LOWER)
        assert counting.takers == ["hs_slicelet_receive"] * task.renewed.times
        assert await ground(task, "hello") == ""


async def test_a_grant_that_the_library_refuses_is_a_wrong_answer(plane: Plane, tmp_path: Path) -> None:
    """The message has a member more than a grant."""
    faulty = [3]

    async def adds(request: web.Request) -> web.StreamResponse | None:
        if not request.path.endswith("/grant") or not faulty[0] or (await request.json()).get("let_in"):
            return None
        faulty[0] -= 1
        answer = await plane.grant(request)
        assert isinstance(answer.body, bytes)
        message = json.loads(answer.body)
        message["value"]["owner"] = 7
        return web.Response(body=json.dumps(message).encode(), headers=answer.headers)

    plane.fault = adds
    async with Task(plane.url, JOB, 1, logs=tmp_path, policy=plane.policy) as task:
        await until(lambda: task.served() == LOWER)
        assert counted(task.metrics.text(), WRONG, answer="unreadable") == 3
        assert await ground(task, "hello") == ""


GRANT: dict[str, Any] = {
    "job": JOB, "type": "grant", "version": 2, "value": {
        "ends": "130", "generation": "3", "kind": "guard", "life": 1, "number": "7", "task": 2, "until": "140",
        "ranges": [["0", "5"], ["9", "12"]],
    },
}


def test_the_lease_of_a_grant() -> None:
    assert held_in(JOB, json.dumps(GRANT).encode()) == Held("guard", 7, 3, [(0, 5), (9, 12)], 130)


@pytest.mark.parametrize("name, value", [
    ("job", "other"), ("type", "note"), ("value", None), ("value", {}),
    ("value", {**GRANT["value"], "kind": "third"}),
    ("value", {**GRANT["value"], "ends": "soon"}), ("value", {**GRANT["value"], "ranges": [["0"]]}),
])
def test_what_is_no_grant(name: str, value: object) -> None:
    with pytest.raises((ValueError, LookupError, TypeError)):
        held_in(JOB, json.dumps({**GRANT, name: value}).encode())
