"""Tests of hourstable.client and hourstable.calls."""

import asyncio
import time
from collections.abc import AsyncIterator
from pathlib import Path
from typing import Any

import pytest
from aiohttp import web

from hourstable import logs
from hourstable.auditing import gaps_of
from hourstable.calls import Control, Unreachable
from hourstable.client import Again, NoOwner, Router
from hourstable.library import Found
from hourstable.tickets import HEADER, Tickets
from hourstable.waiting import Backoff, within
from lines import line_of
from planes import JOB, Plane
from waits import counted, until

HALF = 1 << 62


@pytest.fixture
async def plane(tmp_path: Path) -> AsyncIterator[Plane]:
    made = await Plane(tmp_path / "plane").start()
    yield made
    await made.stop()


async def known(router: Router, generation: int) -> None:
    end = time.monotonic() + 5
    while router.generation != generation:
        assert time.monotonic() < end
        await asyncio.sleep(0.002)


async def test_owners(plane: Plane, tmp_path: Path) -> None:
    async with Router(plane.url, JOB, logs=tmp_path, clerk=3) as router:
        assert router.stale() == float("inf")
        with pytest.raises(NoOwner):
            router.owners("hello")
        plane.settle(1, [(0, 1), (HALF, 2)])
        await known(router, 1)
        assert router.stale() < 5
        assert router.owners("hello") == (1, [1])
        assert router.pick("abc") == 2
        plane.settle(2, [(0, 2)])
        await known(router, 2)
        assert router.pick("hello") == 2
    calls = [f"{it['do']} {it['clerk']}: {it['reply']}" for it in logs.merged(tmp_path / JOB)]
    assert calls == [
        "forget 3: forgotten", "learn 3: learnt 1", "look 3: found generation 1 owners 1",
        "look 3: found generation 1 owners 2", "learn 3: learnt 2",
        "look 3: found generation 2 owners 2",
    ]


async def test_a_router_goes_on_after_an_error_that_nobody_expected(
    plane: Plane, monkeypatch: pytest.MonkeyPatch, caplog: pytest.LogCaptureFixture
) -> None:
    learn, failures = Router._learn, [1]

    async def fails(router: Router) -> None:
        await learn(router)
        if failures:
            failures.pop()
            raise RuntimeError("what nobody expected")

    monkeypatch.setattr(Router, "_learn", fails)
    async with Router(plane.url, JOB) as router:
        plane.settle(1, [(0, 1), (HALF, 2)])
        await until(lambda: not failures)
        plane.settle(2, [(0, 2)])
        await until(lambda: router.generation == 2)
        assert counted(router.metrics.text(), "hourstable_internal_errors_total", where="assignments") == 1
    assert "what nobody expected" in caplog.text


async def test_a_router_keeps_its_logs_for_some_days(plane: Plane, tmp_path: Path) -> None:
    plane.settle(1, [(0, 1)])
    old = tmp_path / JOB / "clerk-3.2020-01-01.jsonl"
    for keep in (None, 30):
        old.parent.mkdir(exist_ok=True)
        old.write_text(f"{logs.job_line(plane.policy)}\n{line_of(7, 'forget', 'forgotten', clerk=3)}\n")
        async with Router(plane.url, JOB, logs=tmp_path, clerk=3, keep_logs=keep) as router:
            await known(router, 1)
        assert old.exists() == (keep is None)
    assert [gap.removed for gap in gaps_of(tmp_path / JOB)] == [old.name]


async def test_numbers_that_are_those_of_others(plane: Plane) -> None:
    wrong: list[dict[str, Any]] = [{"process": 63}, {"process": 256}, {"clerk": 0}, {"clerk": 129}]
    for given in wrong:
        with pytest.raises(ValueError, match="is not"):
            Router(plane.url, JOB, **given)
    Router(plane.url, JOB, process=64)


async def test_an_attempt_that_is_denied_is_made_again_at_the_next_owner(plane: Plane) -> None:
    plane.settle(1, [(0, 1)])
    tried: list[int] = []

    async def attempt(task: int) -> str:
        tried.append(task)
        if task == 1:
            if len(tried) == 2:
                plane.settle(2, [(0, 2)])
            raise Again("denied")
        return f"answer of {task}"

    async with Router(plane.url, JOB) as router:
        assert await router.send("hello", attempt) == "answer of 2"
    assert tried[:2] == [1, 1] and tried[-1] == 2


async def test_the_last_denial_is_raised_when_patience_is_out(plane: Plane) -> None:
    plane.settle(1, [(0, 1)])
    tried: list[int] = []

    async def attempt(task: int) -> None:
        tried.append(task)
        raise Again(f"denied {len(tried)}")

    async with Router(plane.url, JOB) as router:
        await known(router, 1)
        begun = time.monotonic()
        with pytest.raises(Again, match="denied"):
            await router.send("hello", attempt, patience=0.5)
        assert 0.4 < time.monotonic() - begun < 1.5
    # Waits are 10 ms, 20 ms, 40 ms and so on, each at least half of it.
    assert 5 <= len(tried) <= 8


async def test_of_several_owners_the_one_with_the_fewest_attempts(
    plane: Plane, monkeypatch: pytest.MonkeyPatch
) -> None:
    async with Router(plane.url, JOB) as router:
        monkeypatch.setattr(router, "owners", lambda key: Found(1, [1, 2, 3]))
        asked: list[int] = []
        ends = asyncio.Event()

        async def attempt(task: int) -> None:
            asked.append(task)
            await ends.wait()

        sent = [asyncio.create_task(router.send("hello", attempt)) for _ in range(6)]
        await asyncio.sleep(0.05)
        assert sorted(asked) == [1, 1, 2, 2, 3, 3]
        ends.set()
        await asyncio.gather(*sent)


async def test_of_several_owners_one_at_random(
    plane: Plane, monkeypatch: pytest.MonkeyPatch
) -> None:
    async with Router(plane.url, JOB, by_load=False) as router:
        monkeypatch.setattr(router, "owners", lambda key: Found(1, [1, 2, 3]))
        assert {router.pick("hello") for _ in range(200)} == {1, 2, 3}


async def test_a_call_goes_to_the_plane_that_answers(plane: Plane) -> None:
    tickets = Tickets(7, None)
    async with Control(["http://127.0.0.1:1", plane.url], JOB, tickets, lambda: 5) as control:
        answer = await control.call("GET")
        assert answer.value() == {"policy": plane.policy}
        assert (answer.status, answer.reading, answer.sent) == (200, None, 5)

        async def replaced(_: web.Request) -> web.StreamResponse:
            return web.json_response(
                {"refused": "replaced"}, status=503, headers={"Retry-After": "2"}
            )

        plane.fault = replaced
        with pytest.raises(Unreachable) as raised:
            await control.call("GET")
        assert "127.0.0.1:1" in str(raised.value) or raised.value.again == 2.0


async def test_a_plane_that_knows_no_secret_is_asked_once_in_a_call(plane: Plane) -> None:
    asked = []

    async def fault(request: web.Request) -> web.StreamResponse:
        asked.append(request.headers["Authorization"])
        return web.Response(status=401, text="no")

    plane.fault = fault
    async with Control(plane.url, JOB, Tickets(7, None), lambda: 0, secret="word") as control:
        with pytest.raises(Unreachable, match="401 no"):
            await control.call("GET")
    assert asked == ["Bearer word"]


async def test_tickets_go_both_ways(plane: Plane) -> None:
    seen = []

    async def fault(request: web.Request) -> None:
        seen.append(int(request.headers[HEADER]))

    plane.fault = fault
    hour = 3_600_000 << 16
    tickets = Tickets(7, None, now=lambda: (plane.tickets.draw() + hour) >> 16)
    async with Control(plane.url, JOB, tickets, lambda: 0) as control:
        await control.call("GET")
    assert plane.tickets.draw() > seen[0]
    behind = Tickets(8, None, now=lambda: 1)
    async with Control(plane.url, JOB, behind, lambda: 0) as control:
        await control.call("GET")
    assert behind.draw() > seen[0]


async def test_an_answer_that_does_not_come_in_time(plane: Plane) -> None:
    async def fault(_: web.Request) -> web.StreamResponse | None:
        await asyncio.sleep(1.0)
        return None

    plane.fault = fault
    async with Control(plane.url, JOB, Tickets(7, None), lambda: 0, timeout=0.1) as control:
        with pytest.raises(Unreachable, match="Timeout"):
            await control.call("GET")


async def test_what_is_late_is_cancelled() -> None:
    ended = list[str]()

    async def works() -> None:
        try:
            await asyncio.sleep(60)
        finally:
            ended.append("work")

    with pytest.raises(TimeoutError):
        await within(0.01, works())
    assert ended == ["work"]


def test_waits_grow_up_to_a_limit() -> None:
    most = Backoff(lambda: 1.0, least=0.1, most=0.5)
    assert [most.seconds() for _ in range(5)] == [0.1, 0.2, 0.4, 0.5, 0.5]
    least = Backoff(lambda: 0.0, least=0.1, most=0.5)
    assert [least.seconds() for _ in range(3)] == [0.05, 0.1, 0.2]
    assert least.seconds(at_least=3.0) == 3.0
    least.reset()
    assert least.seconds() == 0.05
