"""A slicelet is replaced by another one, and a task is drained, and no key is denied for it."""

import asyncio
from pathlib import Path
from typing import Any

import pytest

import needed

needed.library()

from hourstable import logs  # noqa: E402
from hourstable import task as tasks  # noqa: E402
from hourstable.calls import Unreachable  # noqa: E402
from hourstable.store import Store  # noqa: E402
from hourstable.task import Denied, LeaseLost, Task  # noqa: E402
from serving import POLICY, Caller, assignment, running  # noqa: E402
from waits import until  # noqa: E402

LONG: dict[str, Any] = {**POLICY, "guard": 4000, "bridge": 4000, "job": 60_000, "numbers": 100_000}
KEY = "hello"


class Asked:
    """What an application was told while it asked for a key again and again."""

    def __init__(self) -> None:
        self.answered, self.denied = 0, list[str]()

    async def ask(self, task: Task, length: float = 0.002) -> None:
        while True:
            try:
                async with task.serving(KEY):
                    await asyncio.sleep(length)
                self.answered += 1
            except (Denied, LeaseLost) as why:
                self.denied.append(repr(why))
                await asyncio.sleep(length)


@pytest.fixture
def soon(monkeypatch: pytest.MonkeyPatch) -> None:
    """A slicelet is replaced after its first renewal."""
    monkeypatch.setattr(tasks, "REPLACED_AT", 1 << 20)


async def begun(caller: Caller) -> None:
    assert (await caller.create(LONG)).status == 201
    await caller.change(await caller.take(), 1, [[0, [1]]])


def task_at(caller: Caller, folder: Path | None, **given: Any) -> Task:
    return Task(caller.url, "shop", 1, logs=folder, timeout=2.0, **given)


async def serves(task: Task) -> None:
    await until(lambda: bool(task.served()))


@pytest.mark.usefixtures("soon")
async def test_no_key_is_denied_while_a_slicelet_is_replaced(file: Store, tmp_path: Path) -> None:
    async with running(file, tmp_path / "logs") as (plane, caller):
        await begun(caller)
        told: list[str] = []
        given: dict[str, Any] = {"on_gain": told.append, "on_lose": lambda *lost: told.append("lost")}
        async with task_at(caller, tmp_path / "logs", **given) as task:
            await serves(task)
            asked = Asked()
            asking = [asyncio.create_task(asked.ask(task)) for _ in range(3)]
            await until(lambda: plane.jobs["shop"].job.lives[1].life >= 5)
            for one in asking:
                one.cancel()
            await asyncio.gather(*asking, return_exceptions=True)
            assert asked.denied == [] and asked.answered > 10
            assert len(told) == 1  # all keys were gained once, and none was lost
            await until(lambda: len({row.life for row in plane.jobs["shop"].job.rows()}) == 1)  # notes came
        opened = [it for it in logs.merged(tmp_path / "logs" / "shop") if it["do"] == "start"]
        assert len(opened) >= 4


@pytest.mark.usefixtures("soon")
async def test_a_block_that_is_open_is_waited_for_before_a_slicelet_is_replaced(file: Store, tmp_path: Path) -> None:
    async with running(file, tmp_path / "logs") as (_, caller):
        await begun(caller)
        async with task_at(caller, None, patience=20.0) as task:
            await serves(task)
            async with task.serving(KEY) as lease:
                await until(lambda: task._replacing is not None)
                waiting = asyncio.create_task(answered(task))
                await asyncio.sleep(0.3)
                assert not waiting.done()
                lease.check()
            await asyncio.wait_for(waiting, 20)


async def answered(task: Task) -> None:
    async with task.serving(KEY):
        pass


@pytest.mark.usefixtures("soon")
async def test_no_life_asks_for_a_lease_before_it_started(file: Store, tmp_path: Path) -> None:
    async with running(file, tmp_path / "logs") as (plane, caller):
        await begun(caller)
        async with task_at(caller, tmp_path / "logs") as task:
            await serves(task)
            await until(lambda: plane.jobs["shop"].job.lives[1].life >= 3)
    calls = [it for it in logs.merged(tmp_path / "logs" / "shop") if it["do"] in ("start", "grant")]
    started: set[int] = set()
    for call in calls:
        if call["do"] == "start":
            started.add(call["life"])
        elif call["life"] > min(started, default=call["life"]):
            assert call["life"] in started, call


async def test_planes_that_are_gone_keep_a_slicelet(
    file: Store, tmp_path: Path, monkeypatch: pytest.MonkeyPatch
) -> None:
    """No life is started that nobody can answer."""
    async with running(file, tmp_path / "logs") as (_, caller):
        await begun(caller)
        async with task_at(caller, None) as task:
            await serves(task)
            leases = task._leases

            async def gone(*_: object, **__: object) -> None:
                raise Unreachable("gone")

            monkeypatch.setattr(task._control, "read", gone)
            monkeypatch.setattr(task._control, "first", gone)
            monkeypatch.setattr(tasks, "REPLACED_AT", 1 << 20)
            task._phases.changed.set()
            await asyncio.sleep(1)
            assert task._leases is leases
            await answered(task)


async def test_a_task_that_drains_itself_denies_no_key(file: Store, tmp_path: Path) -> None:
    async with running(file, tmp_path / "logs") as (plane, caller):
        assert (await caller.create(LONG)).status == 201
        term = await caller.take()
        await caller.change(term, 1, [[0, [1]]])
        one, two = (Task(caller.url, "shop", it, logs=tmp_path / "logs", timeout=2.0) for it in (1, 2))
        async with one, two:
            await serves(one)
            asked = Asked()
            asking = asyncio.create_task(asked.ask(one))
            draining = asyncio.create_task(one.drain(30))
            await until(lambda: plane.jobs["shop"].draining() == [1])
            await until(lambda: one.state == "draining")  # the answer is there a moment later
            assert not draining.done() and not one.is_ready()
            await move(caller, term)
            await draining
            asking.cancel()
            await serves(two)
            begun_at = asyncio.get_running_loop().time()
            await one.stop()
            assert asyncio.get_running_loop().time() - begun_at < 3  # nothing is waited for
        assert {it.split("(")[0] for it in asked.denied} <= {"Denied"}, asked.denied[:3]
        assert all("moving" in it or "not-owned" in it for it in asked.denied), asked.denied[:3]


async def move(caller: Caller, term: int) -> None:
    """Moves all keys to task 2, as an assigner does."""
    assert (await caller.post(f"propose?term={term}", assignment(2, [[0, [2]]]))).status == 200
    for _ in range(400):
        if (await caller.post("commit", {"term": term})).status == 200:
            return
        await asyncio.sleep(0.02)
    raise AssertionError("the change is not committed")


async def test_a_task_whose_keys_nobody_takes_is_not_drained(file: Store, tmp_path: Path) -> None:
    async with running(file, tmp_path / "logs") as (_, caller):
        await begun(caller)
        async with task_at(caller, None) as task:
            await serves(task)
            with pytest.raises(TimeoutError):
                await task.drain(0.3)
