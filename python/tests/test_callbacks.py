"""Callbacks that raise or take long, and what a task says of itself."""

import asyncio
import re
import time
from collections.abc import AsyncIterator
from pathlib import Path
from typing import Any

import pytest
from aiohttp import web

from hourstable.leases import Held, Leases
from hourstable.library import Policy, boottime_ticks
from hourstable.ranges import Ranges
from hourstable.task import ClockBroken, Drift, LeaseLost, Task
from planes import JOB, Plane
from waits import HALF, LOWER, UPPER, counted, ground, until

ERRORS = "hourstable_internal_errors_total"


@pytest.fixture
async def plane(tmp_path: Path) -> AsyncIterator[Plane]:
    made = await Plane(tmp_path, guard=10_000).start()
    made.settle(1, [(0, 1), (HALF, 2)])
    yield made
    await made.stop()


def task_of(plane: Plane, folder: Path, **given: Any) -> Task:
    return Task(plane.url, JOB, 1, logs=folder, policy=plane.policy, timeout=2.0, **given)


async def test_a_callback_that_raises_ends_no_renewal(tmp_path: Path, caplog: pytest.LogCaptureFixture) -> None:
    def on_gain(_: Ranges) -> None:
        raise RuntimeError("no memory for keys")

    async def on_lose(_: Ranges, deadline: int) -> None:
        raise OSError("no disk for keys")

    plane = await Plane(tmp_path).start()
    plane.settle(1, [(0, 1), (HALF, 2)])
    async with task_of(plane, tmp_path, on_gain=on_gain, on_lose=on_lose, patience=20.0) as task:
        await until(lambda: task.served() == LOWER)
        await until(lambda: task.renewed.times >= 3)
        plane.propose(2, [(0, 2)])
        await plane.commit_soon()
        await until(lambda: counted(task.metrics.text(), ERRORS, where="on_lose") >= 1)
        plane.propose(3, [(0, 1)])
        await plane.commit_soon()
        await until(lambda: counted(task.metrics.text(), ERRORS, where="on_gain") >= 2)
        renewed = task.renewed.times
        await until(lambda: task.renewed.times >= renewed + 2 and task.state == "serving")
        assert counted(task.metrics.text(), ERRORS, where="lease") == 0
    assert "no memory for keys" in caplog.text and "no disk for keys" in caplog.text
    await plane.stop()


async def test_a_lease_is_given_up_in_time_if_the_callback_raises(plane: Plane, tmp_path: Path) -> None:
    """Long before the lease of 10 s ends, and before the 9 s that the application might take."""

    def on_lose(_: Ranges, deadline: int) -> None:
        raise RuntimeError

    async with task_of(plane, tmp_path, on_lose=on_lose, patience=9.0) as task:
        await until(lambda: task.served() == LOWER)
        plane.propose(2, [(0, 2)])
        assert await plane.commit_soon() < 5000


async def test_a_callback_that_overruns_takes_no_time_of_open_blocks(plane: Plane, tmp_path: Path) -> None:
    """The block outlasts the patience for the callback, and ends within its own."""
    told = asyncio.Event()

    async def on_lose(_: Ranges, deadline: int) -> None:
        told.set()
        await asyncio.sleep(60)

    async with task_of(plane, tmp_path, on_lose=on_lose, patience=2.0) as task:
        await until(lambda: task.served() == LOWER)
        async with task.serving("hello") as lease:
            plane.propose(2, [(0, 2)])
            await told.wait()
            await asyncio.sleep(2.5)
            lease.check()
        await plane.commit_soon()


async def test_a_callback_that_cannot_be_cancelled_holds_nothing_up(plane: Plane, tmp_path: Path) -> None:
    ends = asyncio.Event()

    async def on_lose(_: Ranges, deadline: int) -> None:
        while not ends.is_set():
            try:
                await ends.wait()
            except asyncio.CancelledError:
                pass

    async with task_of(plane, tmp_path, on_lose=on_lose, patience=0.2) as task:
        await until(lambda: task.served() == LOWER)
        plane.propose(2, [(0, 2)])
        assert await plane.commit_soon() < 5000
        ends.set()


async def test_nobody_waits_beyond_the_end_of_a_lease(tmp_path: Path) -> None:
    """An application that takes a minute gets what is left of the lease of 2 s, and the task goes on."""
    plane = await Plane(tmp_path).start()
    plane.settle(1, [(0, 1), (HALF, 2)])
    async with task_of(plane, tmp_path, patience=60.0) as task:
        await until(lambda: task.served() == LOWER)
        with pytest.raises(LeaseLost):
            async with task.serving("hello"):
                plane.propose(2, [(0, 2), (HALF, 1)])
                await plane.commit_soon()
                await until(lambda: task.served() == UPPER)  # while the block is still open
    await plane.stop()


async def test_an_error_that_nobody_expected_begins_another_life(
    plane: Plane, tmp_path: Path, monkeypatch: pytest.MonkeyPatch, caplog: pytest.LogCaptureFixture
) -> None:
    """The slicelet hears a lease that the task does not know of, as after an OSError of the log."""
    hear, failures = Leases.hear, [1]

    def fails(leases: Leases, grant: bytes, lease: Held, policy: Policy) -> bool:
        is_heard = hear(leases, grant, lease, policy)
        if failures:
            failures.pop()
            leases.held.clear()
            raise OSError("what nobody expected")
        return is_heard

    monkeypatch.setattr(Leases, "hear", fails)
    async with task_of(plane, tmp_path) as task:
        await until(lambda: task.served() == LOWER)
        assert plane.lives[1] == 2
        assert await ground(task, "hello") == ""
        assert counted(task.metrics.text(), ERRORS, where="lease") == 1
        # The lease of the first life does not last until its end: it is given back.
        await until(lambda: [row.life for row in plane.table.rows() if row.task == 1] == [2], 5.0)
    assert "what nobody expected" in caplog.text


async def test_what_a_task_says_of_itself(plane: Plane, tmp_path: Path) -> None:
    task = task_of(plane, tmp_path, patience=9.0)
    assert (task.state, task.is_ready()) == ("starting", False)
    async with task:
        await until(lambda: task.served() == LOWER)
        assert (task.state, task.is_ready()) == ("serving", True)
        async with task.serving("hello"):
            plane.propose(2, [(0, 2)])
            await until(lambda: task.state == "moving")
            assert task.is_ready()
        await plane.commit_soon()
        await until(lambda: task.state == "serving")
    assert (task.state, task.is_ready()) == ("stopped", False)
    await task.wait()


async def test_a_task_that_is_cut_off_is_ready(tmp_path: Path) -> None:
    plane = await Plane(tmp_path).start()
    plane.settle(1, [(0, 1), (HALF, 2)])

    async def fault(_: web.Request) -> web.StreamResponse:
        return web.Response(status=503)

    async with task_of(plane, tmp_path) as task:
        await until(lambda: task.served() == LOWER)
        heard = time.time()
        plane.fault = fault
        await until(lambda: task.state.startswith("cut off"))
        found = re.fullmatch(r"cut off since (\d{4})-(\d\d)-(\d\d)T(\d\d):(\d\d):(\d\d)Z", task.state)
        assert found is not None
        assert task.state[14:18] in time.strftime("%Y", time.gmtime(heard))
        assert task.is_ready()
        await until(lambda: task.served() == [])
        assert task.is_ready()
        plane.fault = None
        await until(lambda: task.state == "serving" and task.served() == LOWER)
    await plane.stop()


async def test_a_task_that_is_drained_is_not_ready(plane: Plane, tmp_path: Path) -> None:
    """The plane tells that the task is drained, once the task has no keys left."""

    async def fault(request: web.Request) -> web.StreamResponse | None:
        if request.method == "GET" and request.path == f"/jobs/{JOB}":
            return web.json_response({"policy": plane.policy, "draining": [1]})
        return None

    async with task_of(plane, tmp_path, report=0.1) as task:
        await until(lambda: task.served() == LOWER)
        plane.fault = fault
        await asyncio.sleep(0.5)
        assert task.is_ready()  # it has keys
        plane.propose(2, [(0, 2)])
        await plane.commit_soon()
        await until(lambda: task.state == "draining")
        assert not task.is_ready()


async def test_what_cannot_mend_itself_is_raised(tmp_path: Path) -> None:
    """The local clock goes at half its rate."""
    plane = await Plane(tmp_path).start()
    plane.settle(1, [(0, 1), (HALF, 2)])
    begun = boottime_ticks()
    slow = lambda: (boottime_ticks() + begun) // 2  # noqa: E731
    async with task_of(plane, tmp_path, local_clock=slow, drift=Drift(1, 1000), oldest=10_000) as task:
        for _ in range(2):  # also if it has ended before
            with pytest.raises(ClockBroken):
                await asyncio.wait_for(task.wait(), 30)
        assert (task.state, task.is_ready()) == ("stopped", False)
        assert counted(task.metrics.text(), ERRORS) == 0
    await plane.stop()


def test_the_drift_covers_a_slewed_clock() -> None:
    """Two clocks of which each is wrong by 500 parts in a million: (1 + 0.0005) / (1 - 0.0005) - 1, rounded up."""
    assert Drift() == (1001, 1_000_000)
