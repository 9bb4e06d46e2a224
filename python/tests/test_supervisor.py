"""Tests of hourstable.supervisor."""

import asyncio
import gc
import logging
import warnings
from collections.abc import Callable

import pytest

from hourstable.metrics import Metrics
from hourstable.supervisor import Supervisor

log = logging.getLogger("hourstable.test")


def made(count: Callable[[str], object] | None = None, most: float = 0.05) -> Supervisor:
    return Supervisor("it", log, count, lambda: 1.0, least=0.01, most=most)


async def until(holds: Callable[[], object]) -> None:
    end = asyncio.get_running_loop().time() + 20
    while not holds():
        assert asyncio.get_running_loop().time() < end, "it does not come true"
        await asyncio.sleep(0.002)


async def test_a_loop_that_fails_begins_again(caplog: pytest.LogCaptureFixture) -> None:
    metrics, begun = Metrics(), list[int]()

    async def loop() -> None:
        begun.append(len(begun))
        if len(begun) < 3:
            raise KeyError("what nobody expected")
        await asyncio.Event().wait()

    supervisor = made(metrics.internal_error)
    running = supervisor.watch("poller", loop)
    await until(lambda: len(begun) == 3)
    assert not running.done() and supervisor.ended() == []
    assert supervisor.errors == {"poller": 2}
    assert b'hourstable_internal_errors_total{where="poller"} 2.0' in metrics.text([])
    assert "it: poller failed" in caplog.text and "what nobody expected" in caplog.text
    assert "Traceback" in caplog.text
    await supervisor.close()
    assert running.done() and supervisor.ended() == ["poller"]


async def test_work_that_is_cancelled_before_it_begins_leaves_nothing_behind() -> None:
    """As a look at a job does that is spawned in the moment in which a plane closes."""
    async def work() -> None:
        raise AssertionError("it has begun")

    supervisor = made()
    with warnings.catch_warnings(record=True) as warned:
        warnings.simplefilter("always")
        supervisor.spawn("look_at", work())
        await supervisor.close()
        gc.collect()
    assert [str(it.message) for it in warned if "never awaited" in str(it.message)] == []


async def test_a_loop_that_fails_at_once_begins_again_ever_later() -> None:
    begun = list[float]()
    clock = asyncio.get_running_loop().time

    async def loop() -> None:
        begun.append(clock())
        raise OSError

    supervisor = made(most=0.04)
    supervisor.watch("poller", loop)
    await until(lambda: len(begun) == 5)
    await supervisor.close()
    waits = [later - sooner for sooner, later in zip(begun, begun[1:])]
    for wait, least in zip(waits, (0.01, 0.02, 0.04, 0.04)):
        assert wait >= least * 0.99


async def test_a_future_that_another_cancelled_ends_no_loop() -> None:
    begun = list[int]()

    async def loop() -> None:
        begun.append(1)
        gone = asyncio.get_running_loop().create_future()
        gone.cancel()
        await gone

    supervisor = made()
    running = supervisor.watch("poller", loop)
    await until(lambda: len(begun) == 3)
    assert not running.done()
    await supervisor.close()
    assert running.cancelled()


async def test_a_loop_that_returns_is_not_begun_again() -> None:
    begun = list[int]()

    async def loop() -> None:
        begun.append(1)

    supervisor = made()
    await supervisor.watch("once", loop)
    assert begun == [1] and supervisor.ended() == ["once"] and supervisor.errors == {}
    await supervisor.close()


async def test_a_piece_of_work_that_fails_is_told_and_counted(caplog: pytest.LogCaptureFixture) -> None:
    async def fail() -> None:
        raise ValueError("no keys")

    counted = list[str]()
    supervisor = made(counted.append)
    await supervisor.spawn("on_gain", fail())
    assert counted == ["on_gain"] and "no keys" in caplog.text
    await supervisor.close()


async def test_what_is_closed_has_ended() -> None:
    ended = list[str]()

    async def work(name: str) -> None:
        try:
            await asyncio.Event().wait()
        finally:
            ended.append(name)

    supervisor = made()
    supervisor.watch("loop", lambda: work("loop"))
    supervisor.spawn("work", work("work"))
    await asyncio.sleep(0)
    await supervisor.close()
    assert sorted(ended) == ["loop", "work"] and supervisor.errors == {}


async def test_what_cannot_be_cancelled_holds_up_no_close(
    monkeypatch: pytest.MonkeyPatch, caplog: pytest.LogCaptureFixture
) -> None:
    ends = asyncio.Event()

    async def goes_on() -> None:
        while not ends.is_set():
            try:
                await ends.wait()
            except asyncio.CancelledError:
                pass

    monkeypatch.setattr("hourstable.supervisor.CLOSING", 0.1)
    supervisor = made()
    running = supervisor.spawn("on_lose", goes_on())
    await asyncio.sleep(0)
    await asyncio.wait_for(supervisor.close(), 20)
    assert not running.done() and "does not end" in caplog.text
    ends.set()
    await running


async def test_a_loop_may_close_its_supervisor() -> None:
    supervisor = made()
    await asyncio.wait_for(supervisor.watch("loop", supervisor.close), 20)
    assert supervisor.errors == {}
