"""An assigner beside the planes: which of them it asks, and what it survives."""

import argparse
import asyncio
import json
from collections.abc import AsyncIterator, Callable
from contextlib import asynccontextmanager
from pathlib import Path
from typing import Any

import pytest
from aiohttp import web

import needed

needed.library()

from hourstable import command  # noqa: E402
from hourstable.assigner import AssignerOfJobs  # noqa: E402
from hourstable.clock import local_clock  # noqa: E402
from hourstable.desk import HttpDesk, Unreachable  # noqa: E402
from hourstable.plans import Hysteresis  # noqa: E402
from hourstable.store import Store  # noqa: E402
from hourstable.tickets import Tickets  # noqa: E402
from serving import Caller, Task, running  # noqa: E402
from waits import until  # noqa: E402

QUICK = Hysteresis(settle=0.1, rest=1.0)


@asynccontextmanager
async def listening(answer: Callable[[web.Request], web.Response]) -> AsyncIterator[str]:
    """Something that answers as a function says."""

    async def handler(request: web.Request) -> web.Response:
        return answer(request)

    app = web.Application()
    app.router.add_route("*", "/{path:.*}", handler)
    runner = web.AppRunner(app)
    await runner.setup()
    await web.TCPSite(runner, "127.0.0.1", 0, shutdown_timeout=0.1).start()
    try:
        yield f"http://127.0.0.1:{runner.addresses[0][1]}"
    finally:
        await runner.cleanup()


@asynccontextmanager
async def at_work(*urls: str) -> AsyncIterator[AssignerOfJobs]:
    """An assigner beside planes, until the block ends."""
    desk = HttpDesk(urls, Tickets(9, None))
    made = AssignerOfJobs(1, desk, local_clock(), QUICK)
    work = asyncio.create_task(made.run())
    try:
        yield made
        assert not work.done()
    finally:
        work.cancel()
        await asyncio.gather(work, return_exceptions=True)
        await desk.close()


async def committed(caller: Caller) -> None:
    """Waits until an assignment is committed."""
    async with asyncio.timeout(60):
        while not (await caller.get()).json["committed"]:
            await asyncio.sleep(0.05)


async def test_the_plane_that_holds_the_job_is_found(file: Store, tmp_path: Path) -> None:
    """It asks the plane that stands by first, which tasks never call."""
    async with running(file, tmp_path / "one", 1, shared=True, standby=60) as (_, first):
        async with running(file, tmp_path / "two", 2, shared=True, standby=60) as (_, second):
            assert (await first.create()).status == 201
            task = asyncio.create_task(Task(first, 1).run())
            await until(lambda: not task.done())
            async with at_work(second.url, first.url):
                await committed(first)
            task.cancel()
            await asyncio.gather(task, return_exceptions=True)


ODD = {"null": (200, b"null"), "names that are none": (200, b'{"jobs":7}'), "an old secret": (401, b"{}")}


@pytest.mark.parametrize("what", ODD)
async def test_a_stranger_ends_no_assigner(what: str, file: Store, tmp_path: Path) -> None:
    """Something else answers first, in place of a plane."""
    status, body = ODD[what]
    async with listening(lambda _: web.Response(status=status, body=body)) as stranger:
        async with running(file, tmp_path) as (_, caller):
            assert (await caller.create()).status == 201
            task = asyncio.create_task(Task(caller, 1).run())
            async with at_work(stranger, caller.url):
                await committed(caller)
            task.cancel()
            await asyncio.gather(task, return_exceptions=True)


async def test_an_odd_status_ends_no_assigner() -> None:
    """All that is asked is answered in a wrong form, and it goes on asking."""
    asked: list[str] = []

    def answer(request: web.Request) -> web.Response:
        asked.append(request.path)
        return web.json_response({"jobs": ["shop"]} if request.path == "/jobs" else {"holder": True})

    async with listening(answer) as url:
        async with at_work(url) as assigner:
            await until(lambda: asked.count("/jobs/shop") >= 3)
            assert assigner._supervisor.errors == {}


async def test_what_nobody_expected_is_counted(file: Store, tmp_path: Path, monkeypatch: pytest.MonkeyPatch) -> None:
    counted: list[str] = []

    async def jobs(_: HttpDesk) -> list[str]:
        raise RuntimeError("what nobody expected")

    monkeypatch.setattr(HttpDesk, "jobs", jobs)
    desk = HttpDesk(["http://127.0.0.1:1"], Tickets(9, None))
    work = asyncio.create_task(AssignerOfJobs(1, desk, local_clock(), QUICK, counted.append).run())
    await until(lambda: len(counted) >= 3)
    assert not work.done() and set(counted) == {"jobs of the assigner"}
    work.cancel()
    await asyncio.gather(work, return_exceptions=True)
    await desk.close()


async def test_the_command_ends_with_its_assigner(monkeypatch: pytest.MonkeyPatch) -> None:
    async def run(_: AssignerOfJobs) -> None:
        raise RuntimeError("it has ended")

    monkeypatch.setattr(AssignerOfJobs, "run", run)
    words = ["assigner", "--control", "http://127.0.0.1:1", "--assigner", "1", "--process", "9"]
    chosen: argparse.Namespace = command.parser().parse_args(words)
    with pytest.raises(RuntimeError, match="it has ended"):
        await asyncio.wait_for(command._run_assigner(chosen), 20)


async def test_answers_of_a_desk(tmp_path: Path) -> None:
    """What is none of a plane is Unreachable, for each call."""
    bodies: dict[str, Any] = {"it": None}

    def answer(_: web.Request) -> web.Response:
        return web.Response(body=json.dumps(bodies["it"]).encode(), headers={"Hourstable-Reading": "7"})

    async with listening(answer) as url:
        desk = HttpDesk([url], Tickets(9, None))
        calls: list[Callable[[], Any]] = [
            desk.jobs, lambda: desk.status("shop"), lambda: desk.loads("shop"), lambda: desk.take("shop", 1),
            lambda: desk.drain("shop", 1),
        ]
        for call in calls:
            with pytest.raises(Unreachable):
                await call()
        bodies["it"] = {"number": 1, "assigner": 1, "until": 9}
        assert await desk.take("shop", 1) == (bodies["it"], None, 7)
        await desk.close()
