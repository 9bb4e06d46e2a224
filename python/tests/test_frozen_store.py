"""A server of a store that stands still (SIGSTOP) under load: calls are answered, other stores' jobs and /healthz go
on, nothing stays locked, each job is served again within a guard term, and by the plane that held it before."""

import asyncio
import time
from collections import Counter
from collections.abc import AsyncIterator, Sequence
from contextlib import asynccontextmanager
from pathlib import Path

import pytest

import needed

needed.library()
needed.engine("postgresql")

from hourstable.calls import HOLDER  # noqa: E402
from hourstable.control import Limits, Plane  # noqa: E402
from hourstable.demo import engines  # noqa: E402
from serving import POLICY, Answer, Caller, running  # noqa: E402
from stores import opened  # noqa: E402
from test_page import begun  # noqa: E402
from test_stopped_store import DEADLINE, SERVERS, engine_of  # noqa: E402

GUARD = 10.0  # seconds
STOPPED = 8.0  # seconds: a standby of 2 s and the deadline of the store pass several times
ENDS = 60.0  # seconds by which what is waited for has come, on a busy machine
JOBS = ("shop", "cart", "desk")
TASKS = range(1, 9)


class Load:
    """Callers that renew without an end: of each job at one plane first, and where that fails at the other one."""

    def __init__(self, planes: Sequence[Caller]) -> None:
        self.planes = planes
        self.granted: dict[str, float] = {}  # jobs, and when a grant was given last
        self.answered: Counter[tuple[str, int]] = Counter()  # calls, by jobs and tasks

    async def ask(self, job: str, plane: Caller, task: int) -> Answer:
        told = await Caller(plane.url, plane.session, job).post("grant", {"task": task, "life": 1})
        self.answered[job, task] += 1
        if told.status == 200:
            self.granted[job] = time.monotonic()
        return told

    async def renew(self, at: int, job: str, task: int) -> None:
        order = [self.planes[at % 2], self.planes[(at + 1) % 2]]
        while True:
            for plane in order:
                told = await self.ask(job, plane, task)
                if told.status == 200:
                    break
                is_of_other = told.json.get("refused") == "replaced"  # which may be asked at once
                assert told.status == 503 and (is_of_other or "Retry-After" in told.headers), told
            await asyncio.sleep(0.05)

    async def until_granted_since(self, since: float) -> None:
        while not all(self.granted.get(job, 0.0) > since for job in JOBS):
            await asyncio.sleep(0.02)

    def is_answered_since(self, before: Counter[tuple[str, int]]) -> bool:
        """Whether each caller has had two answers more, so that a whole call of it has been answered."""
        return all(self.answered[job, task] >= before[job, task] + 2 for job in JOBS for task in TASKS)


@asynccontextmanager
async def running_two(url: str, folder: Path) -> AsyncIterator[tuple[list[Plane], list[Caller]]]:
    limits = Limits(grants=1e6, burst=1e6)
    async with (
        opened(url, DEADLINE) as one, running(one, folder / "one", 0, True, 2.0, limits) as (first, caller),
        opened(url, DEADLINE) as two, running(two, folder / "two", 1, True, 2.0, limits) as (second, other),
    ):
        yield [first, second], [caller, other]


@pytest.mark.parametrize("kind", SERVERS)
async def test_a_store_that_stands_still_under_load(kind: str, tmp_path: Path) -> None:
    with engine_of(kind) as engine:
        async with (
            running_two(engine.url, tmp_path) as (planes, callers),
            opened(f"sqlite:{tmp_path}/jobs") as file, running(file, tmp_path / "file", 2) as (_, aside),
        ):
            policy = {**POLICY, "guard": 10_000, "bridge": 10_000, "numbers": 1 << 30}
            for at, job in enumerate(JOBS):
                caller = Caller(callers[at % 2].url, callers[at % 2].session, job)
                assert (await caller.create(policy)).status == 201
                await caller.change(await caller.take(), 1, [[0, [1]]])
                for number in TASKS:
                    await caller.begin(number)
            await begun(aside)
            load = Load(callers)
            work = [load.renew(at, job, task) for at, job in enumerate(JOBS) for task in TASKS]
            tasks = [asyncio.create_task(one) for one in work]
            await asyncio.wait_for(load.until_granted_since(time.monotonic()), ENDS)
            holders = [[plane.jobs[job].job.is_held for plane in planes] for job in JOBS]
            assert holders == [[True, False], [False, True], [True, False]]
            await stands_still(engine, load, aside)
            thawed = time.monotonic()
            engine.go_on()
            await asyncio.wait_for(load.until_granted_since(thawed), GUARD)
            await asyncio.sleep(2.5)  # longer than a standby
            assert [[plane.jobs[job].job.is_held for plane in planes] for job in JOBS] == holders
            for task in tasks:
                task.cancel()
            ended = await asyncio.gather(*tasks, return_exceptions=True)
            assert {type(it) for it in ended} == {asyncio.CancelledError}, ended
            async with asyncio.timeout(ENDS):
                while not all(plane.idle() for plane in planes):
                    await asyncio.sleep(0.02)


async def stands_still(engine: engines.Engine, load: Load, aside: Caller) -> None:
    """Stops the server for a while, in which all else is served, and each call is answered. What waited for the store
    would take as long as the deadline of the store, each time."""
    engine.stop()
    before, ends = load.answered.copy(), time.monotonic() + STOPPED
    took = []
    async with asyncio.timeout(ENDS):
        while time.monotonic() < ends or not load.is_answered_since(before):
            begins = time.monotonic()
            assert (await aside.grant(1)).status == 200
            for caller in load.planes:
                assert (await caller.ask("GET", "/healthz")).status == 200
                assert (await Caller(caller.url, caller.session, "shop").get("/phase")).status == 200
            took.append(time.monotonic() - begins)
            await asyncio.sleep(0.1)
    assert min(took) < DEADLINE


@pytest.mark.parametrize("kind", SERVERS)
async def test_a_store_that_goes_on_lets_no_other_plane_take_over(kind: str, tmp_path: Path) -> None:
    """Nobody could write for longer than the standby, which says nothing of the plane that holds the job."""
    with engine_of(kind) as engine:
        async with running_two(engine.url, tmp_path) as (planes, (holder, other)):
            await begun(holder)
            assert (await holder.grant(1)).status == 200
            async with asyncio.timeout(ENDS):
                while "shop" not in planes[1].jobs:
                    await asyncio.sleep(0.05)
            engine.stop()
            await asyncio.sleep(6.0)
            engine.go_on()
            async with asyncio.timeout(ENDS):
                while (told := await other.grant(1)).status != 200:
                    assert (told.status, told.json["refused"]) in ((503, "store"), (503, "replaced")), told
                    await asyncio.sleep(0.01)
                assert told.headers[HOLDER] == holder.url  # which did the call
                while (told := await holder.grant(1)).status != 200:
                    assert (told.status, told.json["refused"]) == (503, "store"), told
                    await asyncio.sleep(0.01)
