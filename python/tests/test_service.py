"""A control plane in this process, and what tests may put in the place of its system, network and store."""

import asyncio
import errno
import mmap
import os
from collections.abc import Callable, Mapping
from pathlib import Path
from typing import Any

import aiohttp
import pytest

import needed

needed.library()

from hourstable import logs  # noqa: E402
from hourstable.assigner import AssignerOfJobs  # noqa: E402
from hourstable.client import Router  # noqa: E402
from hourstable.plans import Hysteresis  # noqa: E402
from hourstable.rights import Asked  # noqa: E402
from hourstable.service import ControlPlane, Options  # noqa: E402
from hourstable.store import Store, open_store  # noqa: E402
from hourstable.system import System  # noqa: E402
from hourstable.task import Denied, Task  # noqa: E402
from hourstable.tickets import Tickets, milliseconds_of  # noqa: E402
from hourstable.transport import Fetched, Http  # noqa: E402
from serving import POLICY, Caller  # noqa: E402

DAY_IN_2001 = 1_000_000_000_000_000_000  # 2001-09-09, 01:46:40, in nanoseconds since 1970


class Simulated(System):
    """A system whose real time a test sets, whose disk may be full, and that notes what is flushed."""

    def __init__(self) -> None:
        self.real, self.is_full, self.flushed = DAY_IN_2001, False, 0

    def real_nanoseconds(self) -> int:
        return self.real

    def write(self, file: int, data: bytes) -> int:
        if self.is_full:
            raise OSError(errno.ENOSPC, "no space left on device")
        return os.write(file, data)

    def flush(self, memory: mmap.mmap) -> None:
        self.flushed += 1


class Counted:
    """A transport that counts the requests of its callers, and goes over the session of a test."""

    def __init__(self, session: aiohttp.ClientSession) -> None:
        self.session, self.urls = session, list[str]()
        self._http = Http(session=session)

    async def fetch(
        self, method: str, url: str, headers: Mapping[str, str], body: bytes | None
    ) -> Fetched:
        self.urls.append(f"{method} {url}")
        return await self._http.fetch(method, url, headers, body)

    async def close(self) -> None:
        raise AssertionError("who makes a transport closes it")


def options(folder: Path, **given: Any) -> Options:
    given.setdefault("rules", Hysteresis(settle=0.1, rest=1.0))
    return Options(f"sqlite:{folder}/jobs", folder / "logs", **given)


async def until(holds: Callable[[], object], seconds: float = 20.0) -> None:
    loop = asyncio.get_running_loop()
    end = loop.time() + seconds
    while not holds():
        assert loop.time() < end, "it does not come true"
        await asyncio.sleep(0.01)


async def test_a_plane_is_started_and_stopped_in_one_process(tmp_path: Path) -> None:
    """It is one plane each time: the port, the tickets and the store are free again after it."""
    running = ControlPlane(options(tmp_path))
    for turn in range(2):
        port = await running.start()
        plane = running.plane
        assert plane is not None
        async with aiohttp.ClientSession() as session:
            caller = Caller(f"http://127.0.0.1:{port}", session)
            assert (await caller.create()).status == (200 if turn else 201)
            with pytest.raises(BlockingIOError):
                await ControlPlane(options(tmp_path, port=0)).start()
            with pytest.raises(OSError):  # the port is in use
                await ControlPlane(options(tmp_path, port=port, process=1)).start()
            async with ControlPlane(options(tmp_path, process=1)):  # nothing of it was left
                pass
        await running.stop()
        assert running.plane is None


async def test_the_store_of_a_plane_is_opened_by_the_caller(tmp_path: Path) -> None:
    opened = []

    async def opens(url: str, deadline: float, system: System) -> Store:
        opened.append((url, deadline))
        return await open_store(f"sqlite:{tmp_path}/elsewhere", deadline, system)

    given = options(tmp_path, store_deadline=1.5)
    async with ControlPlane(given, opens=opens) as running:
        assert running.plane is not None and running.plane.store.several is False
    assert opened == [(f"sqlite:{tmp_path}/jobs", 1.5)]
    assert not (tmp_path / "jobs").exists() and (tmp_path / "elsewhere").exists()


async def test_whether_a_plane_is_idle(tmp_path: Path) -> None:
    async with ControlPlane(options(tmp_path, assigner=0)) as running:
        plane = running.plane
        assert plane is not None
        await plane.create("shop", POLICY)
        job = plane.jobs["shop"].job
        assert plane.idle() and job.idle()
        await job.raise_life(1)
        answer = await plane.begin_grant("shop", Asked(1, 1))
        assert not plane.idle() and not job.idle()
        assert (await answer).refusal is not None  # nothing is committed
        await until(plane.idle)


async def test_an_assigner_that_fails_begins_again(
    tmp_path: Path, monkeypatch: pytest.MonkeyPatch
) -> None:
    runs, run = [], AssignerOfJobs.run

    async def fails_first(self: AssignerOfJobs) -> None:
        runs.append(self)
        if len(runs) == 1:
            raise KeyError("what nobody expects")
        await run(self)

    monkeypatch.setattr(AssignerOfJobs, "run", fails_first)
    async with ControlPlane(options(tmp_path)) as running:
        plane = running.plane
        assert plane is not None
        await until(lambda: len(runs) == 2)
        assert plane.supervisor.errors == {"assigner": 1} and plane.supervisor.ended() == []
        assert b'hourstable_internal_errors_total{where="assigner"} 1.0' in plane.metrics.text([])
        async with Task(f"http://127.0.0.1:{running.port}", "shop", 1, policy=POLICY, logs=tmp_path / "t") as task:
            await until(lambda: task.renewed.times >= 1)


async def test_tasks_and_routers_over_a_transport(tmp_path: Path) -> None:
    """Both reach planes by what they are given, which they do not close; a task renews its lease."""
    async with ControlPlane(options(tmp_path)) as running, aiohttp.ClientSession() as session:
        assert running.plane is not None
        url, over = f"http://127.0.0.1:{running.port}", Counted(session)
        given: dict[str, Any] = {"logs": tmp_path / "logs", "transport": over}
        async with Task(url, "shop", 1, policy=POLICY, **given) as task:
            with pytest.raises(Denied):
                task.ask("hello")
            assert task.renewed == (0, None)
            await until(lambda: task.renewed.times >= 3)
            assert task.renewed.last is not None
            task.ask("hello").check()
            async with Router(url, "shop", clerk=1, **given) as router:
                await until(lambda: router.generation)
                assert router.owners("hello").tasks == [1]
        assert f"PUT {url}/jobs/shop" in over.urls
        assert f"POST {url}/jobs/shop/tasks/1/life" in over.urls
        assert f"GET {url}/jobs/shop/assignment?after=0" in over.urls
        assert not session.closed


def test_the_system_of_tickets(tmp_path: Path) -> None:
    system = Simulated()
    tickets = Tickets(1, tmp_path / "ticket", system=system)
    assert milliseconds_of(tickets.draw()) == 1_000_000_000_000
    assert system.flushed == 1
    tickets.close()


def test_the_system_of_logs(tmp_path: Path) -> None:
    system = Simulated()
    log = logs.Log(tmp_path, "task-1", logs.job_line(POLICY), system=system)
    log.append('{"ticket":1}')
    system.is_full = True
    with pytest.raises(OSError, match="no space left"):
        log.append('{"ticket":2}')
    system.is_full = False
    system.real += 86_400_000_000_000
    log.append('{"ticket":3}')
    log.close()
    names = ["task-1.2001-09-09.jsonl", "task-1.2001-09-10.jsonl"]
    assert [path.name for path in logs.files_of(tmp_path)] == names
    assert [list(logs.calls_of(path)) for path in logs.files_of(tmp_path)] == [[{"ticket": 1}], [{"ticket": 3}]]
