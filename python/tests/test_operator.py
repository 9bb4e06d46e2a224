"""What an operator asks a control plane: whether it is ready, what a line of its log is about, and who did what."""

import asyncio
import json
import logging
import time
from collections.abc import AsyncIterator, Callable
from contextlib import asynccontextmanager
from pathlib import Path
from typing import Any

import aiohttp
import pytest

import needed

needed.library()

from hourstable import context, readiness  # noqa: E402
from hourstable.assigner import AssignerOfJobs  # noqa: E402
from hourstable.clock import local_clock  # noqa: E402
from hourstable.desk import HttpDesk, LocalDesk  # noqa: E402
from hourstable.plans import Hysteresis  # noqa: E402
from hourstable.record import Record  # noqa: E402
from hourstable.service import ControlPlane, Options  # noqa: E402
from hourstable.store import Store, StoreFailed, open_store  # noqa: E402
from hourstable.system import SYSTEM, System  # noqa: E402
from hourstable.task import Task as ServiceTask  # noqa: E402
from hourstable.tickets import Tickets  # noqa: E402
from serving import HALF, POLICY, Caller, Task  # noqa: E402

SECRET = "a-secret-of-many-characters"


@asynccontextmanager
async def plane_of(folder: Path, **given: Any) -> AsyncIterator[tuple[ControlPlane, Caller]]:
    opens = given.pop("opens", None)
    options = Options(f"sqlite:{folder}/jobs", folder / "logs", rules=Hysteresis(settle=0.1, rest=1.0), **given)
    headers = {"Authorization": f"Bearer {SECRET}"}
    async with ControlPlane(options, opens=opens) as running, aiohttp.ClientSession(headers=headers) as session:
        yield running, Caller(f"http://127.0.0.1:{running.port}", session)


async def until(holds: Callable[[], Any], seconds: float = 30.0) -> None:
    end = time.monotonic() + seconds
    while not await holds():
        assert time.monotonic() < end, "it does not come true"
        await asyncio.sleep(0.05)


# Readiness -------------------------------------------------------------------------------------


async def test_a_plane_that_is_ready(tmp_path: Path) -> None:
    async with plane_of(tmp_path) as (_, caller):
        answer = await caller.ask("GET", "/readyz")
        parts = {"ready": True, "store": "ok", "poller": "ok", "assigner": "ok", "disk": "ok"}
        assert (answer.status, answer.json) == (200, parts)
    async with plane_of(tmp_path, assigner=0) as (_, caller):
        answer = await caller.ask("GET", "/readyz")
        assert (answer.status, answer.json["assigner"]) == (200, "none")


async def test_a_store_that_fails_or_stands_still(tmp_path: Path, monkeypatch: pytest.MonkeyPatch) -> None:
    monkeypatch.setattr(readiness, "KEPT_FOR", 0.0)
    monkeypatch.setattr(readiness, "PATIENCE", 0.2)
    stores: list[Store] = []

    async def opens(url: str, deadline: float, system: System) -> Store:
        stores.append(await open_store(url, deadline, system))
        return stores[0]

    async with plane_of(tmp_path, secrets=[SECRET], opens=opens) as (running, caller):
        assert (await caller.ask("GET", "/readyz")).status == 200
        real = stores[0].jobs

        async def fails() -> list[str]:
            raise StoreFailed("PostgreSQL at 10.1.2.3: no such database")

        async def stands_still() -> list[str]:
            await asyncio.sleep(60)
            return []

        for jobs, why in ((fails, "PostgreSQL at 10.1.2.3: no such database"), (stands_still, "no answer in 0.2 s")):
            monkeypatch.setattr(stores[0], "jobs", jobs)
            answer = await caller.ask("GET", "/readyz")
            assert (answer.status, answer.json["ready"], answer.json["store"]) == (503, False, why)
            assert (await caller.ask("GET", "/healthz")).status == 200
            async with aiohttp.ClientSession() as stranger:  # is told no names of hosts
                told = (await Caller(caller.url, stranger).ask("GET", "/readyz")).json
                assert (told["ready"], told["store"], told["disk"]) == (False, "fails", "ok")
        monkeypatch.setattr(stores[0], "jobs", real)
        assert (await caller.ask("GET", "/readyz")).status == 200
        assert running.plane is not None
        running.plane.waits.is_closing = True
        assert (await caller.ask("GET", "/readyz")).status == 503


async def test_many_who_ask_look_at_the_store_once(tmp_path: Path, monkeypatch: pytest.MonkeyPatch) -> None:
    async with plane_of(tmp_path) as (running, caller):
        assert running.plane is not None
        asked, real = 0, running.plane.store.jobs

        async def counted() -> list[str]:
            nonlocal asked
            asked += 1
            return await real()

        running.plane.readiness._looked = (-1e9, [])
        monkeypatch.setattr(running.plane.store, "jobs", counted)
        found = await asyncio.gather(*(running.plane.readiness.checks() for _ in range(50)))
        assert asked == 1 and all(found)


async def test_a_disk_with_little_room(tmp_path: Path, monkeypatch: pytest.MonkeyPatch) -> None:
    async with plane_of(tmp_path) as (_, caller):
        monkeypatch.setattr(readiness, "KEPT_FOR", 0.0)
        monkeypatch.setattr(readiness, "LEAST_FREE", 1 << 62)
        answer = await caller.ask("GET", "/readyz")
        assert answer.status == 503 and answer.json["disk"].endswith(f"MB are free in {tmp_path / 'logs'}")
        monkeypatch.undo()
        monkeypatch.setattr(readiness, "KEPT_FOR", 0.0)
        (tmp_path / "logs").rename(tmp_path / "gone")
        answer = await caller.ask("GET", "/readyz")
        assert answer.status == 503 and "No such file" in answer.json["disk"]


async def test_loops_that_stand_still(tmp_path: Path, monkeypatch: pytest.MonkeyPatch) -> None:
    monkeypatch.setattr(readiness, "KEPT_FOR", 0.0)
    async with plane_of(tmp_path) as (running, caller):
        assert running.plane is not None
        await caller.create()
        assigner = running.plane.readiness.assigner
        assert isinstance(assigner, AssignerOfJobs)

        async def steps() -> bool:
            assert isinstance(assigner, AssignerOfJobs)
            return "shop" in assigner._due

        await until(steps)
        assert (await caller.ask("GET", "/readyz")).status == 200
        assigner._due["shop"] -= 60_000
        running.plane.readiness._beaten -= 60
        monkeypatch.setattr(running.plane.readiness, "beat", lambda: None)
        answer = await caller.ask("GET", "/readyz")
        assert answer.status == 503
        assert answer.json["poller"].startswith("it stands still since 6")
        assert answer.json["assigner"] == "it stands still: shop"


# What lines are about --------------------------------------------------------------------------


class Lines(logging.Handler):
    """Keeps lines as the command writes them."""

    def __init__(self) -> None:
        super().__init__(logging.DEBUG)
        self.lines: list[str] = []
        self.addFilter(context.Context())
        self.setFormatter(logging.Formatter("%(name)s: %(message)s%(context)s"))

    def emit(self, record: logging.LogRecord) -> None:
        self.lines.append(self.format(record))


@pytest.fixture
def lines() -> Any:
    handler, logger = Lines(), logging.getLogger("hourstable")
    logger.addHandler(handler)
    before = logger.level
    logger.setLevel(logging.DEBUG)
    yield handler.lines
    logger.removeHandler(handler)
    logger.setLevel(before)


def test_what_a_line_is_about(lines: list[str]) -> None:
    log = logging.getLogger("hourstable.test")
    log.info("one")
    with context.about(job="shop", caller="10.0.0.1"):
        with context.about(task=3):
            context.note(request="r-1")
            log.info("two")
        log.info("three")
    context.note(job="elsewhere")
    log.info("four")
    assert lines == [
        "hourstable.test: one", "hourstable.test: two job=shop task=3 caller=10.0.0.1 request=r-1",
        "hourstable.test: three job=shop caller=10.0.0.1", "hourstable.test: four",
    ]


async def test_lines_and_answers_name_the_request(
    tmp_path: Path, lines: list[str], monkeypatch: pytest.MonkeyPatch
) -> None:
    async with plane_of(tmp_path) as (running, caller):
        await caller.create()
        assert running.plane is not None

        async def fails(*_: object) -> None:
            raise StoreFailed("it is gone")

        monkeypatch.setattr(running.plane.jobs["shop"].job, "drain", fails)
        answer = await caller.ask("POST", "/jobs/shop/drain", {"task": 3}, {"Hourstable-Request": "mine-7"})
        assert (answer.status, answer.headers["Hourstable-Request"]) == (503, "mine-7")
        assert any("it is gone job=shop task=3 caller=127.0.0.1 request=mine-7" in line for line in lines)
        answer = await caller.ask("GET", "/jobs", headers={"X-Request-Id": "of-a-proxy"})
        assert answer.headers["Hourstable-Request"] == "of-a-proxy"
        made = set()
        for wrong in ("", "a b", "x" * 65, "\u00e9"):
            answer = await caller.ask("GET", "/healthz", headers={"Hourstable-Request": wrong})
            made.add(answer.headers["Hourstable-Request"])
        assert len(made) == 4 and all(len(name) < 20 for name in made)


async def test_lines_of_an_assigner_name_its_job(
    tmp_path: Path, lines: list[str], monkeypatch: pytest.MonkeyPatch
) -> None:
    async with plane_of(tmp_path, assigner=0) as (running, caller):
        assert running.plane is not None
        await caller.create()
        desk = LocalDesk(running.plane)

        async def fails(_: str) -> Any:
            raise ValueError("a fault that is put in")

        monkeypatch.setattr(desk, "status", fails)
        work = asyncio.create_task(AssignerOfJobs(4, desk, local_clock()).run())

        async def told() -> bool:
            return any("job=shop caller=assigner 4" in line for line in lines)

        await until(told)
        work.cancel()
        await asyncio.gather(work, return_exceptions=True)


async def test_lines_of_a_task_name_it(tmp_path: Path, lines: list[str]) -> None:
    def fails(_: object) -> None:
        raise ValueError("a callback that fails")

    async with plane_of(tmp_path) as (_, caller):
        given: dict[str, Any] = {"logs": tmp_path / "logs", "policy": POLICY, "on_gain": fails}
        async with ServiceTask(caller.url, "shop", 3, **given):

            async def told() -> bool:
                about = [line for line in lines if line.startswith("hourstable.task: ")]
                return any("job=shop task=3" in line for line in about)

            await until(told)


# The record ------------------------------------------------------------------------------------


async def test_who_did_what_is_recorded(tmp_path: Path) -> None:
    async with plane_of(tmp_path, assigner=0) as (_, caller):
        await caller.create()
        await caller.create()  # it is there already
        assert (await caller.post("tasks/3/life")).json["life"] == 1
        await caller.change(await caller.take(), 1, [[0, [1]], [HALF, [3]]])
        drain = await caller.ask("POST", "/jobs/shop/drain", {"task": 3}, {"Hourstable-Request": "by-hand"})
        assert drain.status == 204
        await caller.change(1, 2, [[0, [1]]])
        assert (await caller.post("evict", {"task": 1})).json == {"life": 0}
        state = (await caller.ask("DELETE", "/jobs/shop")).json["state"]
        assert state == "ending"  # what was saved ahead
        found = (await caller.ask("GET", "/record?job=shop")).json["record"]
        assert (await caller.ask("GET", "/record?job=other")).json == {"record": []}
    told = [{name: value for name, value in one.items() if name not in ("at", "request")} for one in found]
    mine = {"job": "shop", "caller": "127.0.0.1"}
    policy = {**POLICY}
    assert told == [
        {"do": "create", "policy": policy, **mine}, {"do": "begin", "task": 3, "life": 1, **mine},
        {"do": "drain", "task": 3, "life": 1, **mine},
        {"do": "evict", "task": 3, "why": "drained", "generation": 2, **mine},
        {"do": "evict", "task": 1, "life": 0, **mine}, {"do": "end", "state": state, **mine},
    ]
    assert found[2]["request"] == "by-hand"
    async with plane_of(tmp_path, assigner=0) as (_, caller):  # it outlasts the process
        assert (await caller.ask("GET", "/record")).json["record"] == found
    path = next(tmp_path.rglob("record-0.ndjson"))
    assert [json.loads(line) for line in path.read_text().splitlines()] == found
    assert path.stat().st_mode & 0o777 == 0o600


async def test_an_assigner_that_takes_keys_is_recorded(tmp_path: Path) -> None:
    async with plane_of(tmp_path, assigner=5) as (running, caller):
        await caller.create()
        tasks = [asyncio.create_task(Task(caller, number).run()) for number in (1, 2)]
        assert running.plane is not None
        record = running.plane.record

        async def owned() -> bool:
            assert running.plane is not None
            return running.plane.jobs["shop"].job.owners() == {1, 2}

        await until(owned)
        tasks[1].cancel()

        async def evicted() -> bool:
            return any(one["do"] == "evict" for one in record.newest("shop"))

        await until(evicted)
        entry = record.newest("shop")[-1]
        assert (entry["task"], entry["why"], entry["caller"]) == (2, "silent", "assigner 5")
        for task in tasks:
            task.cancel()
        await asyncio.gather(*tasks, return_exceptions=True)


def test_a_record_that_cannot_be_written_is_a_line_of_the_log(tmp_path: Path, lines: list[str]) -> None:
    record = Record(tmp_path / "none" / "record.jsonl", SYSTEM)
    record.add("drain", "shop", task=3)
    assert [entry["task"] for entry in record.newest()] == [3]
    assert any("was not written" in line for line in lines)
    torn = tmp_path / "torn.jsonl"
    torn.write_text('{"at":"x","do":"drain","job":"shop"}\n[1]\n{"at":')
    assert Record(torn, SYSTEM).newest() == [{"at": "x", "do": "drain", "job": "shop"}]


def test_a_desk_elsewhere_says_which_job_it_is_about() -> None:
    assert AssignerOfJobs(1, HttpDesk(["http://127.0.0.1:1"], Tickets(9, None)), local_clock()).late(1.0) == []
