"""In which order tickets are drawn, clocks are read, and calls are sent and made."""

import asyncio
import json
import logging
from collections import Counter
from collections.abc import Mapping
from pathlib import Path
from typing import Any

import pytest
from multidict import CIMultiDict

import needed

needed.library()

from hourstable.calls import READING, Answer, Control  # noqa: E402
from hourstable.kept_log import KeptLog  # noqa: E402
from hourstable.leases import AllEnded, Leases, held_in, policy_of  # noqa: E402
from hourstable.library import Policy, Table, TaskClock  # noqa: E402
from hourstable.logs import LogFiles, job_line  # noqa: E402
from hourstable.ranges import KEYS  # noqa: E402
from hourstable.store import Store  # noqa: E402
from hourstable.tickets import Tickets, follow  # noqa: E402
from hourstable.transport import Fetched  # noqa: E402
from planes import JOB, assignment  # noqa: E402
from serving import POLICY, Caller, lines_of, running  # noqa: E402
from test_control import Slow, begun  # noqa: E402
from waits import until  # noqa: E402

STOP = 1000  # ticks
LONG = {**POLICY, "guard": 60_000, "bridge": 60_000, "job": 60_000}


class Stopped(Tickets):
    """Tickets of a process that is stopped for a while whenever it has just drawn one. `clock` is its local clock,
    which is that of the table."""

    def __init__(self) -> None:
        super().__init__(65, None, now=follow)
        self.clock, self.drawn = 50_000, dict[int, int]()

    def draw(self) -> int:
        ticket = super().draw()
        self.drawn[ticket] = self.clock
        self.clock += STOP
        return ticket


def granted(life: int, at: int) -> tuple[bytes, Policy]:
    """Returns a grant to task 1, which owns all keys, by a table whose clock is at a reading."""
    policy = policy_of(LONG)
    with Table(JOB, policy) as table:
        term = table.take(1, at).number
        table.propose(term, assignment(1, [(0, 1)]), at)
        table.commit(term, at)
        return table.grant(1, life, at), policy


def started(folder: Path, tickets: Stopped, life: int = 1) -> Leases:
    """Returns a life of task 1 that is started, whose calls are logged."""
    files = LogFiles(folder / JOB, "task-1", job_line(LONG))
    log = KeptLog(files, "task 1", logging.getLogger(__name__), list[int]().append, lambda: 0.0)
    leases = Leases(JOB, 1, life, life - 1, TaskClock(1, 1_000_000, 2, 50_000), lambda: tickets.clock, tickets, log)
    leases.sample(tickets.clock, tickets.clock)
    leases.start()
    return leases


def test_a_sample_is_in_the_log(tmp_path: Path) -> None:
    """By it an audit finds clocks that are not timely."""
    tickets = Stopped()
    begun_at = tickets.clock + STOP  # after the ticket of `open`
    started(tmp_path, tickets)
    samples = [line for line in lines_of(tmp_path) if line["do"] == "sample"]
    told = [(it["task"], it["sent"], it["reading"], it["now"]) for it in samples]
    assert told == [(1, begun_at, begun_at, begun_at)]


def test_a_lease_has_its_keys_until_its_end(tmp_path: Path) -> None:
    tickets = Stopped()
    leases = started(tmp_path, tickets)
    grant, policy = granted(1, tickets.clock)
    assert leases.hear(grant, held_in(JOB, grant), policy)
    ends = int(json.loads(grant)["value"]["ends"])
    assert leases.live(ends - 1) == [(0, KEYS)]
    assert leases.live(ends) == []


def test_a_reading_of_a_task_is_not_older_than_its_ticket(tmp_path: Path) -> None:
    """A process may be stopped between the two, and other processes act meanwhile."""
    tickets = Stopped()
    leases = started(tmp_path, tickets)
    grant, policy = granted(1, tickets.clock)
    assert leases.hear(grant, held_in(JOB, grant), policy)
    entered = leases.enter(b"hello")
    assert leases.check(entered)
    leases.release("guard")
    calls = [line for line in lines_of(tmp_path) if "at" in line and line["do"] != "sample"]
    assert [line["do"] for line in calls] == ["start", "hear", "hold", "check", "release"]
    for line in calls:
        assert line["at"] >= tickets.drawn.get(line["ticket"], 0) + STOP, line


@pytest.mark.parametrize("late", [-10, 0, 10])
def test_a_lease_is_given_up_while_one_lasts(late: int, tmp_path: Path) -> None:
    """Once none does, another process of the task may have been let in, which logs its own calls."""
    tickets = Stopped()
    leases = started(tmp_path, tickets)
    grant, policy = granted(1, tickets.clock)
    assert leases.hear(grant, held_in(JOB, grant), policy)
    ends = leases.held["guard"].until
    tickets.clock = ends - 2 * STOP
    leases.sample(tickets.clock, tickets.clock)
    tickets.clock = ends - STOP + late  # it is stopped between its ticket and its reading
    if late < 0:
        assert json.loads(leases.give_up("guard"))["type"] == "note"
    else:
        with pytest.raises(AllEnded):
            leases.give_up("guard")
    assert ("guard" in leases.held) == (late >= 0)
    assert ("release" in [line["do"] for line in lines_of(tmp_path)]) == (late < 0)


class Ways:
    """A transport over which each request takes a hundred ticks, and the first plane cannot be reached."""

    def __init__(self) -> None:
        self.clock = 0

    async def fetch(self, method: str, url: str, headers: Mapping[str, str], body: bytes | None) -> Fetched:
        self.clock += 100
        if url.startswith("http://first/"):
            raise OSError("no route to host")
        return Fetched(200, CIMultiDict({READING: "7"}), b"{}")

    async def close(self) -> None:
        """Does nothing."""


@pytest.mark.parametrize("is_hedged", [False, True])
async def test_a_sample_has_the_time_at_which_its_own_try_was_sent(is_hedged: bool) -> None:
    ways = Ways()
    planes = ["http://first", "http://second"]
    async with Control(planes, JOB, Tickets(70, None), lambda: ways.clock, transport=ways) as control:
        if is_hedged:
            late = list[Answer]()
            answer = await control.first(lambda it: it, late.append, "POST", "/grant", {})
        else:
            answer = await control.call("GET")
    assert (answer.reading, answer.sent) == (7, 100)


async def test_a_call_that_waits_draws_its_ticket_when_it_is_made(file: Store, tmp_path: Path) -> None:
    slow, logs = Slow(file), tmp_path / "logs"
    async with running(slow, logs, shared=True) as (plane, caller):  # type: ignore[arg-type]
        await begun(caller)
        for task in (1, 2):
            await caller.begin(task)
        job, go = plane.jobs["shop"].job, slow.hold_up()
        first = asyncio.create_task(caller.grant(1))
        await until(lambda: not slow._next)  # it is being stored
        second = asyncio.create_task(caller.grant(2))
        await until(lambda: bool(job._waiting))
        between = plane.tickets.draw()
        go.set()
        assert [(await it).status for it in (first, second)] == [200, 200]
    tickets = {line["task"]: line["ticket"] for line in lines_of(logs) if line["do"] == "grant"}
    assert tickets[1] < between < tickets[2]


async def test_the_log_has_a_call_once_the_store_has_it(file: Store, tmp_path: Path) -> None:
    """Another plane may have written meanwhile: then the call was not made, and no line says so."""
    slow, logs = Slow(file), tmp_path / "logs"
    async with running(slow, logs, shared=True) as (_, caller):  # type: ignore[arg-type]
        await begun(caller)
        await caller.begin(1)
        before, go = len(lines_of(logs)), slow.hold_up()
        asked = asyncio.create_task(caller.grant(1))
        await until(lambda: not slow._next)
        assert len(lines_of(logs)) == before
        go.set()
        assert (await asked).status == 200
        assert [line["do"] for line in lines_of(logs)[before:]] == ["grant"]


async def test_a_call_waits_for_who_changes_the_row(file: Store, tmp_path: Path) -> None:
    """Both write in place of what they read, one after the other."""
    slow: Any = Slow(file)
    async with running(slow, tmp_path / "logs", shared=True) as (_, caller):
        await begun(caller)
        assert [(await caller.grant(task)).status for task in (1, 2)] == [200, 200]
        go = slow.hold_up()
        evicting = asyncio.create_task(caller.post("evict", {"task": 2}))
        await until(lambda: not slow._next)  # it is being stored
        asked = asyncio.create_task(caller.grant(1))
        await asyncio.sleep(0.2)
        assert not asked.done()
        go.set()
        assert [(await it).status for it in (evicting, asked)] == [200, 200]


class Stuck:
    """A store that does not answer about one job, and counts what it is asked of each."""

    def __init__(self, store: Store, job: str) -> None:
        self._store, self._job, self.asked = store, job, Counter[str]()
        self.ends = asyncio.Event()

    def __getattr__(self, name: str) -> Any:
        return getattr(self._store, name)

    async def version(self, job: str) -> int | None:
        self.asked[job] += 1
        if job == self._job:
            await self.ends.wait()
        return await self._store.version(job)


async def test_a_plane_looks_at_a_job_while_the_store_is_stuck_with_another(file: Store, tmp_path: Path) -> None:
    stuck: Any = Stuck(file, "cart")
    async with running(stuck, tmp_path / "logs", shared=True) as (plane, caller):
        for name in ("cart", "shop"):
            assert (await Caller(caller.url, caller.session, name).create()).status == 201
        await until(lambda: stuck.asked["cart"] > 0 and set(plane.jobs) == {"cart", "shop"})
        before = stuck.asked["shop"]
        await until(lambda: stuck.asked["shop"] >= before + 5)
        stuck.ends.set()
