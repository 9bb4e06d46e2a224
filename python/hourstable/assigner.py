"""The assigner: plans, proposes and commits assignments while it holds the job lease.

What it does next is what the library says (`Assigner.next`). Several assigners of a job may run;
the job lease chooses which of them acts.
"""

import asyncio
import logging
from collections.abc import Callable
from functools import partial
from typing import Any

from hourstable import library
from hourstable.context import about
from hourstable.desk import Desk, Told, Unreachable
from hourstable.library import JobTerm, Phase, Refused
from hourstable.plans import Hysteresis, Planner
from hourstable.supervisor import Supervisor
from hourstable.system import SYSTEM, System

ALL = "all jobs"
BEFORE = 0.5  # seconds before the end of the grace, from which on changes are proposed: none is committed before it
THINK = 2.0  # seconds after which loads are looked at again, if nothing else changed
log = logging.getLogger("hourstable.assigner")


class JobAssigner:
    """An assigner of one job."""

    def __init__(
        self, job: str, number: int, desk: Desk, local: Callable[[], int], rules: Hysteresis
    ) -> None:
        self.job, self.number = job, number
        self._desk, self._local, self._rules = desk, local, rules
        self._planner = Planner(job, rules)
        self._sample = 0, local()  # a reading of the table, and the local reading then
        self._lease: library.Assigner | None = None
        self._acts_as = number  # of the lease: another one with a term that was handed over
        self._first_seen: int | None = None  # when a task was alive first
        self._asked_commit = 0
        self._thought_of: object = None  # what the last thought was about
        self._think_at = 0
        self._wanted: bytes | None = None

    async def step(self) -> float:
        """Does what is next, and returns after how many seconds to look again. Raises
        Unreachable."""
        status = await self._desk.status(self.job)
        if not status["holder"]:
            self.close()
            return 0.5
        if self._lease is None:
            self._act_as(self.number, status)
        assert self._lease is not None
        phase = Phase(status["committed"], status["pending"] or 0)
        is_early = status["pending"] or status.get("grace", 0) > BEFORE
        plan = None if is_early else await self._plan(status)
        action, term = self._lease.next(self._now(), phase, plan is not None)
        if action == "take":
            return await self._take(status)
        if action == "renew":
            return self._adopt(status, await self._renew(term))
        if action == "commit":
            return await self._commit(status, term)
        if action == "propose" and plan is not None:
            told = await self._timed(self._desk.propose(self.job, term, plan))
            return self._after(told, "propose", 0.05)
        return 0.25

    async def _plan(self, status: dict[str, Any]) -> bytes | None:
        """Returns the assignment that is wanted, None if the committed one is good enough. It thinks about it, in a
        thread, when something changed, and else every few seconds, for the loads."""
        tasks = sorted(set(status["alive"]) - set(status["draining"]))
        now = self._local()
        if not tasks:
            self._first_seen = None
            return None
        if self._first_seen is None:
            self._first_seen = now
        if not status["committed"] and now - self._first_seen < self._rules.settle * 1000:
            return None  # others may begin at the same time
        since = status["since_commit"]
        known = status["committed"], tasks, since >= self._rules.settle, since >= self._rules.rest
        if known != self._thought_of or now >= self._think_at:
            self._wanted = await self._think(status, tasks)
            self._thought_of, self._think_at = known, now + int(THINK * 1000)
        return self._wanted

    async def _think(self, status: dict[str, Any], tasks: list[int]) -> bytes | None:
        assignment = await self._desk.assignment(self.job) if status["committed"] else None
        if status["committed"] and assignment is None:
            return None
        reported = await self._desk.loads(self.job)
        policy, since = status["policy"], status["since_commit"]
        return await asyncio.to_thread(self._planner.wanted, assignment, policy, tasks, reported, since)

    def _act_as(self, number: int, status: dict[str, Any]) -> None:
        """Begins with the lease of an assigner of a number."""
        self.close()
        self._lease, self._acts_as = library.Assigner(number, status["policy"]["job"]), number

    async def _take(self, status: dict[str, Any]) -> float:
        """Takes the job lease; if its last term is of this assigner, or was handed over to its plane, renews that
        first, so that a process that begins anew does not wait for its end.

        Only the plane that holds the row of a job does its calls: so no two assigners of planes act with one term."""
        kept = status["term"]
        if kept and (kept["assigner"] == self.number or kept["number"] == status.get("own_term")):
            told = await self._renew(kept["number"])
            if told.refused is None:
                return self._adopt(status, told)
        told = await self._timed(self._desk.take(self.job, self.number))
        if told.refused == "job-held" and told.reading is not None:
            left = max(0, int(told.value["until"]) - told.reading) / 1000
            return min(max(left, 0.05), int(status["policy"]["job"]) / 2000)
        return self._adopt(status, told)

    async def _renew(self, term: int) -> Told:
        return await self._timed(self._desk.renew(self.job, term))

    async def _commit(self, status: dict[str, Any], term: int) -> float:
        """Commits, unless a row seems to hold it up: to ask costs a write where planes share a
        store. It is asked every half second all the same."""
        now, committed = self._local(), status["committed"]
        if any(row["generation"] <= committed for row in status["rows"]):
            if now - self._asked_commit < 500:
                return 0.05
        self._asked_commit = now
        told = await self._timed(self._desk.commit(self.job, term, status["pending"]))
        if told.refused == "grace" and told.reading is not None:
            return min(max(int(told.value["until"]) - told.reading, 50) / 1000, 1.0)
        return self._after(told, "commit", 0.05)

    async def _timed(self, asked: Any) -> Told:
        """Waits for an answer, and notes its reading of the table's clock."""
        told: Told = await asked
        if told.reading is not None:
            self._sample = told.reading, self._local()
        return told

    def _now(self) -> int:
        """Returns about what the table reads, by its newest answer. No promise rests on it: the
        table decides whether a term has ended. So it may fall, as after a time without a table,
        which the table's clock does not count."""
        reading, at = self._sample
        return reading + self._local() - at

    def _adopt(self, status: dict[str, Any], told: Told) -> float:
        if told.refused is None and self._lease is not None:
            term = JobTerm(**{name: told.value[name] for name in ("number", "assigner", "until")})
            if term.assigner != self._acts_as:
                self._act_as(term.assigner, status)
            try:
                self._lease.adopt(term)
            except Refused as refusal:
                log.info("%s: a term was not adopted: %s", self.job, refusal)
        return self._after(told, "the job lease", 0.05)

    def _after(self, told: Told, what: str, after: float) -> float:
        if told.refused is None:
            return after
        if told.refused == "not-holder" and self._lease is not None:
            self._lease.drop_term()
        log.debug("%s: %s: refused %s %s", self.job, what, told.refused, told.value)
        return max(after, 0.1)

    def close(self) -> None:
        """Forgets the term."""
        if self._lease is not None:
            self._lease.close()
            self._lease = None


class AssignerOfJobs:
    """The assigners of all jobs of a desk. `count(where)` is told of what nobody expected."""

    def __init__(
        self, number: int, desk: Desk, local: Callable[[], int], rules: Hysteresis | None = None,
        count: Callable[[str], object] | None = None, system: System = SYSTEM,
    ) -> None:
        self._number, self._desk, self._local = number, desk, local
        self._rules = rules or Hysteresis()
        self._supervisor = Supervisor(f"assigner {number}", log, count, system.random().random)
        self._running: dict[str, asyncio.Task[None]] = {}
        self._due: dict[str, int] = {}  # by the local clock, when the next step of a job is

    def late(self, seconds: float) -> list[str]:
        """Returns the jobs of which a step is due for so long."""
        before = self._local() - int(seconds * 1000)
        return sorted(job for job, due in self._due.items() if due < before)

    async def run(self) -> None:
        """Runs until it is cancelled."""
        try:
            await self._supervisor.watch("jobs of the assigner", self._follow_jobs)
        finally:
            await self._supervisor.close()

    async def _follow_jobs(self) -> None:
        while True:
            try:
                for job in await self._desk.jobs():
                    if job not in self._running:
                        self._running[job] = self._supervisor.watch("assigner", partial(self._follow, job))
                after = 0.5
            except Unreachable as error:
                log.warning("%s", error)
                after = max(0.5, error.least)
            self._due[ALL] = self._local() + int(after * 1000)
            await asyncio.sleep(after)

    async def _follow(self, job: str) -> None:
        with about(job=job, caller=f"assigner {self._number}"):
            await self._assign(job)

    async def _assign(self, job: str) -> None:
        assigner = JobAssigner(job, self._number, self._desk, self._local, self._rules)
        try:
            while True:
                try:
                    after = await assigner.step()
                except Unreachable as error:
                    log.info("%s: %s", job, error)
                    after = max(0.5, error.least)
                except Exception as error:
                    self._supervisor.caught("assigner", error, f"it begins anew for {job}")
                    assigner.close()
                    after = 1.0
                self._due[job] = self._local() + int(after * 1000)
                await asyncio.sleep(after)
        finally:
            assigner.close()
