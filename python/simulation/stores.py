"""The store of a run, behind the package's interface: rows in memory that all planes share, or the
package's SQLite over a file in memory.

A call of a process has its effect at one moment of virtual time. Faults make it hang before that,
fail before or after its effect, or fail first and have its effect seconds later; a row may be locked
by somebody else, and the whole may go back to a backup.
"""

import asyncio
import sqlite3
from collections.abc import Callable
from copy import deepcopy
from dataclasses import dataclass
from random import Random
from typing import Any, TypeVar

from hourstable.store import STEP, Conflict, Holding, NoSuchJob, Store, Stored, StoreFailed
from hourstable.system import System

from .loop import Held
from .world import MILLISECOND, Process, World

T = TypeVar("T")


@dataclass
class Row:
    """A row of the table of jobs."""

    version: int
    policy: str
    kept: bytes
    line: str | None
    lives: str
    holder: str = ""
    rights: str = ""


class Rows:
    """Rows in memory. Each method has its effect at once."""

    def __init__(self) -> None:
        self.rows: dict[str, Row] = {}
        self.planes: dict[int, str] = {}
        self.epochs = 0

    def jobs(self) -> list[str]:
        return sorted(self.rows)

    def create(self, job: str, policy: str, kept: bytes, rights: str) -> int:
        if job in self.rows:
            raise Conflict(f"{job} has a row")
        self.rows[job] = Row(1, policy, kept, None, "{}", rights=rights)
        return 1

    def load(self, job: str) -> Stored | None:
        row = self.rows.get(job)
        return Stored(row.version, row.policy, row.kept, row.line, row.holder, row.rights) if row else None

    def version(self, job: str) -> int | None:
        row = self.rows.get(job)
        return row.version if row else None

    def swap(self, job: str, version: int, kept: bytes, line: str | None, holding: Holding | None) -> int:
        row = self.rows.get(job)
        if row is None or row.version != version or (holding is not None and row.holder != holding.before):
            raise Conflict(f"{job} is not of version {version}")
        row.version, row.kept, row.line = version + 1, kept, line
        if holding is not None:
            row.holder, row.rights = holding.holder, holding.rights
        return row.version

    def recover(self, job: str, version: int, kept: bytes, lives: str, holding: Holding) -> None:
        row = self.rows.get(job)
        if row is None or row.version != version or row.holder != holding.before:
            raise Conflict(f"{job} is not of version {version}")
        row.version, row.kept, row.lives = version + STEP, kept, lives
        row.holder, row.rights = holding.holder, holding.rights

    def draw_epoch(self, steps: int) -> int:
        self.epochs += steps
        return self.epochs

    def read_lives(self, job: str) -> tuple[str, Any]:
        if job not in self.rows:
            raise NoSuchJob(job)
        return self.rows[job].lives, self.rows[job].lives

    def swap_lives(self, job: str, compared: Any, lives: str) -> bool:
        row = self.rows[job]
        is_same: bool = row.lives == compared
        row.lives = lives if is_same else row.lives
        return is_same

    def beats(self) -> dict[int, str]:
        return dict(self.planes)

    def beat(self, process: int, text: str) -> dict[int, str]:
        self.planes[process] = text
        return self.beats()


class Engine:
    """The engine of the store, and its faults."""

    def __init__(self, world: World, is_sqlite: bool) -> None:
        self.world, self.is_sqlite = world, is_sqlite
        self.rng = Random(f"{world.seed} store")
        self.rows = Rows()  # unless it is SQLite, which has a file
        self.fails = 0.0  # the part of calls that fail
        self.slow = 1.0
        self.frozen: dict[str, int] = {}  # hosts, and until when their calls hang
        self.locked: dict[str, int] = {}  # jobs, and until when their rows are locked
        self.backup: dict[str, Row] | None = None
        self.backup_at = 0  # when it was made
        self.backup_of: object = None  # who made it, if somebody is to go back to that one
        self.is_back = False  # whether the store went back, and its jobs are not yet recovered
        self.writes = 0
        world.call_delay = self.delay
        world.call_through = self.perform

    def delay(self, process: Process) -> tuple[int, int]:
        """Returns the ns before the effect of a call, and from it to the answer."""
        rng = self.rng
        before = int((rng.expovariate(1) * MILLISECOND + 200_000) * self.slow)
        return before, int(rng.expovariate(1) * MILLISECOND * self.slow)

    def perform(self, call: Callable[[], T], job: str | None = None, writes: bool = True) -> T:
        """Does a call, or lets it fail. Raises Held while the engine stands still for the host, or the row of the
        job is locked, or that of any job, if none is given: SQLite locks the whole file."""
        until = max(self.locked.values(), default=0) if job is None else self.locked.get(job, 0)
        if self.world.current is not None:
            until = max(until, self.frozen.get(self.world.current.host.address, 0))
        if until > self.world.now:
            raise Held(until)
        self.writes += writes
        if not self.fails or self.rng.random() >= self.fails:
            return call()
        kind = self.rng.choice(("before", "after", "later") if writes else ("before",))
        if kind == "after":
            call()
        elif kind == "later":
            self.world.after(self.rng.uniform(0, 3), lambda: _quietly(call))
        raise StoreFailed(f"the engine failed {kind} the effect")

    def keep_backup(self) -> None:
        if not self.is_sqlite:
            self.backup, self.backup_at, self.backup_of = deepcopy(self.rows.rows), self.world.now, None

    def go_back(self) -> None:
        """Goes back to the backup."""
        self.rows.rows, self.is_back = deepcopy(self.backup or {}), True


def _quietly(call: Callable[[], Any]) -> None:
    try:
        call()
    except Exception as why:
        if not isinstance(why, (Conflict, NoSuchJob, sqlite3.Error)):
            raise


class Connections:
    """Stands for an executor that gives each call a connection of its own: a call that is given up
    leaves its connection, and keeps up no other."""

    most = 1 << 30


class SharedStore(Store):
    """The rows as a process sees them, over a network. A call that is given up may be done later."""

    def __init__(self, engine: Engine, deadline: float, system: System) -> None:
        super().__init__(deadline, system)
        self._engine, self._rows, self._connections = engine, engine.rows, Connections()

    async def _do(self, call: Callable[[], T], job: str, writes: bool) -> T:
        perform = self._engine.perform
        return await self.in_time(self._done(lambda: perform(call, job, writes)))

    async def _done(self, call: Callable[[], T]) -> T:
        executor: Any = self._connections
        made: T = await asyncio.get_running_loop().run_in_executor(executor, call)
        return made

    async def jobs(self) -> list[str]:
        return await self._do(self._rows.jobs, "", False)

    async def create(self, job: str, policy: str, kept: bytes, rights: str = "") -> int:
        return await self._do(lambda: self._rows.create(job, policy, kept, rights), job, True)

    async def load(self, job: str) -> Stored | None:
        return await self._do(lambda: self._rows.load(job), job, False)

    async def version(self, job: str) -> int | None:
        return await self._do(lambda: self._rows.version(job), job, False)

    async def swap(
        self, job: str, version: int, kept: bytes, line: str | None, holding: Holding | None = None
    ) -> int:
        return await self._do(lambda: self._rows.swap(job, version, kept, line, holding), job, True)

    async def recover(self, job: str, version: int, kept: bytes, lives: str, holding: Holding) -> None:
        await self._do(lambda: self._rows.recover(job, version, kept, lives, holding), job, True)

    async def read_lives(self, job: str) -> tuple[str, Any]:
        return await self._do(lambda: self._rows.read_lives(job), job, False)

    async def swap_lives(self, job: str, compared: Any, lives: str) -> bool:
        return await self._do(lambda: self._rows.swap_lives(job, compared, lives), job, True)

    async def beats(self) -> dict[int, str]:
        return await self._do(self._rows.beats, "", False)

    async def beat(self, process: int, text: str) -> dict[int, str]:
        return await self._do(lambda: self._rows.beat(process, text), "", True)

    async def draw_epoch(self, steps: int = 1) -> int:
        return await self._do(lambda: self._rows.draw_epoch(steps), "", True)

    async def close(self) -> None:
        pass
