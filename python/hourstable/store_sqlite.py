"""The store of jobs in a file of SQLite."""

import asyncio
import errno
import os
import sqlite3
from collections import deque
from collections.abc import Callable, Sequence
from concurrent.futures import ThreadPoolExecutor
from contextlib import suppress
from typing import Any, NamedTuple, TypeVar

from hourstable.store import (
    DEADLINE, STEP, Conflict, Holding, Store, Stored, StoreFailed, StoreRefused, after_swap, lives_in,
)
from hourstable.store_rows import Rows, stored_in
from hourstable.system import SYSTEM, System

RIGHTS = "REPLACE INTO rights VALUES (?, ?, ?)"
HOLDER = "COALESCE((SELECT holder FROM rights WHERE rights.job = jobs.job), '')"
PASSES = (sqlite3.SQLITE_BUSY, sqlite3.SQLITE_LOCKED, sqlite3.SQLITE_FULL, sqlite3.SQLITE_IOERR)
T = TypeVar("T")
Statement = tuple[str, tuple[object, ...]]


class Write(NamedTuple):
    """A write that waits for its turn, and who waits for the count of rows that it wrote."""

    statement: str
    values: tuple[object, ...]
    answer: "asyncio.Future[int]"
    then: Sequence[Statement] = ()  # statements for the same transaction, if a row was written


class Connected:
    """A connection to a file, in a thread of its own. What waits longer than `patience` seconds for
    another process fails."""

    def __init__(self, path: str, patience: float) -> None:
        self._path, self._patience = path, patience
        self._thread = ThreadPoolExecutor(1, thread_name_prefix="sqlite")
        self._connection: sqlite3.Connection | None = None

    async def run(self, call: Callable[[sqlite3.Connection], T]) -> T:
        """Returns what a call makes of the connection. One that is cancelled before its turn is not
        begun. Raises StoreFailed."""
        loop = asyncio.get_running_loop()
        try:
            return await loop.run_in_executor(self._thread, lambda: call(self._opened()))
        except (sqlite3.Error, OSError) as error:
            raise StoreFailed(f"SQLite: {error}") from error

    def _opened(self) -> sqlite3.Connection:
        if self._connection is None:
            _make_file(self._path)
            self._connection = sqlite3.connect(
                self._path, timeout=self._patience, isolation_level=None, check_same_thread=False
            )
            self._connection.execute("PRAGMA synchronous = FULL")
        return self._connection

    async def close(self) -> None:
        """Closes the connection, after the calls that were begun."""
        try:
            if self._connection is not None:
                await self.run(sqlite3.Connection.close)
        finally:
            self._thread.shutdown(wait=False)


class SqliteStore(Store):
    """A store in a file, for control planes on one host. A write is synced before it returns.

    Writes that come during another one are done in one transaction, with one sync. Reads have a
    connection of their own, and do not wait for writes."""

    name = "SQLite"
    several = False

    def __init__(
        self, path: str, deadline: float = DEADLINE, system: System = SYSTEM
    ) -> None:
        super().__init__(deadline, system)
        self.reads, self.writes = (Connected(path, deadline) for _ in range(2))
        self._rows = Rows()
        self._waiting: deque[Write] = deque()
        self._working: asyncio.Task[None] | None = None  # while writes wait

    async def open(self) -> None:
        try:
            await self.in_time(self.writes.run(_make_table))
        except StoreFailed as error:
            if _is_refusal(error.__cause__):
                raise StoreRefused(str(error)) from error.__cause__
            raise

    def waiting(self) -> int:
        """Returns how many writes wait for the end of another one."""
        return len(self._waiting)

    async def _read(self, statement: str, *values: object) -> list[Any]:
        return await self.in_time(
            self.reads.run(lambda connection: connection.execute(statement, values).fetchall())
        )

    async def _write(self, statement: str, *values: object, then: Sequence[Statement] = ()) -> int:
        """Returns how many rows were written. Raises Conflict at a row that is there already."""
        mine = Write(statement, values, asyncio.get_running_loop().create_future(), then)
        self._waiting.append(mine)
        if self._working is None:
            self._working = asyncio.create_task(self._write_waiting())
        return await self.in_time(_answer_of(mine))

    async def _write_waiting(self) -> None:
        """Does the writes that wait: all of them in one transaction, and then those that came
        during it. After an error none of them is known to be done."""
        try:
            while self._waiting:
                writes = [self._waiting.popleft() for _ in range(len(self._waiting))]
                try:
                    counts = await self.writes.run(lambda connection: _written(connection, writes))
                except Exception as error:
                    _tell(writes, [StoreFailed(str(error)) for _ in writes])
                else:
                    _tell(writes, counts)
        finally:
            self._working = None

    async def jobs(self) -> list[str]:
        return [job for job, in await self._read("SELECT job FROM jobs ORDER BY job")]

    async def create(self, job: str, policy: str, kept: bytes, rights: str = "") -> int:
        await self._write(
            "INSERT INTO jobs VALUES (?, 1, ?, ?, NULL, '{}')", job, policy, kept.decode(),
            then=[(RIGHTS, (job, "", rights))],
        )
        return 1

    async def load(self, job: str) -> Stored | None:
        rows = await self._read(
            "SELECT version, policy, kept, line, parts, holder, rights FROM jobs"
            " LEFT JOIN assignments USING (job) LEFT JOIN rights USING (job) WHERE job = ?", job,
        )
        return stored_in(self._rows, job, rows)

    async def version(self, job: str) -> int | None:
        rows = await self._read("SELECT version FROM jobs WHERE job = ?", job)
        return int(rows[0][0]) if rows else None

    async def swap(
        self, job: str, version: int, kept: bytes, line: str | None, holding: Holding | None = None
    ) -> int:
        parts = self._rows.parts(job, kept)
        also: list[Statement] = []
        if not self._rows.has(job, version, parts):
            also.append(("REPLACE INTO assignments VALUES (?, ?)", (job, parts.assignments)))
        where, compared = "", list[object]()
        if holding is not None:
            where, compared = f" AND {HOLDER} = ?", [holding.before]
            also.append((RIGHTS, (job, holding.holder, holding.rights)))
        count = await self._write(
            f"UPDATE jobs SET version = version + 1, kept = ?, line = ? WHERE job = ? AND version = ?{where}",
            parts.rest, line, job, version, *compared, then=also,
        )
        written = after_swap(job, version, count)
        self._rows.wrote(job, written, parts)
        return written

    async def recover(self, job: str, version: int, kept: bytes, lives: str, holding: Holding) -> None:
        parts = self._rows.parts(job, kept)
        also = [
            ("REPLACE INTO assignments VALUES (?, ?)", (job, parts.assignments)),
            (RIGHTS, (job, holding.holder, holding.rights)),
        ]
        count = await self._write(
            f"UPDATE jobs SET version = version + ?, kept = ?, lives = ?"
            f" WHERE job = ? AND version = ? AND {HOLDER} = ?",
            STEP, parts.rest, lives, job, version, holding.before, then=also,
        )
        after_swap(job, version, count)

    async def read_lives(self, job: str) -> tuple[str, Any]:
        return lives_in(job, await self._read("SELECT lives FROM jobs WHERE job = ?", job))

    async def swap_lives(self, job: str, compared: Any, lives: str) -> bool:
        update = "UPDATE jobs SET lives = ? WHERE job = ? AND lives = ?"
        return await self._write(update, lives, job, compared) == 1

    async def beats(self) -> dict[int, str]:
        return dict(await self._read("SELECT process, text FROM planes"))

    async def beat(self, process: int, text: str) -> dict[int, str]:
        await self._write("REPLACE INTO planes VALUES (?, ?)", process, text)
        return await self.beats()

    async def draw_epoch(self, steps: int = 1) -> int:
        return await self.in_time(self.writes.run(lambda connection: _drawn_epoch(connection, steps)))

    async def close(self) -> None:
        for connected in (self.reads, self.writes):
            with suppress(StoreFailed):
                await self.in_time(connected.close())


async def _answer_of(write: Write) -> int:
    return await write.answer


def _tell(writes: list[Write], outcomes: list[int | Exception]) -> None:
    """Tells those who still wait what came of their writes."""
    for write, outcome in zip(writes, outcomes):
        if write.answer.done():
            continue
        if isinstance(outcome, Exception):
            write.answer.set_exception(outcome)
        else:
            write.answer.set_result(outcome)


def _make_file(path: str) -> None:
    """Makes the file for the user of the process alone, and so those that SQLite makes beside it. A file that is
    there is not opened: its close would end all locks of this process on it (fcntl(2)), and with them those of
    SQLite, which keep other programs that open and close the file from removing its journal."""
    with suppress(FileExistsError):
        os.close(os.open(path, os.O_RDWR | os.O_CREAT | os.O_EXCL | os.O_CLOEXEC, 0o600))


def _is_refusal(error: BaseException | None) -> bool:
    """Whether it is not that the file is locked, the disk full, or the deadline over, which passes."""
    if isinstance(error, sqlite3.Error):
        return getattr(error, "sqlite_errorcode", sqlite3.SQLITE_ERROR) & 0xFF not in PASSES
    if isinstance(error, TimeoutError):  # an OSError too
        return False
    return isinstance(error, OSError) and error.errno not in (errno.ENOSPC, errno.EDQUOT, errno.EIO)


def _make_table(connection: sqlite3.Connection) -> None:
    connection.execute("PRAGMA journal_mode = WAL")
    connection.execute(
        "CREATE TABLE IF NOT EXISTS jobs (job TEXT PRIMARY KEY, version INTEGER NOT NULL,"
        " policy TEXT NOT NULL, kept TEXT NOT NULL, line TEXT, lives TEXT NOT NULL) STRICT"
    )
    connection.execute(
        "CREATE TABLE IF NOT EXISTS assignments (job TEXT PRIMARY KEY, parts TEXT NOT NULL) STRICT"
    )
    connection.execute(
        "CREATE TABLE IF NOT EXISTS counters (name TEXT PRIMARY KEY, value INTEGER NOT NULL) STRICT"
    )
    connection.execute(
        "CREATE TABLE IF NOT EXISTS rights (job TEXT PRIMARY KEY, holder TEXT NOT NULL, rights TEXT NOT NULL) STRICT"
    )
    connection.execute(
        "CREATE TABLE IF NOT EXISTS planes (process INTEGER PRIMARY KEY, text TEXT NOT NULL) STRICT"
    )


def _drawn_epoch(connection: sqlite3.Connection, steps: int) -> int:
    found = connection.execute(
        "INSERT INTO counters VALUES ('epoch', ?1)"
        " ON CONFLICT (name) DO UPDATE SET value = value + ?1 RETURNING value",
        (steps,),
    ).fetchall()
    return int(found[0][0])


def _written(connection: sqlite3.Connection, writes: list[Write]) -> list[int | Exception]:
    """Does writes in one transaction, and returns for each the count of rows or Conflict. One for
    which nobody waits any more, as the lock was held for so long, is left out."""
    connection.execute("BEGIN IMMEDIATE")
    try:
        counts = [_tried(connection, write) for write in writes]
        connection.execute("COMMIT")
        return counts
    except BaseException:
        with suppress(sqlite3.Error):
            connection.rollback()
        raise


def _tried(connection: sqlite3.Connection, write: Write) -> int | Exception:
    """Does a write of the transaction. One that meets a row that is there does nothing."""
    if write.answer.cancelled():
        return 0
    try:
        count = connection.execute(write.statement, write.values).rowcount
        for statement in write.then if count else ():
            connection.execute(*statement)
        return count
    except sqlite3.IntegrityError as error:
        return Conflict(str(error))
