"""The store of jobs in a table of PostgreSQL, over a pool of connections."""

import asyncio
import re
from collections.abc import AsyncIterator
from contextlib import asynccontextmanager
from typing import Any

import psycopg
from psycopg import waiting
from psycopg.abc import RV, PQGen
from psycopg_pool import AsyncConnectionPool, PoolClosed, PoolTimeout

from hourstable.store import (
    DEADLINE, STEP, Conflict, Holding, Store, Stored, StoreFailed, StoreRefused, after_swap, lives_in, password_in,
    without,
)
from hourstable.store_rows import Rows as RowsOfJobs
from hourstable.store_rows import stored_in
from hourstable.system import SYSTEM, System

CONNECTIONS = 32  # of a store at most
ADDED = "assignments", "holder", "rights"  # columns that tables of older versions lack
Rows = tuple[list[Any], int]  # that were read, and the count of those that were written
REFUSALS = "28", "3D", "42501"  # how codes begin: who asks, the database, and what it may do
REFUSED = re.compile(r"(role|database) .* does not exist|pg_hba\.conf|not permitted")  # connections tell no codes
PASSES = re.compile(r"closed the connection|time|SYSCALL|reset|too many|slots|starting up|shutting down|recover")
VALUE = re.compile(r"connection is bad: (\"[^\"]*\"|invalid .*)", re.DOTALL)  # one of the URL, as a port


class Connection(psycopg.AsyncConnection[Any]):
    """A connection that is closed where a call on it is cancelled. Psycopg would ask the server to
    cancel the call and wait until it says so, which a server that is stopped never does."""

    async def wait(self, gen: PQGen[RV]) -> RV:
        try:
            return await waiting.wait_async(gen, self.pgconn.socket)
        except asyncio.CancelledError:
            await self.close()
            raise


class Pool:
    """Connections to a server. It is made for the calls of one store in one event loop."""

    def __init__(self, url: str, settings: dict[str, Any], deadline: float) -> None:
        self._deadline, self._why = deadline, "no connection is made"
        self._failed = asyncio.get_running_loop().create_future()  # when no connection is made
        self._leaving: set[asyncio.Task[None]] = set()
        self._pool = AsyncConnectionPool(
            url, connection_class=self._told(), kwargs=settings, min_size=0, max_size=CONNECTIONS,
            open=False, reconnect_timeout=0, reconnect_failed=self._fail, num_workers=2,
        )

    def _told(self) -> type[Connection]:
        """Returns a class of connections which tells this pool why one cannot be made."""
        pool = self

        class Told(Connection):
            @classmethod
            async def connect(cls, *given: Any, **named: Any) -> Any:
                try:
                    return await super().connect(*given, **named)
                except psycopg.Error as error:
                    pool._why = str(error)
                    raise

        return Told

    async def open(self) -> "Pool":
        await self._pool.open()
        return self

    @asynccontextmanager
    async def connection(self) -> AsyncIterator[psycopg.AsyncConnection[Any]]:
        """A connection. One that is closed in the block does not go back: then the pool is to be
        closed. Raises psycopg.OperationalError if none can be made."""
        connection = await self._take()
        try:
            yield connection
        finally:
            if not connection.closed:
                await self._pool.putconn(connection)

    async def _take(self) -> psycopg.AsyncConnection[Any]:
        """Takes a connection, or fails as soon as the server refuses one. The pool would give one
        to a call that was cancelled, and lose it; so what takes it is not cancelled."""
        taking = asyncio.create_task(self._pool.getconn(self._deadline))
        taken = None
        try:
            await asyncio.wait({taking, self._failed}, return_when=asyncio.FIRST_COMPLETED)
            if not taking.done():
                raise psycopg.OperationalError(self._why)
            taken = taking.result()
            return taken
        finally:
            if taken is None:
                taking.add_done_callback(self._leave)

    def _leave(self, taking: "asyncio.Task[psycopg.AsyncConnection[Any]]") -> None:
        """Gives back a connection for which nobody waits any more."""
        if not taking.cancelled() and taking.exception() is None:
            leaving = asyncio.create_task(self._pool.putconn(taking.result()))
            self._leaving.add(leaving)
            leaving.add_done_callback(self._leaving.discard)

    def _fail(self, _: object) -> None:
        """Fails the calls that wait for a connection."""
        failed, self._failed = self._failed, asyncio.get_running_loop().create_future()
        failed.set_result(None)

    async def close(self) -> None:
        """Closes the connections that are not in use, and each of the others after its call."""
        await self._pool.close(self._deadline)


class PostgresqlStore(Store):
    """A store in the tables hourstable_jobs and hourstable_planes of a PostgreSQL database. A write is
    on the disk of the server, and of its synchronous standbys, before it returns.

    Once a connection is broken or late, all that are kept are dropped with it, as they are of the
    same server."""

    name = "PostgreSQL"

    def __init__(
        self, url: str, deadline: float = DEADLINE, system: System = SYSTEM
    ) -> None:
        super().__init__(deadline, system)
        self._url, self._password = url, password_in(url)
        self._rows = RowsOfJobs()
        self._settings: dict[str, Any] = {
            "autocommit": True, "connect_timeout": max(1, round(deadline)),
            "options": f"-c synchronous_commit=on -c statement_timeout={round(deadline * 1000)}",
        }
        self._pool: Pool | None = None
        self._is_closed = False
        self._closing: set[asyncio.Task[None]] = set()

    async def open(self) -> None:
        for last in (False, True):  # two planes that create it at once may both fail
            try:
                return await self.in_time(self._make_table())
            except StoreRefused:
                raise
            except StoreFailed:
                if last:
                    raise

    async def _make_table(self) -> None:
        try:
            async with await Connection.connect(self._url, **self._settings) as connection:
                await connection.execute(
                    "CREATE TABLE IF NOT EXISTS hourstable_jobs (job text PRIMARY KEY,"
                    " version bigint NOT NULL, policy text NOT NULL, kept text NOT NULL,"
                    " line text, lives text NOT NULL, assignments text, holder text, rights text)"
                )
                await connection.execute(
                    "CREATE TABLE IF NOT EXISTS hourstable_planes (process integer PRIMARY KEY, text text NOT NULL)"
                )
                await connection.execute(
                    "CREATE TABLE IF NOT EXISTS hourstable_counters (name text PRIMARY KEY, value bigint NOT NULL)"
                )
                found = await connection.execute(
                    "SELECT column_name FROM information_schema.columns WHERE table_name = 'hourstable_jobs'"
                )
                there = {name for name, in await found.fetchall()}
                for name in [it for it in ADDED if it not in there]:  # this waits for all who use the table
                    await connection.execute(f"ALTER TABLE hourstable_jobs ADD COLUMN IF NOT EXISTS {name} text")
        except psycopg.Error as error:
            failed = self._failed(error)
            raise (StoreRefused(str(failed)) if is_refusal(error) else failed) from None

    def _failed(self, error: Exception) -> StoreFailed:
        """Returns an error of the server, or of libpq, which may tell what stands in the URL."""
        return StoreFailed(without(self._password, f"PostgreSQL: {error}"))

    async def _try(self, statement: str, values: tuple[object, ...]) -> Rows:
        while not self._is_closed:
            try:
                return await self._executed(statement, values)
            except PoolClosed:
                pass  # for another call, while this one had no connection yet
            except psycopg.IntegrityError as error:
                raise Conflict(str(error)) from error
            except psycopg.Error as error:
                raise self._failed(error) from None
        raise StoreFailed("PostgreSQL: the store is closed")

    async def _executed(self, statement: str, values: tuple[object, ...]) -> Rows:
        pool = self._pool
        if pool is None:
            pool = self._pool = Pool(self._url, self._settings, self.deadline)
            await pool.open()
        try:
            async with pool.connection() as connection:
                try:
                    cursor = await connection.execute(statement, values)
                    return await cursor.fetchall() if cursor.description else [], cursor.rowcount
                finally:
                    if connection.closed:
                        self._drop(pool)
        except (asyncio.CancelledError, PoolTimeout):
            self._drop(pool)  # it is late, perhaps as no connection came
            raise

    def _drop(self, pool: Pool) -> None:
        """Drops all connections: the next call makes a new one."""
        if self._pool is pool:
            self._pool = None
            closing = asyncio.create_task(pool.close())
            self._closing.add(closing)
            closing.add_done_callback(self._closing.discard)

    async def _run(self, statement: str, *values: object) -> Rows:
        return await self.in_time(self._try(statement, values))

    async def _read(self, statement: str, *values: object) -> list[Any]:
        return (await self.in_time(self._tried_twice(statement, values)))[0]

    async def _tried_twice(self, statement: str, values: tuple[object, ...]) -> Rows:
        """Reads; again by a new connection if the one that was kept is broken."""
        try:
            return await self._try(statement, values)
        except StoreFailed:
            return await self._try(statement, values)

    async def jobs(self) -> list[str]:
        rows = await self._read('SELECT job FROM hourstable_jobs ORDER BY job COLLATE "C"')
        return [job for job, in rows]

    async def create(self, job: str, policy: str, kept: bytes, rights: str = "") -> int:
        insert = (
            "INSERT INTO hourstable_jobs (job, version, policy, kept, lives, rights) VALUES (%s, 1, %s, %s, '{}', %s)"
        )
        await self._run(insert, job, policy, kept.decode(), rights)
        return 1

    async def load(self, job: str) -> Stored | None:
        select = (
            "SELECT version, policy, kept, line, assignments, holder, rights FROM hourstable_jobs WHERE job = %s"
        )
        return stored_in(self._rows, job, await self._read(select, job))

    async def version(self, job: str) -> int | None:
        rows = await self._read("SELECT version FROM hourstable_jobs WHERE job = %s", job)
        return int(rows[0][0]) if rows else None

    async def swap(
        self, job: str, version: int, kept: bytes, line: str | None, holding: Holding | None = None
    ) -> int:
        parts = self._rows.parts(job, kept)
        columns: dict[str, str | None] = {"kept": parts.rest, "line": line}
        if not self._rows.has(job, version, parts):  # a long text that is not set is not written again
            columns["assignments"] = parts.assignments
        where, compared = "", list[str]()
        if holding is not None:
            columns |= {"holder": holding.holder, "rights": holding.rights}
            where, compared = " AND COALESCE(holder, '') = %s", [holding.before]
        also = "".join(f", {name} = %s" for name in columns)
        _, count = await self._run(
            f"UPDATE hourstable_jobs SET version = version + 1{also} WHERE job = %s AND version = %s{where}",
            *columns.values(), job, version, *compared,
        )
        written = after_swap(job, version, count)
        self._rows.wrote(job, written, parts)
        return written

    async def recover(self, job: str, version: int, kept: bytes, lives: str, holding: Holding) -> None:
        parts = self._rows.parts(job, kept)
        _, count = await self._run(
            "UPDATE hourstable_jobs SET version = version + %s, kept = %s, assignments = %s, lives = %s, holder = %s,"
            " rights = %s WHERE job = %s AND version = %s AND COALESCE(holder, '') = %s",
            STEP, parts.rest, parts.assignments, lives, holding.holder, holding.rights, job, version, holding.before,
        )
        after_swap(job, version, count)

    async def read_lives(self, job: str) -> tuple[str, Any]:
        select = "SELECT lives FROM hourstable_jobs WHERE job = %s"
        return lives_in(job, await self._read(select, job))

    async def swap_lives(self, job: str, compared: Any, lives: str) -> bool:
        update = "UPDATE hourstable_jobs SET lives = %s WHERE job = %s AND lives = %s"
        return (await self._run(update, lives, job, compared))[1] == 1

    async def beats(self) -> dict[int, str]:
        return dict(await self._read("SELECT process, text FROM hourstable_planes"))

    async def beat(self, process: int, text: str) -> dict[int, str]:
        insert = "INSERT INTO hourstable_planes VALUES (%s, %s)"
        await self._run(f"{insert} ON CONFLICT (process) DO UPDATE SET text = excluded.text", process, text)
        return await self.beats()

    async def draw_epoch(self, steps: int = 1) -> int:
        rows, _ = await self._run(
            "INSERT INTO hourstable_counters VALUES ('epoch', %s)"
            " ON CONFLICT (name) DO UPDATE SET value = hourstable_counters.value + excluded.value RETURNING value",
            steps,
        )
        return int(rows[0][0])

    async def close(self) -> None:
        self._is_closed = True
        if self._pool is not None:
            self._drop(self._pool)
        if self._closing:
            await asyncio.wait(self._closing)


def is_refusal(error: psycopg.Error) -> bool:
    """Whether a server that is well would say the same: the URL is none, or it knows no such user, password or
    database. What is said in other words than these counts as a server that may be well later."""
    if error.sqlstate is not None:
        return error.sqlstate.startswith(REFUSALS)
    text, link = str(error), error.pgconn
    if isinstance(error, psycopg.ProgrammingError) or REFUSED.search(text) or VALUE.fullmatch(text):
        return True
    return link is not None and (link.needs_password or link.used_password) and not PASSES.search(text)
