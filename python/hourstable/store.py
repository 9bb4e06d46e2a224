"""Stores of the kept values of jobs: SQLite in a file, PostgreSQL, and etcd by its JSON gateway.

A store has one row a job: the policy, the kept values of the table, the line of the log of the call
that made them, who may act for the job, and the lives of the tasks. A row is changed only by
compare-and-set, so of two writers that read the same version one writes, and the other meets
Conflict.

A store is used in one event loop, by any number of calls at once. A call is durable when it
returns. Each returns or raises within the deadline of the store, whatever its engine does: a server
that is stopped answers nothing, and its kernel goes on to acknowledge what it is sent.
"""

import asyncio
import json
import urllib.parse
from abc import ABC, abstractmethod
from collections.abc import Callable, Coroutine
from contextlib import suppress
from typing import Any, NamedTuple, TypeVar

from hourstable.system import SYSTEM, System
from hourstable.waiting import within

T = TypeVar("T")
DEADLINE = 3.0  # seconds: three calls in a row may fail before a guard lease of 10 s has ended
LAST_LIFE = (1 << 32) - 1
TRIES = 100  # of a compare-and-set of lives, before it fails
STEP = 1 << 32  # by which a version rises when a job is recovered


class Conflict(Exception):
    """The row is of another version than the writer read: another one has written."""


class StoreFailed(Exception):
    """The engine failed, cannot be reached, or did not answer by the deadline. Whether a write was
    done is not known: it may even be done later."""


class Damaged(StoreFailed):
    """What the store has of a job cannot be read. Other jobs are not concerned."""


class StoreRefused(StoreFailed):
    """The store is not what the plane was told of, or takes it for somebody else: another try would fail as well."""


class NoSuchJob(Exception):
    """The store has no row of the job."""


class LivesSpent(Exception):
    """The task has no life left."""


class Stored(NamedTuple):
    """What a store has of a table. Versions rise with each write. `holder` is the incarnation of the plane that wrote
    last, and `rights` what it says of who may act (`hourstable.rights`); both are empty in rows of versions up to
    1.0, which leave them as they are."""

    version: int
    policy: str
    kept: bytes
    line: str | None
    holder: str = ""
    rights: str = ""


class Holding(NamedTuple):
    """What is written of who may act for a job: the incarnation of the plane that writes, and the text. `before` is
    the incarnation that the row is to have: a store that went back may reach a version again."""

    before: str
    holder: str
    rights: str


class Seen(NamedTuple):
    """A version of a row that was seen, and the mark of its rights, which changes when the job is recovered."""

    version: int
    mark: str


class Life(NamedTuple):
    """The greatest life of a task that was given out, and the life that was drained last."""

    life: int
    drained: int


class Store(ABC):
    """A store of jobs. Every method raises StoreFailed if the engine fails or does not answer within
    `deadline` seconds.

    The methods up to `close` are those that an engine has; it makes each of them by `in_time`, which
    cancels a call that is late. A cancelled call returns at once, and its connection is not used
    again: the answer to it may still come.
    """

    name = "the store"
    several = True  # whether control planes on several hosts may share it

    def __init__(self, deadline: float = DEADLINE, system: System = SYSTEM) -> None:
        self.deadline = deadline
        self._random = system.random()
        self._changing: dict[str, asyncio.Lock] = {}  # of the lives of jobs

    async def open(self) -> None:
        """Makes what the engine lacks. It is called before all others, and may be called again. Raises StoreRefused
        if the engine will not do that later either, as it knows no such user."""

    @abstractmethod
    async def jobs(self) -> list[str]:
        """Returns the names of all jobs, sorted."""

    @abstractmethod
    async def create(self, job: str, policy: str, kept: bytes, rights: str = "") -> int:
        """Writes the row of a new job, and returns its version. Raises Conflict if it has one."""

    @abstractmethod
    async def load(self, job: str) -> Stored | None:
        """Returns what is stored of the table of a job, None if there is no such job."""

    @abstractmethod
    async def version(self, job: str) -> int | None:
        """Returns the version that load would return."""

    @abstractmethod
    async def swap(
        self, job: str, version: int, kept: bytes, line: str | None, holding: Holding | None = None
    ) -> int:
        """Writes the kept values and the line over those of a version, and who may act unless that
        is None, and returns the new version. Raises Conflict if the row is of another version, or of
        another holder."""

    @abstractmethod
    async def recover(self, job: str, version: int, kept: bytes, lives: str, holding: Holding) -> None:
        """Writes the kept values, the lives and who may act over those of a version, which rises by
        STEP as far as the engine lets it. Raises Conflict as swap does."""

    @abstractmethod
    async def read_lives(self, job: str) -> tuple[str, Any]:
        """Returns the text of the lives, `{}` at first, and what to compare at the write. Raises
        NoSuchJob."""

    @abstractmethod
    async def swap_lives(self, job: str, compared: Any, lives: str) -> bool:
        """Writes the text of the lives if the row has what is compared, and returns whether it
        did."""

    @abstractmethod
    async def beats(self) -> dict[int, str]:
        """Returns the texts that planes wrote in rows of their own, by the numbers of their processes."""

    @abstractmethod
    async def beat(self, process: int, text: str) -> dict[int, str]:
        """Writes the text of a plane in its row, and returns those of all planes."""

    @abstractmethod
    async def draw_epoch(self, steps: int = 1) -> int:
        """Returns a number that no other call of the store returns, from 1 on: so many above the last one."""

    @abstractmethod
    async def close(self) -> None:
        """Closes all connections. Nothing is asked later."""

    async def lives(self, job: str) -> dict[int, Life]:
        """Returns the lives of the tasks that have had one. Raises NoSuchJob and Damaged."""
        return _lives_of(job, (await self.read_lives(job))[0])

    async def raise_life(self, job: str, task: int) -> int:
        """Returns a life of a task that is given out once: one more than the last. Raises NoSuchJob
        and LivesSpent."""

        def raised(life: Life) -> Life:
            if life.life >= LAST_LIFE:
                raise LivesSpent(f"task {task} has had {LAST_LIFE} lives")
            return Life(life.life + 1, life.drained)

        return (await self.in_time(self._change_life(job, task, raised))).life

    async def drain(self, job: str, task: int) -> Life:
        """Drains the current life of a task: it should own no keys. Raises NoSuchJob."""
        drained = self._change_life(job, task, lambda life: Life(life.life, life.life))
        return await self.in_time(drained)

    async def _change_life(self, job: str, task: int, change: Callable[[Life], Life]) -> Life:
        """Changes the life of a task, one after the other of a job: those that wait while a row is
        locked take no connections from other jobs."""
        async with self._changing.setdefault(job, asyncio.Lock()):
            for _ in range(TRIES):
                text, compared = await self.read_lives(job)
                lives = _lives_of(job, text)
                life = lives[task] = change(lives.get(task, Life(0, 0)))
                written = json.dumps({str(number): list(lives[number]) for number in sorted(lives)})
                if written == text or await self.swap_lives(job, compared, written):
                    return life
                await asyncio.sleep(self._random.uniform(0, 0.01))
        raise StoreFailed(f"lives of {job}: other writers came first {TRIES} times")

    async def in_time(self, call: Coroutine[Any, Any, T]) -> T:
        """Returns what a call of the engine returns. Cancels it at the deadline, and raises
        StoreFailed."""
        try:
            return await within(self.deadline, call)
        except TimeoutError as error:
            raise StoreFailed(f"{self.name}: no answer in {self.deadline} s") from error


def _lives_of(job: str, text: str) -> dict[int, Life]:
    try:
        lives = {int(task): Life(*map(int, life)) for task, life in json.loads(text).items()}
    except (ValueError, TypeError, AttributeError) as error:
        raise Damaged(f"the lives that are stored of {job} cannot be read: {error}") from error
    return lives


def lives_in(job: str, rows: list[Any]) -> tuple[str, str]:
    """Returns the text of lives from its row, which is what to compare too. Raises NoSuchJob."""
    if not rows:
        raise NoSuchJob(job)
    return rows[0][0], rows[0][0]


def after_swap(job: str, version: int, count: int) -> int:
    """Returns the version after a swap that wrote so many rows. Raises Conflict if it wrote none."""
    if count != 1:
        raise Conflict(f"{job} is not of version {version}")
    return version + 1


def password_in(url: str) -> str:
    """Returns the password in the URL of a store as it is written there, nothing if it has none. Raises ValueError if
    it is not encoded, so that a part of it would count as something else."""
    parts = urllib.parse.urlsplit(url)
    name, at, _ = parts.netloc.rpartition("@")
    beside = f"{parts.path}{parts.query}{parts.fragment}"
    if "@" in name or (not at and "@" in beside and parts.netloc):
        raise ValueError("the URL of the store has an @ that is not written as %40, perhaps in a password")
    query = urllib.parse.parse_qsl(parts.query, keep_blank_values=True) if parts.scheme != "sqlite" else []
    return name.partition(":")[2] or next((value for key, value in query if key == "password"), "")


def without(password: str, text: str) -> str:
    """Returns a text in which a password stands neither as it is written in a URL nor as it is meant."""
    for word in {password, urllib.parse.unquote(password)} - {""}:
        text = text.replace(word, "***")
    return text


def store_of(url: str, deadline: float = DEADLINE, system: System = SYSTEM) -> Store:
    """Returns the store of a URL, which is not yet open: sqlite:FILE, postgresql://.. as libpq reads
    it, etcd://HOST:PORT,.. of one or several members, or etcds://HOST:PORT,.. with
    ?ca=FILE&cert=FILE&key=FILE if the system's authorities do not sign them, or they want a
    certificate. Raises ValueError if it is another, and StoreFailed."""
    kind, _, rest = url.partition(":")
    if kind == "sqlite" and rest:
        from hourstable.store_sqlite import SqliteStore

        return SqliteStore(rest, deadline, system)
    password = password_in(url)
    if kind in ("postgresql", "postgres"):
        try:
            from hourstable.store_postgresql import PostgresqlStore
        except ImportError as error:
            raise ValueError(
                f"{error}: install them by `apt-get install python3-psycopg python3-psycopg-pool`"
                " or `pip install 'hourstable[postgresql]'`"
            ) from error

        return PostgresqlStore(url, deadline, system)
    if kind in ("etcd", "etcds"):
        from hourstable.store_etcd import etcd_of

        with suppress(ValueError):
            return etcd_of(urllib.parse.urlsplit(url), deadline, system)
    raise ValueError(
        f"{without(password, url)!r} is no store: sqlite:FILE, postgresql://.., etcd://HOST:PORT or etcds://HOST:PORT"
    )


async def open_store(url: str, deadline: float = DEADLINE, system: System = SYSTEM) -> Store:
    """Opens the store of a URL. Raises ValueError and StoreFailed as `store_of` does, and
    StoreFailed if it cannot be opened."""
    store = store_of(url, deadline, system)
    try:
        await store.open()
    except BaseException:
        await store.close()
        raise
    return store
