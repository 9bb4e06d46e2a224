"""Stores whose server stands still, or whose file another process has locked: calls are answered by the deadline,
what does not need the store goes on, and all works again afterwards."""

import asyncio
import subprocess
import sys
import time
from collections.abc import Awaitable, Callable, Iterator
from contextlib import ExitStack, contextmanager
from pathlib import Path
from typing import Any, TypeVar

import pytest

import needed

needed.library()
needed.engine("postgresql")

import psycopg  # noqa: E402

from conftest import folder_for_engines  # noqa: E402
from hourstable.demo import engines  # noqa: E402
from hourstable.store import Store, Stored, StoreFailed  # noqa: E402
from hourstable.store_postgresql import CONNECTIONS  # noqa: E402
from members import members_of_etcd  # noqa: E402
from serving import Caller, running  # noqa: E402
from stores import opened  # noqa: E402
from test_page import begun  # noqa: E402

T = TypeVar("T")
DEADLINE = 2.0
AHEAD = 300, 6000  # grants and ticks; a table that is restored waits until these are over
LATE = 5.0  # seconds by which an answer may be late on a busy machine; that of a plane has at most 10 anyway
POLICY = '{"guard":1000}'
MANY = 64  # more than there may be connections
SERVERS = ("postgresql", "etcd")


@contextmanager
def engine_of(kind: str) -> Iterator[engines.Engine]:
    needed.engine(kind)
    with folder_for_engines() as top, engines.STARTS[kind](top / kind) as engine:
        yield engine


class Locked:
    """Another process that has the lock of a file of SQLite, from one line on its input to the next."""

    CODE = (
        "import sqlite3, sys\n"
        "it = sqlite3.connect(sys.argv[1], isolation_level=None)\n"
        "for line in sys.stdin:\n"
        "    it.execute(line)\n"
        "    print(line, end='', flush=True)\n"
    )

    def __init__(self, path: Path) -> None:
        words = [sys.executable, "-c", self.CODE, str(path)]
        self._process = subprocess.Popen(words, stdin=subprocess.PIPE, stdout=subprocess.PIPE, text=True)

    def _does(self, statement: str) -> None:
        assert self._process.stdin is not None and self._process.stdout is not None
        print(statement, file=self._process.stdin, flush=True)
        assert self._process.stdout.readline() == f"{statement}\n"

    def stop(self) -> None:
        self._does("BEGIN IMMEDIATE")

    def go_on(self) -> None:
        self._does("ROLLBACK")

    def __enter__(self) -> "Locked":
        return self

    def __exit__(self, *_: object) -> None:
        self._process.kill()
        self._process.communicate()


async def in_time(call: Awaitable[Any], deadline: float = DEADLINE) -> Any:
    """Returns what a call returns or raises, which must come by the deadline."""
    begins = time.monotonic()
    try:
        return await call
    except StoreFailed as error:
        return error
    finally:
        took = time.monotonic() - begins
        assert took < deadline + LATE, f"after {took:.1f} s"


async def until(holds: Callable[[], Awaitable[object]], seconds: float = 20.0) -> None:
    end = time.monotonic() + seconds
    while not await holds():
        assert time.monotonic() < end, "it does not come true"
        await asyncio.sleep(0.05)


async def surely(call: Callable[[], Awaitable[T]], seconds: float = 20.0) -> T:
    """Returns what a call returns, which is made again while the store fails: beside much other work a server that is
    well may be late, too."""
    end = time.monotonic() + seconds
    while True:
        try:
            return await call()
        except StoreFailed:
            if time.monotonic() > end:
                raise


async def written(store: Store, job: str, kept: bytes) -> Stored:
    """Writes over what is stored of a job, and returns what is stored then."""

    async def write() -> Stored:
        stored = await loaded(store, job)
        if stored.kept != kept:
            await store.swap(job, stored.version, kept, None)
            stored = await loaded(store, job)
        assert (stored.kept, stored.line) == (kept, None)
        return stored

    return await surely(write)


async def loaded(store: Store, job: str) -> Stored:
    found = await store.load(job)
    assert found is not None
    return found


@pytest.mark.parametrize("kind", SERVERS)
async def test_each_call_of_a_stopped_server_fails_in_time(kind: str) -> None:
    with engine_of(kind) as engine:
        async with opened(engine.url, DEADLINE) as store:
            version = await store.create("shop", POLICY, b"one")
            await asyncio.gather(*(store.load("shop") for _ in range(8)))  # connections are kept
            engine.stop()
            calls: list[Awaitable[Any]] = [
                store.jobs(), store.create("cart", POLICY, b"1"), store.load("shop"), store.version("shop"),
                store.swap("shop", version, b"two", "line"), store.lives("shop"),
                store.raise_life("shop", 1), store.drain("shop", 1),
            ]
            told = await asyncio.gather(*map(in_time, calls))
            assert [type(one) for one in told] == [StoreFailed] * len(calls)
            assert "no answer in 2.0 s" in str(told[2])
            many = await asyncio.gather(*(in_time(store.load("shop")) for _ in range(MANY)))
            assert {type(one) for one in many} == {StoreFailed}
            engine.go_on()
            stored = await surely(lambda: loaded(store, "shop"))
            await asyncio.sleep(DEADLINE)  # a write that was late may be done until then
            stored = await surely(lambda: loaded(store, "shop"))
            assert (stored.kept, stored.line) in [(b"one", None), (b"two", "line")]
            after = await written(store, "shop", b"three")
            assert after.version > stored.version
            first = await surely(lambda: store.raise_life("shop", 1))
            assert await surely(lambda: store.raise_life("shop", 1)) > first
            many = await asyncio.gather(*(surely(lambda: store.load("shop")) for _ in range(MANY)))
            assert set(many) == {after}  # no connection was lost


async def test_a_locked_file_of_sqlite(tmp_path: Path) -> None:
    """Writes fail in time, and are not done later. Reads go on."""
    path = tmp_path / "jobs.sqlite"
    async with opened(f"sqlite:{path}", DEADLINE) as store:
        version = await store.create("shop", POLICY, b"one")
        with Locked(path) as other:
            other.stop()
            writes = [
                asyncio.ensure_future(in_time(call)) for call in (
                    store.swap("shop", version, b"two", "line"), store.create("cart", POLICY, b"1"),
                    store.raise_life("shop", 1),
                )
            ]
            for _ in range(10):
                assert await in_time(loaded(store, "shop"), 0) == Stored(version, POLICY, b"one", None)
                assert await in_time(store.jobs(), 0) == ["shop"]
            late = asyncio.ensure_future(in_time(store.swap("shop", version, b"three", None)))
            assert [type(one) for one in await asyncio.gather(*writes)] == [StoreFailed] * 3
            assert isinstance(await late, StoreFailed)
            other.go_on()
            assert await loaded(store, "shop") == Stored(version, POLICY, b"one", None)
            await written(store, "shop", b"four")
            assert await store.jobs() == ["shop"]
            assert await surely(lambda: store.raise_life("shop", 1)) >= 1


async def test_a_locked_row_of_postgresql() -> None:
    """The calls of other jobs go on beside those that wait for it."""
    with engine_of("postgresql") as engine, ExitStack() as stack:
        async with opened(engine.url, DEADLINE) as store:
            shop, cart = [await store.create(job, POLICY, b"one") for job in ("shop", "cart")]
            other = stack.enter_context(psycopg.connect(engine.url))
            other.execute("SELECT FROM hourstable_jobs WHERE job = 'shop' FOR UPDATE")
            late = [store.raise_life("shop", task) for task in range(1, 65)]
            waiting = asyncio.gather(*map(in_time, [store.swap("shop", shop, b"two", "line"), *late]))
            while not waiting.done():
                cart = await in_time(store.swap("cart", cart, b"two", None))
                assert await in_time(loaded(store, "shop"), 0) == Stored(shop, POLICY, b"one", None)
            assert cart > 3
            assert [type(one) for one in await waiting] == [StoreFailed] * 65
            other.rollback()
            await asyncio.sleep(DEADLINE)  # a write that was late may be done until then
            await written(store, "shop", b"three")
            assert await surely(lambda: store.raise_life("shop", 1)) >= 1


async def test_more_locked_rows_than_connections() -> None:
    """A call of another job waits for a connection, and gets one when the first of them is given up."""
    with engine_of("postgresql") as engine, ExitStack() as stack:
        async with opened(engine.url, DEADLINE) as store:
            jobs = [f"shop-{at}" for at in range(CONNECTIONS)]
            for job in ["cart", *jobs]:
                assert await store.create(job, POLICY, b"one") == 1
            other = stack.enter_context(psycopg.connect(engine.url))
            other.execute("SELECT FROM hourstable_jobs WHERE job <> 'cart' FOR UPDATE")
            locked = asyncio.gather(*(in_time(store.swap(job, 1, b"two", None)) for job in jobs))
            await asyncio.sleep(DEADLINE / 2)
            assert await in_time(store.swap("cart", 1, b"two", None)) == 2
            assert {type(one) for one in await locked} == {StoreFailed}


async def test_a_stopped_member_of_etcd() -> None:
    """Reads go on, by another member; of writes the first one fails."""
    needed.engine("etcd")
    with members_of_etcd() as (members, url):
        async with opened(url, DEADLINE) as store:
            await surely(lambda: store.create("shop", POLICY, b"one"))
            for at, member in enumerate(members):
                member.stop()
                await surely(lambda: store.load("shop"))  # the others may have to choose a leader
                for _ in range(3):
                    assert (await in_time(loaded(store, "shop"), DEADLINE / 2)).policy == POLICY
                await written(store, "shop", b"%d" % at)
                member.go_on()


@pytest.mark.parametrize("kind", SERVERS)
async def test_a_plane_over_a_stopped_server(kind: str, tmp_path: Path) -> None:
    """Calls that the store must have are answered 503 by the deadline; all that does not need it goes on, as the
    grants that were saved ahead; and the plane serves all jobs once the server goes on."""
    with engine_of(kind) as engine:
        async with opened(engine.url, DEADLINE) as store, running(store, tmp_path, ahead=AHEAD) as (_, caller):
            shop, cart = jobs = [Caller(caller.url, caller.session, name) for name in ("shop", "cart")]
            term, _ = [await begun(job) for job in jobs]
            assert [(await job.grant(1)).status for job in jobs] == [200, 200]
            engine.stop()
            waiting = [asyncio.ensure_future(in_time(call)) for call in (
                shop.post("renew", {"term": term}), shop.post("tasks/1/life"), shop.ask("GET", "/jobs"),
            )]
            while not all(one.done() for one in waiting):
                assert (await in_time(cart.grant(1), 0)).status == 200
                assert (await in_time(cart.get("/phase"), 0)).status == 200
                assert (await in_time(shop.get("/assignment?after=0"), 0)).status == 200
                assert (await in_time(shop.ask("GET", "/healthz"), 0)).status == 200
                await asyncio.sleep(0.02)
            told = [one.result() for one in waiting]
            assert [(one.status, one.json["refused"]) for one in told] == [(503, "store")] * 3
            engine.go_on()
            for job in jobs:

                async def is_granted() -> object:
                    return (await job.grant(1)).status == 200  # noqa: B023

                await until(is_granted)


@pytest.mark.parametrize("kind", SERVERS)
async def test_two_planes_over_a_stopped_server(kind: str, tmp_path: Path) -> None:
    """Each answers in time, and both are well once the server goes on: numbers of grants are not given twice."""
    with engine_of(kind) as engine:
        async with (
            opened(engine.url, DEADLINE) as first, running(first, tmp_path, 0, True) as (_, one),
            opened(engine.url, DEADLINE) as second, running(second, tmp_path, 1, True) as (_, other),
        ):
            await begun(one)
            numbers = [int((await one.grant(1)).json["value"]["number"])]
            assert (await other.get("/phase")).status == 200  # it knows the job
            engine.stop()
            for caller in (one, other):
                told = await asyncio.gather(*(in_time(caller.grant(task), 3 * DEADLINE) for task in range(1, 9)))
                assert {answer.status for answer in told} == {503}
                assert (await in_time(caller.get("/phase"), 0)).status == 200
            engine.go_on()
            for caller in (one, other) * 2:

                async def is_granted() -> bool:
                    made = await caller.grant(1)  # noqa: B023
                    if made.status == 200:
                        numbers.append(int(made.json["value"]["number"]))
                    return made.status == 200

                await until(is_granted)
                await asyncio.sleep(0.4)  # the other one takes over
            assert numbers == sorted(set(numbers))
