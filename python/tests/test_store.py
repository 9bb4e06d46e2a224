"""Each store: what is written is read, of two writers one writes, and no life is given twice."""

import asyncio
import re
import sqlite3
import subprocess
import sys
import threading
import time
from collections import Counter
from collections.abc import Awaitable, Callable
from contextlib import AsyncExitStack, closing, suppress
from pathlib import Path

import pytest

import needed
from conftest import folder_for_engines
from hourstable import store_sqlite
from hourstable.demo import engines
from hourstable.store import (
    LAST_LIFE, Conflict, Holding, Life, LivesSpent, NoSuchJob, Store, Stored, StoreFailed, StoreRefused, open_store,
    store_of,
)
from hourstable.store_sqlite import SqliteStore
from hourstable.waiting import within
from members import members_of_etcd
from stores import opened

POLICY = '{"guard":1000}'


async def test_a_job_is_created_once(store: Store, job: str) -> None:
    assert await store.load(job) is None
    assert await store.version(job) is None
    version = await store.create(job, POLICY, b'{"a":1}')
    assert await store.load(job) == Stored(version, POLICY, b'{"a":1}', None)
    with pytest.raises(Conflict):
        await store.create(job, '{"guard":2}', b'{"a":2}')
    assert await store.load(job) == Stored(version, POLICY, b'{"a":1}', None)
    assert job in await store.jobs()
    assert await store.jobs() == sorted(await store.jobs())


async def test_a_swap_raises_the_version(store: Store, job: str) -> None:
    first = await store.create(job, POLICY, b"one")
    second = await store.swap(job, first, "zw\u00f6i".encode(), '{"ticket":5}')
    assert second > first
    assert await store.version(job) == second
    assert await store.load(job) == Stored(second, POLICY, "zw\u00f6i".encode(), '{"ticket":5}')
    third = await store.swap(job, second, b"three", None)
    assert await store.load(job) == Stored(third, POLICY, b"three", None)


async def test_a_swap_of_another_version_is_a_conflict(store: Store, job: str) -> None:
    first = await store.create(job, POLICY, b"one")
    second = await store.swap(job, first, b"two", "line two")
    for version in (first, second + 1, 0):
        with pytest.raises(Conflict):
            await store.swap(job, version, b"lost", "line lost")
    assert await store.load(job) == Stored(second, POLICY, b"two", "line two")


async def test_a_swap_of_no_job_is_a_conflict(store: Store, job: str) -> None:
    with pytest.raises(Conflict):
        await store.swap(job, 1, b"one", None)
    assert await store.load(job) is None


async def test_jobs_share_nothing(store: Store, job: str) -> None:
    other = job + "/of another"
    first, second = await store.create(job, POLICY, b"one"), await store.create(other, POLICY, b"1")
    await store.swap(job, first, b"two", None)
    assert await store.load(other) == Stored(second, POLICY, b"1", None)
    assert await store.raise_life(job, 3) == 1
    assert await store.lives(other) == {}


async def test_lives_rise(store: Store, job: str) -> None:
    await store.create(job, POLICY, b"one")
    assert await store.lives(job) == {}
    assert [await store.raise_life(job, task) for task in (7, 7, 8, 7)] == [1, 2, 1, 3]
    assert await store.lives(job) == {7: Life(3, 0), 8: Life(1, 0)}


async def test_a_life_leaves_the_version_as_it_was(store: Store, job: str) -> None:
    version = await store.create(job, POLICY, b"one")
    await store.raise_life(job, 7)
    await store.drain(job, 7)
    assert await store.load(job) == Stored(version, POLICY, b"one", None)
    await store.swap(job, version, b"two", None)
    assert await store.lives(job) == {7: Life(1, 1)}


async def test_a_drain_is_of_a_life(store: Store, job: str) -> None:
    await store.create(job, POLICY, b"one")
    await store.raise_life(job, 7)
    assert await store.drain(job, 7) == Life(1, 1)
    assert await store.drain(job, 7) == Life(1, 1)
    assert await store.raise_life(job, 7) == 2
    assert await store.lives(job) == {7: Life(2, 1)}


async def test_lives_of_no_job(store: Store, job: str) -> None:
    with pytest.raises(NoSuchJob):
        await store.raise_life(job, 1)
    with pytest.raises(NoSuchJob):
        await store.lives(job)


async def opened_stores(url: str, count: int, stack: AsyncExitStack) -> list[Store]:
    return [await stack.enter_async_context(opened(url)) for _ in range(count)]


async def test_two_writers_at_once(url: str, job: str) -> None:
    """Each version is written by exactly one of two writers, each with a store of its own."""
    async with AsyncExitStack() as stack:
        stores = await opened_stores(url, 2, stack)

        async def write(writer: int, version: int) -> int | None:
            try:
                words = b"by %d" % writer, f"line of {writer}"
                return await stores[writer].swap(job, version, *words)
            except Conflict:
                return None

        versions = [await stores[0].create(job, POLICY, b"start")]
        for number in range(60):
            made = await asyncio.gather(*(write(writer, versions[-1]) for writer in range(2)))
            winners = [writer for writer, version in enumerate(made) if version is not None]
            assert len(winners) == 1, f"round {number}: {made}"
            stored = await stores[1 - winners[0]].load(job)
            assert stored is not None
            assert stored.version == made[winners[0]]
            assert (stored.kept, stored.line) == (b"by %d" % winners[0], f"line of {winners[0]}")
            versions.append(stored.version)
        assert versions == sorted(set(versions))


async def test_creators_at_once(url: str, job: str) -> None:
    async with AsyncExitStack() as stack:
        stores = await opened_stores(url, 4, stack)

        async def create(number: int) -> bool:
            try:
                await stores[number].create(job, POLICY, b"by %d" % number)
                return True
            except Conflict:
                return False

        made = await asyncio.gather(*map(create, range(4)))
        assert made.count(True) == 1
        stored = await stores[0].load(job)
        assert stored is not None and stored.kept == b"by %d" % made.index(True)


async def test_no_life_is_given_twice(url: str, job: str) -> None:
    async with AsyncExitStack() as stack:
        stores = await opened_stores(url, 4, stack)
        await stores[0].create(job, POLICY, b"one")

        async def raise_lives(number: int) -> list[tuple[int, int]]:
            return [(task, await stores[number].raise_life(job, task)) for task in (1, 2) * 10]

        made = await asyncio.gather(*map(raise_lives, range(4)))
    given = Counter(life for lives in made for life in lives)
    assert given == Counter((task, life) for task in (1, 2) for life in range(1, 41))


async def test_a_task_without_a_life_left(file: Store) -> None:
    await file.create("shop", POLICY, b"one")
    text, compared = await file.read_lives("shop")
    assert await file.swap_lives("shop", compared, f'{{"1": [{LAST_LIFE - 1}, 0]}}')
    assert await file.raise_life("shop", 1) == LAST_LIFE
    with pytest.raises(LivesSpent):
        await file.raise_life("shop", 1)


async def test_what_is_written_outlasts_the_store(url: str, job: str) -> None:
    async with opened(url) as first:
        version = await first.create(job, POLICY, b"one")
        version = await first.swap(job, version, b"two", "line")
        await first.raise_life(job, 1)
    async with opened(url) as second:
        assert await second.load(job) == Stored(version, POLICY, b"two", "line")
        assert await second.raise_life(job, 1) == 2


@pytest.mark.parametrize("kind", ["postgresql", "etcd"])
async def test_an_engine_that_is_killed(kind: str) -> None:
    needed.engine(kind)
    with folder_for_engines() as top, engines.STARTS[kind](top / kind) as engine:
        async with opened(engine.url) as store:
            version = await store.create("shop", POLICY, b"one")
            version = await store.swap("shop", version, b"two", "line")
            engine.kill()
            for call in (
                store.swap("shop", version, b"three", None), store.load("shop"),
                store.raise_life("shop", 1),
            ):
                begun = time.monotonic()
                with pytest.raises(StoreFailed) as failed:
                    await call
                assert time.monotonic() - begun < 2  # the kernel says at once that nobody listens
            assert re.search("refused|Connect call failed", str(failed.value))
            engine.start()
            assert await store.load("shop") == Stored(version, POLICY, b"two", "line")
            assert await store.raise_life("shop", 1) == 1


async def test_a_member_of_etcd_that_is_killed() -> None:
    needed.engine("etcd")
    with members_of_etcd() as (members, url):
        async with opened(url) as store:
            version = await store.create("shop", POLICY, b"kept")
            before = Stored(version, POLICY, b"kept", None)
            for at, member in enumerate(members):
                member.kill()
                after = await written_surely(store, before, b"%d" % at)
                assert after.version > before.version and after.kept == b"%d" % at
                before = after
                member.start()


async def written_surely(store: Store, before: Stored, kept: bytes) -> Stored:
    """Writes over what is stored, again while the members choose who leads them. A write that
    failed may have been done."""
    for _ in range(20):
        with suppress(StoreFailed):
            loaded = await store.load("shop")
            assert loaded is not None
            if loaded.kept == kept:
                return loaded
            assert loaded == before
            await store.swap("shop", loaded.version, kept, None)
        await asyncio.sleep(0.1)
    raise AssertionError("no member answers")


async def test_etcd_that_wants_certificates(certificates: Path) -> None:
    needed.engine("etcd")
    ca, plane, caller = (certificates / name for name in ("ca.pem", "plane", "caller"))
    keys = f"cert={caller}.pem&key={caller}.key"
    with folder_for_engines() as top, engines.etcd_with_tls(
        top / "etcd", ca, plane.with_suffix(".pem"), plane.with_suffix(".key")
    ) as engine:
        assert engine.url.startswith("etcds://")
        async with opened(f"{engine.url}?ca={ca}&{keys}") as store:
            version = await store.create("shop", POLICY, b"kept")
            assert await store.load("shop") == Stored(version, POLICY, b"kept", None)
        without_tls = engine.url.replace("etcds", "etcd")
        for url in (f"{engine.url}?ca={ca}", f"{engine.url}?{keys}", without_tls):
            async with opened(url) as store:
                with pytest.raises(StoreFailed):
                    await store.load("shop")
    with pytest.raises(StoreFailed):
        store_of(f"etcds://127.0.0.1:1?ca={ca}.missing")


async def test_a_recovery_compares_version_and_holder(store: Store, job: str) -> None:
    first = await store.create(job, POLICY, b"one")
    second = await store.swap(job, first, b"two", "line", Holding("", "a", "by a"))
    for version, before in ((first, "a"), (second, ""), (second, "b")):
        with pytest.raises(Conflict):
            await store.recover(job, version, b"lost", "{}", Holding(before, "r", "by r"))
    assert await store.load(job) == Stored(second, POLICY, b"two", "line", "a", "by a")
    await store.recover(job, second, b"three", '{"1": [7, 0]}', Holding("a", "r", "by r"))
    stored = await store.load(job)
    assert stored is not None and stored.version > second
    assert stored[2:] == (b"three", "line", "r", "by r")
    assert await store.lives(job) == {1: Life(7, 0)}


async def test_a_call_that_is_late_fails(file: Store) -> None:
    """Whatever the engine waits for."""
    file.deadline = 0.1
    with pytest.raises(StoreFailed, match=r"no answer in 0\.1 s"):
        await within(5, file.in_time(asyncio.sleep(60)))


def test_urls_that_are_no_store() -> None:
    for url in (
        "", "sqlite:", "jobs.sqlite", "mysql://host/db", "etcd://", "etcd://host:1/path",
        "etcd://host:1?ca=ca.pem", "etcd://host:1,", "etcd://host:port", "etcd://user@host:1",
        "etcds://host:1?name=value",
    ):
        with pytest.raises(ValueError):
            store_of(url)


async def test_a_file_that_is_no_database(tmp_path: Path) -> None:
    path = tmp_path / "jobs.sqlite"
    path.write_bytes(b"no database" * 1000)
    with pytest.raises(StoreFailed):
        await open_store(f"sqlite:{path}")


async def test_another_program_that_opens_and_closes_the_file(file: Store, tmp_path: Path) -> None:
    """As a copy that an operator makes. It must not take itself for the last user, and remove the journal."""
    asks = "SELECT version FROM jobs"
    program = f"import sqlite3, sys\nprint(sqlite3.connect(sys.argv[1]).execute('{asks}').fetchall())"

    async def seen() -> str:
        words = [sys.executable, "-c", program, f"{tmp_path}/jobs.sqlite"]
        process = await asyncio.create_subprocess_exec(*words, stdout=subprocess.PIPE)
        return (await process.communicate())[0].decode().strip()

    version = await file.create("shop", POLICY, b"{}")
    assert await file.version("shop") == version  # both connections are open
    for _ in range(3):
        assert await seen() == f"[({version},)]"
        version = await file.swap("shop", version, b"{}", "line")


async def test_a_file_of_sqlite_that_answers_too_late_is_no_refusal(
    tmp_path: Path, monkeypatch: pytest.MonkeyPatch
) -> None:
    """A plane that starts waits for it, and does not end."""
    goes_on = threading.Event()
    monkeypatch.setattr(store_sqlite, "_make_file", lambda _: goes_on.wait(60))
    store = store_of(f"sqlite:{tmp_path}/jobs.sqlite", 0.1)
    try:
        with pytest.raises(StoreFailed, match="no answer in 0.1 s") as failed:
            await store.open()
        assert not isinstance(failed.value, StoreRefused)
    finally:
        goes_on.set()
        await store.close()


async def test_writes_of_sqlite_are_synced(file: Store) -> None:
    assert isinstance(file, SqliteStore)
    asked = "PRAGMA synchronous"
    assert await file.writes.run(lambda it: list(it.execute(asked))) == [(2,)]  # FULL


MANY_FILES = """
import asyncio, os, resource, sys
from hourstable.store import open_store
most = resource.getrlimit(resource.RLIMIT_NOFILE)[1]
resource.setrlimit(resource.RLIMIT_NOFILE, (2048, most))
files = [os.open(os.devnull, os.O_RDONLY) for _ in range(1100)]
async def write(url, job):
    store = await open_store(url)
    version = await store.create(job, "{}", b"{}")
    print(await store.swap(job, version, b"[]", None) > version)
    await store.close()
asyncio.run(write(*sys.argv[1:]))
"""


def test_a_process_with_many_open_files(url: str, job: str) -> None:
    words = [sys.executable, "-c", MANY_FILES, url, job]
    ran = subprocess.run(words, capture_output=True, text=True, check=False)
    assert (ran.stdout, ran.stderr) == ("True\n", "")


async def written_at_once(
    path: Path, store: SqliteStore, writes: list[Callable[[], Awaitable[int]]]
) -> list[int | BaseException]:
    """Makes the first write, and the others while it waits for another one's transaction. Returns
    what each returned or raised."""
    said: list[str] = []
    await store.writes.run(lambda it: it.set_trace_callback(said.append))
    with closing(sqlite3.connect(path, isolation_level=None)) as other:
        other.execute("BEGIN IMMEDIATE")
        made = [asyncio.ensure_future(writes[0]())]
        await until(lambda: "BEGIN IMMEDIATE" in said)
        made += [asyncio.ensure_future(write()) for write in writes[1:]]
        await until(lambda: store.waiting() == len(writes) - 1)
        other.execute("ROLLBACK")
    told = await asyncio.gather(*made, return_exceptions=True)
    assert said.count("BEGIN IMMEDIATE") == 2
    return told


async def until(holds: Callable[[], bool]) -> None:
    end = time.monotonic() + 5
    while not holds():
        assert time.monotonic() < end
        await asyncio.sleep(0.001)


async def test_writes_of_sqlite_that_wait_share_a_transaction(file: Store, tmp_path: Path) -> None:
    assert isinstance(file, SqliteStore)
    for job in "abc":
        await file.create(job, "policy", b"kept")
    done, one, old, again, new = await written_at_once(tmp_path / "jobs.sqlite", file, [
        lambda: file.swap("a", 1, b"first", None),
        lambda: file.swap("b", 1, b"second", "line"),
        lambda: file.swap("c", 2, b"of a version that is not there", None),
        lambda: file.create("c", "policy", b"again"),
        lambda: file.create("d", "policy", b"new"),
    ])
    assert (done, one, new) == (2, 2, 1)
    assert isinstance(old, Conflict) and isinstance(again, Conflict)
    assert await file.jobs() == ["a", "b", "c", "d"]
    assert await file.load("b") == Stored(2, "policy", b"second", "line")
    assert await file.load("c") == Stored(1, "policy", b"kept", None)


async def test_a_transaction_of_sqlite_that_fails_writes_nothing(
    file: Store, tmp_path: Path
) -> None:
    assert isinstance(file, SqliteStore)
    for job in "abc":
        await file.create(job, "policy", b"kept")
    await file.writes.run(lambda it: it.execute("PRAGMA max_page_count = 10"))
    done, small, large = await written_at_once(tmp_path / "jobs.sqlite", file, [
        lambda: file.swap("a", 1, b"first", None),
        lambda: file.swap("b", 1, b"second", None),
        lambda: file.swap("c", 1, b"x" * 1_000_000, None),
    ])
    assert done == 2
    assert isinstance(small, StoreFailed) and isinstance(large, StoreFailed)
    assert [await file.version(job) for job in "abc"] == [2, 1, 1]
    assert await file.swap("b", 1, b"second", None) == 2
