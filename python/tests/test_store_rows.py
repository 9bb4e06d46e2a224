"""The row of a job in two parts: what is read is what was written, and a grant does not write assignments again."""

import sqlite3
from collections.abc import Iterator
from contextlib import closing
from pathlib import Path

import pytest

import needed

needed.library()

from hourstable.library import Policy, Table  # noqa: E402
from hourstable.plans import message_of  # noqa: E402
from hourstable.store import Conflict, Damaged, Store, Stored  # noqa: E402
from hourstable.store_rows import Rows  # noqa: E402
from hourstable.table_calls import last_in  # noqa: E402
from stores import opened  # noqa: E402

POLICY = '{"guard":1000}'
KEYS = 1 << 63


def kept_values(job: str = "shop", slices: int = 1024) -> Iterator[bytes]:
    """Kept values of a table, of its whole life: before its first assignment, proposed, committed and both."""
    with Table(job, Policy(1, 1, 0, 1000, 1000, 60_000, 1 << 32)) as table:
        yield table.kept()
        term = table.take(1, 5).number
        yield table.kept()
        for generation, base in ((1, 0), (2, 20_000)):
            cut = [(KEYS * at // slices, [1 + (at + generation) % 64]) for at in range(slices)]
            table.propose(term, message_of(job, generation, cut), base + 10)
            yield table.kept()
            for task in (1, 2):
                table.grant(task, 1, base + 10 + task)
                yield table.kept()
            table.commit(term, base + 10_000)  # all leases have ended
            yield table.kept()
            table.grant(1, 1, base + 10_000)
            yield table.kept()
            yield table.save(b"", 256, 1000) or b""


def test_parts_make_the_whole() -> None:
    rows, changes = Rows(), 0
    for version, kept in enumerate(kept_values(), 1):
        parts = rows.parts("shop", kept)
        changes += not rows.has("shop", version - 1, parts)
        rows.wrote("shop", version, parts)
        assert Rows().whole("shop", version, parts.rest, parts.assignments) == kept
        assert len(parts.rest) < 500
    assert changes == 5  # the first one, two proposals and two commits


def test_the_last_reading_of_kept_values() -> None:
    lasts = [last_in(kept) for kept in kept_values()]
    assert lasts[:4] == [0, 5, 10, 11]
    assert lasts == sorted(lasts) and lasts[-1] > 20_000


def test_what_is_no_kept_value_is_whole() -> None:
    rows = Rows()
    for text in ("one", '{"a":1}', '{"committed":', '{"committed":null}', '{"committed":[,"pending":null}'):
        parts = rows.parts("shop", text.encode())
        assert (parts.rest, parts.assignments) == (text, "")
        assert rows.has("shop", 7, parts)
        assert rows.whole("shop", 7, text, "of another time") == text.encode()


def test_parts_that_do_not_belong_together() -> None:
    proposed, committed = [list(kept_values(slices=4))[at] for at in (2, 5)]
    rows = Rows()
    one, other = rows.parts("shop", proposed), rows.parts("shop", committed)
    for wrong in (None, "", other.assignments, one.assignments + "\n"):
        with pytest.raises(Damaged, match="the assignments of shop"):
            rows.whole("shop", 1, one.rest, wrong)


async def test_each_store_gives_back_what_was_written(url: str, job: str) -> None:
    """To this process and to the next one."""
    async with opened(url) as store, opened(url) as other:
        version = await store.create(job, POLICY, next(kept_values(job)))
        for number, kept in enumerate(kept_values(job)):
            version = await store.swap(job, version, kept, f"line {number}")
            for reads in (store, other):
                assert await reads.load(job) == Stored(version, POLICY, kept, f"line {number}")
    async with opened(url) as store:
        assert await store.load(job) == Stored(version, POLICY, kept, f"line {number}")


async def test_two_writers_of_assignments(url: str, job: str) -> None:
    """The one that is late writes neither part, and goes on over those of the other one."""
    values = list(kept_values(job, 64))
    async with opened(url) as one, opened(url) as other:
        first = await one.create(job, POLICY, values[0])
        second = await one.swap(job, first, values[2], "one")
        assert await other.load(job) == Stored(second, POLICY, values[2], "one")
        third = await other.swap(job, second, values[5], "other")
        with pytest.raises(Conflict):
            await one.swap(job, second, values[3], "late")
        assert await one.load(job) == Stored(third, POLICY, values[5], "other")
        fourth = await one.swap(job, third, values[6], "one")
        assert await other.load(job) == Stored(fourth, POLICY, values[6], "one")
        fifth = await other.swap(job, fourth, b"whole", "other")
        sixth = await other.swap(job, fifth, values[6], "other")
        assert await one.load(job) == Stored(sixth, POLICY, values[6], "other")


async def test_a_grant_does_not_write_assignments(file: Store, tmp_path: Path) -> None:
    values = list(kept_values())
    version = await file.create("shop", POLICY, values[0])
    with closing(sqlite3.connect(tmp_path / "jobs.sqlite")) as raw:
        raw.execute("CREATE TABLE written (n)")
        raw.execute("CREATE TRIGGER noted AFTER INSERT ON assignments BEGIN INSERT INTO written VALUES (1); END")
        raw.commit()
        for kept in values[2:]:
            version = await file.swap("shop", version, kept, None)
            (size,), = raw.execute("SELECT length(kept) FROM jobs")
            assert size < 500
        assert list(raw.execute("SELECT count(*) FROM written")) == [(4,)]  # two proposals, and two commits


async def test_a_row_of_an_older_version(tmp_path: Path) -> None:
    """It is read, and written in two parts from then on; also if an older version writes in between."""
    path, values = tmp_path / "old.sqlite", [it.decode() for it in kept_values()]
    with closing(sqlite3.connect(path)) as raw:
        raw.execute("CREATE TABLE jobs (job TEXT PRIMARY KEY, version INTEGER NOT NULL, policy TEXT NOT NULL,"
                    " kept TEXT NOT NULL, line TEXT, lives TEXT NOT NULL) STRICT")
        raw.execute("INSERT INTO jobs VALUES ('shop', 7, ?, ?, 'line', '{}')", (POLICY, values[6]))
        raw.commit()
        async with opened(f"sqlite:{path}") as store:
            assert await store.load("shop") == Stored(7, POLICY, values[6].encode(), "line")
            assert await store.swap("shop", 7, values[7].encode(), "new") == 8
            assert await store.load("shop") == Stored(8, POLICY, values[7].encode(), "new")
            raw.execute("UPDATE jobs SET version = 9, kept = ?", (values[8],))
            raw.commit()
            assert await store.load("shop") == Stored(9, POLICY, values[8].encode(), "new")
            assert await store.swap("shop", 9, values[8].encode(), "newer") == 10
            assert await store.load("shop") == Stored(10, POLICY, values[8].encode(), "newer")
