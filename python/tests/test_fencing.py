"""The recipes of examples/fencing, each against its real engine: a store refuses a writer that is late."""

import random
import subprocess
import sys
import textwrap
import threading
from collections.abc import Callable, Iterator
from pathlib import Path
from typing import Protocol

import pytest

import needed

needed.library()
sys.path.append(str(Path(__file__).resolve().parents[2] / "examples/fencing"))

import etcd_rows  # noqa: E402
import file_rows  # noqa: E402
import postgresql_rows  # noqa: E402
import redis_rows  # noqa: E402
import sqlite_rows  # noqa: E402
from hourstable.leases import TOKEN  # noqa: E402
from hourstable.library import Fence  # noqa: E402
from late import Late  # noqa: E402
from redis_server import Client, redis  # noqa: E402

ENGINES = ("sqlite", "postgresql", "redis", "etcd", "files")


class Rows(Protocol):
    """What each recipe offers."""

    def take(self, key: str, token: bytes) -> bytes | None: ...

    def put(self, key: str, token: bytes, value: bytes | None) -> int: ...


Opens = Callable[[], Rows]


@pytest.fixture(params=ENGINES, scope="module")
def opens(
    request: pytest.FixtureRequest, tmp_path_factory: pytest.TempPathFactory, running: Callable[[str], str]
) -> Iterator[Opens]:
    """Opens the rows of an engine. Each call gives other ones over the same engine, as another process has."""
    kind, folder = str(request.param), tmp_path_factory.mktemp("fencing")
    if kind == "sqlite":
        yield lambda: sqlite_rows.Rows(folder / "rows.sqlite")
    elif kind == "files":
        yield lambda: file_rows.Rows(folder / "rows")
    elif kind == "redis":
        needed.command("redis-server")
        with redis(folder / "redis") as engine:
            yield lambda: redis_rows.Rows(Client(int(engine.url.rpartition(":")[2])))
    elif kind == "etcd":
        url = running(kind).replace("etcd", "http", 1)
        yield lambda: etcd_rows.Rows(url)
    else:
        url = running(kind)
        yield lambda: postgresql_rows.Rows(url)


def token(generation: int, life: int = 1, epoch: int = 1) -> bytes:
    return TOKEN.pack(epoch, generation, life)


def is_put(rows: Rows, key: str, by: bytes, value: bytes | None) -> bool:
    try:
        rows.put(key, by, value)
        return True
    except Late:
        return False


def is_taken(rows: Rows, key: str, by: bytes) -> bool:
    try:
        rows.take(key, by)
        return True
    except Late:
        return False


def test_a_late_writer_is_refused(opens: Opens) -> None:
    """The first owner is stopped between its check and its write, and writes after the second one took the key."""
    first, second = opens(), opens()
    assert first.take("late", token(3)) is None
    first.put("late", token(3), b"one")
    assert second.take("late", token(4)) == b"one"
    assert not is_put(first, "late", token(3), b"late")
    assert not is_put(first, "late", token(3), None)
    assert not is_taken(first, "late", token(3))
    assert second.take("late", token(4)) == b"one"
    second.put("late", token(4), b"two")
    assert opens().take("late", token(4)) == b"two"


def test_absent_rows_are_inserted(opens: Opens) -> None:
    rows = opens()
    rows.put("new", token(5), b"\0\xff")
    assert not is_put(rows, "new", token(4), b"late")
    assert rows.take("new", token(5)) == b"\0\xff"
    assert rows.take("taken", token(5)) is None
    assert not is_put(rows, "taken", token(4), b"late")
    assert rows.take("other", token(1)) is None  # another key has another fence


def test_a_delete_keeps_its_fence(opens: Opens) -> None:
    rows = opens()
    rows.put("gone", token(5), b"one")
    rows.put("gone", token(6), None)
    assert not is_put(rows, "gone", token(5), b"late")
    assert rows.take("gone", token(6)) is None
    rows.put("gone", token(6), b"")
    assert rows.take("gone", token(6)) == b""


def test_revisions_rise(opens: Opens) -> None:
    """Of two writes of a key, also by other processes and after a delete, the later one has the greater revision. One
    that is refused takes none."""
    first, second = opens(), opens()
    assert first.take("counted", token(1)) is None
    revisions = [first.put("counted", token(1), b"one"), second.put("counted", token(2), b"two")]
    assert not is_put(first, "counted", token(1), b"late")
    revisions += [second.put("counted", token(2), None), first.put("counted", token(3), b"three")]
    assert revisions == sorted(set(revisions)) and revisions[0] >= 0 and revisions[-1] < 1 << 64


def test_tokens_are_compared_as_the_library_does(opens: Opens) -> None:
    """Bytes count from 0 to 255, and none of them ends a text."""
    rows, fence, rng = opens(), Fence(), random.Random(1)
    parts = (0, 1, 9, 10, 127, 128, 255, 256)
    for step in range(150):
        by = token(rng.choice(parts), rng.choice(parts), rng.choice(parts))
        value = str(step).encode()
        assert is_put(rows, "order", by, value) == fence.accept(by), (by.hex(), fence.greatest.hex())
    assert rows.take("order", fence.greatest) is not None
    assert fence.greatest > token(200, 200, 128)


def test_writers_at_once(opens: Opens) -> None:
    """Whatever the order, the value is that of the greatest token, which is accepted; and each value that was read
    when the fence was raised is of a lower token."""
    tokens = [token(1 + at // 3, 1 + at % 3) for at in range(60)]
    random.Random(2).shuffle(tokens)
    accepted: list[bytes] = []
    faults: list[str] = []

    def write(mine: list[bytes]) -> None:
        rows = opens()
        for by in mine:
            try:
                found = rows.take("many", by)
                if found is not None and found > by:
                    faults.append(f"{by.hex()} read what {found.hex()} wrote")
                rows.put("many", by, by)
                accepted.append(by)
            except Late:
                pass
            except Exception as why:
                faults.append(repr(why))

    threads = [threading.Thread(target=write, args=(tokens[at::4],)) for at in range(4)]
    for one in threads:
        one.start()
    for one in threads:
        one.join()
    assert faults == []
    assert max(tokens) in accepted
    assert opens().take("many", max(tokens)) == max(tokens)


def test_a_file_that_stays_locked(tmp_path: Path) -> None:
    """Another process has the lock and is stopped: the key waits, and others do not."""
    script = textwrap.dedent("""
        import fcntl, sys
        file = open(sys.argv[1], "w")
        fcntl.flock(file, fcntl.LOCK_EX)
        print("locked", flush=True)
        sys.stdin.read()
    """)
    rows = file_rows.Rows(tmp_path, wait=0.1)
    rows.put("a", token(1), b"one")
    words = [sys.executable, "-c", script, str(tmp_path / "a.lock")]
    with subprocess.Popen(words, stdin=subprocess.PIPE, stdout=subprocess.PIPE) as other:
        assert other.stdout is not None and other.stdout.readline() == b"locked\n"
        with pytest.raises(TimeoutError):
            rows.take("a", token(2))
        rows.put("b", token(1), b"one")
        other.kill()
    assert rows.take("a", token(2)) == b"one"
