"""One job never stops another: what goes wrong with a job is kept to it, shown with why, and tried again."""

import asyncio
import errno
import json
import mmap
import os
import sqlite3
import threading
from base64 import b64encode
from collections.abc import Awaitable, Callable, Sequence
from pathlib import Path
from typing import Any

import aiohttp
import pytest

import needed

needed.library()

from hourstable import logs  # noqa: E402
from hourstable.auditing import gaps_of  # noqa: E402
from hourstable.command import options_of, parser  # noqa: E402
from hourstable.failures import Failures  # noqa: E402
from hourstable.kept_log import AGAIN  # noqa: E402
from hourstable.limits import Limits  # noqa: E402
from hourstable.service import ControlPlane  # noqa: E402
from hourstable.state import state_folder  # noqa: E402
from hourstable.store import Damaged, Life, Store, Stored, StoreFailed  # noqa: E402
from hourstable.store_etcd import EtcdStore  # noqa: E402
from hourstable.system import System  # noqa: E402
from hourstable.tickets import Tickets, real_milliseconds  # noqa: E402
from serving import Caller, lines_of, running  # noqa: E402
from stores import opened  # noqa: E402
from test_failover import Reached  # noqa: E402
from test_page import begun  # noqa: E402
from test_service import options  # noqa: E402
from waits import until as until_told  # noqa: E402


class Refusing(System):
    """A system that opens no file for writing whose path has a word in it."""

    word, number = "", errno.EACCES

    def open(self, path: str | os.PathLike[str], flags: int, mode: int = 0o777) -> int:
        if self.word and self.word in str(path):
            raise OSError(self.number, os.strerror(self.number), str(path))
        return os.open(path, flags, mode)


async def until(holds: Callable[[], Awaitable[object]]) -> None:
    end = asyncio.get_running_loop().time() + 20
    while not await holds():
        assert asyncio.get_running_loop().time() < end, "it does not come true"
        await asyncio.sleep(0.02)


async def failed(caller: Caller) -> dict[str, Any]:
    """Returns the jobs that `/overview` shows as failed."""
    told = await caller.ask("GET", "/overview")
    assert told.status == 200
    return {it["job"]: it["failed"] for it in told.json["jobs"] if it["failed"] is not None}


async def metric(caller: Caller, name: str) -> float:
    text = (await caller.ask("GET", "/metrics")).body.decode()
    found = [line for line in text.splitlines() if line.startswith(f"{name} ")]
    return float(found[0].rpartition(" ")[2]) if found else 0.0


async def internal_errors(caller: Caller) -> int:
    return (await caller.ask("GET", "/metrics")).body.count(b"hourstable_internal_errors_total{")


async def other_job_is_served(caller: Caller) -> None:
    other = Caller(caller.url, caller.session, "other")
    assert (await other.grant(1)).status == 200
    assert (await other.get("/phase")).status == 200


async def test_a_job_may_have_the_name_of_any_file_of_a_plane(tmp_path: Path) -> None:
    """Nothing that a plane keeps stands where a job's log would."""
    for _ in range(2):  # it starts again
        async with ControlPlane(options(tmp_path)) as plane, aiohttp.ClientSession() as session:
            for name in ("control-0.ticket", "state", "control-1.ticket"):
                caller = Caller(f"http://127.0.0.1:{plane.port}", session, name)
                assert (await caller.create()).status in (200, 201)
                assert (await caller.get()).status == 200
            assert await failed(caller) == {}
    async with ControlPlane(options(tmp_path, process=1)):  # another one, whose file was a job's name
        pass


async def test_tickets_go_on_from_where_older_versions_kept_them(tmp_path: Path) -> None:
    ahead = real_milliseconds() + 3_600_000
    (tmp_path / "logs").mkdir()
    old = Tickets(0, tmp_path / "logs" / "control-0.ticket", now=lambda: ahead)
    last = old.draw()
    with pytest.raises(BlockingIOError):  # while a plane of the older version runs
        await ControlPlane(options(tmp_path)).start()
    old.close()
    async with ControlPlane(options(tmp_path)) as plane:
        assert plane.plane is not None and plane.plane.tickets.draw() > last
    assert (tmp_path / "logs.state" / "control-0.ticket").is_file()
    assert not (tmp_path / "logs" / "control-0.ticket").exists()


def test_the_folder_of_state(tmp_path: Path, monkeypatch: pytest.MonkeyPatch) -> None:
    monkeypatch.delenv("STATE_DIRECTORY", raising=False)
    assert state_folder(None, tmp_path / "logs") == tmp_path / "logs.state"
    monkeypatch.setenv("STATE_DIRECTORY", str(tmp_path / "of-systemd"))
    assert state_folder(None, tmp_path / "logs") == tmp_path / "of-systemd"
    assert state_folder(tmp_path / "given", tmp_path / "logs") == tmp_path / "given"
    assert oct((tmp_path / "given").stat().st_mode & 0o777) == "0o700"
    (tmp_path / "file").write_text("")
    with pytest.raises(OSError, match="--state"):
        state_folder(tmp_path / "file" / "below", tmp_path / "logs")


@pytest.mark.parametrize("number", [errno.EACCES, errno.ENOSPC])
async def test_a_job_whose_log_cannot_be_opened_is_not_stored(
    file: Store, tmp_path: Path, number: int
) -> None:
    system = Refusing()
    async with running(file, tmp_path / "logs", system=system) as (_, caller):
        await begun(Caller(caller.url, caller.session, "other"))
        system.word, system.number = "/shop/", number
        told = await caller.create()
        assert (told.status, told.json["refused"]) == (503, "disk")
        assert os.strerror(number) in told.json["error"] and "Retry-After" in told.headers
        assert await file.jobs() == ["other"]
        await other_job_is_served(caller)
        system.word = ""
        assert (await caller.create()).status == 201


async def test_a_log_that_cannot_be_opened_after_the_job_is_stored(file: Store, tmp_path: Path) -> None:
    """The job is there, shown as failed, and well once the log can be opened: the same for a plane that is alone."""
    system = Refusing()
    async with running(file, tmp_path / "logs", system=system) as (_, caller):
        await begun(Caller(caller.url, caller.session, "other"))
        system.word = ".jsonl"
        assert (await caller.create()).status == 503
        assert await file.jobs() == ["other", "shop"]
        assert list(await failed(caller)) == ["shop"]
        await other_job_is_served(caller)
        system.word = ""

        async def is_well() -> bool:
            return await failed(caller) == {}

        await until(is_well)
        assert (await caller.create()).status == 200


async def test_a_file_where_the_folder_of_a_job_should_be(file: Store, tmp_path: Path) -> None:
    """The job is not created; if another plane has created it, it is shown as failed, and is served once the file is
    gone. The other job is served all the time."""
    async with running(file, tmp_path / "elsewhere") as (_, caller):
        for name in ("shop", "other"):
            await begun(Caller(caller.url, caller.session, name))
    (tmp_path / "logs").mkdir()
    for name in ("shop", "cart"):
        (tmp_path / "logs" / name).write_text("no folder")
    async with running(file, tmp_path / "logs", shared=True, standby=0.0) as (_, caller):
        cart = Caller(caller.url, caller.session, "cart")
        assert (await cart.create()).status == 503
        assert await file.jobs() == ["other", "shop"]
        assert (await caller.grant(1)).status == 503
        shown = (await failed(caller))["shop"]
        assert "exists" in shown["why"] and shown["tries"] >= 1
        assert await metric(caller, 'hourstable_job_failed{job="shop"}') == 1
        assert await metric(caller, 'hourstable_job_failed{job="other"}') == 0
        assert await metric(caller, 'hourstable_job_failures_total{job="shop"}') >= 1
        await other_job_is_served(caller)
        (tmp_path / "logs" / "shop").unlink()

        async def is_well() -> bool:
            return await failed(caller) == {}

        await until(is_well)
        assert (await caller.grant(1)).status == 200
        assert await internal_errors(caller) == 0


DAMAGES = {
    "lives that are no object": ("lives", "[1]"),
    "a life that is no pair": ("lives", '{"1":7}'),
    "a task that is no number": ("lives", '{"x":[1,0]}'),
    "a policy that is none": ("policy", "{}"),
    "a policy that is no JSON": ("policy", "}"),
    "a line that is none": ("line", "7"),
    "a line without a ticket": ("line", "0 {}"),
    "kept values that are none": ("kept", "[]"),
}


@pytest.mark.parametrize("damage", DAMAGES)
async def test_a_row_that_is_damaged(tmp_path: Path, damage: str) -> None:
    column, text = DAMAGES[damage]
    async with opened(f"sqlite:{tmp_path}/jobs") as store:
        async with running(store, tmp_path / "logs") as (_, caller):
            for name in ("shop", "other"):
                await begun(Caller(caller.url, caller.session, name))
    with sqlite3.connect(f"{tmp_path}/jobs") as connection:
        before = connection.execute(f"SELECT {column} FROM jobs WHERE job = 'shop'").fetchone()[0]
        connection.execute(f"UPDATE jobs SET {column} = ? WHERE job = 'shop'", (text,))
    connection.close()
    async with opened(f"sqlite:{tmp_path}/jobs") as store:
        async with running(store, tmp_path / "logs") as (_, caller):
            told = await caller.grant(1)
            assert (told.status, told.json["refused"]) == (503, "damaged"), told
            assert "shop" in told.json["error"]
            assert list(await failed(caller)) == ["shop"]
            await other_job_is_served(caller)
            with sqlite3.connect(f"{tmp_path}/jobs") as connection:
                connection.execute(f"UPDATE jobs SET {column} = ? WHERE job = 'shop'", (before,))
            connection.close()

            async def is_well() -> bool:
                return await failed(caller) == {}

            await until(is_well)
            assert (await caller.grant(1)).status == 200
            assert await internal_errors(caller) == 0


async def test_a_policy_that_is_missing_in_etcd(running_etcd: str, job: str, tmp_path: Path) -> None:
    async with opened(running_etcd) as store:
        assert isinstance(store, EtcdStore)
        bad, good = f"{job}-bad", f"{job}-good"
        async with running(store, tmp_path / "logs", shared=True) as (_, caller):
            for name in (bad, good):
                await begun(Caller(caller.url, caller.session, name))
        key = b64encode(f"{EtcdStore.POLICY}{bad}".encode()).decode()
        await store.in_time(store._ask("deleterange", {"key": key}))
        with pytest.raises(Damaged, match="policy"):
            await store.load(bad)
        async with running(store, tmp_path / "logs", shared=True) as (_, caller):
            assert bad in await failed(caller)
            assert (await Caller(caller.url, caller.session, good).grant(1)).status == 200
            assert (await Caller(caller.url, caller.session, bad).grant(1)).status == 503


@pytest.fixture
def running_etcd(running: Callable[[str], str]) -> str:
    return running("etcd")


class Full(System):
    """A system whose disk may be full: a write has no space, and a mapped page is not written back."""

    def __init__(self) -> None:
        self.is_full = self.is_broken = False
        self.spares = 0  # lines of gaps for which a full disk has room

    def write(self, file: int, data: bytes) -> int:
        if self.is_full and data.startswith(logs.GAP) and self.spares > 0:
            self.spares -= 1
        elif self.is_full:
            raise OSError(errno.ENOSPC, os.strerror(errno.ENOSPC))
        return os.write(file, data)

    def flush(self, memory: mmap.mmap) -> None:
        if self.is_broken:
            raise OSError(errno.EIO, os.strerror(errno.EIO))


@pytest.mark.parametrize("ahead", [(0, 0), (256, 60_000)])
async def test_calls_on_a_full_disk(file: Store, tmp_path: Path, ahead: tuple[int, int]) -> None:
    """All are answered, and stored before; the log lacks their lines, says so, and goes on with a restored table."""
    system = Full()
    async with running(file, tmp_path / "logs", ahead=ahead, system=system) as (_, caller):
        await begun(caller)
        await caller.begin(1)
        await caller.begin(2)
        system.is_full = True
        assert [(await caller.grant(1)).status for _ in range(3)] == [200, 200, 200]
        assert (await caller.post("take", {"assigner": 2})).status == 409
        assert (await caller.post("tasks/1/life")).json["life"] == 2
        assert await failed(caller) == {}
        assert await metric(caller, 'hourstable_log_lines_missing_total{job="shop"}') == 4
        granted = granted_in(await file.load("shop"))
        system.is_full = False
        await asyncio.sleep(AGAIN)
        assert (await caller.grant(1)).status == 200
        assert await internal_errors(caller) == 0
    calls = [it["do"] for it in lines_of(tmp_path / "logs")]
    assert calls[-2:] == ["restore", "grant"], calls
    gap, = gaps_of(tmp_path / "logs/shop")
    assert gap.missing in (3, 4) and granted >= 3
    after = [it["do"] for it in lines_of(tmp_path / "logs") if it["ticket"] > gap.first]
    assert after == ["take", "restore", "grant"]  # the first one is of the last write, which the store had


@pytest.mark.parametrize("spares", [0, 1])
async def test_a_plane_that_is_killed_on_a_full_disk(file: Store, tmp_path: Path, spares: int) -> None:
    """The next process logs what the store has: what is missing, also if there was no room to say so, and the calls
    of the last write."""
    system, folder = Full(), tmp_path / "logs/shop"
    async with running(file, tmp_path / "logs", ahead=(256, 60_000), system=system) as (_, caller):
        await begun(caller)
        system.is_full, system.spares = True, spares
        for _ in range(3):
            assert (await caller.grant(1)).status == 200
    assert [gap.missing for gap in gaps_of(folder)] == [1][:spares]
    system.is_full = False
    async with running(file, tmp_path / "logs", ahead=(256, 60_000)) as (_, caller):
        assert (await caller.grant(1)).status == 200
    assert [gap.missing for gap in gaps_of(folder)] == [3]  # of which the last one is logged now
    assert [it["do"] for it in lines_of(tmp_path / "logs")][-3:] == ["grant", "restore", "grant"]


async def test_a_plane_that_goes_on_where_a_disk_is_full(file: Store, tmp_path: Path) -> None:
    """It starts twice, and says nothing on its own disk: the next one logs what all lacked."""
    system = Full()
    async with running(file, tmp_path / "logs") as (_, caller):
        await begun(caller)
    system.is_full = True
    for _ in range(2):
        async with running(file, tmp_path / "logs", system=system) as (_, caller):
            assert [(await caller.grant(1)).status for _ in range(2)] == [200, 200]
    async with running(file, tmp_path / "logs") as (_, caller):
        assert (await caller.grant(1)).status == 200
    gap, = gaps_of(tmp_path / "logs/shop")
    calls = [it["do"] for it in lines_of(tmp_path / "logs") if it["ticket"] > gap.first]
    assert gap.missing == 5 and calls == ["grant", "restore", "grant"]


async def test_a_plane_starts_on_a_full_disk(file: Store, tmp_path: Path) -> None:
    system = Full()
    async with running(file, tmp_path / "elsewhere") as (_, caller):
        await begun(caller)
    system.is_full = True
    async with running(file, tmp_path / "logs", system=system) as (_, caller):
        assert (await caller.grant(1)).status == 200
        assert await failed(caller) == {}
        assert await metric(caller, 'hourstable_log_lines_missing_total{job="shop"}') >= 1


async def test_a_plane_without_logs(file: Store, tmp_path: Path) -> None:
    async with running(file, None, state=tmp_path / "state") as (_, caller):
        await begun(caller)
        assert (await caller.grant(1)).status == 200
    async with running(file, None, state=tmp_path / "state") as (_, caller):  # and takes it over again
        assert (await caller.grant(1)).status == 200
        assert await metric(caller, 'hourstable_log_lines_missing_total{job="shop"}') == 0
    assert list(tmp_path.rglob("*.jsonl")) == []


async def test_the_options_of_a_plane_without_logs(tmp_path: Path, monkeypatch: pytest.MonkeyPatch) -> None:
    monkeypatch.delenv("STATE_DIRECTORY", raising=False)
    words = ["control", "--store", f"sqlite:{tmp_path}/jobs", "--listen", "127.0.0.1:0", "--no-logs"]
    with pytest.raises(ValueError, match="--state"):
        await ControlPlane(options_of(parser().parse_args(words))).start()
    async with ControlPlane(options_of(parser().parse_args([*words, "--state", str(tmp_path / "state")]))) as plane:
        assert plane.plane is not None and plane.plane.settings.logs is None
    with pytest.raises(SystemExit):
        parser().parse_args(words[:-1])


def granted_in(stored: Stored | None) -> int:
    """Returns how many grants are stored as made."""
    assert stored is not None
    return int(json.loads(stored.kept)["value"]["granted"])


async def test_a_failure_whose_callers_went_to_another_plane_lapses(file: Store, tmp_path: Path) -> None:
    system, limits = Full(), Limits(patience=0.5)
    async with running(file, tmp_path / "logs", limits=limits, system=system) as (plane, caller):
        await begun(caller)
        system.is_broken = True
        plane.tickets.observe(plane.tickets.draw() + (60_000 << 16))  # the next draw is to be kept
        assert (await caller.grant(1)).status == 503
        system.is_broken = False
        assert list(await failed(caller)) == ["shop"]

        async def is_well() -> bool:
            return await failed(caller) == {}

        await until(is_well)


def test_failures() -> None:
    failures = Failures()
    for at, what in enumerate(("read", "call", "read")):
        failures.failed("shop", what, OSError(5, "broken"), float(at))
    assert failures.of("shop") == ("[Errno 5] broken", 0.0, 2, 2.0, False) and failures.of("cart") is None
    first = failures.of("shop")
    assert first is not None
    assert first.value(4.04) == {"why": "[Errno 5] broken", "seconds": 4.0, "tries": 2}
    failures.lapse("shop", "call", 1.0)
    failures.well("shop", "read")
    assert failures.of("shop") == ("[Errno 5] broken", 1.0, 1, 1.0, False) and list(failures) == ["shop"]
    failures.lapse("shop", "call", 1.1)
    assert failures.of("shop") is None and "shop" not in failures
    failures.failed("shop", "read", KeyError("x"), 5.0)
    failures.failed("cart", "read", StoreFailed("no answer"), 5.0)
    assert failures.of_plane() == {"shop"} and "cart" in failures
    failures.forget("shop")
    failures.forget("cart")
    assert list(failures) == []


async def test_a_disk_on_which_tickets_cannot_be_kept(file: Store, tmp_path: Path) -> None:
    system = Full()
    async with running(file, tmp_path / "logs", system=system) as (plane, caller):
        await begun(caller)
        system.is_broken = True
        plane.tickets.observe(plane.tickets.draw() + (60_000 << 16))  # the next draw is to be kept
        for told in (await caller.grant(1), await caller.get("/phase"), await caller.grant(1)):
            assert (told.status, told.headers["Retry-After"]) == (503, "1")
        assert (await caller.ask("GET", "/healthz")).status == 200
        system.is_broken = False
        assert (await caller.grant(1)).status == 200


class Counting(System):
    """A system that counts the files that are open."""

    is_open = 0

    def open(self, path: str | os.PathLike[str], flags: int, mode: int = 0o777) -> int:
        self.is_open += 1
        return os.open(path, flags, mode)

    def close(self, file: int) -> None:
        self.is_open -= 1
        os.close(file)


class WithoutLives:
    """A store that tells no lives while `fails`."""

    fails = True

    def __init__(self, inner: Store) -> None:
        self._inner = inner

    def __getattr__(self, name: str) -> Any:
        return getattr(self._inner, name)

    async def lives(self, job: str) -> dict[int, Life]:
        if self.fails:
            raise StoreFailed("on purpose")
        return await self._inner.lives(job)


async def test_a_job_that_cannot_be_loaded_leaves_no_file_open(file: Store, tmp_path: Path) -> None:
    async with running(file, tmp_path / "logs") as (_, caller):
        await begun(caller)
    store, system = WithoutLives(file), Counting()
    given: Any = store
    async with running(given, tmp_path / "logs", system=system) as (_, caller):
        for _ in range(5):
            assert (await caller.get()).status == 503

        async def are_open() -> bool:  # the poller tries it, too
            return system.is_open == expected

        expected = 1  # the file of tickets
        await until(are_open)
        store.fails = False
        assert (await caller.get()).status == 200
        expected = 2
        await until(are_open)


async def test_old_logs_are_read_beside_the_loop(
    file: Store, tmp_path: Path, monkeypatch: pytest.MonkeyPatch
) -> None:
    """A plane that takes a job over looks for lines in days of logs, and answers others meanwhile."""
    async with running(file, tmp_path / "logs") as (_, caller):
        await begun(caller)
    goes_on, waited, lacking = threading.Event(), list[bool](), logs.Log.lacking

    def slowly(self: logs.Log, lines: Sequence[str]) -> list[str]:
        waited.append(goes_on.wait(20))
        return lacking(self, lines)

    monkeypatch.setattr(logs.Log, "lacking", slowly)
    async with running(file, tmp_path / "logs") as (_, caller):
        granting = asyncio.create_task(caller.grant(1))
        await asyncio.sleep(0.5)
        assert (await caller.ask("GET", "/healthz")).status == 200
        goes_on.set()
        assert (await granting).status == 200
    assert waited == [True]


async def test_the_last_readings_of_old_logs_are_read_beside_the_loop(
    file: Store, tmp_path: Path, monkeypatch: pytest.MonkeyPatch
) -> None:
    async with running(file, tmp_path / "logs") as (_, caller):
        await begun(caller)
    goes_on, waited, last_reading = threading.Event(), list[bool](), logs.Log.last_reading

    def slowly(self: logs.Log) -> int:
        waited.append(goes_on.wait(20))
        return last_reading(self)

    monkeypatch.setattr(logs.Log, "last_reading", slowly)
    asyncio.get_running_loop().call_later(0.2, goes_on.set)  # which a loop that waits itself does too late
    async with running(file, tmp_path / "logs"):
        assert waited == [True]


class Surprising:
    """A store of which one job raises what nobody expects."""

    def __init__(self, inner: Store) -> None:
        self._inner = inner

    def __getattr__(self, name: str) -> Any:
        return getattr(self._inner, name)

    async def version(self, job: str) -> int | None:
        if job == "shop":
            raise KeyError("what nobody expects")
        return await self._inner.version(job)


class Unreadable(Surprising):
    """A store that raises what nobody expects when one job is loaded."""

    async def load(self, job: str) -> Stored | None:
        if job == "shop":
            raise KeyError("what nobody expects")
        return await self._inner.load(job)


async def test_several_grants_of_which_one_fails(file: Store, tmp_path: Path) -> None:
    """Each is answered by itself, also if what nobody expects is met for one job."""
    async with running(file, tmp_path / "logs") as (_, caller):
        for name in ("other", "shop"):
            other = Caller(caller.url, caller.session, name)
            await begun(other)
            await other.begin(1)
    store: Any = Unreadable(file)
    async with running(store, tmp_path / "logs") as (_, caller):
        asked = [{"job": job, "task": 1, "life": 1} for job in ("shop", "other", "shop")]
        told = await caller.ask("POST", "/grants", {"grants": asked})
        assert [it["status"] for it in told.json["answers"]] == [500, 200, 500]
        assert "KeyError" in (await failed(caller))["shop"]["why"]
        assert await internal_errors(caller) >= 1


async def test_the_poller_goes_on_whatever_a_job_raises(file: Store, tmp_path: Path) -> None:
    async with running(file, tmp_path / "logs") as (_, caller):
        for name in ("other", "shop"):
            await begun(Caller(caller.url, caller.session, name))
    store: Any = Surprising(file)
    async with running(store, tmp_path / "logs", 1, shared=True, standby=0.0) as (plane, caller):

        async def is_told() -> bool:
            return await metric(caller, 'hourstable_internal_errors_total{where="job read"}') >= 1

        await until(is_told)
        assert "KeyError" in (await failed(caller))["shop"]["why"]
        async with running(file, tmp_path / "logs", 2, shared=True, standby=0.0) as (_, second):
            assert (await Caller(second.url, second.session, "third").create()).status == 201

        async def is_seen() -> bool:
            return "third" in plane.jobs

        await until(is_seen)


async def test_the_poller_goes_on_after_the_store_failed(
    file: Store, tmp_path: Path, caplog: pytest.LogCaptureFixture
) -> None:
    reached: Any = Reached(file)
    async with running(reached, tmp_path / "logs", 1, shared=True, standby=0.4) as (plane, _):
        reached.is_cut = True
        await until_told(lambda: "the store was not read" in caplog.text)
        reached.is_cut = False
        async with running(file, tmp_path / "logs", 2, shared=True, standby=0.4) as (_, second):
            assert (await Caller(second.url, second.session, "third").create()).status == 201
        await until_told(lambda: "third" in plane.jobs)
