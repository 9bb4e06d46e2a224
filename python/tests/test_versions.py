"""Calls and rows have versions: what is newer is refused by name, and what is older is taken."""

import asyncio
import json
import time
from collections.abc import Awaitable, Callable, Mapping
from contextlib import AsyncExitStack
from pathlib import Path
from typing import Any

import pytest

import needed

needed.library()

from hourstable import versions  # noqa: E402
from hourstable.calls import Control, Wrong  # noqa: E402
from hourstable.clock import local_clock  # noqa: E402
from hourstable.command import is_loopback, options_of, parser, warn_of_callers  # noqa: E402
from hourstable.desk import HttpDesk  # noqa: E402
from hourstable.peers import Beat, Peers  # noqa: E402
from hourstable.recover import recover  # noqa: E402
from hourstable.rights import AFTER_BACKUP, PLAIN, WENT_BACK, Asked, NotAdmitted, Rights  # noqa: E402
from hourstable.store import Damaged, Holding, Store, Stored  # noqa: E402
from hourstable.tickets import NoTickets  # noqa: E402
from hourstable.transport import Fetched  # noqa: E402
from serving import Caller, running  # noqa: E402
from waits import until  # noqa: E402

NEWER = {versions.HEADER: str(versions.SPEAKS + 1)}


async def begun(caller: Caller) -> None:
    assert (await caller.create()).status == 201
    await caller.change(await caller.take(), 1, [[0, [1]]])


async def test_a_plane_refuses_newer_calls_by_name(file: Store, tmp_path: Path) -> None:
    async with running(file, tmp_path / "logs") as (_, caller):
        await begun(caller)
        await caller.begin(1)
        body = {"task": 1, "life": 1}
        other: dict[str, str] = {versions.HEADER: "x"}
        for headers, status in ((NEWER, 400), (other, 400), (versions.SAYS, 200), (dict[str, str](), 200)):
            told = await caller.ask("POST", "/jobs/shop/grant", body, headers)
            assert (told.status, told.headers[versions.HEADER]) == (status, str(versions.SPEAKS)), headers
            if headers == NEWER:
                assert told.json["refused"] == "version" and "is of version 2" in told.json["error"]
        assert (await caller.ask("GET", "/healthz", None, NEWER)).status == 200  # a probe knows no versions


class Newer:
    """A plane whose answers are newer, and who was asked what it was told."""

    def __init__(self) -> None:
        self.headers: Mapping[str, str] = {}

    async def fetch(self, method: str, url: str, headers: Mapping[str, str], body: bytes | None) -> Fetched:
        self.headers = headers
        return Fetched(200, NEWER, b"{}")

    async def close(self) -> None:
        pass


async def test_a_caller_refuses_newer_answers_by_name() -> None:
    newer: Any = Newer()
    control = Control("http://plane:1", "shop", NoTickets(), local_clock(), transport=newer)
    with pytest.raises(Wrong, match="the answer is of version 2") as found:
        await control.read(lambda answer: answer.value(), "GET")
    assert found.value.word == "version"
    assert newer.headers[versions.HEADER] == str(versions.SPEAKS)


async def test_an_assigner_says_its_version() -> None:
    newer: Any = Newer()
    desk = HttpDesk(["http://plane:1"], NoTickets(), transport=newer)
    await desk._fetch("GET", "http://plane:1/jobs", None)
    assert newer.headers[versions.HEADER] == str(versions.SPEAKS)


def test_a_row_has_the_oldest_form_that_says_what_it_says() -> None:
    """Planes of the release before read it."""
    rights = Rights(b"secret")
    assert json.loads(rights.text(None))["version"] == PLAIN
    for changed in ({"floor": 7}, {"quiet": 9}, {"state": WENT_BACK}):
        newer = Rights(b"secret", **changed)  # type: ignore[arg-type]
        text = newer.text(5)
        assert json.loads(text)["version"] == AFTER_BACKUP
        assert Rights.read("shop", text) == Rights(b"secret", ticket=5, **changed)  # type: ignore[arg-type]


# Planes of several versions. ---------------------------------------------------------------------

FLOOR, QUIET, STANDBY = 70_000, 5_000, 0.4


def test_a_beat_says_which_rows_its_plane_reads() -> None:
    for reads in (1, 2, 7):
        assert Beat.read(Beat("one", "", 1, {}, frozenset(), reads=reads).text()).reads == reads
    before = json.loads(Beat("one", "", 1, {}, frozenset()).text())
    del before["reads"]
    assert Beat.read(json.dumps(before)).reads == versions.ROWS_BEFORE


def beat_of(number: int, reads: int, has_ended: bool = False) -> str:
    return Beat(f"plane {number}", "", number, {}, frozenset(), has_ended, reads=reads).text()


async def test_planes_that_beat_bound_the_form_of_rows(file: Store) -> None:
    peers = Peers(file, 0, "mine", 1.0, lambda: 0.0, reads=7)

    async def reads_beside(*texts: str) -> int:
        """Returns what all read once other planes wrote a beat each."""
        for process, text in enumerate(texts, 1):
            await file.beat(process, text)
        await peers.beat({}, frozenset())
        return peers.reads()

    assert await reads_beside() == 7
    assert await reads_beside(beat_of(1, 9), beat_of(1, 5)) == 5
    assert await reads_beside(beat_of(2, 9), "nothing that is a beat") == versions.ROWS_BEFORE
    assert await reads_beside(beat_of(3, 9), beat_of(3, 4)) == 4
    assert await reads_beside(beat_of(4, 9), beat_of(4, 4, has_ended=True)) == 7
    assert await reads_beside(beat_of(5, 3)) == 3
    for _ in range(3):
        assert await reads_beside() == 3
    assert await reads_beside() == 7  # its beat stood still for so long that it counts as gone


def test_the_plain_form_keeps_what_is_promised_after_a_recovery() -> None:
    """No life of before gets a lease, and no other one before the leases of before have ended."""
    made = Rights(b"secret", floor=FLOOR, quiet=QUIET)
    made.fit(AFTER_BACKUP)
    assert (made.floor, made.quiet, made.is_changed) == (FLOOR, QUIET, False)
    made.fit(PLAIN)
    plain = Rights.read("shop", made.text(None), PLAIN)
    for task in (1, 64):
        asked = [Asked(task, life, plain.key(task, life)) for life in (1, FLOOR - 1, FLOOR, FLOOR + 1)]
        for one in asked:
            with pytest.raises(NotAdmitted):
                plain.judge(one, QUIET - 1, 0)
        for one in asked[:3]:
            with pytest.raises(NotAdmitted, match="overtaken|evicted"):
                plain.judge(one, QUIET, 0)
        plain.judge(asked[3], QUIET, 0)


def test_a_life_that_was_let_in_stays_in_the_plain_form() -> None:
    made = Rights(b"secret", floor=FLOOR, quiet=QUIET)
    asked = Asked(3, FLOOR + 1, made.key(3, FLOOR + 1))
    made.admit(asked)
    made.reach(3, QUIET + 1000)
    made.fit(PLAIN)
    made.judge(asked, QUIET + 500, QUIET + 1000)
    with pytest.raises(NotAdmitted, match="waiting"):
        made.judge(Asked(3, FLOOR + 2, made.key(3, FLOOR + 2)), QUIET + 500, QUIET + 1000)


def test_a_job_that_is_stopped_stays_in_its_form() -> None:
    made = Rights(b"secret", state=WENT_BACK)
    made.fit(PLAIN)
    with pytest.raises(Damaged, match="is of form 2; this version of Hourstable reads those up to 1"):
        Rights.read("shop", made.text(None), PLAIN)


async def until_it(holds: Callable[[], Awaitable[bool]]) -> None:
    """Waits until something that is asked for holds."""
    end = time.monotonic() + 30
    while not await holds():
        assert time.monotonic() < end, "it does not come true"
        await asyncio.sleep(0.02)


async def form_in(store: Store, job: str) -> int:
    stored = await store.load(job)
    assert stored is not None
    form: int = json.loads(stored.rights)["version"]
    return form


async def served(caller: Caller, task: int) -> int:
    """Begins a life of a task, waits until it has a lease, and returns it."""
    drawn = (await caller.post(f"tasks/{task}/life")).json
    asked = {"task": task, "life": drawn["life"], "key": drawn["key"]}

    async def is_granted() -> bool:
        return (await caller.post("grant", asked)).status == 200

    await until_it(is_granted)
    life: int = drawn["life"]
    return life


async def recovered(store: Store, job: str, logs: Path) -> int:
    """Serves a job, and recovers it after its plane has ended. Returns the life that this has lost."""
    async with running(store, logs, shared=True, standby=STANDBY) as (_, caller):
        caller.job = job
        await begun(caller)
        lost = await served(caller, 1)
    await recover(store, [job], watch=0)
    return lost


async def test_a_row_that_was_recovered_goes_back_to_a_plane_of_before(
    store: Store, job: str, tmp_path: Path
) -> None:
    """The holder writes it once more as soon as the older plane beats, which takes the job over then."""
    logs = tmp_path / "logs"
    lost = await recovered(store, job, logs)
    assert await form_in(store, job) == AFTER_BACKUP
    async with running(store, logs, 1, True, STANDBY, row_form=PLAIN) as (_, second):
        second.job = job
        assert (await second.get()).status == 503  # nobody holds the job who could write it
    async with AsyncExitStack() as stack:
        async with running(store, logs, 0, True, STANDBY) as (_, caller):
            caller.job = job
            life = await served(caller, 1)
            assert await form_in(store, job) == AFTER_BACKUP
            beside = running(store, logs, 1, True, STANDBY, row_form=PLAIN)
            older, second = await stack.enter_async_context(beside)
            second.job = job

            async def is_plain() -> bool:
                return await form_in(store, job) == PLAIN and (await second.get()).status == 200

            await until_it(is_plain)
        await until(lambda: older.jobs[job].job.is_held)
        assert await served(second, 1) > life > lost
        assert (await second.post("grant", {"task": 2, "life": lost})).json["refused"] == "overtaken"
    assert await form_in(store, job) == PLAIN


async def test_a_newer_plane_takes_a_recovered_job_from_one_that_does_not_read_its_row(
    store: Store, job: str, tmp_path: Path
) -> None:
    """The older plane beats, and counts as the holder: it was that before the job was recovered."""
    logs = tmp_path / "logs"
    lost = await recovered(store, job, logs)
    async with running(store, logs, 0, True, STANDBY, row_form=PLAIN) as (_, first):
        first.job = job
        assert (await first.get()).status == 503
        async with running(store, logs, 1, True, STANDBY) as (newer, second):
            second.job = job
            assert await served(second, 1) > lost
            assert newer.jobs[job].job.is_held and await form_in(store, job) == PLAIN

            async def is_read() -> bool:
                return (await first.get()).status == 200

            await until_it(is_read)


async def test_a_recovered_job_stays_with_a_plane_that_reads_its_row(file: Store, tmp_path: Path) -> None:
    logs = tmp_path / "logs"
    async with running(file, logs, shared=True, standby=STANDBY) as (_, caller):
        await begun(caller)
        await served(caller, 1)
    await recover(file, ["shop"], watch=0)
    async with running(file, logs, 0, True, STANDBY) as (plane, caller):
        await served(caller, 1)
        async with running(file, logs, 1, True, STANDBY) as (other, _):
            await until(lambda: other.peers.others() == [0] and "shop" in other.jobs)
            await asyncio.sleep(2 * STANDBY)
            assert plane.jobs["shop"].job.is_held and await form_in(file, "shop") == AFTER_BACKUP


async def test_an_upgrade_is_taken_back_half_way(store: Store, job: str, tmp_path: Path) -> None:
    """Whoever writes the row, planes of both versions read it."""
    logs = tmp_path / "logs"
    lives: list[int] = []
    for process, form in ((0, PLAIN), (1, versions.ROWS), (0, PLAIN), (1, PLAIN)):
        async with running(store, logs, process, True, STANDBY, row_form=form) as (plane, caller):
            caller.job = job
            if not lives:
                await begun(caller)
            lives.append(await served(caller, 1))
            assert plane.jobs[job].job.is_held and await form_in(store, job) == PLAIN
    assert lives == sorted(set(lives))


async def newer(store: Store, job: str) -> Stored:
    """Writes the row of a job as a newer version would."""
    stored = await store.load(job)
    assert stored is not None
    rights = json.dumps({**json.loads(stored.rights), "version": versions.ROWS + 1})
    holding = Holding(stored.holder, "newer", rights)
    await store.swap(job, stored.version, stored.kept, stored.line, holding)
    return stored


async def test_a_newer_row_is_refused_by_name_and_others_are_served(store: Store, job: str, tmp_path: Path) -> None:
    async with running(store, tmp_path / "logs", shared=True, standby=STANDBY) as (_, caller):
        for name in (f"{job}-other", job):
            caller.job = name
            await begun(caller)
            await served(caller, 1)
        stored = await newer(store, job)

        async def is_refused() -> bool:
            told = await caller.post("grant", {"task": 1, "life": 1})
            return told.status == 503 and "is of form 3; this version of Hourstable reads those up to 2" in str(told)

        await until_it(is_refused)
        jobs = {it["job"]: it for it in (await caller.ask("GET", "/overview")).json["jobs"]}
        assert "run a newer one" in jobs[job]["failed"]["why"] and not jobs[f"{job}-other"]["failed"]
        after = await store.load(job)
        assert after is not None and (after.holder, after.kept) == ("newer", stored.kept)  # it wrote nothing
        caller.job = f"{job}-other"
        await served(caller, 1)


async def test_a_plane_of_before_gives_no_lease_once_the_store_went_back(file: Store, tmp_path: Path) -> None:
    """The plane that notices it stores that in a form which the other one does not read."""
    logs = tmp_path / "logs"
    async with running(file, logs, 1, True, STANDBY, row_form=PLAIN) as (older, caller):
        await begun(caller)
        drawn = (await caller.post("tasks/1/life")).json
        async with running(file, logs, 0, True, STANDBY) as (plane, _):
            await until(lambda: older.peers.others() == [0] and plane.peers.others() == [1])

            async def is_stopped() -> bool:
                job = plane.jobs["shop"].job
                job.newest = job.newest._replace(version=1 << 30)  # it saw a row which the store has no more
                told = await caller.post("grant", {"task": 1, "life": drawn["life"], "key": drawn["key"]})
                why = "is of form 2; this version of Hourstable reads those up to 1"
                return told.status == 503 and why in str(told)

            await until_it(is_stopped)
            assert await form_in(file, "shop") == AFTER_BACKUP


# Lives without keys. -----------------------------------------------------------------------------


async def test_planes_that_need_keys(file: Store, tmp_path: Path) -> None:
    async with running(file, tmp_path / "logs") as (plane, caller):
        await begun(caller)
        assert (await caller.grant(1)).status == 200  # with no key, as tasks of version 1.0
        plane.settings.needs_keys = True
        told = await caller.grant(1)
        assert (told.status, told.json["refused"]) == (403, "key")
        value = {"kind": "guard", "life": 1, "number": str(1 << 32), "task": 1}
        note = json.dumps({"job": "shop", "type": "note", "value": value, "version": 2}).encode()
        assert (await caller.post("free", note)).status == 403
        assert (await caller.post("loads", {"task": 1, "loads": []})).status == 403
        drawn = (await caller.post("tasks/2/life")).json
        assert (await caller.post("grant", {"task": 2, "life": drawn["life"], "key": drawn["key"]})).status == 200


def test_the_words_of_the_command(tmp_path: Path, caplog: pytest.LogCaptureFixture) -> None:
    secrets = tmp_path / "secrets"
    secrets.write_text("the-secret-of-an-admin\n")
    secrets.chmod(0o600)
    words = ["control", "--store", "sqlite:x", "--logs", str(tmp_path), "--secret-file", str(secrets)]
    for listen, is_told in (("127.0.0.1:1", False), ("[::1]:1", False), ("localhost:1", False), ("0.0.0.0:1", True)):
        assert is_loopback(listen) != is_told
        caplog.clear()
        chosen = parser().parse_args([*words, "--listen", listen, "--need-keys"])
        assert options_of(chosen).needs_keys
        warn_of_callers(chosen)
        assert any("in the clear" in it.message for it in caplog.records) == is_told
