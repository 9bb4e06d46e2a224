"""A store that went back, as to a backup: planes stop the job, and `recover` raises all above what was answered."""

import asyncio
import json
from collections.abc import AsyncIterator, Callable
from contextlib import asynccontextmanager
from datetime import UTC, datetime
from pathlib import Path
from typing import Any

import pytest

import needed

needed.library()

from hourstable.command import main  # noqa: E402
from hourstable.control import Plane  # noqa: E402
from hourstable.jobs import policy_of  # noqa: E402
from hourstable.library import Table  # noqa: E402
from hourstable.recover import StillRuns, raised, recover  # noqa: E402
from hourstable.rights import WENT_BACK, Rights  # noqa: E402
from hourstable.store import Conflict, Damaged, Holding, Store, Stored, StoreFailed  # noqa: E402
from serving import HALF, POLICY, Answer, Caller, lines_of, running  # noqa: E402
from test_lives import loaded  # noqa: E402

GUARD = POLICY["guard"]


class Backup:
    """A copy of the row of a job, which can be put back: by a store of any kind, the row is written again."""

    def __init__(self, store: Store, job: str) -> None:
        self._store, self._job = store, job

    async def make(self) -> "Backup":
        stored = await self._store.load(self._job)
        assert stored is not None
        self.row, self.lives = stored, (await self._store.read_lives(self._job))[0]
        return self

    async def put_back(self) -> None:
        """Puts the copy back, by what the engine of the store takes."""
        now = await self._store.load(self._job)
        assert now is not None
        holding = Holding(now.holder, self.row.holder, self.row.rights)
        await self._store.swap(self._job, now.version, self.row.kept, self.row.line, holding)
        _, compared = await self._store.read_lives(self._job)
        assert await self._store.swap_lives(self._job, compared, self.lives)


class Older:
    """A store whose versions are below those of another one, as after a backup was put back."""

    def __init__(self, store: Store, below: int) -> None:
        self._store, self.below = store, below

    def __getattr__(self, name: str) -> Any:
        return getattr(self._store, name)

    async def load(self, job: str) -> Stored | None:
        stored = await self._store.load(job)
        return stored and stored._replace(version=stored.version - self.below)

    async def version(self, job: str) -> int | None:
        version = await self._store.version(job)
        return version and version - self.below

    async def swap(self, job: str, version: int, *given: Any) -> int:
        return await self._store.swap(job, version + self.below, *given) - self.below


class Slow:
    """A store that fails until it is mended, and then tells a row that is read beside another reading only after a
    while: such a row is older than what was done meanwhile."""

    def __init__(self, store: Store) -> None:
        self._store, self._is_reading = store, False
        self.mended, self.tells = False, asyncio.Event()

    def __getattr__(self, name: str) -> Any:
        return getattr(self._store, name)

    async def load(self, job: str) -> Stored | None:
        if not self.mended:
            raise StoreFailed("it is not yet mended")
        if self._is_reading:
            stored = await self._store.load(job)
            await self.tells.wait()
            return stored
        self._is_reading = True
        try:
            return await self._store.load(job)
        finally:
            self._is_reading = False


def slow(store: Store) -> Any:
    return Slow(store)


def older_than(store: Store, below: int) -> Any:
    return Older(store, below)


async def begun(caller: Caller) -> int:
    """Creates the job and commits an assignment to tasks 1 and 2. Returns the term."""
    assert (await caller.create()).status == 201
    term = await caller.take()
    await caller.change(term, 1, [[0, [1]], [HALF, [2]]])
    return term


async def drawn(caller: Caller, task: int) -> dict[str, Any]:
    """Draws a life, and returns by what it asks for leases."""
    told = (await caller.post(f"tasks/{task}/life")).json
    return {"task": task, "life": told["life"], "key": told["key"]}


async def granted(caller: Caller, asked: dict[str, Any]) -> dict[str, Any]:
    """Returns the grant that a life is given."""
    answer = await caller.post("grant", asked)
    assert answer.status == 200, answer
    value: dict[str, Any] = answer.json["value"]
    return value


def is_stopped(answer: Answer) -> bool:
    """Whether a call was not done since the store went back."""
    return answer.status == 503 and answer.json["refused"] == "damaged" and "went back" in answer.json["error"]


async def recovered(store: Store, job: str = "shop") -> None:
    assert [it.job for it in await recover(store, [job], watch=0)] == [job]


# What a plane notices. ---------------------------------------------------------------------------


async def test_a_lower_version_than_one_that_was_written_stops_the_job(file: Store, tmp_path: Path) -> None:
    older = older_than(file, 0)
    async with running(older, tmp_path / "logs") as (plane, caller):
        await begun(caller)
        one = await drawn(caller, 1)
        await granted(caller, one)
        older.below = 1
        answers = [await caller.post("grant", one) for _ in range(3)]
        assert answers[0].status == 503 and is_stopped(answers[1]) and is_stopped(answers[2])
        assert is_stopped(await caller.post("take", {"assigner": 2}))
        assert "recover" in (await caller.ask("GET", "/overview")).json["jobs"][0]["failed"]["why"]
        stored = await file.load("shop")
        assert stored is not None and Rights.read("shop", stored.rights).state == WENT_BACK
    older.below = 0
    async with running(older, tmp_path / "others") as (_, caller):  # what one noticed counts for all
        assert is_stopped(await caller.post("grant", one))


async def test_a_plane_that_stands_by_notices_what_it_saw(file: Store, tmp_path: Path) -> None:
    older = older_than(file, 0)
    async with running(file, tmp_path / "a", shared=True, state=tmp_path / "s") as (_, caller):
        await begun(caller)
        one = await drawn(caller, 1)
        await granted(caller, one)
        async with running(older, tmp_path / "b", process=1, shared=True, state=tmp_path / "s") as (other, _):
            await seen_by(other)
            older.below = 1
            await stored_by(file)
            await refused_by(caller, one)


async def test_who_asks_beside_others_for_a_job_finds_no_store_that_went_back(file: Store, tmp_path: Path) -> None:
    """A row that was read before a call is not compared with the log that has this call."""
    async with running(file, tmp_path / "logs") as (_, caller):
        await begun(caller)
        one = await drawn(caller, 1)
        await granted(caller, one)
    store = slow(file)
    async with running(store, tmp_path / "logs", poll=60) as (plane, caller):
        store.mended = True
        asking = [asyncio.create_task(plane.followed("shop")) for _ in range(3)]
        done, _ = await asyncio.wait(asking, timeout=20, return_when=asyncio.FIRST_COMPLETED)
        assert done
        await granted(caller, one)
        store.tells.set()
        assert len({id(followed) for followed in await asyncio.gather(*asking)}) == 1
        await granted(caller, one)
        assert [it["do"] for it in lines_of(tmp_path / "logs")][-3:] == ["restore", "grant", "grant"]


async def stored_by(file: Store) -> None:
    """Waits until it is stored that the store went back."""
    for _ in range(500):
        stored = await file.load("shop")
        assert stored is not None
        if Rights.read("shop", stored.rights).state == WENT_BACK:
            return
        await asyncio.sleep(0.02)
    raise AssertionError("nobody noticed that the store went back")


async def seen_by(plane: Plane) -> None:
    """Waits until a plane has read the job."""
    for _ in range(200):
        if "shop" in plane.jobs and plane.jobs["shop"].job.newest.version:
            return
        await asyncio.sleep(0.02)
    raise AssertionError("the plane does not read the job")


async def refused_by(caller: Caller, asked: dict[str, Any]) -> None:
    """Waits until the job is stopped."""
    for _ in range(200):
        if is_stopped(await caller.post("grant", asked)):
            return
        await asyncio.sleep(0.02)
    raise AssertionError("the job is not stopped")


async def test_what_another_plane_told_in_its_beat_counts(file: Store, tmp_path: Path) -> None:
    """A plane that never read the newest row is told of it."""
    older = older_than(file, 3)
    async with running(file, tmp_path / "a", shared=True, state=tmp_path / "s") as (plane, caller):
        await begun(caller)
        one = await drawn(caller, 1)
        await granted(caller, one)
        await asyncio.sleep(2 * plane.peers.interval)  # its beat says which version it wrote
        async with running(older, tmp_path / "b", process=1, shared=True, state=tmp_path / "s"):
            await refused_by(caller, one)


async def test_a_plane_that_starts_compares_with_its_log(file: Store, tmp_path: Path) -> None:
    async with running(file, tmp_path / "logs") as (_, caller):
        await begun(caller)
        backup = await Backup(file, "shop").make()
        await asyncio.sleep(0.01)
        one = await drawn(caller, 1)
        await granted(caller, one)
    await backup.put_back()
    async with running(file, tmp_path / "logs") as (_, caller):
        assert is_stopped(await caller.post("grant", one))
        assert is_stopped(await caller.get())
        await recovered(file)
        assert (await caller.get()).status == 200


async def test_a_plane_that_starts_finds_what_its_log_has(file: Store, tmp_path: Path) -> None:
    """Nothing is stopped where nothing was lost, whatever was saved ahead."""
    for _ in range(3):
        async with running(file, tmp_path / "logs", ahead=(256, 50)) as (_, caller):
            if (await caller.create()).status == 201:
                await caller.change(await caller.take(), 1, [[0, [1]]])
            assert (await caller.grant(1, 1)).status == 200


@pytest.mark.parametrize("heard", [{"number": 2}, {"generation": 2}, {"number": 1, "generation": 2}])
async def test_what_a_task_heard_counts(file: Store, tmp_path: Path, heard: dict[str, int]) -> None:
    async with running(file, tmp_path / "logs") as (_, caller):
        await begun(caller)
        one = await drawn(caller, 1)
        assert (await granted(caller, {**one, "heard": {"number": 0, "generation": 1}}))["number"] == "1"
        assert is_stopped(await caller.post("grant", {**one, "heard": heard}))
        assert is_stopped(await caller.post("grant", one))


async def test_a_life_that_the_store_does_not_know_counts_if_it_has_its_key(file: Store, tmp_path: Path) -> None:
    async with running(file, tmp_path / "logs") as (plane, caller):
        await begun(caller)
        key = plane.jobs["shop"].job.rights.key(1, 7)
        for asked in ({"task": 1, "life": 7}, {"task": 1, "life": 7, "key": "0" * 64}, {"task": 2, "life": 7}):
            assert (await caller.post("grant", asked)).status == 400  # anybody could say so
        assert is_stopped(await caller.post("grant", {"task": 1, "life": 7, "key": key}))


async def test_a_life_that_is_given_out_again_stops_the_job(file: Store, tmp_path: Path) -> None:
    """Its key is that of the life before. A plane that saves ahead would answer its grants without a write that
    meets the row of the copy."""
    async with running(file, tmp_path / "logs", ahead=(256, 60_000)) as (_, caller):
        await begun(caller)
        backup = await Backup(file, "shop").make()
        one = await drawn(caller, 1)
        await granted(caller, one)
        await backup.put_back()
        assert is_stopped(await caller.post("tasks/1/life"))
        assert is_stopped(await caller.post("grant", one))
        stored = await file.load("shop")
        assert stored is not None and Rights.read("shop", stored.rights).state == WENT_BACK


async def test_heard_is_an_object_of_numbers(file: Store, tmp_path: Path) -> None:
    async with running(file, tmp_path / "logs") as (_, caller):
        await begun(caller)
        one = await drawn(caller, 1)
        for heard in (7, [1], {"number": -1}, {"generation": "2"}, {"number": True}):
            assert (await caller.post("grant", {**one, "heard": heard})).status == 400
        assert (await caller.post("grant", {**one, "heard": {}})).status == 200


# What `recover` does. ----------------------------------------------------------------------------


def test_all_is_raised() -> None:
    policy, _ = policy_of(POLICY)
    slices = {"generation": "7", "slices": [["0", [1]]]}
    term = {"assigner": "1", "number": "3", "until": "90"}
    with Table("shop", policy) as table:
        value = json.loads(table.kept())
    value["value"] |= {"committed": slices, "granted": "10", "last": "100", "deadline": "900", "term": term}
    value["value"]["pending"] = {"generation": "8", "slices": [["0", [2]]]}
    kept = json.dumps(value).encode()
    for seconds, ends in ((0, 100), (100, 200), (1 << 28, (1 << 28) + 10)):
        made, again = (json.loads(raised("shop", policy, kept, it))["value"] for it in (seconds, ends))
        last, generation = int(made["last"]), int(made["committed"]["generation"])
        assert last > 1 << 39 and int(made["granted"]) == 505 and int(made["deadline"]) == last + GUARD
        assert generation > 7 and int(made["term"]["number"]) > 3
        assert int(made["pending"]["generation"]) == generation + 1
        # the same backup, put back later
        assert int(again["last"]) >= last + 1000 * (ends - seconds)
        assert not seconds or int(again["committed"]["generation"]) >= generation + 1000 * (ends - seconds)
        assert not seconds or int(again["term"]["number"]) >= int(made["term"]["number"]) + ends - seconds
    with pytest.raises(Damaged):
        raised("shop", policy, b'{"value":{}}', 0)


async def test_one_backup_is_put_back_twice(file: Store, tmp_path: Path) -> None:
    lives, epochs = [], []
    async with running(file, tmp_path / "logs") as (_, caller):
        await begun(caller)
    await recovered(file)
    backup = await Backup(file, "shop").make()  # of a job that was recovered before
    for number in range(2):
        await backup.put_back()
        await asyncio.sleep(2)
        await recovered(file)
        async with running(file, tmp_path / f"logs-{number}", state=tmp_path / "state") as (_, caller):
            lives.append((await drawn(caller, 1))["life"])
            epochs.append((await caller.get()).json["epoch"])
    assert lives[0] < lives[1] and epochs[0] < epochs[1]


async def test_a_store_that_went_back_is_recovered(store: Store, job: str, tmp_path: Path) -> None:
    """The procedure of OPERATIONS, over each engine."""
    async with running(store, tmp_path / "logs", shared=store.several) as (_, caller):
        caller.job = job
        await begun(caller)
        backup = await Backup(store, job).make()
        lost = await drawn(caller, 1)
        before = await granted(caller, lost)
        epoch = (await caller.get()).json["epoch"]
    await backup.put_back()
    version = (await store.load(job))._replace().version  # type: ignore[union-attr]
    await recovered(store, job)
    stored = await store.load(job)
    assert stored is not None and stored.version > version
    async with running(store, tmp_path / "later", shared=store.several, state=tmp_path / "state") as (_, caller):
        caller.job = job
        now = await after(caller, lost, epoch)
        last = int(json.loads(stored.kept)["value"]["last"])  # from where the table's clock goes on
        assert int(now["until"]) >= last + max(GUARD, POLICY["bridge"]) + GUARD  # what was lost has ended
        for name in ("number", "generation", "until"):
            assert int(now[name]) > int(before[name]), name


async def after(caller: Caller, lost: dict[str, Any], epoch: int) -> dict[str, Any]:
    """Looks at what a plane says of a job after it was recovered, and returns the first grant."""
    over = await caller.post("grant", lost)
    assert (over.status, over.json["refused"], over.json["admitted"]) == (409, "overtaken", 0)
    assert (await caller.get()).json["epoch"] > epoch
    one = await drawn(caller, 1)
    assert one["life"] > lost["life"] + 1000
    waits = await caller.post("grant", one)
    if waits.status == 409:  # unless this machine was busy for so long
        assert waits.json["refused"] == "waiting" and 0 < waits.json["after"] <= GUARD / 1000
        await asyncio.sleep(waits.json["after"])
    return await granted(caller, one)


async def test_a_plane_that_was_frozen_over_a_recovery_writes_nothing(file: Store, tmp_path: Path) -> None:
    async with running(file, tmp_path / "logs") as (plane, caller):
        await begun(caller)
        one = await drawn(caller, 1)
        await granted(caller, one)
        await recovered(file)
        assert (await caller.post("grant", one)).status == 503  # its write met another holder
        over = await caller.post("grant", one)
        assert (over.status, over.json["refused"]) == (409, "overtaken")


async def test_no_plane_of_before_a_recovery_is_the_holder(file: Store, tmp_path: Path) -> None:
    """Whichever version it writes over: a store may go back once more, and reach a version again."""
    async with running(file, tmp_path / "logs") as (_, caller):
        await begun(caller)
        await granted(caller, await drawn(caller, 1))
    before = await loaded(file)
    await recovered(file)
    after = await loaded(file)
    with pytest.raises(Conflict):
        holding = Holding(before.holder, before.holder, after.rights)
        await file.swap("shop", after.version, after.kept, after.line, holding)


async def test_the_epoch_of_a_recovery_follows_the_real_time(file: Store, tmp_path: Path) -> None:
    """A store that went back counts epochs again that it gave out."""
    async with running(file, tmp_path / "logs") as (_, caller):
        await begun(caller)
    since_2020 = (datetime.now(UTC) - datetime(2020, 1, 1, tzinfo=UTC)).total_seconds()
    await recovered(file)
    assert Rights.read("shop", (await loaded(file)).rights).epoch >= int(since_2020)


async def test_nothing_is_recovered_beside_a_plane(file: Store, tmp_path: Path) -> None:
    async with running(file, tmp_path / "logs", shared=True) as (_, caller):
        await begun(caller)
        with pytest.raises(StillRuns, match="process 0"):
            await recover(file, [], watch=0.5)
    await recover(file, [], watch=0.1)  # the beat that says that it has ended is no sign of life


@asynccontextmanager
async def stopped_planes(file: Store, folder: Path) -> AsyncIterator[None]:
    async with running(file, folder) as (_, caller):
        await begun(caller)
    yield


async def test_the_command(file: Store, tmp_path: Path, capsys: pytest.CaptureFixture[str]) -> None:
    async with stopped_planes(file, tmp_path / "logs"):
        words = ["recover", "--store", f"sqlite:{tmp_path}/jobs.sqlite"]
        run: Callable[[list[str]], int] = main
        assert await asyncio.to_thread(run, words) == 0
        assert capsys.readouterr().out == "shop: recovered. Its planes give no lease for 1 s from their start on\n"
        assert await asyncio.to_thread(run, [*words, "cart"]) == 2
        assert "there is no job cart" in capsys.readouterr().err
