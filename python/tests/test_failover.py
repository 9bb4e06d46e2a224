"""Two planes of a store: who holds a job, who takes it over, and who does the calls of tasks meanwhile."""

import asyncio
import json
import time
from collections.abc import AsyncIterator, Mapping
from contextlib import AsyncExitStack
from pathlib import Path
from typing import Any

import aiohttp
import pytest

from hourstable.calls import HOLDER
from hourstable.control import Plane
from hourstable.forwarding import HEADER
from hourstable.jobs import Job
from hourstable.peers import PART, Beat, Heard, Peers
from hourstable.store import Store, StoreFailed, open_store
from hourstable.transport import Fetched, Http
from serving import POLICY, Answer, Caller, assignment, running
from waits import until

STANDBY = 0.8  # seconds
LONG = {**POLICY, "guard": 10_000, "bridge": 10_000, "job": 60_000}
WHOLE = [[0, [1]]]


class Link(Http):
    """The way from a plane to the others. While it is cut, what is sent is lost."""

    def __init__(self) -> None:
        super().__init__()
        self.is_cut, self.sent = False, 0

    async def fetch(self, method: str, url: str, headers: Mapping[str, str], body: bytes | None) -> Fetched:
        self.sent += not url.endswith("/healthz")
        if self.is_cut:
            await asyncio.sleep(60)
        return await super().fetch(method, url, headers, body)


class Reached:
    """A store as a plane reaches it. While it is cut, each call fails after a while; so do beats alone while it is
    mute, and writes of jobs while these are locked; while it is broken, these raise what nobody expects."""

    def __init__(self, store: Store) -> None:
        self._store = store
        self.is_cut = self.is_mute = self.is_locked = self.is_broken = False

    def __getattr__(self, name: str) -> Any:
        found = getattr(self._store, name)
        if not asyncio.iscoroutinefunction(found):
            return found

        async def call(*given: Any) -> Any:
            if self.is_broken and name == "swap":
                raise RuntimeError("what nobody expects")
            if self.is_cut or (self.is_mute and name == "beat") or (self.is_locked and name == "swap"):
                await asyncio.sleep(STANDBY / 4)
                raise StoreFailed("cut off")
            return await found(*given)

        return call


class Side:
    """A plane, with the ways from it and a caller of it."""

    def __init__(self, plane: Plane, caller: Caller, store: Reached, link: Link) -> None:
        self.plane, self.caller, self.store, self.link = plane, caller, store, link

    @property
    def job(self) -> Job:
        return self.plane.jobs["shop"].job

    async def granted(self, task: int = 1) -> Answer:
        """Asks for a grant until it is given."""
        end = time.monotonic() + 60
        while (told := await self.caller.grant(task)).status != 200:
            assert told.status == 503 and time.monotonic() < end, told
            await asyncio.sleep(0.05)
        return told


@pytest.fixture
async def two(file: Store, tmp_path: Path) -> AsyncIterator[tuple[Side, Side]]:
    """Two planes, of which the first one holds the job."""
    async with AsyncExitStack() as stack:
        sides = []
        for process in (1, 2):
            reached, link = Reached(file), Link()
            given: Any = reached
            plane, caller = await stack.enter_async_context(
                running(given, tmp_path / "logs", process, True, STANDBY, transport=link)
            )
            sides.append(Side(plane, caller, reached, link))
        first, second = sides
        assert (await first.caller.create(LONG)).status == 201
        await first.caller.change(await first.caller.take(), 1, WHOLE)
        await until(lambda: "shop" in second.plane.jobs and second.job.view.committed == 1)
        for task in (1, 2, 3):
            await first.caller.begin(task)
            second.caller.lives[task] = 1
        await until(lambda: (first.plane.peers.others(), second.plane.peers.others()) == ([2], [1]))
        yield first, second


async def test_a_plane_that_does_not_hold_a_job_hands_calls_on(two: tuple[Side, Side]) -> None:
    first, second = two
    for number in ("1", "2"):
        told = await second.caller.grant(1)
        assert (told.status, told.json["value"]["number"]) == (200, number)
        assert told.reading is not None and told.headers[HOLDER] == first.caller.url
    await asyncio.sleep(3 * STANDBY)  # a quiet job does not move
    assert (first.job.is_held, second.job.is_held) == (True, False)
    own = await first.caller.grant(1)
    assert own.json["value"]["number"] == "3" and HOLDER not in own.headers
    many = await second.caller.ask("POST", "/grants", {"grants": [{"job": "shop", "task": 1, "life": 1}] * 2})
    assert [it["body"]["value"]["number"] for it in many.json["answers"]] == ["4", "5"]
    refused = await second.caller.post("renew", {"term": 9})
    assert (refused.status, refused.json["refused"]) == (409, "not-holder")


async def test_a_plane_that_stands_by_hears_of_a_phase_at_once(file: Store, tmp_path: Path) -> None:
    """It is told by the holder, and does not wait until it looks at the store again."""
    logs = tmp_path / "logs"
    async with running(file, logs, 1, True, STANDBY) as (holder, first):
        assert (await first.create(LONG)).status == 201
        term = await first.take()
        await first.change(term, 1, WHOLE)
        async with running(file, logs, 2, True, STANDBY, poll=60) as (_, second):
            await until(lambda: holder.peers.others() == [2])
            for known, told in (("committed=1&pending=0", (1, 2)), ("committed=1&pending=2", (2, None))):
                waiting = asyncio.create_task(second.get(f"/phase?{known}"))
                await asyncio.sleep(0.1)
                if told == (1, 2):
                    await first.post(f"propose?term={term}", assignment(2, WHOLE))
                else:
                    await first.post("commit", {"term": term})
                phase = (await asyncio.wait_for(waiting, 10)).json
                assert (phase["committed"], phase["pending"]) == told


async def test_a_job_is_not_taken_from_a_plane_that_does_not_give_it(two: tuple[Side, Side]) -> None:
    first, second = two
    assert first.job.is_held
    told = await second.caller.post("hold", {"process": 7})
    assert (told.status, told.json["refused"]) == (503, "replaced")
    assert (first.job.is_held, second.job.is_held) == (True, False)


async def test_a_call_that_was_handed_on_is_not_handed_on_again(two: tuple[Side, Side]) -> None:
    first, second = two
    sent = second.link.sent
    body = {"task": 1, "life": 1}
    told = await second.caller.ask("POST", "/jobs/shop/grant", body, {HEADER: "1"})
    assert (told.status, told.json["refused"], second.link.sent) == (503, "replaced", sent)
    assert second.plane.forwarding.heard(second.job).tasks == 0  # the task asked the other one


async def test_a_plane_takes_the_jobs_of_one_whose_beat_stands_still(two: tuple[Side, Side]) -> None:
    """That one still answers, and hands calls on once it meets the other's write."""
    first, second = two
    await first.caller.grant(1)
    first.store.is_mute = True
    await until(lambda: second.job.is_held)
    told = await first.granted()
    assert told.json["value"]["number"] == "2" and told.headers[HOLDER] == second.caller.url
    await until(lambda: not first.job.is_held)  # it looked


async def test_nobody_waits_at_a_plane_that_is_cut_off_from_its_store(two: tuple[Side, Side]) -> None:
    """Another plane has the job meanwhile, and tells what is proposed and committed. What the first one knew it tells
    to those who knew less."""
    first, second = two
    await first.caller.grant(1)
    newest = "/phase?committed=1&pending=0", "/assignment?after=1"
    waiting = [asyncio.create_task(first.caller.get(it)) for it in newest]
    await asyncio.sleep(0.1)
    assert not any(it.done() for it in waiting)
    first.store.is_cut = True
    await until(lambda: second.job.is_held)
    later = "/phase?committed=1&pending=2", "/assignment?after=2"  # what callers know by their leases
    told = [*await asyncio.wait_for(asyncio.gather(*waiting), 10), *[await first.caller.get(it) for it in later]]
    assert [(it.status, it.json["refused"]) for it in told] == [(503, "store")] * 4
    assert (await first.caller.get("/phase?committed=0&pending=1")).json["committed"] == 1
    assert (await first.caller.get("/phase")).json["committed"] == 1
    assert (await first.caller.get("/assignment?after=0")).status == 200


async def test_no_job_moves_while_the_store_stands_still_and_thaws(two: tuple[Side, Side]) -> None:
    first, second = two
    first.store.is_cut = second.store.is_cut = True
    asking = [asyncio.create_task(side.granted()) for side in two]
    await asyncio.sleep(3 * STANDBY)
    second.store.is_cut = False
    await asyncio.sleep(STANDBY / 4)
    first.store.is_cut = False
    await asyncio.gather(*asking)
    await asyncio.sleep(2 * STANDBY)
    assert (first.job.holder, second.job.holder) == (1, 1)


async def test_a_plane_on_which_a_job_fails_loses_it(
    two: tuple[Side, Side], caplog: pytest.LogCaptureFixture
) -> None:
    caplog.set_level("INFO", "hourstable.control")
    first, second = two
    first.store.is_broken = True
    assert (await first.caller.grant(1)).status == 500
    await until(lambda: second.job.is_held)
    await until(lambda: "shop was taken from process 1" in caplog.text)
    assert (await first.granted()).headers[HOLDER] == second.caller.url


async def test_a_job_whose_row_is_locked_stays(two: tuple[Side, Side]) -> None:
    """Another plane would fail as well."""
    first, second = two
    first.store.is_locked = True
    assert (await first.caller.grant(1)).status == 503
    await asyncio.sleep(2 * STANDBY)
    assert not second.job.is_held
    first.store.is_locked = False
    assert HOLDER not in (await first.granted()).headers


async def test_a_plane_that_does_not_reach_the_store_asks_the_other(two: tuple[Side, Side]) -> None:
    """Tasks that reach this one alone are served."""
    first, second = two
    first.store.is_cut = True
    told = await first.granted()
    assert told.headers[HOLDER] == second.caller.url
    assert second.job.is_held
    first.store.is_cut = False
    await until(lambda: first.job.holder == 2)


async def test_a_plane_that_nobody_reaches_loses_its_jobs(two: tuple[Side, Side]) -> None:
    """It reaches the store, and beats on."""
    first, second = two
    second.link.is_cut = True
    begun = asyncio.get_running_loop().time()
    await second.granted()
    assert STANDBY <= asyncio.get_running_loop().time() - begun < 6 * STANDBY
    assert second.job.is_held


async def test_a_plane_that_tasks_reach_keeps_its_jobs(two: tuple[Side, Side]) -> None:
    """The planes do not reach each other, and one task reaches the other plane alone."""
    first, second = two
    second.link.is_cut = True

    async def renew() -> None:
        while True:
            assert (await first.caller.grant(1)).status == (await first.caller.grant(2)).status == 200
            await asyncio.sleep(0.1)

    renewing = asyncio.create_task(renew())
    end = asyncio.get_running_loop().time() + 4 * STANDBY
    while asyncio.get_running_loop().time() < end:
        assert (await second.caller.grant(3)).status == 503
        await asyncio.sleep(0.1)
    assert not renewing.done()
    renewing.cancel()
    assert (first.job.is_held, second.job.is_held) == (True, False)


@pytest.mark.parametrize(("tasks", "ago", "takes"), [
    (0, 10.0, True),  # fewer than asked this plane
    (1, 8.0, True),  # none since it is silent, 7 s ago: its tasks cannot reach it
    (1, 6.2, True),  # so little later that the silence was not yet noticed
    (1, 3.0, False),  # a task asked it meanwhile, though no other one for longer than planes wait
    (2, 3.0, False), (2, 0.1, False),
])
async def test_which_tasks_the_holder_is_to_hear(
    tasks: int, ago: float, takes: bool, two: tuple[Side, Side], monkeypatch: pytest.MonkeyPatch
) -> None:
    _, second = two
    job, forwarding, peers = second.job, second.plane.forwarding, second.plane.peers
    begun = peers._now()
    monkeypatch.setattr(peers, "standby", 2.0)
    monkeypatch.setattr(forwarding, "_now", lambda: begun + 7)
    peers.steady_since, peers._written, peers._told[1] = begun - 60, begun + 7, begun + 7
    forwarding._silent[1], forwarding._missed["shop"] = begun, (begun + 1, begun + 6.9)
    forwarding.hear("shop", 3)
    monkeypatch.setattr(peers, "_now", lambda: begun + 7)
    beat = peers.known[1]._replace(heard={"shop": Heard(tasks, ago)})
    assert forwarding._is_out_of_reach(job, beat) is takes
    forwarding._missed["shop"] = begun + 6.9, begun + 6.9  # who was turned away once may have found the holder
    assert not forwarding._is_out_of_reach(job, beat)
    forwarding._missed["shop"], forwarding._heard["shop"] = (begun + 1, begun + 6.9), {3: begun - 1}
    assert not forwarding._is_out_of_reach(job, beat)  # it was handed on: nobody was turned away


async def test_a_plane_that_ends_gives_its_jobs_away(two: tuple[Side, Side]) -> None:
    """No call fails meanwhile, at either plane."""
    first, second = two
    numbers = []
    stopping = asyncio.create_task(first.plane.stop())
    while not first.plane.waits.is_closing:
        numbers += [int((await side.caller.grant(1)).json["value"]["number"]) for side in two]
    assert second.job.is_held
    numbers.append(int((await second.caller.grant(1)).json["value"]["number"]))
    await stopping
    assert numbers == list(range(1, len(numbers) + 1))
    await until(lambda: second.plane.peers.is_gone(1))
    assert (await second.caller.grant(1)).status == 200


async def test_what_is_proposed_is_committed_before_a_job_is_given_away(two: tuple[Side, Side]) -> None:
    """The plane that takes it knows no rows: a commit there waits until the leases have ended."""
    first, second = two
    term = (await first.caller.get()).json["term"]["number"]
    await first.caller.post(f"propose?term={term}", assignment(2, [[0, [2]]]))
    stopping = asyncio.create_task(first.plane.stop())
    await asyncio.sleep(0.3)
    assert first.job.is_held and (await first.caller.get()).json["pending"] == 2
    late = await first.caller.post(f"propose?term={term}", assignment(3, WHOLE))
    assert late.status == 503  # else there would always be a change that waits
    assert (await first.caller.post("commit", {"term": term})).status == 200
    await stopping
    assert second.job.is_held and second.job.view.committed == 2


async def test_a_job_that_nobody_takes_is_kept(two: tuple[Side, Side]) -> None:
    first, second = two
    first.link.is_cut = True
    stopping = asyncio.create_task(first.plane._give(first.job))
    await stopping
    assert (await first.caller.grant(1)).status == 200 and first.job.is_held


# Beats. ------------------------------------------------------------------------------------------


def test_the_text_of_a_beat() -> None:
    beat = Beat("00ff", "http://10.0.0.1:8070", 7, {"shop": Heard(3, 0.5)}, frozenset({"cart"}))
    assert Beat.read(beat.text()) == beat and json.loads(beat.text())["version"] == 1
    for text in ("", "{}", "[1]", '{"incarnation":1}', beat.text().replace("7", '"x"')):
        with pytest.raises(ValueError):
            Beat.read(text)


async def test_beats_are_those_of_all_planes(url: str) -> None:
    first, second = await open_store(url), await open_store(url)
    try:
        await first.beat(11, "one")
        assert (await second.beat(12, "two"))[11] == "one"
        found = await first.beat(11, "three")
        assert (found[11], found[12]) == ("three", "two")
        assert await second.beats() == found
        ended = Beat("", "", 0, {}, frozenset(), has_ended=True).text()
        for process in (11, 12):  # engines outlast tests, and one that beats says which rows others may write
            await first.beat(process, ended)
    finally:
        await first.close()
        await second.close()


async def peers_of(store: Store, process: int, incarnation: str) -> Peers:
    return Peers(store, process, incarnation, STANDBY, asyncio.get_running_loop().time)


async def test_when_a_plane_is_gone(file: Store) -> None:
    """If it says that it has ended, or its beat stands still while another plane writes so many."""
    first, second = await peers_of(file, 1, "a"), await peers_of(file, 2, "b")
    for one in (first, second, first):
        await one.beat({}, frozenset())
    assert (first.others(), second.others()) == ([2], [1])
    for _ in range(PART - 1):
        await first.beat({}, frozenset())
        assert not first.is_gone(2)
    await first.beat({}, frozenset())
    assert first.is_gone(2) and first.others() == []
    await second.beat({}, frozenset({"shop"}))
    await first.beat({}, frozenset())
    told = first.of(2)
    assert told is not None and told.failed == {"shop"} and first.others() == [2]
    await second.end()
    await first.beat({}, frozenset())
    assert first.is_gone(2) and first.others() == []


async def test_no_plane_is_gone_for_a_store_that_stands_still(file: Store) -> None:
    """After an hour in which nobody wrote a beat, the first plane that writes one again says nothing of the other."""
    now = [0.0]
    mine = Peers(file, 1, "a", STANDBY, lambda: now[0])
    other = Peers(file, 2, "b", STANDBY, lambda: now[0])
    for one in (mine, other, mine):
        await one.beat({}, frozenset())
    now[0] += 3600
    for _ in range(PART - 2):
        await mine.beat({}, frozenset())
        assert not mine.is_gone(2)
    await other.beat({}, frozenset())
    await mine.beat({}, frozenset())
    assert mine.others() == [2]


async def test_beats_count_while_the_own_are_written(file: Store) -> None:
    mine, other = await peers_of(file, 1, "aa"), await peers_of(file, 2, "bb")
    await other.beat({}, frozenset())
    await mine.beat({}, frozenset())
    assert mine.others() == [2]
    await asyncio.sleep(2 * STANDBY)  # in which this one wrote nothing
    for _ in range(PART):
        assert not mine.is_gone(2)
        await mine.beat({}, frozenset())
    assert mine.is_gone(2) and mine.others() == []
    await other.beat({}, frozenset())
    await mine.beat({}, frozenset())
    assert not mine.is_gone(2)
    await other.end()
    await mine.beat({}, frozenset())
    assert mine.is_gone(2)


async def test_two_planes_of_one_number(file: Store, tmp_path: Path) -> None:
    """The second ends with why while the first one beats, and not if that is gone."""
    first = await peers_of(file, 3, "aa")
    await first.beat({}, frozenset())

    async def beats() -> None:
        while True:
            await first.beat({}, frozenset())
            await asyncio.sleep(STANDBY / PART)

    beating = asyncio.create_task(beats())
    with pytest.raises(BlockingIOError, match="another plane beats as process 3"):
        async with running(file, tmp_path / "other" / "logs", 3, True, STANDBY):
            pass
    beating.cancel()
    begun = asyncio.get_running_loop().time()
    async with running(file, tmp_path / "logs", 3, True, STANDBY):
        assert asyncio.get_running_loop().time() - begun >= STANDBY
    begun = asyncio.get_running_loop().time()
    async with running(file, tmp_path / "logs", 3, True, STANDBY):  # the one before said that it ends
        assert asyncio.get_running_loop().time() - begun < STANDBY


async def test_a_plane_of_version_1_0_that_does_not_beat(file: Store, tmp_path: Path) -> None:
    """Its row stands still for as long before it loses the job."""
    logs = tmp_path / "logs"
    async with running(file, logs, 4, False, STANDBY) as (_, caller):
        await caller.create(LONG)
        await caller.change(await caller.take(), 1, WHOLE)
        async with running(file, logs, 5, True, STANDBY) as (plane, other):
            assert (await other.grant(1)).status == 503
            await until(lambda: plane.jobs["shop"].job.is_held)
            assert (await other.grant(1)).status == 200


async def test_the_address_of_a_plane(file: Store, tmp_path: Path) -> None:
    async with running(file, tmp_path / "logs", 1, True) as (plane, caller), aiohttp.ClientSession() as session:
        async with session.get(f"{plane.peers.address}/healthz") as answer:
            assert answer.status == 200
        assert plane.peers.address == caller.url
