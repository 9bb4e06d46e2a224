"""Of the processes of one task one is let in: at no moment may leases of two of its lives last."""

import asyncio
import hashlib
import hmac
import json
import subprocess
import sys
from collections.abc import Sequence
from pathlib import Path
from typing import Any

import pytest

import needed

needed.library()

from hourstable.control import Plane  # noqa: E402
from hourstable.jobs import Job  # noqa: E402
from hourstable.library import ended_note  # noqa: E402
from hourstable.rights import Rights  # noqa: E402
from hourstable.store import Conflict, Holding, Store, Stored  # noqa: E402
from serving import HALF, POLICY, Answer, Caller, running  # noqa: E402
from stores import opened  # noqa: E402

GUARD = POLICY["guard"]


async def begun(caller: Caller) -> int:
    """Creates the job, commits an assignment to tasks 1 and 2, and draws two lives of each. Returns the term."""
    assert (await caller.create()).status == 201
    term = await caller.take()
    await caller.change(term, 1, [[0, [1]], [HALF, [2]]])
    for task in (1, 2):
        await caller.begin(task, 2)
    return term


def job_of(plane: Plane) -> Job:
    return plane.jobs["shop"].job


def refusal(answer: Answer) -> tuple[str, int]:
    assert answer.status == 409, answer
    return answer.json["refused"], answer.json["admitted"]


def until(answer: Answer) -> int:
    """Returns the table's deadline of a lease."""
    assert answer.status == 200, answer
    return int(answer.json["value"]["until"])


async def test_a_life_that_was_never_given_out_gets_no_lease(file: Store, tmp_path: Path) -> None:
    async with running(file, tmp_path / "logs") as (_, caller):
        await begun(caller)
        for life in (3, (1 << 32) - 1):
            assert (await caller.post("grant", {"task": 1, "life": life})).status == 400
        assert (await caller.grant(1, 2)).status == 200


async def test_lower_lives_are_overtaken(file: Store, tmp_path: Path) -> None:
    async with running(file, tmp_path / "logs") as (_, caller):
        await begun(caller)
        assert (await caller.grant(1, 2)).status == 200
        assert refusal(await caller.grant(1, 1)) == ("overtaken", 2)
        assert (await caller.grant(2, 1)).status == 200  # another task
        assert (await caller.get()).json["admitted"] == {"1": 2, "2": 1}


async def test_a_higher_life_waits_for_the_lease_of_another_one(file: Store, tmp_path: Path) -> None:
    async with running(file, tmp_path / "logs") as (_, caller):
        await begun(caller)
        first = await caller.grant(1, 1)
        waiting = await caller.grant(1, 2)
        assert refusal(waiting) == ("waiting", 1)
        assert 0 < waiting.json["after"] <= GUARD / 1000
        assert (await caller.grant(1, 1)).status == 200  # it renews: who waits keeps nobody up
        await asyncio.sleep(GUARD / 1000)
        let_in = await caller.grant(1, 2)
        assert let_in.reading is not None and let_in.reading >= until(first)
        assert refusal(await caller.grant(1, 1)) == ("overtaken", 2)


async def test_a_higher_life_is_let_in_once_leases_are_freed(file: Store, tmp_path: Path) -> None:
    async with running(file, tmp_path / "logs") as (_, caller):
        await begun(caller)
        first = (await caller.grant(1, 1)).json["value"]
        assert (await caller.post("free", note_of(first))).json == {"freed": 1}
        assert (await caller.grant(1, 2)).status == 200


def note_of(grant: dict[str, Any]) -> bytes:
    value = {name: grant[name] for name in ("task", "life", "kind", "number")}
    return json.dumps({"job": "shop", "type": "note", "value": value, "version": 2}).encode()


async def test_a_table_that_was_restored_knows_no_rows(file: Store, tmp_path: Path) -> None:
    """Another life waits until the task's own deadline; the life that is let in waits for nothing."""
    async with running(file, tmp_path / "logs") as (plane, caller):
        await begun(caller)
        first = await caller.grant(1, 1)
        job_of(plane).drop()
        waiting = await caller.grant(1, 2)
        assert refusal(waiting) == ("waiting", 1)
        later = asyncio.create_task(renewing(caller, 2))  # another task does not prolong it
        await asyncio.sleep(waiting.json["after"])
        let_in = await caller.grant(1, 2)
        later.cancel()
        assert let_in.reading is not None and until(first) <= let_in.reading < until(first) + GUARD / 2
        job_of(plane).drop()
        assert (await caller.grant(1, 2)).status == 200


async def test_after_a_restart_a_life_waits_for_the_leases_of_its_own_task(file: Store, tmp_path: Path) -> None:
    """Also where each lease is stored by itself: until the last one of its task, and not of another one."""
    async with running(file, tmp_path / "logs", shared=True) as (plane, caller):
        await begun(caller)
        first = await caller.grant(1, 1)
        await asyncio.sleep(GUARD / 2000)
        second = await caller.grant(2, 1)
        job_of(plane).drop()
        waiting = await caller.grant(1, 2)
        assert refusal(waiting) == ("waiting", 1)
        assert second.reading is not None and until(second) >= until(first) + GUARD / 2
        assert 1000 * waiting.json["after"] <= until(first) - second.reading


async def renewing(caller: Caller, task: int) -> None:
    while True:
        await caller.grant(task, 1)
        await asyncio.sleep(0.1)


async def test_an_admission_is_stored_at_once(file: Store, tmp_path: Path) -> None:
    """Also where leases are saved ahead: whoever takes over then refuses lower lives."""
    async with running(file, tmp_path / "logs", ahead=(100, 500)) as (plane, caller):
        await begun(caller)
        assert (await caller.grant(2, 1)).status == 200
        assert (await caller.grant(1, 2)).status == 200
        job_of(plane).drop()  # as a kill: nothing is settled
        assert refusal(await caller.grant(1, 1)) == ("overtaken", 2)


async def test_the_deadline_covers_what_is_saved_ahead(file: Store, tmp_path: Path) -> None:
    async with running(file, tmp_path / "logs", ahead=(100, 300)) as (plane, caller):
        await begun(caller)
        assert (await caller.grant(1, 1)).status == 200
        version = (await loaded(file)).version
        await asyncio.sleep(0.1)
        last = await caller.grant(1, 1)
        assert (await loaded(file)).version == version  # it was saved ahead
        job_of(plane).drop()
        while (answer := await caller.grant(1, 2)).status != 200:
            assert refusal(answer) == ("waiting", 1)
            await asyncio.sleep(min(0.2, answer.json["after"]))
        assert answer.reading is not None and answer.reading >= until(last)


async def loaded(store: Store, job: str = "shop") -> Stored:
    stored = await store.load(job)
    assert stored is not None
    return stored


async def test_lives_are_judged_one_after_the_other(file: Store, tmp_path: Path) -> None:
    """Two calls of one write: the second meets the lease that the first one got."""
    async with running(file, tmp_path / "logs") as (_, caller):
        await begun(caller)
        told = await caller.ask("POST", "/grants", {"grants": [
            {"job": "shop", "task": 1, "life": life} for life in (1, 2)
        ]})
        first, second = told.json["answers"]
        assert (first["status"], second["status"]) == (200, 409)
        assert (second["body"]["refused"], second["body"]["admitted"]) == ("waiting", 1)
        told = await caller.ask("POST", "/grants", {"grants": [
            {"job": "shop", "task": 2, "life": life} for life in (2, 1)
        ]})
        assert told.json["answers"][1]["body"] == {"refused": "overtaken", "told": {}, "admitted": 2}


async def test_a_life_that_another_plane_gave_out_is_looked_up(file: Store, tmp_path: Path) -> None:
    async with running(file, tmp_path / "logs", poll=60) as (_, caller):
        await begun(caller)
        assert await file.raise_life("shop", 1) == 3
        assert (await caller.post("grant", {"task": 1, "life": 3})).status == 200


async def test_an_older_read_takes_no_life_back(file: Store, tmp_path: Path) -> None:
    async with running(file, tmp_path / "logs") as (plane, caller):
        await begun(caller)
        before = await file.lives("shop")
        assert (await caller.post("tasks/1/life")).json["life"] == 3
        job_of(plane).know(before)
        assert job_of(plane).lives[1].life == 3


@pytest.mark.parametrize("lives", [(1,), (1, 2)])
async def test_a_row_of_a_version_up_to_1_0(file: Store, tmp_path: Path, lives: Sequence[int]) -> None:
    """The greatest life that was given out counts as let in, as it may have a lease."""
    async with running(file, tmp_path / "logs") as (plane, caller):
        await begun(caller)
        last = [await caller.grant(1, life) for life in lives][0]
        job_of(plane).drop()
        stored = await loaded(file)
        line = json.loads((stored.line or "").partition(" ")[2].splitlines()[-1])
        line["ticket"] += 1 << 20  # it writes the row, and leaves what it does not know
        await file.swap("shop", stored.version, stored.kept, "0 " + json.dumps(line))
        assert refusal(await caller.grant(1, 1)) == ("overtaken", 2)
        assert (await caller.grant(1, 2)).status == 200
        await caller.begin(1, 3)
        assert refusal(await caller.grant(1, 3)) == ("waiting", 2)
        assert until(last) > 0


async def test_a_row_of_a_newer_version_is_refused_by_name(file: Store, tmp_path: Path) -> None:
    async with running(file, tmp_path / "logs") as (plane, caller):
        await begun(caller)
        assert (await caller.grant(1, 1)).status == 200
        job_of(plane).drop()
        stored = await loaded(file)
        rights = json.dumps({**json.loads(stored.rights), "version": 99})
        await file.swap("shop", stored.version, stored.kept, stored.line, Holding(stored.holder, "newer", rights))
        failed = await caller.grant(1, 1)
        assert failed.status == 503 and "form 99" in failed.json["error"]


async def test_a_write_compares_the_holder(store: Store, job: str) -> None:
    """A store that went back may reach a version again, which another plane wrote."""
    first = await store.create(job, "{}", b"one", "created")
    assert await loaded(store, job) == Stored(first, "{}", b"one", None, "", "created")
    second = await store.swap(job, first, b"two", "line", Holding("", "a", "by a"))
    assert await loaded(store, job) == Stored(second, "{}", b"two", "line", "a", "by a")
    for before in ("", "b"):
        with pytest.raises(Conflict):
            await store.swap(job, second, b"lost", "line", Holding(before, "b", "by b"))
    third = await store.swap(job, second, b"three", "line", Holding("a", "a", "by a again"))
    fourth = await store.swap(job, third, b"four", "line", Holding("a", "b", "by b"))
    assert await loaded(store, job) == Stored(fourth, "{}", b"four", "line", "b", "by b")
    await store.swap(job, fourth, b"five", "line")  # as a version up to 1.0 writes
    assert (await loaded(store, job))[4:] == ("b", "by b")


async def test_each_start_of_a_plane_is_another_holder(file: Store, tmp_path: Path) -> None:
    holders: list[str] = []
    for _ in range(2):
        async with running(file, tmp_path / "logs") as (plane, caller):
            if not holders:
                await begun(caller)
            assert (await caller.grant(1, 1)).status == 200
            holders.append((await loaded(file)).holder)
            assert holders[-1] == plane.settings.incarnation
    assert len(set(holders)) == 2 and all(holders)


# Keys of lives ---------------------------------------------------------------------------------


class Unit:
    """A process of a task as a plane sees it: the lives that it drew, and where it runs."""

    def __init__(self, caller: Caller, task: int, **place: str) -> None:
        self.caller, self.task, self.place = caller, task, place
        self.keys: dict[int, str] = {}

    async def draw(self) -> int:
        told = (await self.caller.post(f"tasks/{self.task}/life")).json
        life: int = told["life"]
        self.keys[life] = told["key"]
        return life

    async def grant(self, life: int, **members: object) -> Answer:
        shown = {str(other): key for other, key in self.keys.items() if other != life}
        asked = {"task": self.task, "life": life, "key": self.keys[life], "place": self.place, "shown": shown}
        return await self.caller.post("grant", {**asked, **members})

    async def free(self, note: bytes, key: str) -> Answer:
        headers = {"Hourstable-Key": key} if key else {}
        return await self.caller.ask("POST", "/jobs/shop/free", note, headers)


HERE = {"boot": "b1", "device": "8", "inode": "42"}


@pytest.mark.parametrize(("before", "after", "is_let_in"), [
    ({"process": "p1", **HERE}, {"process": "p1"}, True),  # its next slicelet
    ({"process": "p1", **HERE}, {"process": "p2", **HERE}, True),  # started again on its host
    ({"process": "p1", **HERE}, {"process": "p2", **HERE, "boot": "b2"}, False),
    ({"process": "p1", **HERE}, {"process": "p2", **HERE, "device": "9"}, False),
    ({"process": "p1", **HERE}, {"process": "p2", **HERE, "inode": "43"}, False),  # a copied folder
    ({"process": "p1"}, {"process": "p2"}, False),
    ({}, {}, False),
])
async def test_who_is_let_in_at_once(
    file: Store, tmp_path: Path, before: dict[str, str], after: dict[str, str], is_let_in: bool
) -> None:
    async with running(file, tmp_path / "logs") as (plane, caller):
        await begun(caller)
        first, second = Unit(caller, 1, **before), Unit(caller, 1, **after)
        assert (await first.grant(await first.draw())).status == 200
        job_of(plane).drop()  # it is stored, and no grace is waited for
        life = await second.draw()
        unknown = await second.grant(life)
        assert refusal(unknown) == ("waiting", life - 1)  # it has not the key
        second.keys |= first.keys
        answer = await second.grant(life)
        assert answer.status == (200 if is_let_in else 409), answer
        wrong = await second.grant(life, shown={str(life - 1): second.keys[life]})
        assert wrong.status == answer.status


async def test_who_shows_not_the_key_of_the_life_before_waits(file: Store, tmp_path: Path) -> None:
    """Also at the place where that life runs."""
    async with running(file, tmp_path / "logs") as (_, caller):
        await begun(caller)
        unit = Unit(caller, 1, process="p1", **HERE)
        life = await unit.draw()
        assert (await unit.grant(life)).status == 200
        following = await unit.draw()
        wrong = [{str(life): unit.keys[following]}, {str(life): "0" * 64}, {str(following): unit.keys[life]}]
        for shown in (*wrong, dict[str, str]()):
            assert refusal(await unit.grant(following, shown=shown)) == ("waiting", life)
        assert (await unit.grant(following)).status == 200


async def test_grants_need_the_key_of_their_life(file: Store, tmp_path: Path) -> None:
    async with running(file, tmp_path / "logs") as (_, caller):
        await begun(caller)
        unit = Unit(caller, 1)
        life, next_life = await unit.draw(), await unit.draw()
        assert (await unit.grant(life, key=unit.keys[next_life])).status == 403
        assert (await unit.grant(life)).status == 200
        for key in ("", unit.keys[next_life], unit.keys[life][:-1], "\u20ac"):
            told = await unit.grant(life, key=key)
            assert (told.status, told.json["refused"]) == (403, "key")


def test_each_key_is_compared_in_constant_time(monkeypatch: pytest.MonkeyPatch) -> None:
    compared: list[tuple[bytes, bytes]] = []
    compare, rights = hmac.compare_digest, Rights(bytes(32))

    def noted(known: bytes, given: bytes) -> bool:
        compared.append((known, given))
        return compare(known, given)

    monkeypatch.setattr(hmac, "compare_digest", noted)
    key = hmac.new(bytes(32), b"task 1 life 2", hashlib.sha256).hexdigest()
    for given, is_key in ((key, True), (key[:-1], False), ("", False)):
        assert rights.is_key(1, 2, given) == is_key
    assert compared == [(key.encode(), it.encode()) for it in (key, key[:-1], "")]


async def test_a_key_is_of_one_task(file: Store, tmp_path: Path) -> None:
    async with running(file, tmp_path / "logs") as (_, caller):
        await begun(caller)
        one, two = Unit(caller, 1), Unit(caller, 2)
        life = await one.draw()
        assert await two.draw() == life and one.keys != two.keys
        assert (await two.grant(life, key=one.keys[life])).status == 403
        assert (await two.grant(life)).status == 200


async def test_notes_and_loads_need_the_key_of_their_life(file: Store, tmp_path: Path) -> None:
    async with running(file, tmp_path / "logs") as (_, caller):
        await begun(caller)
        unit = Unit(caller, 1)
        life = await unit.draw()
        grant = (await unit.grant(life)).json["value"]
        for key in ("", "0" * 64):
            assert (await unit.free(note_of(grant), key)).status == 403
        loads: dict[str, object] = {"task": 1, "loads": [], "life": life}
        for wrong in ("", "0" * 64):
            assert (await caller.post("loads", dict(loads, key=wrong))).status == 403
        assert (await caller.post("loads", dict(loads, key=unit.keys[life]))).status == 204
        assert (await unit.free(note_of(grant), unit.keys[life])).json == {"freed": 1}


async def test_a_life_that_may_have_leases_has_not_ended(file: Store, tmp_path: Path) -> None:
    """A process with a copied folder has the key; the note of an ended life would free what is still served."""
    async with running(file, tmp_path / "logs") as (_, caller):
        await begun(caller)
        unit = Unit(caller, 1, process="p1")
        life = await unit.draw()
        assert (await unit.grant(life)).status == 200
        next_life = await unit.draw()
        ended = ended_note("shop", 1, life, "guard")
        assert (await unit.free(ended, unit.keys[life])).status == 400
        assert (await unit.grant(next_life)).status == 200
        assert (await unit.free(ended, "")).status == 403
        assert (await unit.free(ended, unit.keys[life])).json == {"freed": 1}


async def test_a_life_without_a_key_is_of_a_version_up_to_1_0(file: Store, tmp_path: Path) -> None:
    """It is let in, and who shows its key later is somebody else, who draws another life."""
    async with running(file, tmp_path / "logs") as (_, caller):
        await begun(caller)
        unit = Unit(caller, 1)
        life = await unit.draw()
        assert (await unit.grant(life, key="")).status == 200
        assert (await unit.grant(life, key="")).status == 200
        assert refusal(await unit.grant(life)) == ("overtaken", life)
        assert refusal(await unit.grant(await unit.draw(), key="")) == ("waiting", life)


async def test_keys_outlast_planes(file: Store, tmp_path: Path) -> None:
    async with running(file, tmp_path / "logs") as (_, caller):
        await begun(caller)
        unit = Unit(caller, 1)
        life = await unit.draw()
        assert (await unit.grant(life)).status == 200
    async with running(file, tmp_path / "logs", process=1) as (_, caller):
        unit.caller = caller
        assert (await unit.grant(life, key="")).status == 403
        assert (await unit.grant(life)).status == 200


async def test_a_job_of_a_version_up_to_1_0_gets_a_secret(file: Store, tmp_path: Path) -> None:
    """Also one that was never called: keys that are given out are those of the next plane."""
    async with running(file, tmp_path / "logs") as (_, caller):
        assert (await caller.create()).status == 201
    stored = await loaded(file)
    await file.create("old", stored.policy, stored.kept.replace(b"shop", b"old"))
    keys = []
    for _ in range(2):
        async with running(file, tmp_path / "logs") as (_, caller):
            caller.job = "old"
            unit = Unit(caller, 1)
            await unit.draw()
            keys.append(unit.keys)
    secret = json.loads((await loaded(file, "old")).rights)["secret"]
    for life, told in enumerate(keys, 1):
        expected = hmac.new(bytes.fromhex(secret), f"task 1 life {life}".encode(), hashlib.sha256)
        assert told == {life: expected.hexdigest()}


# Evicting a life, ending a job, epochs ---------------------------------------------------------


async def test_an_evicted_life_gets_no_more_leases(file: Store, tmp_path: Path) -> None:
    """Nor does its key let the next process in at once; the life that is favoured comes next."""
    async with running(file, tmp_path / "logs") as (plane, caller):
        await begun(caller)
        assert (await caller.post("evict", {"task": 1})).json == {"life": 0}
        here, elsewhere = Unit(caller, 1, process="p1", **HERE), Unit(caller, 1, process="p2")
        life, favoured = await here.draw(), await elsewhere.draw()
        assert (await here.grant(life)).status == 200
        assert (await caller.post("evict", {"task": 1, "favour": favoured})).json == {"life": life}
        job_of(plane).drop()  # it is stored
        assert refusal(await here.grant(life)) == ("evicted", life)
        again = await here.draw()
        assert refusal(await here.grant(again)) == ("waiting", life)
        waiting = await elsewhere.grant(favoured)
        assert refusal(waiting) == ("waiting", life)
        await asyncio.sleep(waiting.json["after"])
        assert refusal(await here.grant(again)) == ("waiting", life)  # the favoured one comes before it
        assert (await elsewhere.grant(favoured)).status == 200
        assert refusal(await here.grant(life)) == ("overtaken", favoured)


async def test_the_key_of_an_evicted_life_lets_nobody_in_at_once(file: Store, tmp_path: Path) -> None:
    async with running(file, tmp_path / "logs") as (_, caller):
        await begun(caller)
        unit = Unit(caller, 1, process="p1", **HERE)
        life = await unit.draw()
        assert (await unit.grant(life)).status == 200
        assert (await caller.post("evict", {"task": 1})).json == {"life": life}
        following = await unit.draw()
        waiting = await unit.grant(following)
        assert refusal(waiting) == ("waiting", life)
        await asyncio.sleep(waiting.json["after"])
        assert (await unit.grant(following)).status == 200


async def test_who_is_not_favoured_waits_for_a_short_time_alone(file: Store, tmp_path: Path) -> None:
    async with running(file, tmp_path / "logs") as (_, caller):
        await begun(caller)
        first, second = Unit(caller, 1), Unit(caller, 1)
        life, other, favoured = await first.draw(), await second.draw(), await second.draw()
        assert (await first.grant(life)).status == 200
        assert (await caller.post("evict", {"task": 1, "favour": favoured})).status == 200
        waiting = await second.grant(other)
        assert 0 < waiting.json["after"] <= 1.2 * GUARD / 1000 + 0.001
        await asyncio.sleep(waiting.json["after"])
        assert (await second.grant(other)).status == 200


async def test_a_job_ends_once_no_lease_lasts(file: Store, tmp_path: Path) -> None:
    async with running(file, tmp_path / "logs") as (plane, caller):
        term = await begun(caller)
        unit = Unit(caller, 1)
        life = await unit.draw()
        last = await unit.grant(life)
        ending = (await caller.ask("DELETE", "/jobs/shop")).json
        assert ending["state"] == "ending" and 0 < ending["after"] <= GUARD / 1000
        job_of(plane).drop()  # it is stored
        for told in (await unit.grant(life), await caller.post("renew", {"term": term}), await caller.create()):
            assert (told.status, told.json["refused"]) == (409, "ending")
        assert (await caller.get()).json["state"] == "ending"
        note = await unit.free(note_of(last.json["value"]), unit.keys[life])
        assert note.json["refused"] == "no-row"  # notes still come to the table, which was restored
        while (ending := (await caller.ask("DELETE", "/jobs/shop")).json)["state"] == "ending":
            assert ending["after"] > 0
            await asyncio.sleep(ending["after"])
        assert ending == {"state": "ended", "after": 0.0}
        assert (job_of(plane).reading() or 0) >= until(last)
        assert (await unit.grant(life)).status == 409


async def test_a_job_that_ended_goes_on_from_what_it_was(file: Store, tmp_path: Path) -> None:
    """Its lives, numbers and epoch are never given twice; another policy wants another name."""
    async with running(file, tmp_path / "logs") as (_, caller):
        await begun(caller)
        unit = Unit(caller, 1)
        life = await unit.draw()
        number = int((await unit.grant(life)).json["value"]["number"])
        epoch = (await caller.get()).json["epoch"]
        while (ending := (await caller.ask("DELETE", "/jobs/shop")).json)["state"] != "ended":
            await asyncio.sleep(ending["after"])
        assert (await caller.create({**POLICY, "guard": 2000})).status == 409
        assert (await caller.create()).status == 200
        told = (await caller.get()).json
        assert (told["state"], told["epoch"], told["admitted"]) == (None, epoch, {"1": life})
        assert await unit.draw() == life + 1
        again = await unit.grant(life)
        assert int(again.json["value"]["number"]) > number


async def test_epochs_are_drawn_once(url: str, job: str, tmp_path: Path) -> None:
    """By planes side by side, too."""
    async with opened(url) as first, opened(url) as second:
        drawn = await asyncio.gather(*(store.draw_epoch() for _ in range(10) for store in (first, second)))
        assert len(set(drawn)) == 20 and min(drawn) >= 1
    async with opened(url) as store, running(store, tmp_path / "logs", shared=True) as (_, caller):
        epochs = []
        for name in (f"{job}-a", f"{job}-b"):
            caller.job = name
            assert (await caller.create()).status == 201
            epochs.append((await caller.get()).json["epoch"])
        assert max(drawn) < epochs[0] < epochs[1]


async def test_commands_evict_a_life_and_end_a_job(file: Store, tmp_path: Path) -> None:
    async with running(file, tmp_path / "logs") as (_, caller):
        await begun(caller)
        assert (await caller.grant(1, 2)).status == 200

        async def said(*words: str) -> str:
            given = [sys.executable, "-m", "hourstable.command", *words]
            made = await asyncio.create_subprocess_exec(*given, stdout=subprocess.PIPE)
            text, _ = await made.communicate()
            assert made.returncode == 0
            return text.decode()

        assert await said("evict", "--control", caller.url, "shop", "1") == "task 1: life 2 gets no more leases\n"
        assert await said("evict", "--control", caller.url, "shop", "2") == "task 2: no life is let in\n"
        assert refusal(await caller.grant(1, 2)) == ("evicted", 2)
        assert await said("end", "--control", caller.url, "shop") == ""
        assert (await caller.get()).json["state"] == "ended"
