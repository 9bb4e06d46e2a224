"""Fencing tokens of a task, and what keeps them from falling: leases are asked for only for a life that is started,
and no bridge lease is given up too early."""

import asyncio
from collections.abc import AsyncIterator
from pathlib import Path
from typing import Any

import pytest

import needed

needed.library()

from hourstable import logs  # noqa: E402
from hourstable.auditing import LAST, Audit  # noqa: E402
from hourstable.kept_log import KeptLog  # noqa: E402
from hourstable.leases import TOKEN, held_in, policy_of  # noqa: E402
from hourstable.library import Fence, Refused, Slicelet, Table, slice_key  # noqa: E402
from hourstable.store import Store  # noqa: E402
from hourstable.task import NoToken, Task  # noqa: E402
from planes import EPOCH, JOB, Plane, assignment  # noqa: E402
from serving import HALF, POLICY, Answer, Caller, lines_of, running  # noqa: E402
from test_lives import begun, job_of, loaded, note_of, refusal  # noqa: E402
from test_order import LONG, Stopped, started  # noqa: E402
from waits import until  # noqa: E402

GUARD = POLICY["guard"]
LOWER = [(0, HALF)]


@pytest.fixture
async def plane(tmp_path: Path) -> AsyncIterator[Plane]:
    made = await Plane(tmp_path).start()
    made.settle(1, [(0, 1), (HALF, 2)])
    yield made
    await made.stop()


def task_of(plane: Plane, folder: Path, **given: Any) -> Task:
    return Task(plane.url, JOB, 1, logs=folder, policy=plane.policy, timeout=2.0, **given)


async def let_in(caller: Caller, task: int, life: int) -> Answer:
    return await caller.post("grant", {"task": task, "life": life, "let_in": True})


def calls(folder: Path) -> list[str]:
    """Returns what the tasks did, with the replies."""
    found = [it for it in logs.merged(folder / JOB) if it["file"].startswith("task-")]
    return [f"{call['do']} {call.get('kind', '')}: {call['reply']}" for call in found]


# A life is let in before it has a lease. ------------------------------------------------------------


async def test_a_life_is_let_in_without_a_lease(file: Store, tmp_path: Path) -> None:
    async with running(file, tmp_path / "logs") as (plane, caller):
        await begun(caller)
        told = await let_in(caller, 1, 1)
        epoch = (await caller.get()).json["epoch"]
        assert (told.status, told.json) == (200, {"let_in": 1, "epoch": epoch}) and epoch > 0
        assert told.reading is not None and job_of(plane).rows() == []
        assert not any(line["do"] == "grant" for line in lines_of(tmp_path / "logs"))
        waiting = await let_in(caller, 1, 2)
        assert refusal(waiting) == ("waiting", 1) and 0 < waiting.json["after"] <= GUARD / 1000
        assert refusal(await caller.grant(1, 2)) == ("waiting", 1)
        assert (await let_in(caller, 1, 1)).status == 200  # asked once more
        granted = await caller.grant(1, 1)
        assert granted.reading is not None and granted.reading >= told.reading
        assert (await caller.post("free", note_of(granted.json["value"]))).json == {"freed": 1}
        assert (await let_in(caller, 1, 2)).status == 200  # at once, since no lease is out
        assert refusal(await let_in(caller, 1, 1)) == ("overtaken", 2)


async def test_a_life_that_asks_for_nothing_more_is_not_waited_for_long(file: Store, tmp_path: Path) -> None:
    async with running(file, tmp_path / "logs") as (_, caller):
        await begun(caller)
        assert (await let_in(caller, 1, 1)).status == 200
        await asyncio.sleep(GUARD / 1000)
        assert (await let_in(caller, 1, 2)).status == 200


@pytest.mark.parametrize("shared", [False, True])
@pytest.mark.parametrize("ahead", [(0, 0), (100, 300)])
async def test_who_is_let_in_is_stored_first(
    file: Store, tmp_path: Path, shared: bool, ahead: tuple[int, int]
) -> None:
    """With the reading that the answer has: the next process of the table reads none below it."""
    async with running(file, tmp_path / "logs", shared=shared, ahead=ahead) as (plane, caller):
        await begun(caller)
        assert (await caller.grant(2, 1)).status == 200
        told = await let_in(caller, 1, 1)
        kept = (await loaded(file)).kept
        assert told.reading is not None and int(kept.split(b'"last":"')[1].split(b'"')[0]) >= told.reading
        job_of(plane).drop()  # as a kill: nothing is settled
        assert refusal(await let_in(caller, 1, 2)) == ("waiting", 1)
        granted = await caller.grant(1, 1)
        assert granted.status == 200 and granted.reading is not None and granted.reading >= told.reading


async def test_nobody_is_let_in_before_there_is_an_assignment(file: Store, tmp_path: Path) -> None:
    async with running(file, tmp_path / "logs") as (_, caller):
        assert (await caller.create()).status == 201
        await caller.begin(1)
        told = await let_in(caller, 1, 1)
        assert (told.status, told.json["refused"]) == (409, "no-assignment")
        for wrong in (1, "true", None):
            assert (await caller.post("grant", {"task": 1, "life": 1, "let_in": wrong})).status == 400


async def test_the_table_says_that_its_numbers_are_spent(file: Store, tmp_path: Path) -> None:
    async with running(file, tmp_path / "logs") as (_, caller):
        assert (await caller.create({**POLICY, "numbers": 2})).status == 201
        await caller.change(await caller.take(), 1, [[0, [1]], [HALF, [2]]])
        assert [(await caller.grant(2, 1)).status for _ in range(2)] == [200, 200]
        await caller.begin(1)
        told = await let_in(caller, 1, 1)
        assert (told.status, told.json["refused"]) == (409, "numbers-spent")


async def test_each_of_several_grants_may_ask_to_be_let_in(file: Store, tmp_path: Path) -> None:
    async with running(file, tmp_path / "logs") as (_, caller):
        await begun(caller)
        asked = [{"job": "shop", "task": 1, "life": 1, "let_in": True}, {"job": "shop", "task": 2, "life": 1}]
        first, second = (await caller.ask("POST", "/grants", {"grants": asked})).json["answers"]
        assert (first["status"], first["body"]["let_in"], second["status"]) == (200, 1, 200)
        assert first["reading"] == second["reading"]


async def test_no_lease_is_asked_for_before_its_life_is_started(file: Store, tmp_path: Path) -> None:
    """Of a task whose process ends and begins again, twice; and a task is let in by each of its lives."""
    folder = tmp_path / "plane" / "logs"
    async with running(file, folder) as (_, caller):
        assert (await caller.create()).status == 201
        await caller.change(await caller.take(), 1, [[0, [1]]])
        for life in range(1, 4):
            async with Task(caller.url, "shop", 1, logs=tmp_path / "logs") as task:
                await until(lambda: bool(task.served()))
                assert task.ask("key").token == TOKEN.pack(1, 1, life)
    started = {
        it["life"]: it["ticket"] for it in logs.merged(tmp_path / "logs" / "shop") if it["do"] == "start"
    }
    granted = [it for it in lines_of(folder) if it["do"] == "grant"]
    assert len(granted) >= 3 and all(started[it["life"]] < it["ticket"] for it in granted)


async def test_a_plane_of_a_version_up_to_1_0(plane: Plane, tmp_path: Path) -> None:
    """It gives a lease to who asks to be let in, which is heard; but nobody knows the epoch of the job."""
    plane.is_new = False
    async with task_of(plane, tmp_path) as task:
        await until(lambda: task.served() == LOWER)
        with pytest.raises(NoToken, match="no-epoch"):
            task.ask("hello").token
    assert calls(tmp_path)[:4] == ["open : opened 0", "sample : sampled", "start : started 1", "hear : heard 1"]


# The token. ----------------------------------------------------------------------------------------


async def test_the_token_has_the_greatest_generation(plane: Plane, tmp_path: Path) -> None:
    """A bridge lease of generation 2 counts beside the guard lease that serves."""
    async with task_of(plane, tmp_path) as task:
        await until(lambda: task.served() == LOWER)
        lease, hold = task.ask("hello"), task.hold("hello")
        assert lease.token == hold.token == TOKEN.pack(EPOCH, 1, 1)
        assert lease.token.hex() == "00000007000000000000000100000001"
        plane.propose(2, [(0, 1), (5, 1)])
        await until(lambda: task.ask("hello").token == TOKEN.pack(EPOCH, 2, 1))
        assert lease.token == TOKEN.pack(EPOCH, 1, 1)  # that of its entry
        fence = Fence()
        assert fence.accept(task.ask("hello").token) and not fence.accept(lease.token)


def test_the_token_of_a_key_that_two_leases_cover(tmp_path: Path) -> None:
    """One of generation 2 beside the guard lease of generation 1, by which the key is served."""
    tickets, policy = Stopped(), policy_of(LONG)
    leases = started(tmp_path, tickets, life=3)
    leases.epoch = EPOCH
    with Table(JOB, policy) as table:
        term = table.take(1, tickets.clock).number
        for generation in (1, 2):
            table.propose(term, assignment(generation, [(0, 1)]), tickets.clock)
            if generation == 1:
                table.commit(term, tickets.clock)
            grant = table.grant(1, 3, tickets.clock)
            assert leases.hear(grant, held_in(JOB, grant), policy)
    assert {kind: it.generation for kind, it in leases.held.items()} == {"guard": 1, "bridge": 2}
    entered = leases.enter(b"hello")
    assert leases.token(entered).hex() == "00000007" "0000000000000002" "00000003"


async def test_a_job_of_two_owners_gives_no_token(plane: Plane, tmp_path: Path) -> None:
    plane.policy["redundancy"] = [1, 2]
    async with task_of(plane, tmp_path) as task:
        await until(lambda: task.served() == LOWER)
        with pytest.raises(NoToken, match="many-owners"):
            task.ask("hello").token


# Writes in the log. --------------------------------------------------------------------------------


def writes(folder: Path) -> list[dict[str, Any]]:
    """Returns the lines of writes, by their tickets."""
    return [it for it in logs.merged(folder / JOB) if it["do"] == "write"]


async def test_a_write_is_logged_with_the_token_of_its_block(plane: Plane, tmp_path: Path) -> None:
    async with task_of(plane, tmp_path) as task:
        await until(lambda: task.served() == LOWER)
        async with task.serving("hello") as lease:
            lease.wrote("taken", 1 << 63)
            lease.wrote("unknown")
        hold = task.hold("hello")
        hold.wrote("refused")
    entries = [it["ticket"] for it in logs.merged(tmp_path / JOB) if it["do"] == "hold"]
    assert [lease.ticket, hold.ticket] == entries
    told = {"do": "write", "slice_key": slice_key(b"hello"), "token": TOKEN.pack(EPOCH, 1, 1).hex()}
    found = writes(tmp_path)
    assert [{name: it[name] for name in told} for it in found] == [told] * 3
    said = [(it["reply"], it.get("revision")) for it in found]
    assert said == [("taken", 1 << 63), ("unknown", None), ("refused", None)]
    assert entries[0] < found[0]["ticket"] < found[1]["ticket"] < entries[1] < found[2]["ticket"]


async def test_a_store_that_gives_no_revisions(plane: Plane, tmp_path: Path) -> None:
    async with task_of(plane, tmp_path) as task:
        await until(lambda: task.served() == LOWER)
        task.ask("hello").wrote("taken")
    assert [(it["reply"], "revision" in it) for it in writes(tmp_path)] == [("taken", False)]


@pytest.mark.parametrize("given", [("late",), ("refused", 1), ("unknown", 1), ("taken", -1), ("taken", 1 << 64)])
async def test_what_no_store_says_of_a_write(plane: Plane, tmp_path: Path, given: tuple[Any, ...]) -> None:
    async with task_of(plane, tmp_path) as task:
        await until(lambda: task.served() == LOWER)
        with pytest.raises(ValueError, match="write that was|no whole number"):
            task.ask("hello").wrote(*given)
    assert writes(tmp_path) == []


async def test_a_write_of_a_block_that_is_not_logged(plane: Plane, tmp_path: Path) -> None:
    """An audit knows no token of it."""
    async with task_of(plane, tmp_path, sample=0) as task:
        await until(lambda: task.served() == LOWER)
        lease = task.ask("hello")
        lease.wrote("taken", 1)
        assert lease.ticket is None
    assert writes(tmp_path) == []


async def test_a_task_without_a_log_logs_no_write(plane: Plane, tmp_path: Path) -> None:
    async with Task(plane.url, JOB, 1, logs=None, state=tmp_path, policy=plane.policy, timeout=2.0) as task:
        await until(lambda: task.served() == LOWER)
        lease = task.ask("hello")
        lease.wrote("taken", 1)
        assert lease.ticket is None


async def test_a_late_write_is_logged_once_its_life_has_ended(plane: Plane, tmp_path: Path) -> None:
    """And not once the task has ended, whose log is closed."""
    async with task_of(plane, tmp_path) as task:
        await until(lambda: task.served() == LOWER)
        lease = task.ask("hello")
        task._drop_life()
        lease.wrote("refused")
    lease.wrote("taken", 1)
    assert [it["reply"] for it in writes(tmp_path)] == ["refused"]


async def test_a_write_whose_entry_the_log_may_lack(plane: Plane, tmp_path: Path) -> None:
    """A full disk took no lines meanwhile, so the log goes on without it."""
    async with task_of(plane, tmp_path) as task:
        await until(lambda: task.served() == LOWER)
        lease = task.ask("hello")
        assert isinstance(task._log, KeptLog)
        log: KeptLog = task._log
        log._stop(OSError("no room"))
        await until(lambda: not log.is_stopped and task.served() == LOWER)
        lease.wrote("taken", 1)
        task.ask("hello").wrote("taken", 2)
    assert [it["revision"] for it in writes(tmp_path)] == [2]


async def test_a_job_without_tokens_logs_no_write(plane: Plane, tmp_path: Path) -> None:
    plane.policy["redundancy"] = [1, 2]
    async with task_of(plane, tmp_path) as task:
        await until(lambda: task.served() == LOWER)
        with pytest.raises(NoToken, match="many-owners"):
            task.ask("hello").wrote("taken", 1)


async def test_the_audit_knows_the_tokens_of_a_task(file: Store, tmp_path: Path) -> None:
    """It judges the writes that a real task logs, and names one that comes too late."""
    program, folder = needed.program(), tmp_path / "logs"
    async with running(file, folder) as (_, caller):
        assert (await caller.create()).status == 201
        await caller.change(await caller.take(), 1, [[0, [1]]])
        leases = []
        for revision in (1, 3, 2):
            async with Task(caller.url, "shop", 1, logs=folder) as task:
                await until(lambda: bool(task.served()))
                leases.append(task.ask("hello"))
                leases[-1].wrote("taken", revision)
    told = Audit(folder / "shop", str(program)).judged([], 0, LAST)
    late, last = ("task-1.", "whose token is greater\n")
    assert told.status == 1 and told.is_one
    assert told.said.splitlines()[-1].startswith(f"fenced no: {late}") and told.said.endswith(last)


# Leases that are given up. --------------------------------------------------------------------------


async def test_a_task_that_stops_keeps_a_bridge_lease_that_it_must_keep(plane: Plane, tmp_path: Path) -> None:
    """It gives its guard lease up, and the next life frees the bridge lease, by a note of a life that has ended."""
    async with task_of(plane, tmp_path) as task:
        await until(lambda: task.served() == LOWER)
        plane.propose(2, [(0, 1), (5, 1)])
        await until(lambda: task._leases is not None and "bridge" in task._leases.held)
    assert [it for it in calls(tmp_path) if it.startswith("release bridge")] == []
    assert [it for it in calls(tmp_path) if it.startswith(("open", "start"))] == [
        "open : opened 0", "start : started 1", "open : opened 1", "start : started 2",
    ]
    assert plane.held(1) == []
    plane.commit()  # nothing is waited for


async def test_a_task_that_stops_gives_back_all_that_it_may(plane: Plane, tmp_path: Path) -> None:
    async with task_of(plane, tmp_path) as task:
        await until(lambda: task.served() == LOWER)
    assert [it for it in calls(tmp_path) if it.startswith(("open", "release"))] == [
        "open : opened 0", "release guard: released life 1 number 1",
    ]
    assert plane.held(1) == []


# The library. ---------------------------------------------------------------------------------------


def test_tokens_by_the_library() -> None:
    with Slicelet(JOB, 2) as slicelet:
        slicelet.start(1, 3)
        with pytest.raises(Refused, match="no-lease"):
            slicelet.token(1, 9, b"hello", 4)
        with pytest.raises(Refused, match="many-owners"):
            slicelet.token(2, 9, b"hello", 4)
        with pytest.raises(Refused, match="wrong-form"):
            slicelet.token_at(1, 9, 1 << 63, 4)
        with pytest.raises(Refused, match="no-lease"):
            slicelet.token_at(1, 9, slice_key(b"hello"), 4)


def test_a_fence_compares_bytes() -> None:
    fence = Fence()
    assert fence.greatest == bytes(16) and fence.accept(bytes(16))
    assert fence.accept(TOKEN.pack(1, 127, 9)) and not fence.accept(TOKEN.pack(1, 127, 8))
    assert fence.accept(TOKEN.pack(1, 128, 1)) and fence.accept(TOKEN.pack(1, 1 << 63, 1))
    assert not fence.accept(TOKEN.pack(0, 1, 1)) and fence.greatest == TOKEN.pack(1, 1 << 63, 1)
    assert not Fence(fence.greatest).accept(TOKEN.pack(1, 9, 9))
    for wrong in (b"", bytes(15), bytes(17)):
        with pytest.raises(ValueError, match="is none of 16"):
            fence.accept(wrong)
