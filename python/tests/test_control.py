"""The control plane over HTTP: what it answers, and that no answer leaves before the store has
it."""

import asyncio
import json
import time
from collections.abc import Awaitable, Callable
from pathlib import Path
from typing import Any

import aiohttp
import pytest

import needed

needed.library()

from prometheus_client.parser import text_string_to_metric_families  # noqa: E402

from hourstable import waits  # noqa: E402
from hourstable.control import Limits, Plane  # noqa: E402
from hourstable.library import Slicelet  # noqa: E402
from hourstable.limits import Bucket  # noqa: E402
from hourstable.store import Holding, Store, Stored, StoreFailed  # noqa: E402
from hourstable.waiting import within  # noqa: E402
from serving import HALF, POLICY, Answer, Caller, assignment, lines_of, running  # noqa: E402
from stores import opened  # noqa: E402
from waits import until  # noqa: E402

WHOLE = [[0, [1]]]
HALVES = [[0, [1]], [HALF, [2]]]


class Trouble:
    """A store that is slow or fails on purpose, before or after a swap is written."""

    def __init__(self, store: Store) -> None:
        self._store = store
        self.before: Callable[[], object] | None = None
        self.after: Callable[[], object] | None = None

    def __getattr__(self, name: str) -> Any:
        return getattr(self._store, name)

    async def swap(
        self, job: str, version: int, kept: bytes, line: str | None, holding: Holding | None = None
    ) -> int:
        before, after = self.before, self.after
        await done(before)
        made = await self._store.swap(job, version, kept, line, holding)
        await done(after)
        return made


async def done(action: Callable[[], object] | None) -> None:
    """Does something, and waits for it if it takes time."""
    made = None if action is None else action()
    if isinstance(made, Awaitable):
        await made


def fail() -> None:
    raise StoreFailed("on purpose")


async def begun(caller: Caller, slices: list[Any] = WHOLE) -> int:
    """Creates the job and commits generation 1. Returns the term."""
    assert (await caller.create()).status == 201
    term = await caller.take()
    await caller.change(term, 1, slices)
    await caller.begin(1)
    await caller.begin(2)
    return term


# Jobs ------------------------------------------------------------------------------------------


async def test_a_job_is_created_once(file: Store, tmp_path: Path) -> None:
    async with running(file, tmp_path / "logs") as (_, caller):
        assert (await caller.get()).status == 404
        assert (await caller.create()).status == 201
        assert (await caller.create()).status == 200
        assert (await caller.create({**POLICY, "redundancy": 1})).status == 200
        assert (await caller.create({**POLICY, "guard": 2000})).status == 409
        assert (await caller.ask("GET", "/jobs")).json == {"jobs": ["shop"]}
        status = (await caller.get()).json
        assert status["policy"] == POLICY
        assert (status["phase"], status["committed"], status["pending"]) == ("idle", 0, None)
        assert (status["term"], status["rows"], status["alive"]) == (None, [], [])


class Looked:
    """A store that tells that there is no row of a job only once somebody has made one."""

    def __init__(self, store: Store) -> None:
        self._store, self.looked, self.made = store, asyncio.Event(), asyncio.Event()

    def __getattr__(self, name: str) -> Any:
        return getattr(self._store, name)

    async def load(self, job: str) -> Stored | None:
        found = await self._store.load(job)
        if found is None:
            self.looked.set()
            await self.made.wait()
        return found

    async def create(self, job: str, *given: Any) -> int:
        version = await self._store.create(job, *given)
        self.made.set()
        return version


async def test_a_job_is_created_while_somebody_looks_for_it(file: Store, tmp_path: Path) -> None:
    store: Any = Looked(file)
    async with running(store, tmp_path / "logs") as (_, caller):
        looking = asyncio.create_task(caller.get())
        await store.looked.wait()
        assert (await caller.create()).status == 201
        assert (await looking).status == 404
        assert (await caller.get()).status == 200


@pytest.mark.parametrize("policy", [
    [], "shop", {}, {**POLICY, "lives": 1}, {**POLICY, "guard": 0}, {**POLICY, "guard": "9"},
    {**POLICY, "guard": 1 << 33}, {**POLICY, "skew": 1000}, {**POLICY, "redundancy": [2, 1]},
    {**POLICY, "redundancy": [0, 1]}, {**POLICY, "redundancy": [1, 6]}, {**POLICY, "skew": -1},
    {**POLICY, "skew": 1.5}, {**POLICY, "skew": True}, {**POLICY, "redundancy": [1]},
])
async def test_a_policy_outside_its_limits(file: Store, tmp_path: Path, policy: object) -> None:
    async with running(file, tmp_path / "logs") as (_, caller):
        assert (await caller.create(policy)).status == 400
        assert (await caller.get()).status == 404


async def test_names_of_jobs(file: Store, tmp_path: Path) -> None:
    async with running(file, tmp_path / "logs") as (_, caller):
        for name, status in [
            ("j" * 64, 201), ("j" * 65, 400), ("shop-2.staging_A", 201), ("%C3%A9", 400),
            ("a%2Fb", 400), ("..%2Fup", 400), ("..", 405), (".hidden", 400), ("a%00", 400),
        ]:
            caller.job = name
            assert (await caller.create()).status == status, name
            if status == 201:
                await caller.take()
    made = {path.parent for path in tmp_path.rglob("control-0.*.jsonl")}
    assert made == {tmp_path / "logs" / name for name in ("j" * 64, "shop-2.staging_A")}


async def test_lives_are_given_once(file: Store, tmp_path: Path) -> None:
    async with running(file, tmp_path / "logs") as (_, caller):
        await caller.create()
        told = [(await caller.post(f"tasks/{task}/life")).json for task in (7, 7, 7, 8)]
        keys = {one.pop("key") for one in told}
        assert told == [{"life": n, "last": n - 1} for n in (1, 2, 3, 1)]
        assert len(keys) == 4 and all(len(bytes.fromhex(key)) == 32 for key in keys)
        for task in ("0", "65", "-1", "x", "1e1", "\u0661"):
            assert (await caller.post(f"tasks/{task}/life")).status == 400, task
    async with running(file, tmp_path / "logs") as (_, caller):
        later = (await caller.post("tasks/7/life")).json
        assert (later["life"], later["last"]) == (4, 3) and later["key"] not in keys


# Calls of a table ------------------------------------------------------------------------------


async def test_a_round(file: Store, tmp_path: Path) -> None:
    async with running(file, tmp_path / "logs") as (_, caller):
        term = await begun(caller)
        granted = await caller.grant(1)
        assert granted.status == 200
        grant = granted.json["value"]
        assert (grant["number"], grant["kind"], grant["generation"]) == ("1", "guard", "1")
        assert granted.reading is not None
        assert int(grant["until"]) == granted.reading + POLICY["guard"]
        with Slicelet("shop", 1) as task:
            task.start(1, granted.reading)
            task.hear(granted.body, granted.reading)
            assert task.serve(b"hello", granted.reading).generation == 1
            note = task.release("guard", granted.reading)
        freed = await caller.post("free", note)
        assert (freed.status, freed.json) == (200, {"freed": 1})
        assert (await caller.get()).json["term"]["number"] == term
        renewed = (await caller.post("renew", {"term": term})).json
        assert (renewed["number"], renewed["assigner"]) == (term, 1)
    told = [(line["do"], line["reply"].split()[0]) for line in lines_of(tmp_path / "logs")]
    assert told == [
        ("take", "term"), ("propose", "proposed"), ("commit", "committed"), ("grant", "grant"),
        ("free", "freed"), ("renew", "renewed"),
    ]


async def test_refusals_have_their_numbers(file: Store, tmp_path: Path) -> None:
    async with running(file, tmp_path / "logs") as (_, caller):
        await caller.create()
        refused = await caller.grant(1)
        assert (refused.status, refused.json) == (409, {"refused": "no-assignment", "told": {}})
        taken = (await caller.post("take", {"assigner": 1})).json
        await asyncio.sleep(0.01)
        held = await caller.post("take", {"assigner": 2})
        assert held.json == {"refused": "job-held", "told": {"until": taken["until"]}}
        other = await caller.post("renew", {"term": 9})
        assert other.json == {"refused": "not-holder", "told": {"number": 1}}
        await caller.change(1, 1, WHOLE)
        await caller.grant(1)
        proposed = await caller.post("propose?term=1", assignment(2, [[0, [2]]]))
        assert proposed.json == {"generation": 2}
        held = await caller.post("commit", {"term": 1})
        assert held.json == {
            "refused": "held", "told": {"task": 1, "kind": "guard", "number": 1}
        }


async def test_refused_calls_are_logged(file: Store, tmp_path: Path) -> None:
    async with running(file, tmp_path / "logs") as (_, caller):
        await begun(caller)
        assert (await caller.post("renew", {"term": 9})).json["refused"] == "not-holder"
    replies = [line["reply"] for line in lines_of(tmp_path / "logs")]
    assert replies[-1] == "refused not-holder 1"


@pytest.mark.parametrize("call", [
    "grant", "free", "take", "renew", "propose?term=1", "commit", "loads", "drain",
])
async def test_bodies_that_are_malformed(file: Store, tmp_path: Path, call: str) -> None:
    async with running(file, tmp_path / "logs") as (_, caller):
        await begun(caller)
        before = len(lines_of(tmp_path / "logs"))
        for body in (
            b"", b"{", b"[]", b"{}", b"null", b"[" * 100_000, b"\xff", b'{"task":0,"life":1}',
            b'{"task":65,"life":1}', b'{"task":true,"life":1}', b'{"task":"1","life":1}',
            b'{"assigner":0}', b'{"assigner":18446744073709551616}', b'{"term":-1}',
            b'{"term":1.5}', b'{"value":{}}', b'{"value":[]}',
            *([b'{"task":1}', b'{"task":1,"loads":[[1,0,1]]}'] if call == "loads" else []),
        ):
            assert (await caller.post(call, body)).status == 400, (call, body)
        assert len(lines_of(tmp_path / "logs")) == before
        assert (await caller.grant(1)).status == 200


async def test_a_message_of_another_job(file: Store, tmp_path: Path) -> None:
    async with running(file, tmp_path / "logs") as (_, caller):
        await caller.create()
        term = await caller.take()
        other = await caller.post(f"propose?term={term}", assignment(1, WHOLE, job="store"))
        assert (other.status, other.json["error"]) == (400, "other-job")
        assert (await caller.get()).json["pending"] is None


async def test_retries_are_answered_as_the_first_time(file: Store, tmp_path: Path) -> None:
    async with running(file, tmp_path / "logs") as (_, caller):
        await caller.create()
        term = await caller.take()
        message = assignment(1, WHOLE)
        first = await caller.post(f"propose?term={term}", message)
        again = await caller.post(f"propose?term={term}", message)
        assert (again.status, again.json) == (first.status, first.json) == (200, {"generation": 1})
        assert first.reading is not None and again.reading is None
        other = await caller.post(f"propose?term={term}", assignment(1, HALVES))
        assert other.json["refused"] == "pending"
        assert (await caller.post("commit", {"term": term})).reading is not None
        for body in ({"term": term}, {"term": term, "generation": 1}):
            again = await caller.post("commit", body)
            assert (again.status, again.json, again.reading) == (200, {"generation": 1}, None)
        wrong = await caller.post("commit", {"term": term, "generation": 2})
        assert wrong.json["refused"] == "nothing-pending"
        granted = await caller.grant(1)
        with Slicelet("shop", 1) as task:
            assert granted.reading is not None
            task.start(1, granted.reading)
            task.hear(granted.body, granted.reading)
            note = task.release("guard", granted.reading)
        told = [await caller.post("free", note) for _ in range(3)]
        assert [one.json for one in told] == [{"freed": 1}] * 3
        assert [one.reading is None for one in told] == [False, True, True]
    lines = lines_of(tmp_path / "logs")
    assert [line["do"] for line in lines if not line["reply"].startswith("refused")] == [
        "take", "propose", "commit", "grant", "free",
    ]


async def test_what_only_looks_like_a_retry(file: Store, tmp_path: Path) -> None:
    """A commit of a generation that another one followed, and a proposal by a term that has ended."""
    async with running(file, tmp_path / "logs") as (_, caller):
        term = await begun(caller)
        await caller.change(term, 2, HALVES)
        older = await caller.post("commit", {"term": term, "generation": 1})
        assert (older.status, older.json["refused"]) == (409, "nothing-pending")
        message = assignment(3, WHOLE)
        proposed = await caller.post(f"propose?term={term}", message)
        assert (proposed.status, proposed.json) == (200, {"generation": 3})
        while (taken := await caller.post("take", {"assigner": 2})).status != 200:
            await asyncio.sleep(0.1)
        assert taken.json["number"] > term
        late = await caller.post(f"propose?term={term}", message)
        assert (late.status, late.json["refused"]) == (409, "not-holder")


async def test_retries_over_a_restart(file: Store, tmp_path: Path) -> None:
    async with running(file, tmp_path / "logs") as (_, caller):
        await caller.create()
        term = await caller.take()
        await caller.post(f"propose?term={term}", assignment(1, WHOLE))
    async with running(file, tmp_path / "logs") as (_, caller):
        again = await caller.post(f"propose?term={term}", assignment(1, WHOLE))
        assert (again.status, again.json, again.reading) == (200, {"generation": 1}, None)
        await caller.post("commit", {"term": term})
    async with running(file, tmp_path / "logs") as (_, caller):
        again = await caller.post("commit", {"term": term, "generation": 1})
        assert (again.status, again.json, again.reading) == (200, {"generation": 1}, None)
        refused = await caller.post("commit", {"term": term})
        assert refused.json["refused"] == "nothing-pending"


# Waiting ---------------------------------------------------------------------------------------


async def test_a_get_that_waits(file: Store, tmp_path: Path) -> None:
    async with running(file, tmp_path / "logs") as (_, caller):
        await caller.create()
        term = await caller.take()
        waiting = asyncio.create_task(caller.get("/assignment?after=0"))
        phase = asyncio.create_task(caller.get("/phase?committed=0&pending=0"))
        await asyncio.sleep(0.2)
        assert not waiting.done() and not phase.done()
        await caller.post(f"propose?term={term}", assignment(1, HALVES))
        assert (await phase).json == {"phase": "proposed", "committed": 0, "pending": 1}
        assert not waiting.done()
        await caller.post("commit", {"term": term})
        found = (await asyncio.wait_for(waiting, 5)).json["value"]
        assert found == {"generation": "1", "slices": [["0", [1]], [str(HALF), [2]]]}
        assert (await caller.get("/assignment?after=0")).json["value"] == found
        assert (await caller.get("/phase")).json == {
            "phase": "idle", "committed": 1, "pending": None
        }


async def test_a_get_that_waits_in_vain(
    file: Store, tmp_path: Path, monkeypatch: pytest.MonkeyPatch
) -> None:
    monkeypatch.setattr(waits, "LONGEST_WAIT", 0.2)
    async with running(file, tmp_path / "logs") as (_, caller):
        await begun(caller)
        assert (await caller.get("/assignment?after=1")).status == 204
        found = await caller.get("/phase?committed=1&pending=0")
        assert found.json == {"phase": "idle", "committed": 1, "pending": None}
        assert (await caller.get("/assignment?after=x")).status == 400


async def test_a_plane_that_stops_answers_who_waits(file: Store, tmp_path: Path) -> None:
    async with running(file, tmp_path / "logs") as (plane, caller):
        await begun(caller)
        waiting = asyncio.create_task(caller.get("/assignment?after=1"))
        await asyncio.sleep(0.1)
        await asyncio.wait_for(plane.stop(), 5)
        assert (await waiting).status == 204


# Stored before it is answered ------------------------------------------------------------------


async def test_no_answer_leaves_before_the_store_has_it(file: Store, tmp_path: Path) -> None:
    """A swap is held up; until it is let go there is no answer, and no line in the log."""
    trouble = Trouble(file)
    gate, reached = asyncio.Event(), asyncio.Event()

    async def wait() -> None:
        reached.set()
        await within(10, gate.wait())

    async with running(trouble, tmp_path / "logs") as (_, caller):  # type: ignore[arg-type]
        await begun(caller)
        before = len(lines_of(tmp_path / "logs"))
        for at, point in enumerate(("before", "after")):
            gate.clear()
            reached.clear()
            setattr(trouble, point, wait)
            asked = asyncio.create_task(caller.grant(1))
            await within(10, reached.wait())
            await asyncio.sleep(0.2)
            assert not asked.done()
            assert len(lines_of(tmp_path / "logs")) == before + at
            assert len((await caller.get()).json["rows"]) == at
            setattr(trouble, point, None)
            gate.set()
            assert (await asked).status == 200
            assert len(lines_of(tmp_path / "logs")) == before + at + 1
            assert len((await caller.get()).json["rows"]) == at + 1


async def test_a_store_that_is_too_slow(file: Store, tmp_path: Path) -> None:
    """The caller is told to retry. The call goes on, and its effect and its line are kept."""
    trouble, limits = Trouble(file), Limits(patience=0.3)
    async with running(trouble, tmp_path / "logs", limits=limits) as (  # type: ignore[arg-type]
        _, caller,
    ):
        await begun(caller)
        trouble.before = lambda: asyncio.sleep(0.8)
        late = await caller.grant(1)
        assert (late.status, late.json["refused"]) == (503, "store")
        assert late.headers["Retry-After"] == "1"
        trouble.before = None
        await asyncio.sleep(0.8)
        assert (await caller.grant(1)).json["value"]["number"] == "2"
    assert [line["do"] for line in lines_of(tmp_path / "logs")][-2:] == ["grant", "grant"]


async def test_a_store_that_stands_still_keeps_calls_up_once(tmp_path: Path) -> None:
    """Calls that wait behind one that met the deadline of the store fail with it: each would wait as long, one after
    the other, since each asks for the same."""
    async with opened(f"sqlite:{tmp_path}/jobs", 0.4) as store:
        trouble, tries = Trouble(store), list[str]()
        async with running(trouble, tmp_path / "logs") as (plane, caller):  # type: ignore[arg-type]
            term = await begun(caller)

            async def stands_still() -> None:
                tries.append("swap")
                while len(tries) == 1 and len(plane.jobs["shop"].job._waiting) < 5:
                    await asyncio.sleep(0.01)
                await asyncio.sleep(0.4)
                raise StoreFailed("no answer")

            trouble.before = stands_still
            told = await asyncio.gather(*(caller.post("renew", {"term": term}) for _ in range(6)))
            assert [one.status for one in told] == [503] * 6
            assert len(tries) == 1
            trouble.before = None
            assert (await caller.grant(1)).status == 200


async def test_a_store_that_fails_before_it_writes(file: Store, tmp_path: Path) -> None:
    trouble = Trouble(file)
    async with running(trouble, tmp_path / "logs") as (plane, caller):  # type: ignore[arg-type]
        await begun(caller)
        trouble.before = fail
        failed = await caller.grant(1)
        assert (failed.status, failed.json["refused"]) == (503, "store")
        assert failed.reading is None
        assert not plane.jobs["shop"].job.is_held
        trouble.before = None
        granted = await caller.grant(2)
        assert granted.json["value"]["number"] == "1"
    told = [(line["do"], line.get("task")) for line in lines_of(tmp_path / "logs")][3:]
    assert told == [("restore", None), ("grant", 2)]


async def test_a_store_that_fails_after_it_wrote(file: Store, tmp_path: Path) -> None:
    """The number that was stored is not given again, and the line of the call is not lost."""
    trouble = Trouble(file)
    async with running(trouble, tmp_path / "logs") as (_, caller):  # type: ignore[arg-type]
        await begun(caller)
        trouble.after = fail
        assert (await caller.grant(1)).status == 503
        trouble.after = None
        assert (await caller.grant(2)).json["value"]["number"] == "2"
    lines = lines_of(tmp_path / "logs")
    assert [(line["do"], line.get("task")) for line in lines][3:] == [
        ("grant", 1), ("restore", None), ("grant", 2)
    ]
    restore = lines[4]
    assert (restore["granted"], restore["last"]) == (1, lines[3]["at"])
    assert restore["deadline"] == lines[3]["at"] + POLICY["guard"]
    assert restore["reply"] == f"restored generation 1 grace {restore['deadline']}"


# Calls that wait together ------------------------------------------------------------------------


class Slow(Trouble):
    """A store whose next swap waits until it may go on."""

    def __init__(self, store: Store) -> None:
        super().__init__(store)
        self.swaps = 0
        self._next: list[asyncio.Event] = []

    def hold_up(self) -> asyncio.Event:
        """Lets the next swap wait for what is returned."""
        self._next.append(asyncio.Event())
        return self._next[-1]

    async def swap(
        self, job: str, version: int, kept: bytes, line: str | None, holding: Holding | None = None
    ) -> int:
        self.swaps += 1
        if self._next:
            await within(10, self._next.pop(0).wait())
        return await super().swap(job, version, kept, line, holding)


async def told_together(
    plane: Plane, slow: Slow, caller: Caller, calls: list[tuple[str, object]],
    then: Callable[[], object] | None = None,
) -> list[Answer]:
    """Makes a grant, and calls that wait while it is stored; calls `then` before they are. Returns
    the answers to these calls."""
    for call, body in calls:
        if call == "grant" and isinstance(body, dict):
            await caller.begin(body["task"], body["life"])
    await caller.begin(1)
    job, go = plane.jobs["shop"].job, slow.hold_up()
    first = asyncio.create_task(caller.grant(1))
    waiting = []
    for at, (call, body) in enumerate(calls):
        while slow._next or len(job._waiting) < at:
            await asyncio.sleep(0.001)
        waiting.append(asyncio.create_task(caller.post(call, body)))
    while len(job._waiting) < len(calls):
        await asyncio.sleep(0.001)
    held_up = slow.hold_up()
    go.set()
    assert (await first).status == 200
    while slow._next:  # else the plane may look at what `then` wrote before it makes the calls
        await asyncio.sleep(0.001)
    await done(then)
    held_up.set()
    return list(await asyncio.gather(*waiting))


GRANTS: list[tuple[str, object]] = [("grant", {"task": task, "life": 1}) for task in range(2, 10)]


async def test_calls_that_wait_are_stored_by_one_write(file: Store, tmp_path: Path) -> None:
    slow, logs = Slow(file), tmp_path / "logs"
    async with running(slow, logs, shared=True) as (plane, caller):  # type: ignore[arg-type]
        term = await begun(caller)
        slow.swaps = 0
        calls = [*GRANTS, ("free", b'{"value":{}}'), ("renew", {"term": 9})]
        told = await told_together(plane, slow, caller, calls)
        assert slow.swaps == 2
        assert [one.status for one in told] == [200] * 8 + [400, 409]
        granted = [one.json["value"] for one in told[:8]]
        assert [(one["task"], int(one["number"])) for one in granted] == [
            (task, task) for task in range(2, 10)
        ]
        readings = {one.reading for one in told[:8] + told[9:]}
        assert len(readings) == 1
        stored = await file.load("shop")
        assert stored is not None and stored.line is not None
        lines = [json.loads(line) for line in stored.line.removeprefix("0 ").split("\n")]
        assert [line["reply"].split()[0] for line in lines] == ["grant"] * 8 + ["refused"]
        assert (await caller.post("renew", {"term": term})).status == 200
    logged = [{**line, "file": None} for line in lines_of(logs)]
    assert logged[-10:-1] == [{**line, "file": None} for line in lines]


async def test_a_failed_write_answers_none_of_them(file: Store, tmp_path: Path) -> None:
    slow, logs = Slow(file), tmp_path / "logs"
    async with running(slow, logs, shared=True) as (plane, caller):  # type: ignore[arg-type]
        await begun(caller)
        told = await told_together(
            plane, slow, caller, GRANTS, lambda: setattr(slow, "before", fail)
        )
        assert [(one.status, one.json["refused"]) for one in told] == [(503, "store")] * 8
        assert {one.reading for one in told} == {None}
        assert not plane.jobs["shop"].job.is_held
        slow.before = None
        assert (await caller.grant(2)).json["value"]["number"] == "2"
    told_of = [(line["do"], line.get("task")) for line in lines_of(logs)][3:]
    assert told_of == [("grant", 1), ("restore", None), ("grant", 2)]


async def test_a_write_that_failed_late_loses_no_line(file: Store, tmp_path: Path) -> None:
    slow, logs = Slow(file), tmp_path / "logs"
    async with running(slow, logs, shared=True) as (plane, caller):  # type: ignore[arg-type]
        await begun(caller)
        told = await told_together(
            plane, slow, caller, GRANTS, lambda: setattr(slow, "after", fail)
        )
        assert [one.status for one in told] == [503] * 8
        slow.after = None
        assert (await caller.grant(2)).json["value"]["number"] == "10"
    told_of = [(line["do"], line.get("task")) for line in lines_of(logs)][3:]
    assert told_of == [
        *(("grant", task) for task in range(1, 10)), ("restore", None), ("grant", 2)
    ]


async def test_a_conflict_answers_none_of_them(file: Store, tmp_path: Path) -> None:
    slow, logs = Slow(file), tmp_path / "logs"
    async with running(slow, logs, shared=True) as (plane, caller):  # type: ignore[arg-type]
        await begun(caller)

        async def write_first() -> None:
            stored = await file.load("shop")
            assert stored is not None
            await file.swap("shop", stored.version, stored.kept, stored.line)

        told = await told_together(plane, slow, caller, GRANTS, write_first)
        assert [(one.status, one.json["refused"]) for one in told] == [(503, "replaced")] * 8
        assert (await caller.grant(2)).json["value"]["number"] == "2"
    assert [line["do"] for line in lines_of(logs)][3:] == ["grant", "restore", "grant"]


async def test_a_note_that_waits_twice_frees_once(file: Store, tmp_path: Path) -> None:
    slow, logs = Slow(file), tmp_path / "logs"
    async with running(slow, logs, shared=True) as (plane, caller):  # type: ignore[arg-type]
        await begun(caller)
        granted = await caller.grant(2)
        assert granted.reading is not None
        with Slicelet("shop", 2) as task:
            task.start(1, granted.reading)
            task.hear(granted.body, granted.reading)
            note = task.release("guard", granted.reading)
        told = await told_together(plane, slow, caller, [("free", note)] * 2)
        assert [(one.status, one.json) for one in told] == [(200, {"freed": 1})] * 2
    assert [line["do"] for line in lines_of(logs)][4:] == ["grant", "free"]


async def test_several_grants_of_one_call(file: Store, tmp_path: Path) -> None:
    """Each is answered as a call of its own would be."""
    logs, limits = tmp_path / "logs", Limits(grants=1, burst=2)
    async with running(file, logs, shared=True, limits=limits) as (_, caller):
        await begun(caller)
        caller.job, caller.lives = "empty", {}
        await caller.create()
        await caller.begin(1)

        def asked(job: object, task: int) -> dict[str, object]:
            return {"job": job, "task": task, "life": 1}

        both = [asked("shop", 1), asked("shop", 2)]
        body = {"grants": [
            *both, asked("none", 1), *both, asked("empty", 1), *both, asked("shop", 65),
            asked(7, 1), 3,
        ]}
        answer = await caller.ask("POST", "/grants", body)
        told = answer.json["answers"]
        assert [one["status"] for one in told] == [
            200, 200, 404, 200, 200, 409, 429, 429, 400, 400, 400
        ]
        numbers = [one["body"]["value"]["number"] for one in told if one["status"] == 200]
        assert numbers == ["1", "2", "3", "4"]
        assert {one["reading"] is None for one in told[:2] + told[3:5]} == {False}
        assert told[5]["body"] == {"refused": "no-assignment", "told": {}}
        assert told[6]["body"]["limit"] == "grants"
        for wrong in ({}, {"grants": []}, {"grants": {}}, {"grants": both * 513}):
            assert (await caller.ask("POST", "/grants", wrong)).status == 400
    assert [line["do"] for line in lines_of(logs)][3:] == ["grant"] * 4


async def test_several_grants_while_the_store_is_slow(file: Store, tmp_path: Path) -> None:
    trouble, limits = Trouble(file), Limits(patience=0.3)
    async with running(
        trouble, tmp_path / "logs", limits=limits  # type: ignore[arg-type]
    ) as (_, caller):
        await begun(caller)
        trouble.before = lambda: asyncio.sleep(0.8)
        body = {"grants": [{"job": "shop", "task": 1, "life": 1}]}
        told = (await caller.ask("POST", "/grants", body)).json["answers"]
        assert [(one["status"], one["body"]["refused"]) for one in told] == [(503, "store")]


async def test_a_restart_goes_on_with_grace(file: Store, tmp_path: Path) -> None:
    async with running(file, tmp_path / "logs") as (_, caller):
        term = await begun(caller)
        granted = await caller.grant(1)
        until = int(granted.json["value"]["until"])
    async with running(file, tmp_path / "logs") as (plane, caller):
        proposed = await caller.post(f"propose?term={term}", assignment(2, HALVES))
        assert proposed.status == 200
        assert granted.reading is not None and proposed.reading is not None
        assert proposed.reading >= granted.reading
        held = await caller.post("commit", {"term": term})
        assert (held.status, held.json) == (409, {"refused": "grace", "told": {"until": until}})
        assert plane.jobs["shop"].job.grace_left() > 0
        again = await caller.grant(1)
        assert again.json["value"]["number"] == "2"
        assert again.json["value"]["kind"] == "bridge"


@pytest.mark.parametrize("shared", [False, True])
async def test_the_reading_of_a_refused_call_counts(
    file: Store, tmp_path: Path, shared: bool
) -> None:
    """It is stored as that of a grant that nobody gets, or is not used: it is in no answer and in
    no log."""
    logs = tmp_path / "logs"
    async with running(file, logs, shared=shared) as (_, caller):
        await caller.create()
        await caller.grant(1)  # perhaps at 0, which is stored
        before = len(lines_of(logs))
        await asyncio.sleep(0.05)
        early = await caller.grant(1)
        assert (early.status, early.reading) == (409, None)
        assert len(lines_of(logs)) == before
        await caller.change(await caller.take(), 1, WHOLE)
        await caller.grant(1)
        await asyncio.sleep(0.3)
        refused = await caller.post("renew", {"term": 9})
        assert refused.status == 409 and refused.reading is not None
        assert lines_of(logs)[-1]["at"] == refused.reading
    async with running(file, logs, shared=shared) as (_, caller):
        again = await caller.grant(1)
        assert again.reading is not None and again.reading >= refused.reading
        assert again.json["value"]["number"] == "3"
    restore = [line for line in lines_of(logs) if line["do"] == "restore"]
    assert [(line["last"], line["granted"]) for line in restore] == [(refused.reading, 2)]
    assert restore[0]["deadline"] == refused.reading + POLICY["guard"]


async def test_most_grants_store_nothing(file: Store, tmp_path: Path) -> None:
    """What is saved ahead covers grants up to the twentieth after it, which saves anew. A process
    that is killed loses the numbers that are left; one that ends well loses none."""
    trouble, swaps = Trouble(file), []
    trouble.before = lambda: swaps.append(1)
    logs, ahead = tmp_path / "logs", (20, 3000)
    async with running(trouble, logs, ahead=ahead) as (plane, caller):  # type: ignore[arg-type]
        await begun(caller)
        swaps.clear()
        told = [await caller.grant(1) for _ in range(42)]
        assert len(swaps) == 3  # the first, which lets the life in, and each twentieth after it
        assert [int(one.json["value"]["number"]) for one in told] == list(range(1, 43))
        swaps.clear()
        assert (await caller.post("renew", {"term": 9})).status == 409
        assert (await caller.get("/phase")).status == 200
        assert not swaps
        plane.jobs["shop"].job.drop()  # as a kill: nothing is settled
        killed = await caller.grant(1)
        assert int(killed.json["value"]["number"]) == 62  # after 41 and the 20 saved ahead
        assert killed.reading is not None and told[-1].reading is not None
        assert killed.reading >= told[-1].reading
    async with running(trouble, logs, ahead=ahead) as (_, caller):  # type: ignore[arg-type]
        again = await caller.grant(1)
        assert int(again.json["value"]["number"]) == 63
        assert again.reading is not None and again.reading >= killed.reading
    restores = [line for line in lines_of(logs) if line["do"] == "restore"]
    assert [line["granted"] for line in restores] == [61, 62]


async def test_a_restart_after_saving_ahead_waits(file: Store, tmp_path: Path) -> None:
    """The clock of the next process starts below the reading that was kept, by as much as it was
    ahead, so it is not ahead of what tasks may have read: the first call waits."""
    logs, ahead = tmp_path / "logs", (20, 700)
    async with running(file, logs, ahead=ahead) as (plane, caller):
        await begun(caller)
        last = await caller.grant(1)
        held = plane.jobs["shop"].job._held
        assert held is not None and last.reading is not None
        kept, begins = held.last, time.monotonic()
        assert kept > last.reading
        plane.jobs["shop"].job.drop()
        next_one = await caller.grant(1)
        waited = (time.monotonic() - begins) * 1000
        assert next_one.reading is not None and next_one.reading >= kept
        assert next_one.reading - last.reading <= waited + 10
        await plane.stop()
    async with running(file, logs, ahead=ahead) as (_, caller):  # it was settled
        begins = time.monotonic()
        assert (await caller.grant(1)).status == 200
        assert time.monotonic() - begins < 0.3


# Two planes ------------------------------------------------------------------------------------


async def test_two_planes_never_both_write(
    url: str, job: str, tmp_path: Path, monkeypatch: pytest.MonkeyPatch
) -> None:
    """The second takes over when the beat of the first stands still; the first then drops its table. Numbers of
    grants are not given twice, and readings do not fall."""
    logs = tmp_path / "logs"

    async def silent(*_: object) -> None:
        raise StoreFailed("no beat is written")

    async with (
        opened(url) as first, running(first, logs, 40, True, 1.0) as (one, a),
        opened(url) as second, running(second, logs, 41, True, 1.0) as (two, b),
    ):
        a.job = b.job = job
        await a.create({**POLICY, "guard": 10_000, "bridge": 10_000, "job": 20_000})
        await a.change(await a.take(), 1, WHOLE)
        await until(lambda: two.peers.others() == [40] and job in two.jobs and two.jobs[job].job.holder == 40)
        await until(lambda: one.peers.others() == [41])
        told = [await a.grant(1), await b.grant(1)]
        for silenced, other, callers in ((one, two, (b, a)), (two, one, (b, a))):
            with monkeypatch.context() as patched:
                patched.setattr(silenced.peers, "beat", silent)
                await until(lambda: other.jobs[job].job.is_held)
                await until(lambda: not silenced.jobs[job].job.is_held)  # it looked, and dropped its table
                told += [await caller.grant(1) for caller in callers]
            await until(lambda: other.peers.others() == [silenced.settings.process])
        assert [answer.status for answer in told] == [200] * 6, told
        assert [answer.json["value"]["number"] for answer in told] == ["1", "2", "3", "4", "5", "6"]
        readings = [answer.reading for answer in told]
        assert readings == sorted(readings)  # type: ignore[type-var]
        assert (await b.get("/assignment?after=0")).json["value"]["generation"] == "1"
    lines = lines_of(logs, job)
    assert [line["do"] for line in lines] == [
        "take", "propose", "commit", "grant", "grant", "restore", "grant", "grant", "restore", "grant", "grant",
    ]
    restores = [line["file"].split(".")[0] for line in lines if line["do"] == "restore"]
    assert restores == ["control-41", "control-40"]


async def test_a_plane_that_was_replaced_unseen(file: Store, tmp_path: Path) -> None:
    """Another one writes between two calls: the call that meets the conflict has no answer."""
    async with running(file, tmp_path / "logs", shared=True, poll=60.0) as (plane, caller):
        await begun(caller)
        job = plane.jobs["shop"].job
        stored = await file.load("shop")
        assert stored is not None and stored.line is not None
        line = json.loads(stored.line.removeprefix("0 "))
        line["ticket"] += (1 << 16) + 5  # a ticket of process 5
        await file.swap("shop", stored.version, stored.kept, "0 " + json.dumps(line))
        job_held = job.is_held
        answer = await caller.grant(1)
        assert job_held and (answer.status, answer.json["refused"]) == (503, "replaced")
        assert not job.is_held
        assert [one["do"] for one in lines_of(tmp_path / "logs")] == ["take", "propose", "commit"]
        while (answer := await caller.grant(1)).status != 200:  # until the row stood still for long enough
            assert (answer.status, answer.json["refused"]) == (503, "replaced")
            await asyncio.sleep(0.1)
        assert answer.json["value"]["number"] == "1"


async def test_a_standby_sees_what_the_other_commits(url: str, job: str, tmp_path: Path) -> None:
    logs = tmp_path / "logs"
    async with (
        opened(url) as first, running(first, logs, 0, True) as (_, a),
        opened(url) as second, running(second, logs, 1, True) as (_, b),
    ):
        a.job = b.job = job
        await a.create()
        assert (await b.get("/phase")).json["committed"] == 0
        waiting = asyncio.create_task(b.get("/assignment?after=0"))
        term = await a.take()
        await a.post(f"propose?term={term}", assignment(1, HALVES, job))
        await a.post("commit", {"term": term})
        assert (await asyncio.wait_for(waiting, 5)).json["value"]["generation"] == "1"
        assert (await b.post("tasks/3/life")).json["life"] == 1
        assert (await a.post("tasks/3/life")).json["life"] == 2


# Limits and callers ----------------------------------------------------------------------------


async def test_bodies_have_a_limit(file: Store, tmp_path: Path) -> None:
    async with running(file, tmp_path / "logs") as (_, caller):
        await begun(caller)
        most = json.dumps({"task": 1, "life": 1}).encode().ljust(1 << 20)
        assert (await caller.post("grant", most)).status == 200
        larger = await caller.post("grant", most + b" ")
        assert (larger.status, larger.json["limit"]) == (413, "body")


async def test_jobs_have_a_limit(file: Store, tmp_path: Path) -> None:
    async with running(file, tmp_path / "logs", limits=Limits(jobs=2)) as (_, caller):
        for name, status in [("a", 201), ("b", 201), ("c", 429), ("b", 200)]:
            caller.job = name
            answer = await caller.create()
            assert answer.status == status
            if status == 429:
                assert answer.json["limit"] == "jobs" and "Retry-After" in answer.headers


async def test_grants_of_a_task_have_a_rate(file: Store, tmp_path: Path) -> None:
    limits = Limits(grants=2, burst=3)
    async with running(file, tmp_path / "logs", limits=limits) as (_, caller):
        await begun(caller)
        told = [await caller.grant(1) for _ in range(5)]
        assert [answer.status for answer in told] == [200] * 3 + [429] * 2
        assert told[-1].json["limit"] == "grants"
        assert told[-1].headers["Retry-After"] == "1"
        assert (await caller.grant(2)).status == 200
        await asyncio.sleep(0.6)
        assert [(await caller.grant(1)).status for _ in range(2)] == [200, 429]


def test_a_burst_is_limited_however_long_nobody_asked() -> None:
    bucket = Bucket(2.0, 3.0, 100.0)
    assert [bucket.take(1000.0) for _ in range(4)] == [0.0, 0.0, 0.0, 0.5]


async def test_connections_have_a_limit(file: Store, tmp_path: Path) -> None:
    limits = Limits(connections=2)
    async with running(file, tmp_path / "logs", limits=limits) as (_, caller):
        async with aiohttp.ClientSession() as one, aiohttp.ClientSession() as two:
            assert (await caller.ask("GET", "/healthz")).status == 200
            assert (await Caller(caller.url, one).ask("GET", "/healthz")).status == 200
            answer = await Caller(caller.url, two).ask("GET", "/healthz")
            assert (answer.status, answer.json["limit"]) == (429, "connections")
            assert "Retry-After" in answer.headers
        await asyncio.sleep(0.1)
        async with aiohttp.ClientSession() as three:
            assert (await Caller(caller.url, three).ask("GET", "/healthz")).status == 200


async def test_callers_have_a_secret(file: Store, tmp_path: Path) -> None:
    secrets = ["correct horse battery", "a second one for a change"]
    async with running(file, tmp_path / "logs", secrets=secrets) as (_, caller):
        for given, status in [
            (None, 401), ("Bearer wrong", 401), ("Bearer ", 401), (secrets[0], 401),
            (f"Bearer {secrets[0]}", 404), (f"Bearer {secrets[1]}", 404),
        ]:
            headers = {"Authorization": given} if given is not None else {}
            for method, path in [("GET", "/jobs/shop"), ("POST", "/jobs/shop/grant")]:
                body = {"task": 1, "life": 1} if method == "POST" else None
                assert (await caller.ask(method, path, body, headers)).status == status, given
        assert (await caller.ask("GET", "/metrics")).status == 401
        assert (await caller.ask("GET", "/healthz")).body == b"ok\n"


async def test_tickets_go_both_ways(file: Store, tmp_path: Path) -> None:
    async with running(file, tmp_path / "logs") as (_, caller):
        await begun(caller)
        first = int((await caller.ask("GET", "/healthz")).headers["Hourstable-Ticket"])
        ahead = first + (5000 << 16)  # a sender whose real time is 5 s ahead
        body = {"task": 1, "life": 1}
        headers = {"Hourstable-Ticket": str(ahead)}
        answer = await caller.ask("POST", "/jobs/shop/grant", body, headers)
        assert int(answer.headers["Hourstable-Ticket"]) > ahead
        for wrong in ("-1", "x"):
            headers = {"Hourstable-Ticket": wrong}
            assert (await caller.ask("GET", "/jobs", None, headers)).status == 400
    assert lines_of(tmp_path / "logs")[-1]["ticket"] > ahead


async def test_metrics(file: Store, tmp_path: Path) -> None:
    trouble = Trouble(file)
    async with running(trouble, tmp_path / "logs") as (_, caller):  # type: ignore[arg-type]
        await begun(caller)
        await caller.grant(1)
        await caller.post("renew", {"term": 7})
        trouble.before = fail
        await caller.grant(1)
        trouble.before = None
        await caller.grant(1)
        answer = await caller.ask("GET", "/metrics")
    found: dict[tuple[str, ...], float] = {}
    families = text_string_to_metric_families(answer.body.decode())  # type: ignore[no-untyped-call]
    for family in families:
        assert family.name.startswith("hourstable_")
        assert family.documentation.endswith(".")
        for sample in family.samples:
            labels = [sample.labels[name] for name in sorted(sample.labels)]
            found[(sample.name, *labels)] = sample.value
    assert found[("hourstable_calls_total", "grant", "shop")] == 2
    assert found[("hourstable_refusals_total", "renew", "shop", "not-holder")] == 1
    assert found[("hourstable_restarts_total", "shop")] == 1
    assert found[("hourstable_store_failures_total", "swap")] == 1
    assert found[("hourstable_generation", "shop")] == 1
    assert found[("hourstable_held", "shop")] == 1
    assert found[("hourstable_tasks_alive", "shop")] == 1
    assert found[("hourstable_rows", "shop")] == 1
    assert found[("hourstable_grants_made", "shop")] == 3  # one for the reading of the renewal
    assert found[("hourstable_numbers_left_ratio", "shop")] == 1 - 3 / 1000
    assert 0 < found[("hourstable_grace_seconds", "shop")] <= 1
    assert found[("hourstable_open_connections",)] >= 1
    assert found[("hourstable_request_seconds_count", "grant")] == 3


async def test_a_damaged_job_keeps_no_other_from_being_served(
    file: Store, tmp_path: Path
) -> None:
    async with running(file, tmp_path / "logs") as (_, caller):
        for name in ("bad", "good"):
            caller.job = name
            await begun(caller)
    stored = await file.load("bad")
    assert stored is not None
    await file.swap("bad", stored.version, b'{"no":"message"}', stored.line)
    async with running(file, tmp_path / "logs") as (_, caller):
        caller.job = "bad"
        assert (await caller.grant(1)).status == 503
        caller.job = "good"
        assert (await caller.grant(1)).status == 200
