"""Tables that are handed over with their rows: they answer as before, for the version of the row of the store that
they were told with, and else they are restored."""

import json
import shutil
import subprocess
import sys
from collections.abc import Callable
from pathlib import Path
from random import Random
from typing import Any

import pytest

import needed

needed.library()

from hourstable import handed as handing  # noqa: E402
from hourstable.handed import Handed, Start, Step, Trail, rows_of  # noqa: E402
from hourstable.jobs import Job  # noqa: E402
from hourstable.library import Policy, Refused, Table, ended_note  # noqa: E402
from serving import assignment, lines_of  # noqa: E402
from test_failover import STANDBY, WHOLE, Side, two  # noqa: E402, F401
from waits import until  # noqa: E402

JOB = "shop"
POLICY = Policy(1, 1, 0, 100, 150, 300, 1 << 32)
HALF = 1 << 62
STEPS = 300  # of a run
TASKS = range(1, 4)


class Run:
    """A table that is called at random, and its trail. `twins` are tables that were handed over, which are called as
    well."""

    def __init__(self, random: Random) -> None:
        self.random, self.at = random, 0
        self.table = Table(JOB, POLICY)
        self.trail = Trail(Start(self.table.kept()))
        self.twins: list[Table] = []

    def step(self) -> Step:
        """Returns a call that may be accepted."""
        random, phase = self.random, self.table.phase()
        term = int((json.loads(self.table.kept())["value"]["term"] or {"number": 0})["number"])
        do = random.choice([*["grant"] * 3, "free", "take", *["renew"] * 2, "propose", *["commit"] * 2])
        numbers, message = {"term": term}, b""
        if do == "grant":
            numbers = {"task": random.choice(TASKS), "life": 1}
        elif do == "take":
            numbers = {"assigner": 1}
        elif do == "propose":
            message = assignment(phase.committed + 1, [[0, [random.choice(TASKS)]], [HALF, [random.choice(TASKS)]]])
        elif do == "free":
            numbers, message = {}, self.note()
        return Step(do, numbers, self.at, message.decode())

    def note(self) -> bytes:
        """Returns a note of some open rows, or of none."""
        note = json.loads(ended_note(JOB, self.random.choice(TASKS), 1, self.random.choice(("guard", "bridge"))))
        if self.random.random() < 0.5:
            note["value"]["number"] = str(self.random.randint(1, 1 << 8))
        return json.dumps(note).encode()

    def play(self) -> None:
        """Makes a call of the table and of its twins, which answer the same."""
        self.at += self.random.choice((0, 1, 5, 20, 60))
        step = self.step()
        answers = [answer(step, table) for table in (self.table, *self.twins)]
        assert all(it == answers[0] for it in answers), (step, answers)
        states = [(table.kept(), rows_of(table)) for table in (self.table, *self.twins)]
        assert all(it == states[0] for it in states), step
        if answers[0] == "done":
            self.trail.add([step], self.table)

    def restart(self) -> None:
        """Loses the rows, as where the process is killed."""
        kept = self.table.kept()
        for table in (self.table, *self.twins):
            table.close()
        self.table, self.twins = Table.restore(JOB, POLICY, kept), []
        self.trail = Trail(Start(kept))

    def hand(self) -> Handed:
        """Hands the table over, through a text."""
        start = self.trail.told()
        assert start is not None
        told = Handed(7, "holder", start, self.table.kept(), rows_of(self.table), 0, {1: 5}, {2: 6})
        read = Handed.read(json.loads(json.dumps(told.value())))
        assert read == told
        return read


def answer(step: Step, table: Table) -> str:
    """Returns how a table answers a call."""
    try:
        step.play(table)
        return "done"
    except Refused as refusal:
        return str(refusal)


@pytest.mark.parametrize("seed", range(30))
def test_a_table_that_is_handed_over_answers_as_before(seed: int) -> None:
    run, with_rows, later = Run(Random(seed)), 0, 0
    for _ in range(STEPS):
        run.play()
        chance = run.random.random()
        if chance < 0.02:
            run.restart()
        elif chance < 0.12:
            told = run.hand()
            twin = told.table(JOB, POLICY)
            assert twin is not None
            with_rows, later = with_rows + bool(told.rows), later + (told.start.deadline > 0)
            run.twins = [*run.twins[-2:], twin]
    assert with_rows > 3 and later > 3


def test_calls_that_are_too_many_are_not_told(monkeypatch: pytest.MonkeyPatch) -> None:
    monkeypatch.setattr(handing, "MOST", 10)
    run = Run(Random(1))
    run.table.take(1, 0)
    run.trail.add([Step("take", {"assigner": 1}, 0)], run.table)

    def granted(at: int) -> None:
        run.table.grant(1, 1, at)
        run.trail.add([Step("grant", {"task": 1, "life": 1}, at)], run.table)

    run.table.propose(1, assignment(1, WHOLE), 0)
    run.trail.add([Step("propose", {"term": 1}, 0, assignment(1, WHOLE).decode())], run.table)
    granted(1)
    assert run.trail.told() is not None
    for _ in range(20):
        granted(1)
    assert run.trail.told() is None
    for at in range(2, 400, 40):  # leases of before end meanwhile
        granted(at)
    assert run.hand().table(JOB, POLICY) is not None


def changed(value: dict[str, Any], name: str, made: object) -> dict[str, Any]:
    return {**value, name: made}


@pytest.mark.parametrize("change", [
    lambda it: changed(it, "rows", it["rows"][1:]), lambda it: changed(it, "steps", it["steps"][:-1]),
    lambda it: changed(it, "steps", [*it["steps"], ["grant", {"task": 1, "life": 1}, 500, ""]]),
    lambda it: changed(it, "kept", it["kept"].replace('"granted":"2"', '"granted":"3"')),
    lambda it: changed(it, "from", "{}"), lambda it: changed(it, "steps", [["steal", {}, 5, ""]]),
    lambda it: changed(it, "steps", [["grant", {}, 5, ""]]), lambda it: changed(it, "steps", 5),
    lambda it: changed(it, "steps", [["grant", {"task": -1, "life": 1}, 5, ""]]), lambda it: {"version": 1},
])
def test_a_table_that_was_changed_on_the_way_is_none(change: Callable[[dict[str, Any]], dict[str, Any]]) -> None:
    table = Table(JOB, POLICY)
    start = Start(table.kept())
    steps = [
        Step("take", {"assigner": 1}, 1), Step("propose", {"term": 1}, 1, assignment(1, WHOLE).decode()),
        Step("grant", {"task": 1, "life": 1}, 2), Step("grant", {"task": 2, "life": 1}, 3),
    ]
    for step in steps:
        step.play(table)
    start.steps += steps
    value = Handed(1, "", start, table.kept(), rows_of(table), 0, {}, {}).value()
    told = Handed.read(value)
    assert told is not None and told.table(JOB, POLICY) is not None
    read = Handed.read(change(value))
    assert read is None or read.table(JOB, POLICY) is None


# Planes. -----------------------------------------------------------------------------------------


async def rows_at(side: Side) -> list[int]:
    return [row["number"] for row in (await side.caller.get()).json["rows"]]


def audited(folder: Path) -> str:
    words = [sys.executable, "-m", "hourstable", "audit", str(folder)]
    return subprocess.run(words, capture_output=True, text=True, check=False).stdout


async def test_a_plane_that_ends_hands_the_rows_over(two: tuple[Side, Side], tmp_path: Path) -> None:  # noqa: F811
    """A commit waits for the leases that are out, and not for the grace."""
    first, second = two
    await first.granted(1)
    await first.granted(2)
    term = (await first.caller.get()).json["term"]["number"]
    await first.plane.stop()
    assert second.job.is_held and await rows_at(second) == [1, 2]
    assert (await second.caller.get()).json["grace"] == 0
    proposed = await second.caller.post(f"propose?term={term}", assignment(2, [[0, [2]]]))
    assert proposed.status == 200
    held = await second.caller.post("commit", {"term": term})
    assert (held.status, held.json["refused"]) == (409, "held")
    shutil.copytree(tmp_path / "logs", tmp_path / "before")
    for task in (1, 2):
        note = json.loads(ended_note(JOB, task, 1, "guard"))
        note["value"]["number"] = str(task)  # as of a slicelet that goes on
        assert (await second.caller.post("free", note)).status == 200
    assert (await second.caller.post("commit", {"term": term})).status == 200
    done = [(line["do"], line["file"].partition(".")[0]) for line in lines_of(tmp_path / "logs")]
    assert ("phase", "control-2") in done and "restore" not in [do for do, _ in done]
    assert "audit one" in audited(tmp_path / "before" / JOB)  # no line sends the notes that were freed


async def test_rows_are_handed_over_after_calls_that_the_table_did_not_accept(
    two: tuple[Side, Side],  # noqa: F811
) -> None:
    """Their readings are stored, as those of grants to nobody: what is stored is ahead of the table."""
    first, second = two
    await first.granted(1)
    assert (await first.caller.post("grant", {"task": 2, "life": 1, "let_in": True})).status == 200
    assert (await first.caller.post("renew", {"term": 9})).json["refused"] == "not-holder"
    await first.plane._give(first.job)
    assert second.job.is_held and await rows_at(second) == [1]
    assert (await second.granted(2)).json["value"]["number"] == "2"
    assert (await second.caller.get()).json["grace"] == 0


@pytest.mark.parametrize("change", ["version", "holder"])
async def test_rows_count_for_the_version_that_they_came_with(
    change: str, two: tuple[Side, Side],  # noqa: F811
) -> None:
    first, second = two
    await first.granted(1)
    told = await first.job.give_away()
    assert told is not None and len(told.rows) == 1
    other: dict[str, Any] = {"version": told.version + 1} if change == "version" else {"holder": "another"}
    body = {"process": 1, "table": told._replace(**other).value()}
    assert (await second.caller.post("hold", body)).status == 204
    assert second.job.is_held and await rows_at(second) == []
    assert (await second.caller.get()).json["grace"] > 0


async def test_a_table_that_was_handed_over_is_handed_on(two: tuple[Side, Side]) -> None:  # noqa: F811
    """Back and forth, and no row is lost."""
    sides, job = two, Job
    numbers = []
    for turn in range(4):
        holder, other = sides[turn % 2], sides[1 - turn % 2]
        granted = await holder.granted(1 + turn % 3)
        numbers.append(int(granted.json["value"]["number"]))
        await holder.plane._give(holder.job)
        assert other.job.is_held and await rows_at(other) == numbers
        await until(lambda: isinstance(holder.job, job) and not holder.job.is_held, STANDBY * 10)
        holder.job.keep()
