"""The assigner: who owns keys when tasks come, die and drain, and which of several assigners
acts."""

import asyncio
import time
from collections.abc import AsyncIterator, Callable
from contextlib import asynccontextmanager, suppress
from pathlib import Path
from typing import Any

import pytest

import needed

needed.library()

from hourstable.assigner import AssignerOfJobs  # noqa: E402
from hourstable.clock import local_clock  # noqa: E402
from hourstable.desk import Desk, HttpDesk, LocalDesk  # noqa: E402
from hourstable.loads import KEYS, Loads  # noqa: E402
from hourstable.plans import (  # noqa: E402
    Hysteresis, Planner, first_assignment, loads_over, message_of, slices_in, task_loads,
)
from hourstable.store import Store  # noqa: E402
from hourstable.tickets import Tickets  # noqa: E402
from serving import POLICY, Caller, Task, lines_of, running  # noqa: E402

QUICK = Hysteresis(settle=0.3, rest=1.0)
QUARTER = KEYS // 4


@asynccontextmanager
async def at_work(*work: Any) -> AsyncIterator[list["asyncio.Task[None]"]]:
    """Coroutines that run until the block ends."""
    tasks = [asyncio.create_task(one) for one in work]
    try:
        yield tasks
    finally:
        for task in tasks:
            task.cancel()
        for task in tasks:
            with suppress(asyncio.CancelledError):
                await task


async def until(holds: Callable[[], Any], what: str, seconds: float = 20) -> None:
    end = time.monotonic() + seconds
    while not (await holds()):
        assert time.monotonic() < end, f"not within {seconds} s: {what}"
        await asyncio.sleep(0.05)


async def owners(caller: Caller) -> set[int]:
    """Returns the owners of keys in the committed assignment."""
    status = (await caller.get()).json
    if not status["committed"]:
        return set()
    found = await caller.get(f"/assignment?after={status['committed'] - 1}")
    return {owner for _, some in found.json["value"]["slices"] for owner in some}


def owned_by(caller: Caller, *tasks: int) -> Callable[[], Any]:
    async def holds() -> bool:
        return await owners(caller) == set(tasks)

    return holds


async def test_tasks_that_come_die_and_drain(file: Store, tmp_path: Path) -> None:
    async with running(file, tmp_path / "logs") as (plane, caller):
        await caller.create()
        tasks = [Task(caller, number) for number in (1, 2, 3)]
        assigner = AssignerOfJobs(1, LocalDesk(plane), local_clock(), QUICK)
        async with at_work(assigner.run(), *(task.run() for task in tasks[:2])) as working:
            await until(owned_by(caller, 1, 2), "the two tasks own all keys")
            async with at_work(tasks[2].run()):
                await until(owned_by(caller, 1, 2, 3), "a task that came owns keys")
                working[1].cancel()  # task 1 dies
                await until(owned_by(caller, 2, 3), "a task that died owns nothing")
                drained = await caller.post("drain", {"task": 3})
                assert drained.status == 204
                await until(owned_by(caller, 2), "a task that drains owns nothing")
                assert (await caller.get()).json["draining"] == [3]
                with pytest.raises(AssertionError, match="not within"):
                    await until(owned_by(caller, 2, 3), "", 1.5)  # it renews, and stays out
            new = Task(caller, 3)  # its next life takes keys again
            async with at_work(new.run()):
                await until(owned_by(caller, 2, 3), "the next life of a drained task owns keys")
                key = b"hello"
                await until(_async(lambda: tasks[1].serves(key) or new.serves(key)), "it is served")
                assert not (tasks[1].serves(key) and new.serves(key))
    lines = lines_of(tmp_path / "logs")
    commits = [line for line in lines if line["reply"].startswith("committed")]
    assert len(commits) >= 5
    terms = {line["reply"].split()[1] for line in lines if line["reply"].startswith("term")}
    assert len(terms) <= 2


def _async(call: Callable[[], Any]) -> Callable[[], Any]:
    async def made() -> Any:
        return call()

    return made


async def test_one_of_two_assigners_acts(file: Store, tmp_path: Path) -> None:
    async with running(file, tmp_path / "logs") as (plane, caller):
        await caller.create()
        tickets = Tickets(9, None)
        desk = HttpDesk([caller.url], tickets)
        first = AssignerOfJobs(1, LocalDesk(plane), local_clock(), QUICK)
        second = AssignerOfJobs(2, desk, local_clock(), QUICK)
        tasks = [Task(caller, number) for number in (1, 2)]
        async with at_work(*(task.run() for task in tasks), second.run()):
            async with at_work(first.run()) as (one,):
                await until(owned_by(caller, 1, 2), "the tasks own all keys")
                holder = (await caller.get()).json["term"]["assigner"]
                await asyncio.sleep(3)  # more than a term of the job lease
                term = (await caller.get()).json["term"]
                assert term["assigner"] == holder
            await caller.post("drain", {"task": 2})
            await until(owned_by(caller, 1), "the other assigner goes on alone")
            assert (await caller.get()).json["term"]["assigner"] == 2
        await desk.close()
    proposals = [line for line in lines_of(tmp_path / "logs") if line["do"] == "propose"]
    assert all(line["reply"].startswith("proposed") for line in proposals)


async def test_a_new_process_of_an_assigner_goes_on_at_once(file: Store, tmp_path: Path) -> None:
    async with running(file, tmp_path / "logs") as (plane, caller):
        await caller.create({**POLICY, "job": 60_000})
        task = Task(caller, 1)
        async with at_work(task.run()):
            for _ in range(2):
                assigner = AssignerOfJobs(1, LocalDesk(plane), local_clock(), QUICK)
                async with at_work(assigner.run()):
                    await until(owned_by(caller, 1), "the task owns all keys")
            other = Task(caller, 2)
            assigner = AssignerOfJobs(1, LocalDesk(plane), local_clock(), QUICK)
            async with at_work(other.run(), assigner.run()):
                await until(owned_by(caller, 1, 2), "the other task owns keys")
        assert (await caller.get()).json["term"]["number"] == 1


# Loads and plans -------------------------------------------------------------------------------


def test_reports_of_loads() -> None:
    loads = Loads()
    loads.report(1, [["0", "10", 5]], 100.0)
    loads.report(2, [[10, 20, 7]], 101.0)
    assert loads.newest(110.0) == [["0", "10", 5], ["10", "20", 7]]
    loads.report(1, [["0", "10", 6]], 120.0)
    malformed: list[object] = [
        None, {}, [[0, 1]], [[1, 1, 1]], [[2, 1, 1]], [[0, KEYS + 1, 1]], [[0, 1, -1]],
        [[0, 1, (1 << 40) + 1]], [["x", 1, 1]], [[0, 1, 1.5]], [[0, 1, True]], [[0, 1, 1]] * 1025,
    ]
    for wrong in malformed:
        with pytest.raises(ValueError):
            loads.report(1, wrong, 121.0)
    assert loads.newest(125.0) == [["0", "10", 6], ["10", "20", 7]]
    assert loads.newest(162.0) == [["0", "10", 6]]


def test_a_load_is_spread_over_its_keys() -> None:
    slices = [(0, [1]), (QUARTER, [2]), (2 * QUARTER, [1, 2])]
    # 800 over the first half, and 60 over the last quarter; 53 of all 860 are spread evenly.
    reported = [(0, 2 * QUARTER, 800), (3 * QUARTER, KEYS, 60)]
    assert loads_over(slices, reported) == [400 + 13, 400 + 13, 60 + 26]
    # With no load a slice weighs as many keys as it has, of 2^20 for all.
    assert loads_over(slices, []) == [1 << 18, 1 << 18, 1 << 19]
    assert task_loads(slices, [10, 20, 7], [1, 2, 3]) == {1: 14, 2: 24, 3: 0}


def test_the_first_assignment_gives_all_tasks_as_much() -> None:
    slices = slices_in(first_assignment("shop", [2, 5], 1, Hysteresis(slices_a_task=2)))
    assert slices == [(0, [2]), (QUARTER, [5]), (2 * QUARTER, [2]), (3 * QUARTER, [5])]
    slices = slices_in(first_assignment("shop", [2, 5], 3, Hysteresis(slices_a_task=1)))
    assert slices == [(0, [2, 5]), (2 * QUARTER, [2, 5])]


def wanted(
    slices: Any, tasks: list[int], reported: Any = (), since: float = 100.0,
    rules: Hysteresis | None = None, low: int = 1, high: int = 1,
) -> Any:
    planner = Planner("shop", rules or Hysteresis())
    message = message_of("shop", 3, slices) if slices else None
    policy = {"redundancy": [low, high]}
    made = planner.wanted(message, policy, tasks, list(reported), since)
    return made and slices_in(made)


EIGHTHS = [(KEYS // 8 * at, [1 + at % 2]) for at in range(8)]


def test_no_plan_without_need() -> None:
    assert wanted(EIGHTHS, []) is None
    assert wanted(EIGHTHS, [1, 2]) is None  # even, though the last commit was long ago
    even = [(start, start + KEYS // 8, 1000) for start, _ in EIGHTHS]
    assert wanted(EIGHTHS, [1, 2], even) is None


def test_a_task_that_is_gone_is_planned_out_at_once() -> None:
    made = wanted(EIGHTHS, [2], since=0.0)
    assert {owner for _, some in made for owner in some} == {2}


def test_a_new_task_gets_keys_after_a_while() -> None:
    assert wanted(EIGHTHS, [1, 2, 3], since=1.9) is None
    made = wanted(EIGHTHS, [1, 2, 3], since=2.1)
    assert 3 in {owner for _, some in made for owner in some}


def test_a_new_task_gets_keys_of_a_single_slice() -> None:
    """A plan moves at most a quarter of the keys: the slice is halved twice first."""
    halves = wanted([(0, [1])], [1, 2], since=3.0)
    assert halves == [(0, [1]), (2 * QUARTER, [1])]
    quarters = wanted(halves, [1, 2], since=3.0)
    assert quarters == [(QUARTER * at, [1]) for at in range(4)]
    made = wanted(quarters, [1, 2], since=3.0)
    assert {owner for _, some in made for owner in some} == {1, 2}


def test_loads_move_keys_only_if_it_is_worth_it() -> None:
    def loads(of_first: int, of_second: int) -> list[tuple[int, int, int]]:
        return [(start, start + KEYS // 8, of_first if owners == [1] else of_second)
                for start, owners in EIGHTHS]

    heavy = loads(1000, 100)
    assert wanted(EIGHTHS, [1, 2], heavy, since=29.0) is None  # too soon
    made = wanted(EIGHTHS, [1, 2], heavy, since=31.0)
    assert made is not None
    widths = {task: 0 for task in (1, 2)}
    for (start, (owner,)), (end, _) in zip(made, [*made[1:], (KEYS, [])]):
        widths[owner] += end - start
    assert widths[1] < widths[2]  # the heavy keys are with a task that has fewer
    # 1.05 times the mean
    assert wanted(EIGHTHS, [1, 2], loads(1000, 900), since=31.0) is None


def desk_is(desk: Desk) -> None:
    """Both desks have the calls of a desk, as mypy sees."""


def test_desks() -> None:
    desk_is(HttpDesk(["http://127.0.0.1:1"], Tickets(9, None)))
