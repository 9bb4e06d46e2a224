"""Which assignment an assigner wants, and when it is worth a change.

The plan itself is made by the library. This module says from which loads, for which tasks, and
whether what it gains is worth the moves.
"""

import json
from collections.abc import Iterable
from dataclasses import dataclass
from typing import Any

from hourstable import library
from hourstable.library import PlanPolicy
from hourstable.loads import KEYS, MOST_LOAD, Piece

Slices = list[tuple[int, list[int]]]


@dataclass
class Hysteresis:
    """When a change of the assignment is worth it.

    Keys of a task that is gone or drains are planned out at once. A task that owns nothing is given
    keys if the last commit was `settle` seconds ago. Loads alone move keys only if the last commit
    was `rest` seconds ago, the task with the greatest load has more than `above` times the mean,
    and the plan lowers this load by at least `gain` times the mean.
    """

    settle: float = 2.0
    rest: float = 30.0
    above: float = 1.2
    gain: float = 0.1
    churn: float = 0.25  # the part of all keys that a plan may move, beside those that must
    slices_a_task: int = 8  # of the first assignment
    most: int = 256  # slices up to which those with much load are halved


def message_of(job: str, generation: int, slices: Slices) -> bytes:
    """Returns the message of an assignment."""
    value = {
        "generation": str(generation), "slices": [[str(start), owners] for start, owners in slices]
    }
    message = {"job": job, "type": "assignment", "value": value, "version": 2}
    return json.dumps(message, separators=(",", ":"), ensure_ascii=False).encode()


def slices_in(assignment: bytes) -> Slices:
    """Returns the slices of a message of the library."""
    value = json.loads(assignment)["value"]
    return [(int(start), [int(owner) for owner in owners]) for start, owners in value["slices"]]


def first_assignment(job: str, tasks: list[int], low: int, rules: Hysteresis) -> bytes:
    """Returns generation 1: equal slices, given to the tasks in turn, each with as many owners as
    the redundancy asks for or as there are."""
    count = min(len(tasks) * rules.slices_a_task, 1024)
    owners = min(low, len(tasks))
    slices = [
        (KEYS * at // count, sorted(tasks[(at + more) % len(tasks)] for more in range(owners)))
        for at in range(count)
    ]
    return message_of(job, 1, slices)


def widths_of(slices: Slices) -> list[int]:
    ends = [start for start, _ in slices[1:]] + [KEYS]
    return [end - start for (start, _), end in zip(slices, ends)]


def loads_over(slices: Slices, reported: Iterable[Piece]) -> list[int]:
    """Returns the load of each slice. The load of a reported range is spread evenly over its keys.
    A sixteenth of all load is spread over all keys, so that none counts as free; if no load is
    reported, a slice weighs as many keys as it has."""
    loads = spread_over(slices, reported)
    spread = sum(loads) // 16 if any(loads) else 1 << 20
    return [
        min(load + spread * width // KEYS, MOST_LOAD) for load, width in zip(loads, widths_of(slices))
    ]


def spread_over(slices: Slices, pieces: Iterable[Piece]) -> list[int]:
    """Returns for each slice its share of the pieces, of each piece rounded down. It looks at each piece and each
    slice once if no pieces overlap, as those that `Loads` has joined."""
    starts = [start for start, _ in slices]
    ends = [*starts[1:], KEYS]
    loads, at = [0] * len(slices), 0
    for low, high, load in sorted(pieces):
        while ends[at] <= low:
            at += 1
        if high <= ends[at]:
            loads[at] += load
            continue
        over, width = at, high - low
        while over < len(starts) and starts[over] < high:
            shared = min(high, ends[over]) - max(low, starts[over])
            loads[over] += load * shared // width
            over += 1
    return loads


def task_loads(slices: Slices, loads: list[int], tasks: list[int]) -> dict[int, int]:
    """Returns the load of each task: of each slice its part, rounded up."""
    totals = {task: 0 for task in tasks}
    for (_, owners), load in zip(slices, loads):
        for owner in owners:
            totals[owner] = totals.get(owner, 0) + -(-load // len(owners))
    return totals


class Planner:
    """Says which assignment is wanted next."""

    def __init__(self, job: str, rules: Hysteresis) -> None:
        self._job, self._rules = job, rules
        self._known: tuple[bytes, Slices, set[int]] = b"", [], set()  # the assignment that was read last

    def wanted(
        self, assignment: bytes | None, policy: dict[str, Any], tasks: list[int],
        reported: list[Piece], since_commit: float,
    ) -> bytes | None:
        """Returns the message of the assignment that is wanted, None if the committed one is good
        enough. `tasks` are those that should own keys, in rising order."""
        low, high = policy["redundancy"]
        if not tasks:
            return None
        if assignment is None:
            return first_assignment(self._job, tasks, low, self._rules)
        slices, owners = self._read(assignment)
        must = not owners <= set(tasks)
        may = bool(set(tasks) - owners) and since_commit >= self._rules.settle
        loads = loads_over(slices, reported)
        is_uneven = since_commit >= self._rules.rest and self._is_uneven(slices, loads, tasks)
        if not (must or may or is_uneven):
            return None
        plan = self._plan(assignment, loads, tasks, low, high)
        if must or (may and self._gives_to_all(plan, tasks, owners)):
            return plan
        return plan if self._is_worth(slices, loads, plan, tasks) else None

    def _read(self, assignment: bytes) -> tuple[Slices, set[int]]:
        """Returns the slices of an assignment and all of their owners."""
        if self._known[0] != assignment:
            slices = slices_in(assignment)
            self._known = assignment, slices, {owner for _, some in slices for owner in some}
        return self._known[1], self._known[2]

    def _plan(
        self, assignment: bytes, loads: list[int], tasks: list[int], low: int, high: int
    ) -> bytes:
        mean = sum(loads) // len(tasks)
        policy = PlanPolicy(
            low, high, int(KEYS * self._rules.churn), mean // 32, max(1, mean // 4),
            self._rules.most,
        )
        return library.plan(self._job, assignment, loads, tasks, policy)

    def _gives_to_all(self, plan: bytes, tasks: list[int], before: set[int]) -> bool:
        """Whether a task that owned nothing owns keys in the plan, or slices are halved for it."""
        owners = {owner for _, some in slices_in(plan) for owner in some}
        return bool(owners - before) or bool(set(tasks) - owners)

    def _is_uneven(self, slices: Slices, loads: list[int], tasks: list[int]) -> bool:
        """Whether the task with the greatest load has so much more than the mean that keys move."""
        greatest = max(task_loads(slices, loads, tasks).values())
        return greatest > self._rules.above * sum(loads) / len(tasks)

    def _is_worth(
        self, slices: Slices, loads: list[int], plan: bytes, tasks: list[int]
    ) -> bool:
        if not self._is_uneven(slices, loads, tasks):
            return False
        planned = slices_in(plan)
        widths = widths_of(slices)
        spread = [
            (start, start + width, load) for (start, _), width, load in zip(slices, widths, loads)
        ]
        before = max(task_loads(slices, loads, tasks).values())
        after = max(task_loads(planned, spread_over(planned, spread), tasks).values())
        return before - after >= self._rules.gain * sum(loads) / len(tasks)
