"""Tests of LoadBook of hourstable.library. The records, the loads and the plan are those of
examples/scripts/load-moves-a-slice.json and its replies."""

import pytest

from hourstable.library import (
    LoadBook, PlanPolicy, Refused, new_assignment, plan, read_assignment, slice_key,
)

QUARTER = 1 << 61
SLICES = [(0, [1]), (QUARTER, [1]), (2 * QUARTER, [2])]
FIRST = new_assignment("shop", 1, SLICES)
WORLD = slice_key(b"world")
RECORDS = {1: [(slice_key(b"hello"), 6), (WORLD, 4)], 2: [(slice_key(b"abc"), 1)]}


def test_loads_of_two_tasks_move_a_slice() -> None:
    loads = [0, 0, 0]
    with LoadBook("shop") as book:
        for task, records in RECORDS.items():
            loads = [sum(both) for both in zip(loads, book.gather(FIRST, task, records))]
        assert [book.total(task) for task in (1, 2, 3)] == [10, 1, 0]
    assert loads == [6, 4, 1]
    policy = PlanPolicy(low=1, high=1, churn=1 << 63, cold=0, hot=100, most=1024)
    planned = read_assignment("shop", plan("shop", FIRST, loads, [1, 2], policy))
    assert planned == (2, [(0, [1]), (QUARTER, [2]), (2 * QUARTER, [2])])


@pytest.mark.parametrize("name, task, record", [
    ("WRONG_FORM", 0, (WORLD, 1)), ("WRONG_FORM", 65, (WORLD, 1)), ("WRONG_FORM", 1, (1 << 63, 1)),
    ("WEIGHT_RANGE", 1, (WORLD, 0)), ("WEIGHT_RANGE", 1, (WORLD, (1 << 32) + 1)),
])
def test_records_that_are_refused(name: str, task: int, record: tuple[int, int]) -> None:
    with LoadBook("shop") as book:
        with pytest.raises(Refused) as refused:
            book.gather(FIRST, task, [(WORLD, 5), record])
        assert refused.value.name == name
        assert [book.total(task) for task in (1, 2)] == [0, 0]


def test_a_full_book() -> None:
    with LoadBook("shop") as book:
        assert book.gather(FIRST, 1, [(0, 1 << 32)] * 256) == [1 << 40, 0, 0]
        with pytest.raises(Refused, match="total-range"):
            book.gather(FIRST, 2, [(0, 1)])
        assert book.gather(FIRST, 2, []) == [0, 0, 0]
        assert [book.total(task) for task in (1, 2)] == [1 << 40, 0]


def test_an_assignment_of_another_job() -> None:
    with LoadBook("store") as book, pytest.raises(Refused, match="other-job"):
        book.gather(FIRST, 1, [])
