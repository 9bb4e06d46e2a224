"""Tests of hourstable.ranges."""

import random

from hourstable.ranges import KEYS, Ranges, holds, minus, ranges_of, union


def test_pairs_of_a_message() -> None:
    assert ranges_of([["0", "5"], [5, 7], ["9", str(1 << 63)]]) == [(0, 7), (9, KEYS)]
    assert ranges_of([]) == []


def test_minus() -> None:
    whole = [(0, 10), (20, 30)]
    assert minus(whole, []) == whole
    assert minus(whole, whole) == []
    assert minus(whole, [(2, 4), (6, 7)]) == [(0, 2), (4, 6), (7, 10), (20, 30)]
    assert minus(whole, [(5, 25)]) == [(0, 5), (25, 30)]
    assert minus([], whole) == []


def test_union() -> None:
    assert union([(5, 9)], [(0, 5), (20, 30)]) == [(0, 9), (20, 30)]
    assert union([(0, 10)], [(2, 3), (10, 10)]) == [(0, 10)]


def test_holds() -> None:
    ranges = [(0, 3), (5, KEYS)]
    assert [holds(ranges, key) for key in (0, 2, 3, 4, 5, KEYS - 1)] == [
        True, True, False, False, True, True,
    ]
    assert not holds([], 0)


def keys_of(ranges: Ranges) -> set[int]:
    return {key for start, end in ranges for key in range(start, end)}


def drawn(random_: random.Random) -> Ranges:
    edges = sorted(random_.sample(range(30), 2 * random_.randint(0, 6)))
    return union([(a, b) for a, b in zip(edges[::2], edges[1::2])], [])


def test_against_sets_of_keys() -> None:
    random_ = random.Random(1)
    for _ in range(2000):
        some, others = drawn(random_), drawn(random_)
        assert keys_of(minus(some, others)) == keys_of(some) - keys_of(others)
        assert keys_of(union(some, others)) == keys_of(some) | keys_of(others)
        assert all(holds(some, key) == (key in keys_of(some)) for key in range(30))
