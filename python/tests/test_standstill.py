"""Tests of hourstable.standstill."""

from hourstable.standstill import Standstill


class Clock:
    now = 100.0

    def __call__(self) -> float:
        return self.now


def test_a_row_stands_still_from_the_first_read_of_its_version_on() -> None:
    clock = Clock()
    row = Standstill(clock, 0.5)
    assert (row.version, row.seconds()) == (None, 0.0)
    for version, now, seconds in [(7, 100.0, 0.0), (7, 101.0, 1.0), (8, 102.0, 0.0), (8, 104.5, 2.5)]:
        clock.now = now
        row.saw(version, 0.1)
        assert (row.version, row.seconds()) == (version, seconds)
    clock.now = 105.0
    assert row.seconds() == 3.0


def test_time_in_which_the_store_does_not_answer_does_not_count() -> None:
    clock = Clock()
    row = Standstill(clock, 0.5)
    row.saw(7, 0.0)
    clock.now = 103.0
    row.saw(7, 2.5)  # of which half a second counts, and the half second before
    assert row.seconds() == 1.0
    row.forget()
    assert row.seconds() == 0.0
    clock.now = 110.0
    row.saw(7, 0.1)
    assert row.seconds() == 0.0
    clock.now = 112.0
    assert row.seconds() == 2.0


def test_slow_reads_one_after_the_other_count_in_part() -> None:
    """Else no plane would take over while the store is slow."""
    clock = Clock()
    row = Standstill(clock, 0.5)
    row.saw(7, 0.0)
    for _ in range(4):
        clock.now += 1.0
        row.saw(7, 1.0)
    assert row.seconds() == 2.0
