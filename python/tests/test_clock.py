"""Tests of the local clock."""

import time
from collections.abc import Callable

import pytest

from hourstable import system
from hourstable.clock import local_clock
from hourstable.system import System

CLOCKS = {"boottime": time.CLOCK_BOOTTIME, "monotonic": time.CLOCK_MONOTONIC, "raw": time.CLOCK_MONOTONIC_RAW}
SECOND = 1_000_000_000


class Clocks:
    """The clocks of a host in nanoseconds, as the kernel keeps them."""

    def __init__(self, monkeypatch: pytest.MonkeyPatch) -> None:
        self.now = {CLOCKS["boottime"]: 70 * SECOND, CLOCKS["monotonic"]: 50 * SECOND, CLOCKS["raw"]: 49 * SECOND}
        self.before_each: Callable[[], None] = lambda: None
        monkeypatch.setattr(time, "clock_gettime_ns", self.read)

    def read(self, clock: int) -> int:
        self.before_each()
        return self.now[clock]

    def pass_by(self, raw: int, slewed: int) -> None:
        """Lets time pass while a time service slews all clocks but the raw one."""
        for name, by in (("raw", raw), ("monotonic", slewed), ("boottime", slewed)):
            self.now[CLOCKS[name]] += by

    def sleep(self, seconds: int) -> None:
        """Suspends the host: CLOCK_BOOTTIME alone goes on."""
        self.now[CLOCKS["boottime"]] += seconds * SECOND


def test_no_time_service_slews_it(monkeypatch: pytest.MonkeyPatch) -> None:
    clocks = Clocks(monkeypatch)
    ticks = system._steady()
    before = ticks()
    clocks.pass_by(10 * SECOND, 11 * SECOND)  # as chronyd slews at its default of 83,333 in a million, and more
    assert ticks() - before == 10_000


def test_it_counts_suspension(monkeypatch: pytest.MonkeyPatch) -> None:
    clocks = Clocks(monkeypatch)
    ticks = system._steady()
    before = ticks()
    clocks.sleep(3600)
    assert ticks() - before == 3_600_000


@pytest.mark.parametrize("what", ["stands still", "sleeps"])
def test_a_reading_is_one_of_the_time_that_it_takes(what: str, monkeypatch: pytest.MonkeyPatch) -> None:
    """Whatever happens between the readings of the three clocks, the value is not above the last moment, and
    readings do not fall."""
    clocks = Clocks(monkeypatch)
    ticks = system._steady()
    known = ticks()
    for at in range(6):
        reads = [0]

        def disturb(at: int = at, reads: list[int] = reads) -> None:
            if reads[0] == at:
                clocks.pass_by(5 * SECOND, 5 * SECOND) if what == "stands still" else clocks.sleep(5)
            reads[0] += 1

        clocks.before_each = disturb
        found = ticks()
        clocks.before_each = lambda: None
        assert known <= found <= ticks()
        known = found


def test_a_system_without_the_raw_clock(monkeypatch: pytest.MonkeyPatch) -> None:
    def read(clock: int) -> int:
        if clock == CLOCKS["raw"]:
            raise OSError(22, "invalid argument")
        return 7 * SECOND

    monkeypatch.setattr(time, "clock_gettime_ns", read)
    assert system._steady()() == 7000


def test_the_local_clock_of_this_process() -> None:
    """Beside CLOCK_BOOTTIME, which was slewed by at most a half since the boot."""
    ticks = local_clock("")
    before = time.clock_gettime(CLOCKS["raw"])
    found = [ticks() for _ in range(100)]
    after = time.clock_gettime(CLOCKS["raw"])
    assert found == sorted(found)
    assert found[-1] - found[0] <= (after - before) * 1000 + 1
    assert System().ticks() >= found[-1]
