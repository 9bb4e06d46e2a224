"""Tests of hourstable.tickets. Expected numbers are worked by hand from ms << 16 | counter << 8 |
process."""

import mmap
import os
import random
import struct
import subprocess
import sys
import time
from collections.abc import Callable
from pathlib import Path

import pytest

from hourstable.system import System
from hourstable.tickets import Tickets, follow, milliseconds_of, process_of

DAY = 86_400_000  # in milliseconds


class Clock:
    """A real time that a test sets, in milliseconds."""

    def __init__(self, now: int) -> None:
        self.now = now

    def __call__(self) -> int:
        return self.now


def test_draws_of_one_millisecond_count() -> None:
    clock = Clock(1000)
    tickets = Tickets(7, None, now=clock)
    # 1000 << 16 is 65,536,000; the counter counts in steps of 256.
    assert [tickets.draw() for _ in range(3)] == [65_536_007, 65_536_263, 65_536_519]
    clock.now = 1001
    assert tickets.draw() == 65_601_543


def test_the_257th_draw_of_a_millisecond_is_of_the_next() -> None:
    tickets = Tickets(0, None, now=Clock(1))
    drawn = [tickets.draw() for _ in range(257)]
    assert drawn[255] == 0x1_FF_00
    assert drawn[256] == 0x2_00_00
    assert milliseconds_of(drawn[256]) == 2


def test_a_draw_is_above_what_was_observed_though_the_clock_is_behind() -> None:
    tickets = Tickets(3, None, now=Clock(1000))
    tickets.observe(2000 << 16 | 5 << 8 | 9)
    assert tickets.draw() == 2000 << 16 | 6 << 8 | 3


def test_a_clock_that_goes_back_takes_no_ticket_back() -> None:
    clock = Clock(1000)
    tickets = Tickets(1, None, now=clock)
    first = tickets.draw()
    clock.now = 10
    assert tickets.draw() == first + 256


def test_an_observed_ticket_below_the_last_changes_nothing() -> None:
    tickets = Tickets(1, None, now=Clock(1000))
    first = tickets.draw()
    tickets.observe(5)
    assert tickets.draw() == first + 256


@pytest.mark.parametrize("process", [-1, 256])
def test_a_process_has_eight_bits(process: int) -> None:
    with pytest.raises(ValueError, match="not 0 to 255"):
        Tickets(process, None)


def test_process_of_a_ticket() -> None:
    assert process_of(Tickets(255, None, now=Clock(1)).draw()) == 255


def test_what_is_no_ticket_is_not_observed() -> None:
    tickets = Tickets(0, None, now=Clock(1000))
    with pytest.raises(ValueError, match="no ticket"):
        tickets.observe(-1)
    assert tickets.draw() == 1000 << 16


@pytest.mark.parametrize("now", [Clock(1000), follow])
def test_a_ticket_of_days_or_years_ahead_is_followed(now: Callable[[], int]) -> None:
    """Tickets keep the order of cause whatever the clocks of peers show, and the next one is above."""
    tickets = Tickets(3, None, now=now)
    for ahead in (1000 + 2 * DAY, 1000 + 40_000 * DAY, (1 << 47) - 1):
        tickets.observe(ahead << 16)
        assert tickets.draw() == (ahead << 16) + (1 << 8) + 3
    assert tickets.left_out == 0


@pytest.mark.parametrize("ticket", [1 << 63, (1 << 64) - 1, 1 << 64, 1 << 200])
def test_a_ticket_beyond_all_clocks_is_not_observed_and_counted(ticket: int) -> None:
    """Bit 47 of the milliseconds is bit 63 of the ticket. Nobody is refused for it."""
    tickets = Tickets(0, None, now=Clock(1000))
    tickets.observe(ticket)
    tickets.observe_text(str(ticket))
    assert tickets.left_out == 2
    assert tickets.draw() == 1000 << 16


def test_a_process_whose_clock_is_beyond_all_others_only_follows() -> None:
    clock = Clock(1 << 47)
    tickets = Tickets(0, None, now=clock)
    tickets.observe(1000 << 16)
    assert [tickets.draw(), tickets.draw()] == [1000 << 16 | 1 << 8, 1000 << 16 | 2 << 8]
    assert tickets.left_out == 2
    clock.now = 2000
    assert tickets.draw() == 2000 << 16


def test_a_clock_that_was_two_days_ahead(tmp_path: Path) -> None:
    """The next process goes on above what was drawn then, and by its own time once that is there."""
    clock = Clock(1000 + 2 * DAY)
    first = Tickets(4, tmp_path / "ticket", now=clock)
    last = first.draw()
    first.close()
    clock.now = 2000
    second = Tickets(4, tmp_path / "ticket", now=clock)
    assert second.draw() == last + (1 << 8)
    clock.now = 1001 + 2 * DAY
    assert second.draw() == clock.now << 16 | 4


def test_a_file_with_a_ticket_beyond_all_clocks_says_what_to_do(tmp_path: Path) -> None:
    path = tmp_path / "ticket"
    fields = struct.pack("=24s40sQQ", b"hourstable-ticket", b"a boot", 1 << 56, 1 << 55)
    path.write_bytes(fields)
    with pytest.raises(ValueError, match="remove the file"):
        Tickets(4, path)
    path.unlink()
    tickets = Tickets(4, path, now=Clock(1000))
    assert tickets.draw() == 1000 << 16 | 4


@pytest.mark.parametrize("text", ["", "12a", "-1", "1.0", " 1", "\u0661"])
def test_a_header_that_is_no_ticket_is_refused(text: str) -> None:
    with pytest.raises(ValueError):
        Tickets(0, None).observe_text(text)


def test_headers() -> None:
    tickets = Tickets(0, None, now=Clock(1000))
    tickets.observe_text(None)
    tickets.observe_text(str(1500 << 16))
    assert tickets.draw() == 1500 << 16 | 1 << 8


def test_the_last_place_is_the_last_ticket() -> None:
    tickets = Tickets(2, None, now=Clock((1 << 47) - 1))
    drawn = [tickets.draw() for _ in range(256)]
    assert drawn[-1] == (1 << 63) - 256 + 2
    with pytest.raises(OverflowError):
        tickets.draw()


def test_the_next_process_goes_on_above(tmp_path: Path) -> None:
    path = tmp_path / "ticket"
    clock = Clock(1000)
    first = Tickets(4, path, now=clock, ahead=50)
    assert first.draw() == 1000 << 16 | 4
    assert first.draw() == 1000 << 16 | 1 << 8 | 4
    first.close()
    clock.now = 3  # the clock of the host was set back meanwhile
    second = Tickets(4, path, now=clock, ahead=50)
    assert second.draw() == 1000 << 16 | 2 << 8 | 4


DRAWS_FOR_EVER = """
import sys
from hourstable.tickets import Tickets
tickets = Tickets(4, sys.argv[1])
while True:
    print(tickets.draw(), flush=True)
"""


def test_the_last_ticket_outlasts_a_killed_process(tmp_path: Path) -> None:
    command = [sys.executable, "-c", DRAWS_FOR_EVER, str(tmp_path / "ticket")]
    environment = {**os.environ, "PYTHONPATH": str(Path(__file__).parents[1])}
    drawn = [0]
    for _ in range(3):
        with subprocess.Popen(
            command, stdout=subprocess.PIPE, text=True, env=environment
        ) as process:
            assert process.stdout is not None
            first = int(process.stdout.readline())
            assert first > drawn[-1]
            drawn.append(first)
            time.sleep(0.05)
            process.kill()
            drawn += [int(line) for line in process.stdout if line.endswith("\n")]
    assert drawn == sorted(set(drawn))
    assert len(drawn) > 100


def test_the_machine_may_crash_before_the_last_is_on_the_disk(tmp_path: Path) -> None:
    path = tmp_path / "ticket"
    clock = Clock(1000)
    first = Tickets(4, path, now=clock, ahead=50)
    first.draw()  # what is above all places is then 1050 << 8 | 1
    first.close()
    clock.now = 3
    second = Tickets(4, path, now=clock, ahead=50, boot=b"another")
    assert second.draw() == 1050 << 16 | 1 << 8 | 4


def test_most_draws_write_nothing(tmp_path: Path) -> None:
    clock = Clock(1000)
    flushes = []

    class Watched(System):
        def flush(self, memory: mmap.mmap) -> None:
            flushes.append(clock.now)

    tickets = Tickets(4, tmp_path / "ticket", now=clock, ahead=50, system=Watched())
    for now in [1000, 1000, 1001, 1049, 1050, 1051, 1100, 1101, 1102]:
        clock.now = now
        tickets.draw()
    # At 1000 places up to 1050 << 8 are kept, at 1051 up to 1101 << 8, and at 1102 more.
    assert flushes == [1000, 1051, 1102]


def test_no_two_processes_draw_from_one_file(tmp_path: Path) -> None:
    first = Tickets(4, tmp_path / "ticket")
    with pytest.raises(BlockingIOError):
        Tickets(4, tmp_path / "ticket")
    first.close()
    Tickets(4, tmp_path / "ticket").close()


@pytest.mark.parametrize("data", [b"12\n", b"x" * 80, bytes(79), bytes(81)])
def test_a_file_of_something_else_is_refused(tmp_path: Path, data: bytes) -> None:
    path = tmp_path / "ticket"
    path.write_bytes(data)
    with pytest.raises(ValueError, match="no file of tickets"):
        Tickets(4, path)
    assert path.read_bytes() == data


def test_tickets_that_only_follow() -> None:
    tickets = Tickets(9, None, now=follow)
    assert tickets.draw() == 1 << 8 | 9
    tickets.observe(1000 << 16 | 7)
    assert [tickets.draw(), tickets.draw()] == [1000 << 16 | 1 << 8 | 9, 1000 << 16 | 2 << 8 | 9]
    today = 20_000 * DAY << 16  # in the year 2024
    tickets.observe(today)
    assert tickets.draw() == today | 1 << 8 | 9


class Sent:
    """A message on its way: its ticket, and all tickets that it depends on."""

    def __init__(self, ticket: int, past: frozenset[int]) -> None:
        self.ticket, self.past = ticket, past


class Process:
    """A process of the property test: what its next draw must be above."""

    def __init__(self, number: int, path: Path, skew: int) -> None:
        self.number, self.path, self.clock = number, path, Clock(1_000_000 + skew)
        self.past: frozenset[int] = frozenset()
        self.own: frozenset[int] = frozenset()
        self.tickets = Tickets(number, path, now=self.clock, ahead=20)

    def act(self) -> int:
        ticket = self.tickets.draw()
        assert all(ticket > before for before in self.past)
        self.own |= {ticket}
        self.past |= {ticket}
        return ticket

    def crash(self, back: int) -> None:
        self.tickets.close()
        self.clock.now = max(1, self.clock.now - back)
        self.tickets = Tickets(self.number, self.path, now=self.clock, ahead=20)
        self.past = self.own  # it has lost what it received


@pytest.mark.parametrize("seed", range(40))
def test_the_order_of_cause_is_kept(seed: int, tmp_path: Path) -> None:
    """Processes whose real times are hours apart, go at other rates and back, and crash; messages
    are late, lost and repeated. Each ticket is above all that its draw depends on, and none is
    drawn twice."""
    random_ = random.Random(seed)
    hours = 11 * 3_600_000
    processes = [Process(n, tmp_path / str(n), random_.randint(0, hours)) for n in range(5)]
    underway: list[Sent] = []
    drawn: list[int] = []
    for _ in range(600):
        process = random_.choice(processes)
        process.clock.now += random_.choice([0, 0, 0, 1, 3, -2, 40])
        choice = random_.random()
        if choice < 0.02:
            process.crash(random_.randint(0, 1000))
        elif choice < 0.5 or not underway:
            drawn.append(process.act())
            underway.append(Sent(drawn[-1], process.past))
        else:
            message = random_.choice(underway)  # which stays underway: it may come again
            process.tickets.observe(message.ticket)
            process.past |= message.past
    assert len(set(drawn)) == len(drawn)
