"""Tickets, in three of the ways of docs/AUDIT.md: from a shared counter, from a common clock, and
by hybrid logical clocks.

Whoever answers a call draws a ticket while it holds its machine. What a call makes travels with the
ticket of the call, and whoever receives it observes that ticket first.
"""

import os
import threading
import time
from pathlib import Path
from typing import Protocol

from sockets import Connection

COUNTER, CLOCK, HYBRID = WAYS = ("counter", "clock", "hybrid")
MOST_PROCESSES = 16


class Tickets(Protocol):
    """Where a process gets its tickets."""

    def draw(self, now: int | None, many: int = 1) -> int:
        """Returns the first of so many tickets that follow each other. A story tells `now`."""
        ...

    def observe(self, ticket: int) -> None:
        """Takes the ticket of a message, before its effects draw one."""
        ...


class SharedCounter:
    """A counter behind a socket, the same one for all processes."""

    def __init__(self, port: int) -> None:
        self.counter = Connection(port)

    def draw(self, now: int | None, many: int = 1) -> int:
        return int(self.counter.ask({"many": many})["ticket"])

    def observe(self, ticket: int) -> None:
        """A ticket that comes later is above it anyhow."""


class Counter:
    """What the process of the counter answers."""

    def __init__(self) -> None:
        self.last = 0
        self.lock = threading.Lock()

    def answer(self, asked: dict[str, int]) -> dict[str, int]:
        with self.lock:
            first = self.next()
            self.last = first + asked["many"] - 1
            return {"ticket": first}

    def next(self) -> int:
        return self.last + 1


class CommonClock:
    """A clock that is the same for all processes but for an error, in nanoseconds."""

    def __init__(self, process: int, error: int) -> None:
        self.process, self.error = process, error
        self.last = 0

    def read(self, now: int | None) -> int:
        return (time.monotonic_ns() if now is None else now * 1_000_000) + self.error

    def draw(self, now: int | None, many: int = 1) -> int:
        first = max(self.last + 1, self.read(now))
        self.last = first + many - 1
        return first * MOST_PROCESSES + self.process

    def observe(self, ticket: int) -> None:
        """Waits until its own reading is above the sender's. In a story no time passes meanwhile,
        so it is taken for waited."""
        self.last = max(self.last, ticket // MOST_PROCESSES)
        while self.read(None) <= self.last:
            time.sleep(0)


class HybridClock:
    """A hybrid logical clock. Its last place is in a file, which a killed process leaves as it was.

    Of the processes the table alone takes real time; the places of the others follow its messages.
    """

    def __init__(self, process: int, folder: Path) -> None:
        self.process = process
        self.file = os.open(folder / f"{process}.place", os.O_RDWR | os.O_CREAT, 0o644)
        self.last = self.kept()

    def kept(self) -> int:
        return int(os.pread(self.file, 20, 0) or b"0")

    def real(self, now: int | None) -> int:
        if self.process:
            return 0
        return (time.time_ns() // 1_000_000 if now is None else now) << 8

    def draw(self, now: int | None, many: int = 1) -> int:
        first = max(self.last + 1, self.real(now))
        self.last = first + many - 1
        os.pwrite(self.file, b"%20d" % self.last, 0)
        return first * MOST_PROCESSES + self.process

    def observe(self, ticket: int) -> None:
        self.last = max(self.last, ticket // MOST_PROCESSES)
