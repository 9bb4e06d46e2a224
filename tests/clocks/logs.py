"""Memory that the processes of a set share: a log of each process, and the value that the table keeps.

What a process wrote is there after it was killed. A log counts an entry once it is written.
"""
import ctypes
import mmap
from collections import Counter
from typing import NamedTuple

MOST = 4096  # entries of a log
SIZE = 5  # numbers of an entry: its schedule, its kind, and a Read

# Kinds of entries. Those of refusals are their codes in include/hourstable.h.
READ, SAMPLED, LOST, DELAYED, TWICE = 0, 101, 102, 103, 104
KINDS = {
    READ: "readings of the table", SAMPLED: "answers taken", LOST: "requests or answers lost",
    DELAYED: "answers delayed", TWICE: "answers sent twice",
    35: "NO_SAMPLE", 36: "TOO_OLD", 38: "NOT_YET",
}  # fmt: skip


class Read(NamedTuple):
    """A reading of the table's clock, or a value of a task's: made after `before` and at or before `after`."""

    before: int
    after: int
    value: int


class Cell:
    """A number that processes share. It is written at once."""

    def __init__(self) -> None:
        self.numbers = (ctypes.c_uint64 * 1).from_buffer(mmap.mmap(-1, 8))

    def get(self) -> int:
        return self.numbers[0]

    def put(self, value: int) -> None:
        self.numbers[0] = value


class Log:
    """The entries of a process. Each has the number of its schedule: one that is late in a schedule counts in no
    other."""

    def __init__(self) -> None:
        self.schedule = 0
        self.count = Cell()
        self.numbers = (ctypes.c_uint64 * (SIZE * MOST)).from_buffer(mmap.mmap(-1, 8 * SIZE * MOST))

    def is_full(self) -> bool:
        return self.count.get() > MOST - 8

    def note(self, kind: int, before: int = 0, after: int = 0, value: int = 0) -> None:
        count = self.count.get()
        if count < MOST:
            self.numbers[SIZE * count : SIZE * count + SIZE] = [self.schedule, kind, before, after, value]
            self.count.put(count + 1)

    def clear(self) -> None:
        self.count.put(0)

    def entries(self) -> list[list[int]]:
        """The entries of this schedule: kind, before, after, value."""
        numbers = self.numbers[: SIZE * self.count.get()]
        entries = [numbers[at : at + SIZE] for at in range(0, len(numbers), SIZE)]
        return [entry[1:] for entry in entries if entry[0] == self.schedule]

    def reads(self) -> list[Read]:
        return [Read(*entry[1:]) for entry in self.entries() if entry[0] == READ]

    def kinds(self) -> Counter[int]:
        return Counter(entry[0] for entry in self.entries())
