"""Tickets by hybrid logical clocks: numbers that keep the order of cause over processes that share
no counter.

A ticket has 64 bits: milliseconds of real time (48), a counter (8) and the process that drew it
(8). The first two together are its place. A draw takes the greater of the last place, plus one, and
the real time; a process that receives a message observes its ticket first. So each ticket of a
process is above all that it drew or observed before, however far the real times of processes are
apart, and no two processes draw the same one.
"""

import ctypes
import fcntl
import mmap
import os
import threading
from collections.abc import Callable
from pathlib import Path

from hourstable.system import SYSTEM, System

HEADER = "Hourstable-Ticket"
COUNTER_BITS = 8
PROCESS_BITS = 8
PLACES = 1 << 56
TICKETS = PLACES << PROCESS_BITS
FARTHEST = 1 << 47  # milliseconds: no ticket of the year 6429 or later is drawn or observed
CALLERS = range(64, 256)  # numbers of tasks and clients; control planes and assigners have those below
MAGIC = b"hourstable-ticket"


def real_milliseconds() -> int:
    """Returns the real time in milliseconds since 1970."""
    return SYSTEM.real_nanoseconds() // 1_000_000


def number_of_caller(process: int) -> int:
    """Returns the number of a task or a client, which is above those of control planes and assigners. Raises
    ValueError if it is none."""
    if process not in CALLERS:
        limits = f"{CALLERS.start} to {CALLERS.stop - 1}"
        raise ValueError(f"process {process} is not {limits}: control planes and assigners have those below")
    return process


def process_of(ticket: int) -> int:
    """Returns the number of the process that drew a ticket."""
    return ticket & ((1 << PROCESS_BITS) - 1)


def milliseconds_of(ticket: int) -> int:
    """Returns the milliseconds of a ticket, which may be ahead of the real time at which it was
    drawn."""
    return ticket >> (PROCESS_BITS + COUNTER_BITS)


def follow() -> int:
    """Returns 0: tickets that are drawn with this in place of the real time only follow what was
    observed.

    So they do not come before the calls of a process whose real time is behind, and an audit finds
    clocks not timely only if a message showed it.
    """
    return 0


class Tickets:
    """The hybrid logical clock of a process. Any thread may call it.

    `path` names a file that outlasts the process. It has the last place that was drawn in this boot
    of the machine, and one above all that were ever drawn, which is written `ahead` milliseconds
    ahead: a draw costs no write, and the next process goes on above, also after a crash of the
    machine. It is locked, so that no other process draws from it. With no path, nothing outlasts
    the process.

    `now` returns milliseconds of real time, and `boot` is the id of this boot of the machine; both
    are by default those of `system`.

    A process follows whatever it observes, so that the order of cause is kept however far real times are apart. One
    that is days ahead, or was, is followed until the real times of the others are there: nothing fails for it. Only
    what is beyond FARTHEST, which no clock that is set shows, is left out, where it would be drawn and where it is
    observed; `left_out` counts it.

    Raises ValueError if `process` is not 0 to 255, or the file is none of tickets or has one beyond FARTHEST, and
    BlockingIOError if another process draws from the file.
    """

    def __init__(
        self,
        process: int,
        path: str | os.PathLike[str] | None,
        *,
        now: Callable[[], int] | None = None,
        ahead: int = 10_000,
        boot: bytes | None = None,
        system: System = SYSTEM,
    ) -> None:
        if not 0 <= process < 1 << PROCESS_BITS:
            raise ValueError(f"process {process} is not 0 to 255")
        self.process = process
        self._system = system
        self._now = self._real_milliseconds if now is None else now
        self.left_out = 0  # real times and tickets beyond FARTHEST
        self._ahead = ahead << COUNTER_BITS
        self._lock = threading.Lock()
        boot = system.boot() if boot is None else boot
        self._file = None if path is None else _Kept(Path(path), boot, system)
        self._words = None if self._file is None else self._file.words
        self._last = 0 if self._file is None else self._file.last()
        self._ceiling = 0  # above what may be drawn before a place above is kept

    def _real_milliseconds(self) -> int:
        return self._system.real_nanoseconds() // 1_000_000

    def draw(self) -> int:
        """Returns a ticket above all that were drawn or observed before. Raises OverflowError if there is none below
        FARTHEST, and OSError if the file cannot be written."""
        with self._lock:
            place = self._last + 1
            if self._now is not follow:
                place = max(place, self._place_of_now())
            if place >= self._ceiling:
                self._raise(place)
            if self._words is not None:
                self._words[LAST] = place
            self._last = place
            return place << PROCESS_BITS | self.process

    def _place_of_now(self) -> int:
        now = self._now()
        if now < FARTHEST:
            return now << COUNTER_BITS
        self.left_out += 1
        return 0

    def _raise(self, place: int) -> None:
        """Keeps a new place above one that is about to be drawn."""
        if place >= FARTHEST << COUNTER_BITS:
            raise OverflowError("no ticket is left")
        if self._file is None:
            self._ceiling = FARTHEST << COUNTER_BITS
        else:
            self._file.keep_above(place, self._ahead)
            self._ceiling = min(self._file.fields.ceiling, FARTHEST << COUNTER_BITS)

    def observe(self, ticket: int) -> None:
        """Takes the ticket of a message that was received, before its effects draw one. One beyond FARTHEST is not
        observed, and counted: the message is as good as any. Raises ValueError if it is below 0."""
        if ticket < 0:
            raise ValueError(f"{ticket} is no ticket")
        with self._lock:
            if milliseconds_of(ticket) >= FARTHEST:
                self.left_out += 1
            else:
                self._last = max(self._last, ticket >> PROCESS_BITS)

    def observe_text(self, text: str | None) -> None:
        """Observes the ticket in a header of a message; None, for no header, is nothing to observe. Raises ValueError
        if the text is no number."""
        if text is None:
            return
        if not (text.isascii() and text.isdigit()):
            raise ValueError(f"{text[:40]!r} is no ticket")
        self.observe(int(text[:40]))

    def close(self) -> None:
        """Closes the file, so that another process may draw from it. A ticket drawn later is kept
        nowhere."""
        with self._lock:
            file, self._file, self._words, self._ceiling = self._file, None, None, 0
            if file is not None:
                file.close()

    def leave_to_parent(self) -> None:
        """Closes the file in a child that was forked: its lock is that of the parent, and would outlast it."""
        file, self._file = self._file, None
        if file is not None:
            file.close()


class NoTickets(Tickets):
    """The tickets of a process that logs nothing, and so has no number of its own: 0, which moves nobody's."""

    def __init__(self) -> None:
        super().__init__(0, None)

    def draw(self) -> int:
        return 0

    def observe(self, ticket: int) -> None:
        """Does nothing."""


class _Fields(ctypes.Structure):
    """What the file has."""

    _fields_ = [
        ("magic", ctypes.c_char * 24),
        ("boot", ctypes.c_char * 40),  # in which `last` was written
        ("ceiling", ctypes.c_uint64),  # above each place that was ever drawn; it is on the disk
        ("last", ctypes.c_uint64),  # drawn; it may be on no disk
    ]


LAST = _Fields.last.offset // 8  # the word of `last`


class _Kept:
    """The file of a process, in shared memory: what is written there outlasts a killed process."""

    def __init__(self, path: Path, boot: bytes, system: System) -> None:
        self.path, self.boot, self.system = path, boot, system
        self.file = system.open(path, os.O_RDWR | os.O_CREAT | os.O_CLOEXEC, 0o600)
        try:
            fcntl.flock(self.file, fcntl.LOCK_EX | fcntl.LOCK_NB)
            self._open()
            if self.last() >= FARTHEST << COUNTER_BITS:
                raise ValueError(
                    f"{path} has a ticket beyond the year 6429, of a clock that was wrong: remove the file, and audit"
                    " what is logged from then on by itself"
                )
        except BaseException:
            system.close(self.file)
            raise

    def _open(self) -> None:
        length = ctypes.sizeof(_Fields)
        found = os.fstat(self.file).st_size
        if found == 0:
            os.posix_fallocate(self.file, 0, length)
        elif found != length:
            raise ValueError(f"{self.path} is no file of tickets")
        self.memory = mmap.mmap(self.file, length)
        self.fields = _Fields.from_buffer(self.memory)
        self.words = memoryview(self.memory).cast("Q")  # the same numbers, which are written faster so
        if found == 0 or not any(self.memory[:]):  # as a crash while it was made leaves it
            self.fields.magic = MAGIC
        elif self.fields.magic != MAGIC:
            raise ValueError(f"{self.path} is no file of tickets")

    def last(self) -> int:
        """Returns a place that is not below the last one drawn."""
        boot, ceiling = self.boot, self.fields.ceiling
        if boot and boot == self.fields.boot and self.fields.last < ceiling:
            return int(self.fields.last)
        self.fields.last = max(0, ceiling - 1)
        self.fields.boot = boot
        return int(self.fields.last)

    def keep_above(self, place: int, ahead: int) -> None:
        """Keeps a new place above one that is about to be drawn, if need be. Raises OSError, and keeps nothing, if
        that does not reach the disk."""
        before = self.fields.ceiling
        if place >= before:
            self.fields.ceiling = min(place + ahead + 1, PLACES)
            try:
                self.system.flush(self.memory)
            except BaseException:
                self.fields.ceiling = before
                raise

    def close(self) -> None:
        self.words.release()
        del self.fields
        self.memory.close()
        self.system.close(self.file)
