"""A log that may stop while its process goes on, as on a full disk.

Lines that the disk does not take are left out, and so are all that follow, until the process begins anew with what
the lines are about: a task with another life, a clerk with nothing learnt, a plane with a table that it restores. The
log then has a line that says what is missing, which `hourstable-service audit` tells. Until then a file beside it
says so, for which there is room: a process may end first, and others have logged what it sent them.
"""

import errno
import logging
from collections.abc import Callable, Sequence
from contextlib import suppress

from .logs import Calls, Log, LogFiles, calls_in, gap_in, gap_line

AGAIN = 1.0  # seconds after which a log that stopped is tried again
FULL = (errno.ENOSPC, errno.EDQUOT, errno.EFBIG, errno.EROFS, errno.EIO)  # of a disk that takes nothing


class KeptLog:
    """A log in files. `count(lines)` is told of lines that are left out, and `now` returns seconds that never fall.

    Raises ValueError if the file of today is of another job. A disk that takes nothing is no error; with `must_open`
    each other reason for which the log cannot be opened is one, and is raised.
    """

    is_kept = True  # whether lines that are appended are of use to anybody

    def __init__(
        self, files: LogFiles, name: str, log: logging.Logger, count: Callable[[int], object],
        now: Callable[[], float], must_open: bool = False,
    ) -> None:
        self._files, self._name, self._told = files, name, log
        self._count, self._now = count, now
        self._log: Log | None = None
        self._tried = now()
        self._spare = files.spare()
        self._missing, self._first, self._last = self._left()  # lines, and the tickets of the first and the last
        self._is_ready = False  # whether the disk takes lines again
        self.stops = 0  # how often it stopped: a line of before has lines missing after it
        try:
            self._log = files.open()
            self._tell_gap()
        except OSError as why:
            if must_open and why.errno not in FULL:
                raise
            self._stop(why)

    @property
    def is_stopped(self) -> bool:
        """Whether lines are left out."""
        return self._log is None or self._is_ready

    def append(self, *lines: str) -> None:
        """Writes lines, or leaves them out."""
        if self._log is None or self._is_ready:
            self._miss(lines)
            return
        try:
            self._log.append(*lines)
        except (OSError, ValueError) as why:
            self._stop(why)
            self._miss(lines)

    def append_line(self, line: bytes) -> None:
        """Writes a line of the library, with its line feed, or leaves it out."""
        log = self._log
        if log is None or self._is_ready:
            self._miss([line.decode()])
            return
        try:
            log.append_line(line)
        except (OSError, ValueError) as why:
            self._stop(why)
            self._miss([line.decode()])

    def lacking(self, lines: Sequence[str]) -> list[str]:
        """Returns those of the lines that are not in the log, as `Log.lacking` does, or all while it is stopped."""
        return list(lines) if self._log is None else self._log.lacking(lines)

    def last_reading(self) -> int:
        """Returns the greatest reading of the last calls of the log, 0 if it is stopped."""
        return 0 if self._log is None else self._log.last_reading()

    def is_ready(self) -> bool:
        """Whether a log that has stopped may go on, which it then does with `go_on`. It looks once in a while."""
        if self._is_ready or self._now() - self._tried < AGAIN:
            return self._is_ready
        self._tried = self._now()
        try:
            self._log = self._files.open()
            self._tell_gap()
        except (OSError, ValueError):
            self._drop()
        else:
            self._is_ready = True
        return self._is_ready

    def go_on(self) -> None:
        """Writes lines again, from the next one on."""
        self._is_ready = False
        try:
            self._tell_gap()
        except (OSError, ValueError) as why:
            self._stop(why)
        else:
            self._told.warning("%s: the log goes on after a gap", self._name)

    def close(self) -> None:
        """Closes the file, with a line of what is missing if the disk takes it."""
        try:
            if self._missing and self._log is None:
                self._log = self._files.open()
            self._tell_gap()
        except (OSError, ValueError) as why:
            self._told.warning("%s: %d lines are missing at the end of the log: %s", self._name, self._missing, why)
        self._drop()

    def _stop(self, why: Exception) -> None:
        self._told.error("%s: the log stops, and the service goes on: %s", self._name, why)
        self.stops += 1
        self._tried = self._now()
        self._drop()

    def _drop(self) -> None:
        """Closes the file. What a torn line left is mended when it is opened again."""
        log, self._log = self._log, None
        self._is_ready = False
        if log is not None:
            log.close()

    def gap(self) -> list[str]:
        """Returns the line that says what is missing so far, none if nothing is."""
        return [gap_line(self._missing, self._first, self._last)] if self._missing else []

    def _miss(self, lines: Sequence[str]) -> None:
        calls = calls_in(lines)
        self._first = self._first or calls.first
        self._last = calls.last
        self._missing += calls.lines
        self._count(calls.lines)
        if self._spare is not None:
            with suppress(OSError):  # it was never made
                self._spare.write(*self.gap())

    def _left(self) -> Calls:
        """Returns what is missing of a process before, whose log does not say so."""
        left = ""
        if self._spare is not None:
            with suppress(OSError, ValueError):
                left = self._spare.read()
        return gap_in(left)

    def _tell_gap(self) -> None:
        """Writes what is missing so far, and makes room to say what will be. Raises OSError and ValueError."""
        if self._missing and self._log is not None:
            self._log.append(*self.gap())
            self._missing = self._first = self._last = 0
        if self._spare is not None:
            with suppress(OSError):
                self._spare.clear()
