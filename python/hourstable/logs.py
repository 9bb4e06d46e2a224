"""The log of a process: each call with its reply, in the lines of docs/AUDIT.md, a file a day.

A log has the files NAME.YYYY-MM-DD.jsonl of a folder, which is that of the job. Each begins with
the job line. A line has left the process when `append` returns: a process that is killed later
loses none.

Space is allocated ahead of the lines, so a disk that is full tears no line and takes one that says
what is missing. A line that begins with `{"gap":` is no call: it says which calls the log lacks, as
the disk did not take them or their file was removed. `hourstable-service audit` reads it, and
`hourstable audit` refuses a log that has one. While the log lacks lines of which it does not say so, the file
NAME-gap.jsonl says it, which is blank else.
"""

import datetime
import hashlib
import json
import logging
import os
import re
import time
from collections.abc import Callable, Collection, Iterator, Mapping, Sequence
from contextlib import suppress
from functools import lru_cache, partial
from pathlib import Path
from typing import Any, NamedTuple

from hourstable.segments import GrowingFile, SpareLine
from hourstable.system import SYSTEM, System, make_folder

ASSIGNERS, TASKS = 8, 64  # the most that a job may have
CLERKS = 128  # as many as have a ticket process of their own
ENDING, SPARE_ENDING = ".jsonl", "-gap.jsonl"
GAP = b'{"gap":'  # the beginning of a line that is no call
A_DAY = 86_400_000_000_000  # nanoseconds
PIECE = 1 << 20  # bytes of a file that are looked through at a time
COMPACT = json.JSONEncoder(separators=(",", ":"))
NAME = re.compile(r"[A-Za-z0-9_-][A-Za-z0-9._-]{0,63}")
TICKET = re.compile(rb'^\{"ticket":(\d{1,20}),|,"ticket":(\d{1,20})\}$', re.MULTILINE)  # of a call, first or last
DAY = re.compile(r"\.(\d{4}-\d\d-\d\d)\.jsonl$")
log = logging.getLogger("hourstable.logs")


def job_line(policy: Mapping[str, object]) -> str:
    """Returns the first line of a log of a job with this policy, whose members are those of a
    script."""
    job: dict[str, object] = dict(policy)
    job.update(assigners=ASSIGNERS, tasks=TASKS, clerks=CLERKS)
    return json.dumps({"job": job}, separators=(",", ":"), sort_keys=True)


def told_refusal(do: str, words: str) -> str:
    """Returns the reply of a call that is not done, from the text of Refused: a key is denied, a
    handle is broken, and any other call is refused."""
    if words == "broken":
        return words
    return f"{'denied' if do in ('serve', 'hold') else 'refused'} {words}"


def folder_of(top: str | os.PathLike[str], job: str) -> Path:
    """Returns the folder of the logs of a job below a folder of logs.

    Raises ValueError if the name of the job is none of a folder.
    """
    if not NAME.fullmatch(job):
        raise ValueError(f"{job!r} is no name of a job: see NAME")
    return Path(top) / job


def utc_day(system: System = SYSTEM) -> str:
    """Returns the day as YYYY-MM-DD."""
    return _day_at(system.real_nanoseconds() // A_DAY)


@lru_cache(16)
def _day_at(days: int) -> str:
    """Returns the day that is so many days after 1970-01-01."""
    return time.strftime("%Y-%m-%d", time.gmtime(days * 86_400))


def days_before(day: str, days: int) -> str:
    """Returns the day that is so many days before one."""
    return (datetime.date.fromisoformat(day) - datetime.timedelta(days)).isoformat()


def day_of(path: Path) -> str:
    """Returns the day of a file of a log, as YYYY-MM-DD; one that never comes if its name has none."""
    found = DAY.search(path.name)
    return found[1] if found else "9999-12-31"


class Log:
    """The log of a process for a job.

    A file whose last line was torn, as by a kill while it was written, is mended: the line is ended
    if it is a call, and else left out. With `keep`, files that are more than so many days old are
    removed at the start and each day, and a line of the log says so.

    Raises OSError if the file of today cannot be opened, and ValueError if it begins with another
    job line.
    """

    is_kept = True  # whether lines that are appended are of use to anybody

    def __init__(
        self,
        folder: str | os.PathLike[str],
        name: str,
        job: str,
        *,
        today: Callable[[], str] | None = None,
        keep: int | None = None,
        system: System = SYSTEM,
    ) -> None:
        self.folder, self.name, self.job = Path(folder), name, job
        self._system, self._keep = system, keep
        self._today, self._day = today or partial(utc_day, system), ""
        self._file: GrowingFile | None = None
        make_folder(self.folder)
        self._turn_to(self._today())

    def append(self, *lines: str) -> None:
        """Writes lines, which the system has when this returns. Raises OSError, as of a full disk;
        the file then has none of them, and a line that they are missing, as far as there is room."""
        try:
            self._write(_bytes_of(*lines))
        except OSError:
            self._tell_gap(lines)
            raise

    def append_line(self, line: bytes) -> None:
        """Writes a line of the library, with its line feed, as `append` does."""
        try:
            self._write(line)
        except OSError:
            self._tell_gap([line.decode().rstrip("\n")])
            raise

    def _write(self, data: bytes) -> None:
        day = self._today()
        if day != self._day:
            self._turn_to(day)
        if self._file is None:
            raise ValueError(f"the log {self.name} is closed")
        self._file.append(data)

    def lacking(self, lines: Sequence[str]) -> list[str]:
        """Returns those of the lines that are not in the two newest files. The lines are of calls that
        were appended together, so if the first one is missing, all are. It reads from the end back to the
        first one, or to a call before that: tickets of a log rise. Where they did not, a line that is there
        may be returned, and an audit leaves the second one out."""
        first, ticket = lines[0].encode(), gap_in(lines[0]).first
        for path in reversed(self._files()[-2:]):
            with open(path, "rb") as file:
                place, is_over = _last_place(file.fileno(), first, ticket)
                if place >= 0:
                    there = _those_after(file.fileno(), place, {line.encode() for line in lines})
                    return [line for line in lines if line.encode() not in there]
            if is_over:
                break
        return list(lines)

    def last_reading(self) -> int:
        """Returns the greatest reading of the last calls of the log, 0 if none has one. It reads the newest files."""
        for path in reversed(self._files()):
            readings = [int(call["at"]) for call in _last_calls(path) if "at" in call]
            if readings:
                return max(readings)
        return 0

    def close(self) -> None:
        """Closes the file. Nothing is written later."""
        if self._file is not None:
            self._file.close()
        self._file, self._day = None, ""

    def _tell_gap(self, lines: Sequence[str]) -> None:
        try:
            if self._file is not None:
                self._file.append_spare(_bytes_of(gap_line(*calls_in(lines))))
        except OSError:
            pass  # who goes on with the log may tell it then

    def _turn_to(self, day: str) -> None:
        path = self.folder / f"{self.name}.{day}{ENDING}"
        file = GrowingFile(self._system, path)
        try:
            _mend(file)
            self._head(file, path)
            if self._keep is not None:
                self._remove_before(days_before(day, self._keep), file)
        except BaseException:
            file.close()
            raise
        self.close()
        self._file, self._day = file, day

    def _head(self, file: GrowingFile, path: Path) -> None:
        first = _bytes_of(self.job)
        found = file.read(0, len(first))
        if not found:
            file.append(first)
        elif found != first:
            raise ValueError(f"{path} begins with another job line")

    def _files(self) -> list[Path]:
        return sorted(self.folder.glob(f"{self.name}.*{ENDING}"))

    def _remove_before(self, day: str, file: GrowingFile) -> None:
        """Removes the files of days before this one, and says so in the file of today."""
        for path in self._files():
            if day_of(path) >= day:
                continue
            try:
                first, last = first_ticket(path), last_ticket(path)
                if last:
                    file.append(_bytes_of(gap_line(0, first, last, file=path.name)))
                path.unlink()
            except OSError as error:
                log.warning("%s was not removed: %s", path, error)


class LogFiles(NamedTuple):
    """Where the log of a process for a job is, as `Log` takes it. `has_spare` is whether a file beside it says what
    it lacks: not of a control plane, whose store has that."""

    folder: Path
    name: str
    job: str
    keep: int | None = None
    system: System = SYSTEM
    today: Callable[[], str] | None = None
    has_spare: bool = True

    def open(self) -> Log:
        return Log(self.folder, self.name, self.job, today=self.today, keep=self.keep, system=self.system)

    def spare(self) -> SpareLine | None:
        """Returns the file that says what the log lacks and does not say."""
        return SpareLine(self.system, self.folder / f"{self.name}{SPARE_ENDING}") if self.has_spare else None


class NoLog:
    """In place of a log that is left out."""

    is_kept = is_stopped = False
    stops = 0

    def append(self, *lines: str) -> None:
        """Does nothing."""

    def append_line(self, line: bytes) -> None:
        """Does nothing."""

    def lacking(self, lines: Sequence[str]) -> list[str]:
        """Returns none: no line is missed."""
        return []

    def last_reading(self) -> int:
        """Returns 0: nothing is known."""
        return 0

    def gap(self) -> list[str]:
        """Returns none: no line is missed."""
        return []

    def is_ready(self) -> bool:
        return False

    def go_on(self) -> None:
        """Does nothing."""

    def close(self) -> None:
        """Does nothing."""


def gap_line(lines: int, first: int, last: int, **members: str) -> str:
    """Returns the line of a log that says how many lines it lacks, and the tickets of the first and
    the last of them. With the member `file` it is all of a file that was removed."""
    return COMPACT.encode({"gap": {"lines": lines, "from": first, "until": last, **members}})


def gap_in(line: str) -> "Calls":
    """Returns what the line of a gap says; nothing is missing if it is empty or torn."""
    try:
        return _calls_of(json.loads(line))
    except (ValueError, LookupError, TypeError):
        return Calls(0, 0, 0)


class Calls(NamedTuple):
    """How many calls there are, and the tickets of the first and the last of them."""

    lines: int
    first: int
    last: int


def calls_in(lines: Sequence[str]) -> Calls:
    """Returns the calls of lines, one at least, and those that a line of a gap says to be missing."""
    found = [_calls_of(json.loads(line)) for line in lines]
    return Calls(sum(it.lines for it in found), found[0].first, found[-1].last)


def _calls_of(value: Mapping[str, Any]) -> Calls:
    if "gap" in value:
        gap = value["gap"]
        return Calls(gap["lines"], gap["from"], gap["until"])
    return Calls(1, value["ticket"], value["ticket"])


def _bytes_of(*lines: str) -> bytes:
    return "".join(f"{line}\n" for line in lines).encode()


def _mend(file: GrowingFile) -> None:
    """Ends the last line of a file if it lacks its end and is a JSON text, and leaves it out if it
    is none."""
    start, tail = file.size, b""
    while start and b"\n" not in tail:
        step = min(start, 65_536)
        start -= step
        tail = file.read(start, step) + tail
    torn = tail[tail.rfind(b"\n") + 1:]
    if not torn:
        return
    try:
        json.loads(torn)
    except ValueError:
        file.cut(file.size - len(torn))
    else:
        file.append(b"\n")


def _last_place(file: int, line: bytes, ticket: int) -> tuple[int, bool]:
    """Returns where a line stands last in a file, -1 if it does not, and whether a call of an earlier
    ticket was met, before which nothing is read. It is read in pieces from its end, so that other
    threads run meanwhile."""
    wanted, overlap = b"\n" + line + b"\n", b""
    end = os.fstat(file).st_size
    while end:
        start = max(0, end - PIECE)
        piece = os.pread(file, end - start, start) + overlap
        at = piece.rfind(wanted)
        if at >= 0:
            return start + at + 1, True
        call = TICKET.search(piece)
        if call is not None and int(call[1] or call[2]) < ticket:
            return -1, True
        overlap, end = piece[: len(wanted)], start
    return -1, False


def _those_after(file: int, start: int, lines: Collection[bytes]) -> set[bytes]:
    """Returns which of some lines stand in a file from the beginning of a line on."""
    there, torn = set[bytes](), b""
    while piece := os.pread(file, PIECE, start):
        *whole, torn = (torn + piece).split(b"\n")
        there.update(line for line in whole if line in lines)
        start += len(piece)
    return there


def _last_calls(path: Path) -> list[dict[str, Any]]:
    """Returns the last calls of a file, from its last bytes. A line that is torn is none."""
    with open(path, "rb") as file:
        start = max(0, os.fstat(file.fileno()).st_size - PIECE)
        file.seek(start)
        lines = file.read().split(b"\n")[1 if start else 0:]
    made = []
    for line in lines:
        with suppress(ValueError):
            call = json.loads(line)
            if isinstance(call, dict) and "ticket" in call:
                made.append(call)
    return made


def first_ticket(path: Path) -> int:
    """Returns the ticket of the first call of a file, 0 if it has none."""
    return next((int(call["ticket"]) for call in calls_of(path)), 0)


def last_ticket(path: Path) -> int:
    """Returns the ticket of the last call of a file, 0 if it has none."""
    with open(path, "rb") as file:
        file.seek(max(0, os.fstat(file.fileno()).st_size - PIECE))
        found = TICKET.findall(file.read().rpartition(b"\n")[0])
    return int(b"".join(found[-1])) if found else max((call["ticket"] for call in calls_of(path)), default=0)


def files_of(folder: str | os.PathLike[str]) -> list[Path]:
    """Returns the files of all logs of a job, by name."""
    return sorted(path for path in Path(folder).glob(f"*{ENDING}") if not path.name.endswith(SPARE_ENDING))


def spares_of(folder: str | os.PathLike[str]) -> list[Path]:
    """Returns the files that say what logs of a job lack and do not say, by name."""
    return sorted(Path(folder).glob(f"*{SPARE_ENDING}"))


def lay_out(
    folder: str | os.PathLike[str], into: str | os.PathLike[str], above: int = 0, below: int = 1 << 64
) -> list[Path]:
    """Copies the logs of a job into another folder so that `hourstable audit` takes them together,
    and returns them.

    Each file keeps its name, and each line its number. Only the first file keeps its job line. A
    line that another one repeats exactly is blank: two control planes may both append the line of a
    call that the store has. So are the lines of gaps, and calls whose tickets are not from `above`
    on and below `below`. Raises ValueError if two job lines differ.
    """
    made = []
    job: bytes | None = None
    known: set[bytes] = set()
    cuts = above > 0 or below < 1 << 64
    Path(into).mkdir(parents=True, exist_ok=True)
    for path in files_of(folder):
        copy = Path(into) / path.name
        with open(path, "rb") as lines, open(copy, "wb") as out:
            for at, line in enumerate(lines):
                if at == 0 and line.startswith(b'{"job":'):
                    if job is not None and line.strip() != job:
                        raise ValueError(f"{path} is of another job than the files before it")
                    out.write(line if job is None else b"\n")
                    job = line.strip()
                    continue
                mark = hashlib.blake2b(line.strip(), digest_size=16).digest()
                is_left = mark in known or line.startswith(GAP)
                is_left = is_left or cuts and not above <= ticket_of(line, above) < below
                out.write(b"\n" if is_left else line)
                known.add(mark)
        made.append(copy)
    return made


def ticket_of(line: bytes, default: int) -> int:
    """Returns the ticket of the line of a call, the default if it is none, as a blank or a torn line."""
    found = TICKET.match(line[:64]) or TICKET.search(line[-64:])
    if found is not None:
        return int(found[1] or found[2])
    try:
        ticket = json.loads(line)["ticket"]
    except (ValueError, KeyError, TypeError):
        return default
    return ticket if isinstance(ticket, int) else default


def calls_of(path: Path) -> Iterator[dict[str, Any]]:
    """Returns the calls of a file in the order of its lines, without the job line, lines of gaps and a torn last
    line."""
    with open(path, "rb") as lines:
        for line in lines:
            if not line.strip() or line.startswith(GAP):
                continue
            try:
                call = json.loads(line)
            except ValueError:
                if line.endswith(b"\n"):
                    raise
                return
            if "job" not in call and "gap" not in call:
                yield call


def merged(folder: str | os.PathLike[str]) -> list[dict[str, Any]]:
    """Returns all calls of the logs of a job by their tickets, each once, with the name of the file
    as `file`."""
    calls: dict[int, dict[str, Any]] = {}
    for path in files_of(folder):
        for call in calls_of(path):
            calls.setdefault(call["ticket"], {**call, "file": path.name})
    return [calls[ticket] for ticket in sorted(calls)]
