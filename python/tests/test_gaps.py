"""Logs on disks that are full, logs that are removed, and lines that are looked for."""

import errno
import json
import os
import subprocess
import sys
from pathlib import Path

import pytest

import needed

needed.library()

from hourstable import logs  # noqa: E402
from hourstable.logs import PIECE, Log, gap_line  # noqa: E402
from hourstable.segments import SEGMENT, SPARE, SpareLine  # noqa: E402
from hourstable.system import System  # noqa: E402
from lines import line_of  # noqa: E402

POLICY = {"redundancy": [1, 1], "skew": 0, "guard": 100, "bridge": 100, "job": 1000, "numbers": 9}
JOB = logs.job_line(POLICY)
DAY = "2026-11-27"


class SmallDisk(System):
    """A disk with room for so many bytes. What is allocated has its room, and nothing else has. `takes` is how many
    bytes a write takes at most, before it fails."""

    def __init__(self, room: int, allocates: bool = True) -> None:
        self.room, self.allocates = room, allocates
        self.takes: int | None = None

    def allocate(self, file: int, start: int, length: int) -> None:
        if not self.allocates:
            raise OSError(errno.EOPNOTSUPP, "not supported")
        if start + length > self.room:
            raise OSError(errno.ENOSPC, "no space left on device")

    def write(self, file: int, data: bytes) -> int:
        if self.takes is not None:
            took, self.takes = data[: self.takes], 0
            if not took:
                raise OSError(errno.EIO, "input/output error")
            return os.write(file, took)
        if os.fstat(file).st_size + len(data) > self.room:
            raise OSError(errno.ENOSPC, "no space left on device")
        return os.write(file, data)

    def write_at(self, file: int, data: bytes, start: int) -> int:
        if start + len(data) > max(os.fstat(file).st_size, self.room):
            raise OSError(errno.ENOSPC, "no space left on device")
        return os.pwrite(file, data, start)


def logged(folder: Path, system: System) -> Log:
    return Log(folder, "task-1", JOB, today=lambda: DAY, system=system)


def line(ticket: int) -> str:
    return line_of(ticket, "lose", "lost 0")


def text(folder: Path) -> list[str]:
    return (folder / f"task-1.{DAY}.jsonl").read_text().splitlines()


def test_space_is_allocated_ahead_of_lines(tmp_path: Path) -> None:
    """The length of the file is that of its lines, and its blocks are more."""
    log = logged(tmp_path, System())
    log.append(line(1))
    found = os.stat(tmp_path / f"task-1.{DAY}.jsonl")
    assert found.st_size == len(JOB) + len(line(1)) + 2
    if found.st_blocks * 512 < SEGMENT:
        pytest.fail("this filesystem allocates nothing ahead")
    log.close()
    assert os.stat(tmp_path / f"task-1.{DAY}.jsonl").st_blocks * 512 < SEGMENT


def test_a_full_disk_takes_a_line_of_what_is_missing(tmp_path: Path) -> None:
    system = SmallDisk(SEGMENT + 2 * SPARE)
    log, ticket = logged(tmp_path, system), 0
    with pytest.raises(OSError, match="no space left"):
        while True:
            ticket += 2
            log.append(line(ticket), line(ticket + 1))
            assert ticket < 100_000
    found = text(tmp_path)
    assert found[-2] == line(ticket - 1)
    assert found[-1] == f'{{"gap":{{"lines":2,"from":{ticket},"until":{ticket + 1}}}}}'
    system.room *= 2
    log.append(line(ticket))  # who has the line still may write it
    assert text(tmp_path)[-1] == line(ticket)


class FullAtOnce(SmallDisk):
    """A disk that has no room but for what is allocated first."""

    def allocate(self, file: int, start: int, length: int) -> None:
        super().allocate(file, start, length)
        self.room = start + length


def test_a_gap_has_room_in_what_is_allocated(tmp_path: Path) -> None:
    """Whoever fills the rest of the disk."""
    log, ticket = logged(tmp_path, FullAtOnce(1 << 40)), 10_000
    with pytest.raises(OSError, match="no space left"):
        while True:
            ticket += 1
            log.append(line(ticket))
            assert ticket < 100_000
    assert text(tmp_path)[-1] == f'{{"gap":{{"lines":1,"from":{ticket},"until":{ticket}}}}}'


@pytest.mark.parametrize("takes", [0, 1, 10, len(line(1)), len(line(1)) + 1, len(line(1)) + 10])
def test_a_write_that_fails_tears_no_line(tmp_path: Path, takes: int) -> None:
    system = SmallDisk(1 << 40)
    log = logged(tmp_path, system)
    system.takes = takes
    with pytest.raises(OSError, match="input/output error"):
        log.append(line(1), line(2))
    assert text(tmp_path) == [JOB]
    system.takes = None
    log.append(line(3))
    assert text(tmp_path) == [JOB, line(3)]


def test_a_filesystem_that_allocates_nothing(tmp_path: Path) -> None:
    log = logged(tmp_path, SmallDisk(200, allocates=False))
    log.append(line(1))
    with pytest.raises(OSError, match="no space left"):
        log.append(line(2))
    assert text(tmp_path) == [JOB, line(1)]


def test_a_line_that_is_written_over_has_room(tmp_path: Path) -> None:
    """Once its file is there, whoever fills the disk. A shorter line leaves nothing of a longer one."""
    disk = SmallDisk(1 << 40)
    spare = SpareLine(disk, tmp_path / "task-1-gap.jsonl")
    spare.clear()
    disk.room = 0
    longest, short = gap_line(1 << 40, (1 << 64) - 1, (1 << 64) - 1), gap_line(1, 2, 2)
    for told in (longest, short, longest):
        spare.write(told)
        assert spare.read() == told
    spare.clear()
    assert spare.read() == ""
    with pytest.raises(OSError, match="no space left"):
        SpareLine(disk, tmp_path / "task-2-gap.jsonl").clear()


def test_a_real_disk_that_is_full(tmp_path: Path) -> None:
    """A filesystem of 3 MB is filled, and emptied again."""
    disk = tmp_path / "disk"
    disk.mkdir()
    program = f"""
import os
from pathlib import Path
from hourstable.logs import Log, LogFiles
spare = LogFiles(Path({str(disk)!r}), "task-1", {JOB!r}).spare()
spare.clear()
log = Log({str(disk)!r}, "task-1", {JOB!r}, today=lambda: {DAY!r})
with open({str(disk / "other")!r}, "wb") as other:
    os.posix_fallocate(other.fileno(), 0, 1_500_000)
try:
    while True:
        log.append({line(1)!r})
except OSError as error:
    print(error.strerror)
spare.write({gap_line(1, 2, 2)!r})
print(spare.read())
os.unlink({str(disk / "other")!r})
log.append({line(2)!r})
log.close()
print(open({str(disk / f"task-1.{DAY}.jsonl")!r}).read(), end="")
"""
    mount = f"mount -t tmpfs -o size=3m none {disk} && exec {sys.executable} -c \"$0\""
    unshare = ["unshare", "--mount", "--map-root-user"]
    if subprocess.run([*unshare, "mount", "-t", "tmpfs", "none", str(disk)], capture_output=True).returncode:
        pytest.fail("no filesystem can be mounted here")
    ran = subprocess.run(
        [*unshare, "sh", "-c", mount, program], check=True, timeout=120, capture_output=True, text=True
    )
    found = ran.stdout.splitlines()
    assert found[:3] == ["No space left on device", gap_line(1, 2, 2), JOB]
    assert set(found[3:-2]) == {line(1)}
    assert found[-2:] == ['{"gap":{"lines":1,"from":1,"until":1}}', line(2)]


def test_calls_of_a_log_with_a_gap(tmp_path: Path) -> None:
    log = logged(tmp_path, System())
    log.append(line(1))
    log.append(gap_line(1, 2, 2))
    log.append(line(3))
    log.close()
    assert [call["ticket"] for call in logs.merged(tmp_path)] == [1, 3]
    (laid,) = logs.lay_out(tmp_path, tmp_path / "laid")
    assert laid.read_text().splitlines() == [JOB, line(1), "", line(3)]


def test_logs_between_two_tickets(tmp_path: Path) -> None:
    log = logged(tmp_path, System())
    for ticket in range(1, 6):
        log.append(line(ticket))
    log.append(json.dumps({"do": "lose", "ticket": 6, "reply": "lost 0"}))
    log.close()
    (laid,) = logs.lay_out(tmp_path, tmp_path / "laid", 3, 5)
    assert laid.read_text().splitlines() == [JOB, "", "", line(3), line(4), "", ""]
    path = logs.files_of(tmp_path)[0]
    assert (logs.first_ticket(path), logs.last_ticket(path)) == (1, 5)
    path.write_text(JOB + "\n" + json.dumps({"do": "lose", "ticket": 6, "reply": "lost 0"}) + "\n")
    assert (logs.first_ticket(path), logs.last_ticket(path)) == (6, 6)
    path.write_text(JOB + "\n")
    assert (logs.first_ticket(path), logs.last_ticket(path)) == (0, 0)


def test_files_are_kept_for_some_days(tmp_path: Path) -> None:
    today = "2026-11-01"
    log = Log(tmp_path, "task-1", JOB, today=lambda: today, keep=2)
    for ticket, today in enumerate(("2026-11-02", "2026-11-03", "2026-11-05"), 1):
        log.append(line(ticket))
    log.close()
    names = [path.name for path in logs.files_of(tmp_path)]
    assert names == ["task-1.2026-11-03.jsonl", "task-1.2026-11-05.jsonl"]
    removed = '{"gap":{"lines":0,"from":1,"until":1,"file":"task-1.2026-11-02.jsonl"}}'
    assert (tmp_path / names[1]).read_text().splitlines() == [JOB, removed, line(3)]


def test_lines_that_are_far_from_the_end_are_found(tmp_path: Path) -> None:
    log = logged(tmp_path, System())
    wanted = [line(1), line(2)]
    log.append(*wanted)
    for ticket in range(3, 60_003):  # several pieces
        log.append(line(ticket))
    assert log.lacking(wanted) == []
    at = line(30_000)
    assert log.lacking([at, line(60_003)]) == [line(60_003)]
    assert log.lacking([line(70_000)]) == [line(70_000)]


def test_no_day_is_read_for_a_line(tmp_path: Path, monkeypatch: pytest.MonkeyPatch) -> None:
    """A plane that takes a job over looks for lines in its log, which another one may have written. It reads the end
    of its log, however many lines that has, and not the day before."""
    day, read, pread = "2026-11-26", list[int](), os.pread
    log = Log(tmp_path, "task-1", JOB, today=lambda: day, system=System())
    for ticket in range(1, 160_001):
        day = "2026-11-26" if ticket <= 80_000 else DAY
        log.append(line(ticket))
    sizes = [os.stat(path).st_size for path in logs.files_of(tmp_path)]
    assert min(sizes) > 3 * PIECE

    def counted(file: int, length: int, start: int) -> bytes:
        made = pread(file, length, start)
        read.append(len(made))
        return made

    monkeypatch.setattr(os, "pread", counted)
    for wanted, lacking, most in (
        ([line(160_000)], [], 2 * PIECE),
        ([line(159_999), line(160_001)], [line(160_001)], 2 * PIECE),
        ([line(160_001), line(160_002)], [line(160_001), line(160_002)], PIECE),
        ([gap_line(2, 160_001, 160_002), line(160_003)], [gap_line(2, 160_001, 160_002), line(160_003)], PIECE),
        ([line(79_999), line(80_000)], [], sizes[1] + 2 * PIECE),  # of the day before
    ):
        read.clear()
        assert log.lacking(wanted) == lacking
        assert 0 < sum(read) <= most
