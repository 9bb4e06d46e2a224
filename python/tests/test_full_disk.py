"""A full disk below the log of a task or of a router: the log stops, and not the service; and the audit says what is
missing."""

import errno
import os
import subprocess
import sys
from collections.abc import AsyncIterator, Callable
from pathlib import Path
from typing import Any

import pytest

import needed
from hourstable import logs
from hourstable.auditing import Gap, gaps_of
from hourstable.client import Router
from hourstable.kept_log import KeptLog
from hourstable.logs import Log, LogFiles, job_line
from hourstable.system import System
from hourstable.task import Task
from lines import line_of
from planes import JOB, POLICY, Plane
from waits import HALF, LOWER, counted, ground, until


class Disk(System):
    """A disk that may be full: it then takes a part of what is written, and no new file."""

    def __init__(self) -> None:
        self.is_full = False

    def open(self, path: str | os.PathLike[str], flags: int, mode: int = 0o777) -> int:
        if self.is_full and not os.path.exists(path):
            raise OSError(errno.ENOSPC, "no space left on device", str(path))
        return super().open(path, flags, mode)

    def write(self, file: int, data: bytes) -> int:
        if not self.is_full:
            return super().write(file, data)
        if len(data) > 9:
            return super().write(file, data[:9])
        raise OSError(errno.ENOSPC, "no space left on device")


@pytest.fixture
async def plane(tmp_path: Path) -> AsyncIterator[Plane]:
    made = await Plane(tmp_path).start()
    made.settle(1, [(0, 1), (HALF, 2)])
    yield made
    await made.stop()


def missing(metrics: Any) -> int:
    """Returns the counter of lines that a log lacks."""
    for line in metrics.text().decode().splitlines():
        if line.startswith("hourstable_log_lines_missing_total"):
            return int(float(line.split()[-1]))
    raise AssertionError("there is no counter")


def names_of_gaps(folder: Path) -> set[str]:
    """Returns the names of the files that say what is missing, without their days."""
    return {gap.file.partition(".")[0] for gap in gaps_of(folder / JOB)}


def audited(folder: Path, program: str) -> "subprocess.CompletedProcess[str]":
    words = [sys.executable, "-m", "hourstable", "audit", "--hourstable", program, str(folder)]
    return subprocess.run(words, capture_output=True, text=True, check=False)


async def test_a_task_serves_while_its_disk_is_full(plane: Plane, tmp_path: Path) -> None:
    program, disk = needed.program(), Disk()
    task = Task(plane.url, JOB, 1, logs=tmp_path, policy=plane.policy, timeout=2.0, system=disk)
    async with task:
        await until(lambda: task.served() == LOWER)
        disk.is_full = True
        before = task.renewed.times
        assert await ground(task, "hello") == ""
        await until(lambda: task.renewed.times >= before + 2)
        assert await ground(task, "hello") == ""
        assert missing(task.metrics) >= 5  # two serves, a hold, a check and two hears at the least
        assert task.state == "serving" and task.is_ready()
        disk.is_full = False
        lives = plane.lives[1]
        await until(lambda: plane.lives[1] == lives + 1 and task.served() == LOWER)
        assert await ground(task, "hello") == ""
    gaps = gaps_of(tmp_path / JOB)
    assert sum(gap.missing for gap in gaps) == missing(task.metrics)
    assert names_of_gaps(tmp_path) == {"task-1"}
    ran = audited(tmp_path / JOB, program)
    assert ran.returncode == 1, ran
    assert ran.stdout.startswith("audit gaps\n") and "audit one" not in ran.stdout, ran
    assert f"gap {gaps[0].file}:{gaps[0].line}: {gaps[0].missing} lines are missing" in ran.stdout
    assert "timely yes" in ran.stdout  # what is there is a run


async def test_a_task_renews_in_one_life_while_its_disk_is_full(plane: Plane, tmp_path: Path) -> None:
    """The first line that the disk does not take is of what the task hears."""
    disk = Disk()
    task = Task(plane.url, JOB, 1, logs=tmp_path, policy=plane.policy, timeout=2.0, system=disk)
    async with task:
        await until(lambda: task.served() == LOWER)
        disk.is_full = True
        lives, before = plane.lives[1], task.renewed.times
        await until(lambda: task.renewed.times >= before + 3)
        assert plane.lives[1] == lives and missing(task.metrics) >= 3
        assert counted(task.metrics.text(), "hourstable_internal_errors_total") == 0
        disk.is_full = False


async def test_a_task_starts_on_a_full_disk(plane: Plane, tmp_path: Path) -> None:
    disk = Disk()
    task = Task(plane.url, JOB, 1, logs=tmp_path, policy=plane.policy, timeout=2.0, system=disk)
    disk.is_full = True
    async with task:
        await until(lambda: task.served() == LOWER)
        assert await ground(task, "hello") == ""
        assert not list((tmp_path / JOB).glob("task-1.*.jsonl"))
        disk.is_full = False
        await until(lambda: names_of_gaps(tmp_path) == {"task-1"} and task.served() == LOWER)
        assert await ground(task, "hello") == ""


async def test_a_router_knows_owners_while_its_disk_is_full(plane: Plane, tmp_path: Path) -> None:
    program, disk = needed.program(), Disk()
    async with Router(plane.url, JOB, logs=tmp_path, clerk=3, system=disk) as router:
        await until(lambda: router.generation == 1)
        disk.is_full = True
        assert router.pick("hello") == 1
        plane.settle(2, [(0, 2)])
        await until(lambda: router.generation == 2)
        assert router.pick("hello") == 2
        assert missing(router.metrics) == 3  # two looks, and what was learnt
        disk.is_full = False
        await until(lambda: router.pick("hello") == 2 and names_of_gaps(tmp_path) == {"clerk-3"})
        assert router.pick("abc") == 2 and router.generation == 2
    ran = audited(tmp_path / JOB, program)
    assert ran.stdout.startswith("audit gaps\n"), ran
    calls = [f"{it['do']}: {it['reply']}" for it in logs.merged(tmp_path / JOB) if "clerk" in it]
    assert calls[:2] == ["forget: forgotten", "learn: learnt 1"]
    after = calls.index("forget: forgotten", 1)
    assert calls[after + 1] == "learn: learnt 2" and calls[-1] == "look: found generation 2 owners 2"


def kept_log(folder: Path, disk: Disk, now: Callable[[], float], counted: list[int]) -> KeptLog:
    import logging

    files = LogFiles(folder, "task-1", job_line(POLICY), system=disk, today=lambda: "2026-11-29")
    return KeptLog(files, "task 1", logging.getLogger("hourstable.test"), counted.append, now)


def test_what_is_missing_stands_in_the_log(tmp_path: Path) -> None:
    disk, now, counted = Disk(), [0.0], list[int]()
    log = kept_log(tmp_path, disk, lambda: now[0], counted)
    log.append(line_of(101, "start", "started 1", task=1, life=1, at=5))
    disk.is_full = True
    log.append(line_of(102, "serve", "denied no-lease", task=1, at=6, slice_key=7))
    log.append(line_of(103, "serve", "denied no-lease", task=1, at=6, slice_key=7))
    now[0] += 10
    assert log.is_stopped and not log.is_ready()
    disk.is_full = False
    assert not log.is_ready()  # it has just looked
    now[0] += 10
    assert log.is_ready() and log.is_stopped
    log.append(line_of(104, "release", "released life 1 number 1", task=1, at=8, kind="guard"))
    log.go_on()
    assert not log.is_stopped
    log.append(line_of(105, "open", "opened 1", task=1, life=1))
    log.close()
    name = "task-1.2026-11-29.jsonl"
    assert gaps_of(tmp_path) == [Gap(name, 3, 2, 102, 103), Gap(name, 4, 1, 104, 104)]
    assert [it["ticket"] for it in logs.merged(tmp_path)] == [101, 105]
    assert sum(counted) == 3
    laid = logs.lay_out(tmp_path, tmp_path / "laid")[0].read_text().splitlines()
    assert [bool(line) for line in laid] == [True, True, False, False, True]


NAME, SPARE = "task-1.2026-11-29.jsonl", "task-1-gap.jsonl"


@pytest.mark.parametrize("is_closed", [False, True])
def test_a_process_that_ends_on_a_full_disk_has_said_what_is_missing(tmp_path: Path, is_closed: bool) -> None:
    """Also one that begins on it. The next one says it in the log, once there is room."""
    disk = Disk()
    for at in (101, 103, 105):
        log = kept_log(tmp_path, disk, lambda: 0.0, [])
        disk.is_full = at < 105
        log.append(line_of(at, "serve", "denied no-lease", task=1, at=6, slice_key=7))
        log.append(line_of(at + 1, "serve", "denied no-lease", task=1, at=6, slice_key=7))
        if at < 105:
            assert gaps_of(tmp_path) == [Gap(SPARE, 1, at - 99, 101, at + 1)]
        if is_closed:
            log.close()
        disk.is_full = at == 101
    assert gaps_of(tmp_path) == [Gap(NAME, 2, 4, 101, 104)]
    assert [it["ticket"] for it in logs.merged(tmp_path)] == [105, 106]
    assert not (tmp_path / SPARE).read_text().strip()
    assert [it.name for it in logs.files_of(tmp_path)] == [NAME]


def test_a_line_that_a_crash_tore_says_nothing(tmp_path: Path) -> None:
    kept_log(tmp_path, Disk(), lambda: 0.0, []).close()
    (tmp_path / SPARE).write_text('{"gap":{"lines":2,')
    kept_log(tmp_path, Disk(), lambda: 0.0, []).close()
    assert gaps_of(tmp_path) == []


async def test_a_note_is_sent_over_a_gap_that_is_told(plane: Plane, tmp_path: Path) -> None:
    """The task is killed while its disk is full: the plane has logged a note that no line of the task's log sends."""
    program, disk = needed.program(), Disk()
    task = Task(plane.url, JOB, 1, logs=tmp_path, policy=plane.policy, timeout=2.0, system=disk)
    await task.start()
    await until(lambda: task.served() == LOWER)
    disk.is_full = True
    plane.propose(2, [(0, 2)])
    await until(lambda: any(what == "free" for what, _ in plane.asked))
    for loop in task._loops:  # as a kill: nothing is written any more
        loop.cancel()
    ran = audited(tmp_path / JOB, program)
    assert "should be \"refused not-sent\"\n" in ran.stdout
    assert [it.file for it in gaps_of(tmp_path / JOB)] == [SPARE]
    assert f"\ngap {SPARE}:1: " in ran.stdout
    disk.is_full = False
    await task.stop()


def test_the_log_of_another_job_is_an_error(tmp_path: Path) -> None:
    Log(tmp_path, "task-1", job_line({**POLICY, "guard": 7}), today=lambda: "2026-11-29").close()
    with pytest.raises(ValueError, match="another job line"):
        kept_log(tmp_path, Disk(), lambda: 0.0, [])
