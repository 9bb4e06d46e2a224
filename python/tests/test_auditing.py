"""`hourstable-service audit` over the logs of planes and tasks: what they lack, and what is removed after it."""

import asyncio
import subprocess
import threading
import time
from collections.abc import Callable
from pathlib import Path
from typing import Any

import pytest

import needed

needed.library()

from hourstable import logs  # noqa: E402
from hourstable.auditing import Audit, gaps_of  # noqa: E402
from hourstable.command import main, options_of, parser  # noqa: E402
from hourstable.plans import Hysteresis  # noqa: E402
from hourstable.service import ControlPlane, Options  # noqa: E402
from hourstable.system import System  # noqa: E402
from hourstable.table_calls import Take  # noqa: E402
from hourstable.task import Denied, Task  # noqa: E402
from lines import line_of  # noqa: E402
from serving import POLICY  # noqa: E402
from waits import counted  # noqa: E402

DAY = 86_400_000_000_000
Said = pytest.CaptureFixture[str]


class Earlier(System):
    """A system whose real time is some days ago, and whose files are not written while `is_full`."""

    def __init__(self, days: int = 0) -> None:
        self.days, self.is_full = days, False

    def real_nanoseconds(self) -> int:
        return super().real_nanoseconds() - self.days * DAY

    def allocate(self, file: int, start: int, length: int) -> None:
        if self.is_full:
            raise OSError(28, "no space left on device")
        super().allocate(file, start, length)

    def write(self, file: int, data: bytes) -> int:
        if self.is_full:
            raise OSError(28, "no space left on device")
        return super().write(file, data)


async def until(holds: Callable[[], object], seconds: float = 30.0) -> None:
    end = time.monotonic() + seconds
    while not holds():
        assert time.monotonic() < end, "it does not come true"
        await asyncio.sleep(0.01)


async def serve(task: Task, times: int = 5) -> None:
    """Serves a key so many times, in blocks."""
    done = 0

    async def block() -> int:
        try:
            async with task.serving("hello") as lease:
                lease.check()
                return 1
        except Denied:
            await asyncio.sleep(0.01)
            return 0

    end = time.monotonic() + 30
    while done < times:
        assert time.monotonic() < end
        done += await block()


async def play(folder: Path, days: int = 0, **given: Any) -> None:
    """Runs a plane and a task for a moment, some days ago."""
    system = Earlier(days)
    options = Options(f"sqlite:{folder}/jobs", folder / "logs", rules=Hysteresis(settle=0.1, rest=1.0))
    given = {"logs": folder / "logs", "policy": POLICY, "system": system, **given}
    async with ControlPlane(options, system=system) as plane:
        async with Task(f"http://127.0.0.1:{plane.port}", "shop", 1, **given) as task:
            await serve(task)


def calls(folder: Path, name: str = "task-1") -> list[dict[str, Any]]:
    return [call for call in logs.merged(folder / "logs/shop") if call["file"].startswith(name)]


async def test_an_audit_while_segments_are_allocated(tmp_path: Path, capfd: Said) -> None:
    """The logs of processes that run are whole, however much is allocated for them."""
    program = needed.program()
    options = Options(f"sqlite:{tmp_path}/jobs", tmp_path / "logs", rules=Hysteresis(settle=0.1, rest=1.0))
    async with ControlPlane(options) as plane:
        url, given = f"http://127.0.0.1:{plane.port}", {"logs": tmp_path / "logs", "policy": POLICY}
        async with Task(url, "shop", 1, **given) as task:  # type: ignore[arg-type]
            await serve(task)
            assert plane.plane is not None
            await until(plane.plane.idle)
            assert Audit(tmp_path / "logs/shop", str(program)).run() == 0
    assert capfd.readouterr().out.startswith("audit one\n")


async def test_a_task_without_a_log(tmp_path: Path) -> None:
    await play(tmp_path, logs=None)
    assert [path.name for path in (tmp_path / "logs/shop").glob("task*")] == []
    assert calls(tmp_path) == []


@pytest.mark.parametrize("sample", [0.0, 0.5])
async def test_blocks_are_thinned_as_a_whole(tmp_path: Path, capfd: Said, sample: float) -> None:
    """All other calls are logged, and the audit is as before."""
    program = needed.program()
    options = Options(f"sqlite:{tmp_path}/jobs", tmp_path / "logs", rules=Hysteresis(settle=0.1, rest=1.0))
    async with ControlPlane(options) as plane:
        url, given = f"http://127.0.0.1:{plane.port}", {"logs": tmp_path / "logs", "policy": POLICY}
        async with Task(url, "shop", 1, sample=sample, **given) as task:  # type: ignore[arg-type]
            await serve(task, 100)
            denied = sum(task.metrics.denials.values()) - task.metrics.denials["down"]
    found = [f"{call['do']} {call['reply'].split(' ')[0]}" for call in calls(tmp_path)]
    blocks = found.count("hold handle"), found.count("check continuous"), found.count("hold denied")
    if sample:
        # each block checks twice, and a denied question is a line of its own
        assert 0 < blocks[0] < 100 and blocks[1] == 2 * blocks[0] and blocks[2] <= denied
    else:
        assert blocks == (0, 0, 0)
    assert {"open", "start", "hear", "release", "sample"} <= {it.split(" ")[0] for it in found}
    assert Audit(tmp_path / "logs/shop", str(program)).run() == 0
    assert capfd.readouterr().out.startswith("audit one\n")


async def test_a_plane_whose_disk_is_full_serves_on(tmp_path: Path, capfd: Said) -> None:
    """The audit names what is missing, and does not say that the rest is one run with what is gone."""
    program, system = needed.program(), Earlier()
    options = Options(
        f"sqlite:{tmp_path}/jobs", tmp_path / "logs", rules=Hysteresis(settle=0.1, rest=1.0), shared=True
    )
    async with ControlPlane(options, system=system) as plane:
        url, given = f"http://127.0.0.1:{plane.port}", {"logs": tmp_path / "logs", "policy": POLICY}
        async with Task(url, "shop", 1, **given) as task:  # type: ignore[arg-type]
            await serve(task)
            for is_full in (True, False):
                system.is_full = is_full
                heard = task.renewed.times
                await until(lambda: task.renewed.times >= heard + 2)
                await serve(task)
        assert plane.plane is not None
        text = plane.plane.metrics.text([])
        missing = counted(text, "hourstable_log_lines_missing_total", job="shop")
    assert counted(text, "hourstable_job_failures_total", job="shop") == 0
    gap, = gaps_of(tmp_path / "logs/shop")
    assert gap.file.startswith("control-0.") and missing - gap.missing in (0, 1) and missing >= 2
    assert Audit(tmp_path / "logs/shop", str(program)).run() == 1
    said = capfd.readouterr().out
    assert "audit one" not in said and said.splitlines()[-1] == f"gap {gap}"


async def test_what_a_plane_looks_for_in_old_logs_keeps_up_no_other_call(
    tmp_path: Path, monkeypatch: pytest.MonkeyPatch
) -> None:
    """At a take-over it reads them in a thread, while its loop goes on."""
    await play(tmp_path)
    found = logs.Log.lacking
    waits, goes_on = threading.Event(), threading.Event()

    def slow(log: logs.Log, lines: Any) -> list[str]:
        waits.set()
        assert goes_on.wait(20), "the loop stands still"
        return found(log, lines)

    monkeypatch.setattr(logs.Log, "lacking", slow)
    options = Options(f"sqlite:{tmp_path}/jobs", tmp_path / "logs", assigner=0)
    async with ControlPlane(options) as plane:
        assert plane.plane is not None
        answer = (await plane.plane.followed("shop")).job.call(Take(2))
        await until(waits.is_set)
        goes_on.set()
        assert (await answer).at is not None


async def test_logs_are_removed_after_an_audit(tmp_path: Path, capfd: Said) -> None:
    """The audit goes on from the state that the removed ones left."""
    needed.program()
    folder = tmp_path / "logs/shop"
    for days in (10, 9, 0):
        await play(tmp_path, days)
    before = {path.name: len(list(logs.calls_of(path))) for path in logs.files_of(folder)}
    assert len(before) == 6
    assert main(["audit", str(folder)]) == 0
    whole = capfd.readouterr().out
    assert whole.startswith(f"audit one\nsteps {sum(before.values())}\n")
    assert main(["audit", "--keep", "30", str(folder)]) == 0
    assert len(logs.files_of(folder)) == 6
    capfd.readouterr()
    assert main(["audit", "--keep", "7", str(folder)]) == 0
    assert capfd.readouterr().out.splitlines()[-1].startswith("removed 4 files of days before ")
    left = [path.name for path in logs.files_of(folder)]
    assert len(left) == 2 and len(list(folder.glob("audited.*.state"))) == 1
    for words in (["audit", "--keep", "7", str(folder)], ["audit", str(folder)]):
        assert main(words) == 0
        assert capfd.readouterr().out.startswith(f"audit one\nsteps {sum(before[name] for name in left)}\n")
    await play(tmp_path)
    assert main(["audit", str(folder)]) == 0
    # what is wrong now is found, and nothing is removed
    path = next(path for path in logs.files_of(folder) if path.name.startswith("task-1"))
    path.write_text(path.read_text().replace('"reply":"continuous', '"reply":"broken', 1))
    assert main(["audit", "--keep", "0", str(folder)]) == 1
    assert [path.name for path in logs.files_of(folder)] == left


async def test_a_plane_removes_its_logs_after_days(tmp_path: Path, capfd: Said) -> None:
    needed.program()
    folder = tmp_path / "logs/shop"
    for days in (10, 9):
        await play(tmp_path, days)
    assert len(logs.files_of(folder)) == 4
    options = Options(f"sqlite:{tmp_path}/jobs", tmp_path / "logs", assigner=0, keep_logs=9)
    async with ControlPlane(options):
        pass
    names = [path.name.partition(".")[0] for path in logs.files_of(folder)]
    assert names == ["control-0", "control-0", "task-1", "task-1"]
    (gap,) = gaps_of(folder)
    assert gap.removed.startswith("control-0.") and 0 < gap.first < gap.last
    assert main(["audit", str(folder)]) == 1
    assert "was removed and not audited" in capfd.readouterr().out
    store = ["--store", f"sqlite:{tmp_path}/jobs", "--logs", f"{tmp_path}/logs", "--listen", "127.0.0.1:0"]
    assert options_of(parser().parse_args(["control", *store, "--keep-logs", "9"])).keep_logs == 9
    with pytest.raises(ValueError, match="--keep-logs"):
        options_of(parser().parse_args(["control", *store, "--keep-logs", "0"]))


async def test_a_wrong_log_is_not_removed(tmp_path: Path, capfd: Said) -> None:
    needed.program()
    folder = tmp_path / "logs/shop"
    for days in (10, 0):
        await play(tmp_path, days)
    path = next(path for path in logs.files_of(folder) if path.name.startswith("task-1"))
    path.write_text(path.read_text().replace('"reply":"continuous"', '"reply":"broken"', 1))
    assert main(["audit", "--keep", "7", str(folder)]) == 1
    assert len(logs.files_of(folder)) == 4
    assert 'should be "continuous"' in capfd.readouterr().out


def written(folder: Path, name: str, *lines: str) -> None:
    folder.mkdir(parents=True, exist_ok=True)
    (folder / name).write_text("".join(f"{it}\n" for it in (logs.job_line(POLICY), *lines)))


def call(ticket: int) -> str:
    return line_of(ticket, "lose", "lost 0")


def test_gaps_of_logs(tmp_path: Path) -> None:
    def gap(lines: int, first: int, last: int, **members: str) -> str:
        return logs.gap_line(lines, first, last, **members)

    assert gap(4, 5, 8) == '{"gap":{"lines":4,"from":5,"until":8}}'
    written(tmp_path, "a.2026-01-01.jsonl", call(5), gap(1, 6, 6), gap(4, 6, 9), call(10))  # the last one counts
    written(tmp_path, "b.2026-01-01.jsonl", call(7), gap(2, 11, 12))
    written(tmp_path, "c.2026-01-01.jsonl", gap(2, 13, 14), call(13), call(14))  # logged after all
    written(tmp_path, "d.2026-01-01.jsonl", gap(1, 15, 15))
    written(tmp_path, "e.2026-01-05.jsonl", call(15), gap(0, 2, 3, file="e.2026-01-01.jsonl"))
    written(tmp_path, "f-gap.jsonl", gap(3, 21, 23))
    written(tmp_path, "f.2026-01-01.jsonl", call(20), gap(2, 21, 22))  # and that of the file beside the log
    written(tmp_path, "g.2026-01-01.jsonl", gap(3, 31, 33), gap(2, 31, 32), call(33))  # 33 was logged after all
    written(tmp_path, "h.2026-01-01.jsonl", call(41), call(42), gap(6, 41, 46), call(47))  # as the store had it
    written(tmp_path, "i.2026-01-01.jsonl", gap(2, 41, 42))  # for which the disk had room
    assert [str(gap) for gap in gaps_of(tmp_path)] == [
        "a.2026-01-01.jsonl:4: 4 lines are missing, tickets 6 to 9",
        "b.2026-01-01.jsonl:3: 2 lines are missing, tickets 11 to 12",
        "e.2026-01-05.jsonl:3: e.2026-01-01.jsonl was removed and not audited, tickets 2 to 3",
        "f-gap.jsonl:2: 3 lines are missing, tickets 21 to 23",
        "g.2026-01-01.jsonl:3: 2 lines are missing, tickets 31 to 32",
        "h.2026-01-01.jsonl:4: 6 lines are missing, tickets 41 to 46",
    ]
    assert len(gaps_of(tmp_path, 3)) == 6
    assert len(gaps_of(tmp_path, 4)) == 5


def test_an_audit_never_says_one_over_a_gap(tmp_path: Path, capfd: Said) -> None:
    program = needed.program()
    lines = [call(1), logs.gap_line(4, 2, 5), call(6)]
    written(tmp_path / "shop", "control-0.2026-01-01.jsonl", *lines)
    assert Audit(tmp_path / "shop", str(program)).run() == 1
    said = capfd.readouterr().out
    assert said == (
        "audit gaps\nsteps 2\ncalls table 2\ntimely yes\n"
        "gap control-0.2026-01-01.jsonl:3: 4 lines are missing, tickets 2 to 5\n"
    )
    assert main(["audit", "--keep", "1", str(tmp_path)]) == 1
    assert len(logs.files_of(tmp_path / "shop")) == 1
    path = tmp_path / "shop/control-0.2026-01-01.jsonl"
    assert subprocess.run([program, "audit", str(path)], capture_output=True).returncode == 2


def test_words_of_audits_that_are_refused(tmp_path: Path) -> None:
    needed.program()
    written(tmp_path, "control-0.2026-01-01.jsonl", call(1))
    for wrong in (["--keep", "-1"], ["--keep", "1", "--until", "x"], ["--keep", "1", "--from", "x"]):
        assert main(["audit", *wrong, str(tmp_path)]) == 2
