"""Whether all is well again some time after the last fault: each key is served, each task renews, and no loop of any
process has ended."""

import json
import os
import re
import signal
import time
import urllib.error
import urllib.request
from collections.abc import Callable, Iterable, Mapping
from concurrent.futures import ThreadPoolExecutor
from pathlib import Path
from typing import NamedTuple

from hourstable.demo.processes import Process

RENEWED = 2  # times that each task renews
HEARD = re.compile(r"^hourstable_heard_total\{.*\} (\S+)$", re.MULTILINE)
COMPLAINTS = ("was never retrieved", "was never awaited", "Task was destroyed but it is pending")
TIMEOUT = 1.0  # seconds of a request
AT_ONCE = 8  # requests
LATE = 5.0  # seconds in which a process tells its loops


class Healing:
    """Looks from the end of the last fault on. `tasks` are where the tasks are, `keys` what they are asked for, and
    `meanwhile` is called again and again."""

    def __init__(self, tasks: Mapping[int, str], keys: Iterable[str], meanwhile: Callable[[], None]) -> None:
        self.tasks, self.meanwhile = dict(tasks), meanwhile
        self.begun = time.monotonic()
        self.heard: dict[int, float] = {}  # tasks, and how many leases they had heard when they answered first
        self.unserved = list(keys)
        self.unrenewed = self.late()
        self.served_after = self.renewed_after = float("inf")

    def wait(self, seconds: float) -> None:
        """Waits until all is well, at most so many seconds."""
        end = self.begun + seconds
        with ThreadPoolExecutor(AT_ONCE) as pool:
            while time.monotonic() < end and not self.is_well():
                time.sleep(0.05)
                self.meanwhile()
                self.unrenewed = self.late()
                answers = zip(self.unserved, pool.map(self._is_served, self.unserved))
                self.unserved = [key for key, is_served in answers if not is_served]
                passed = time.monotonic() - self.begun
                if not self.unserved and self.served_after > passed:
                    self.served_after = passed
                if not self.unrenewed and self.renewed_after > passed:
                    self.renewed_after = passed

    def rest(self, seconds: float) -> None:
        """Waits until so many seconds have passed since the last fault."""
        while time.monotonic() < self.begun + seconds:
            self.meanwhile()
            time.sleep(0.05)

    def is_well(self) -> bool:
        return not self.unserved and not self.unrenewed

    def late(self) -> list[int]:
        """Returns the tasks that have not renewed often enough yet."""
        return [task for task in self.tasks if not self._has_renewed(task)]

    def _has_renewed(self, task: int) -> bool:
        heard = heard_by(self.tasks[task])
        if heard is None:
            return False
        self.heard[task] = min(heard, self.heard.get(task, heard))  # it may be started again
        return heard >= self.heard[task] + RENEWED

    def _is_served(self, key: str) -> bool:
        """Whether one task answers for a key: that it is there, or that it is not."""
        return any(_get(f"{url}/sessions/{key}")[0] in (200, 404) for url in self.tasks.values())


def heard_by(task: str) -> float | None:
    """Returns how many leases the process of a task at an address has heard, None if it does not answer."""
    status, text = _get(f"{task}/metrics")
    return sum(map(float, HEARD.findall(text))) if status == 200 else None


def _get(url: str) -> tuple[int, str]:
    try:
        with urllib.request.urlopen(url, timeout=TIMEOUT) as answer:
            return answer.status, answer.read().decode()
    except urllib.error.HTTPError as error:
        error.close()
        return error.code, ""
    except OSError:
        return 0, ""


class Loops(NamedTuple):
    """The loops of a process that run, and those that have ended."""

    run: list[str]
    ended: list[str]


def loops_of(process: Process, path: Path) -> Loops:
    """Returns the loops of a process, none if it does not tell."""
    assert process.running is not None
    path.unlink(missing_ok=True)
    os.kill(process.running.pid, signal.SIGUSR1)
    end = time.monotonic() + LATE
    while time.monotonic() < end:
        try:
            told = json.loads(path.read_text())
        except FileNotFoundError:
            time.sleep(0.02)
        else:
            return Loops(told["run"], told["ended"])
    return Loops([], [])


def faults_of_loops(processes: Mapping[str, Process], folder: Path) -> list[str]:
    """Returns what is wrong with the loops of processes, and of what asyncio complained."""
    faults = []
    for name, process in processes.items():
        loops = loops_of(process, folder / f"loops-{name}.json")
        if loops.ended or not loops.run:
            faults.append(f"{name}: these loops run: {loops.run}, and these have ended: {loops.ended}")
    for path in sorted(folder.glob("*.out")):
        for line in path.read_text(errors="replace").splitlines():
            if any(it in line for it in COMPLAINTS):
                faults.append(f"{path.name}: {line}")
    return faults
