"""The record of a control plane: who changed a job from outside, or took keys from a task, and when.

It is a file of lines in JSON in the folder of the plane's state, beside lines in its log. Each plane
records the calls that it did itself.
"""

import json
import logging
import os
from collections import deque
from datetime import UTC, datetime
from pathlib import Path
from typing import Any

from hourstable.context import noted
from hourstable.jobs import Job
from hourstable.system import System
from hourstable.table_calls import Propose

SHOWN = 1000  # entries that a plane shows
MOST = 10_000_000  # bytes of a file, after which it becomes NAME.1
log = logging.getLogger("hourstable.record")


class Record:
    """A record in a file, or with no path in memory alone. What the disk does not take is in the log of the plane."""

    def __init__(self, path: Path | None, system: System) -> None:
        self._path, self._system = path, system
        self._shown: deque[dict[str, Any]] = deque(maxlen=SHOWN)
        if path is not None and path.exists():
            try:
                self._read(path)
            except OSError as error:
                log.error("%s was not read: %s", path, error)

    def add(self, do: str, job: str, **members: object) -> None:
        """Records what was done to a job. The caller and the request are those of the context."""
        at = datetime.fromtimestamp(self._system.real_nanoseconds() / 1e9, UTC)
        known = {name: value for name, value in noted().items() if name in ("caller", "request")}
        moment = f"{at:%Y-%m-%dT%H:%M:%S}.{at.microsecond // 1000:03}Z"
        entry = {"at": moment, "do": do, "job": job, **members, **known}
        self._shown.append(entry)
        log.info("%s %s %s", do, job, " ".join(f"{name}={value}" for name, value in members.items()))
        if self._path is None:
            return
        try:
            self._write(self._path, f"{json.dumps(entry)}\n".encode())
        except OSError as error:
            log.error("%s was not written: %s", entry, error)

    def evicted(self, job: Job, call: Propose, alive: list[int], draining: list[int]) -> None:
        """Records from which tasks a proposal takes all keys, and why."""
        generation = call.value["generation"]
        if job.view.proposed != generation:
            return  # it was refused
        left = {owner for _, owners in call.value["slices"] for owner in owners}
        for task in sorted(job.owners() - left):
            why = "drained" if task in draining else "moved" if task in alive else "silent"
            self.add("evict", job.name, task=task, why=why, generation=generation)

    def newest(self, job: str | None = None) -> list[dict[str, Any]]:
        """Returns the last entries, of one job if it is named, the newest last."""
        return [entry for entry in self._shown if job is None or entry["job"] == job]

    def _write(self, path: Path, line: bytes) -> None:
        if path.exists() and path.stat().st_size > MOST:
            path.replace(path.with_name(f"{path.name}.1"))
        file = self._system.open(path, os.O_WRONLY | os.O_CREAT | os.O_APPEND | os.O_CLOEXEC, 0o600)
        try:
            while line:
                line = line[self._system.write(file, line):]
        finally:
            self._system.close(file)

    def _read(self, path: Path) -> None:
        """Reads the entries of earlier processes. A torn line is left out."""
        with open(path, "rb") as lines:
            for line in lines:
                try:
                    entry = json.loads(line)
                except ValueError:
                    continue
                if isinstance(entry, dict) and {"at", "do", "job"} <= set(entry):
                    self._shown.append(entry)
