"""The service of the demo: a control plane, tasks of a session cache, and clients."""

import json
import threading
import urllib.request
from collections import Counter, deque
from pathlib import Path
from typing import Any

from hourstable.demo import engines
from hourstable.demo.processes import Process, module, wait_for
from hourstable.library import slice_key
from hourstable.ranges import KEYS

JOB = "cache"
LEASE = 3.0  # seconds
POLICY = {
    "redundancy": [1, 1], "skew": 0, "guard": int(1000 * LEASE), "bridge": int(1000 * LEASE),
    "job": 5000, "numbers": 1 << 32,
}
TASKS = range(1, 5)
SESSIONS = 60
EVERY = 0.25  # seconds between two looks at the control plane, and two lines of the clients
PATIENCE = 90.0  # seconds for what takes a few on a machine that has time

Slices = list[tuple[float, float, int]]


class Heard:
    """What the clients told."""

    def __init__(self) -> None:
        self._lock = threading.Lock()
        self._last: deque[dict[str, Any]] = deque(maxlen=round(1 / EVERY))
        self._waited: dict[str, float] = {}
        self.lines = 0
        self.answered = 0
        self.waiting = 0

    def hear(self, line: str) -> None:
        """Hears a line of the clients."""
        try:
            told = json.loads(line)
        except ValueError:
            return
        with self._lock:
            self._last.append(told)
            self.lines += 1
            self.answered += told.get("answered", 0)
            self.waiting = told["waiting"]
            for key, seconds in told["waited"].items():
                self._waited[key] = max(self._waited.get(key, 0.0), seconds)

    def last_second(self) -> tuple[int, Counter[str]]:
        """Returns the requests and the denials of the last second."""
        with self._lock:
            denied: Counter[str] = Counter()
            for told in self._last:
                denied.update(told["denied"])
            return sum(told.get("requests", 0) for told in self._last), denied

    def forget_waits(self) -> None:
        with self._lock:
            self._waited.clear()

    def waits(self) -> tuple[int, float]:
        """Returns for how many sessions a client was denied since waits were forgotten, and for how
        many seconds one of them waited at most."""
        with self._lock:
            return len(self._waited), max(self._waited.values(), default=0.0)


class Plane:
    """What a control plane says of the job, which a thread asks it again and again."""

    def __init__(self, url: str) -> None:
        self.url = url
        self.is_there = False
        self.generation = 0
        self.slices: Slices = []
        self._is_over = threading.Event()

    def follow(self) -> None:
        """Asks until it is told to stop."""
        while not self._is_over.wait(EVERY):
            try:
                with urllib.request.urlopen(f"{self.url}/jobs/{JOB}/slices", timeout=2) as answer:
                    self.take(json.loads(answer.read()))
                self.is_there = True
            except (OSError, ValueError):
                self.is_there = False

    def start(self) -> None:
        threading.Thread(target=self.follow, daemon=True).start()

    def stop(self) -> None:
        self._is_over.set()

    def take(self, told: dict[str, Any]) -> None:
        """Takes the answer of GET /jobs/J/slices."""
        self.slices = [(it["from"], it["to"], it["owners"][0]) for it in told["slices"]]
        self.generation = told["generation"]

    def owner(self, key: str) -> int | None:
        """Returns the task that owns a key."""
        at = slice_key(key.encode()) / KEYS
        return next((owner for begin, end, owner in self.slices if begin <= at < end), None)

    def share(self, task: int) -> float:
        """Returns the part of all keys that a task owns."""
        return sum(end - begin for begin, end, owner in self.slices if owner == task)


class Service:
    """The processes of the demo. A process that ends by itself is a fault."""

    def __init__(self, folder: Path, store: str, library: str | None) -> None:
        self.folder = folder
        variables = {"HOURSTABLE_LIBRARY": library} if library else {}
        port = engines.free_port()
        self.heard, self.plane = Heard(), Plane(f"http://127.0.0.1:{port}")
        words = ["control", "--store", store, "--listen", f"127.0.0.1:{port}", "--alone"]
        words += ["--logs", str(folder / "logs"), "--settle", "1"]
        self.control = Process(
            "control", module("hourstable.command", *words), folder, variables
        )
        self.ports = {task: engines.free_port() for task in TASKS}
        given = ["--control", self.plane.url, "--folder", str(folder)]
        self.tasks = {
            task: Process(
                f"task-{task}",
                module("hourstable.demo.cache_task", "--task", str(task), "--port", str(port),
                       *given, "--policy", json.dumps(POLICY)),
                folder, variables,
            )
            for task, port in self.ports.items()
        }
        addresses = ",".join(f"{task}=http://127.0.0.1:{at}" for task, at in self.ports.items())
        self.clients = Process(
            "clients",
            module("hourstable.demo.clients", "--tasks", addresses, *given, "--logs",
                   "--keys", str(SESSIONS), "--clients", "20", "--pause", "60",
                   "--every", str(EVERY)),
            folder, variables, self.heard.hear,
        )

    def processes(self) -> list[Process]:
        """Returns all processes."""
        return [self.clients, *self.tasks.values(), self.control]

    def start(self, tasks: range, patience: float = PATIENCE) -> None:
        """Starts the control plane, some tasks and the clients, and waits until the control plane
        answers. Raises Ended."""
        others = [*(self.tasks[task] for task in tasks), self.clients]
        for process in (self.control, *others):
            process.start()
        wait_for(f"{self.plane.url}/healthz", self.control, patience, others)
        self.plane.start()

    def check(self) -> None:
        """Raises Ended if a process has ended by itself."""
        for process in self.processes():
            process.check()

    def drain(self, task: int) -> None:
        """Asks the control plane to let a task own no more keys. Raises Ended."""
        body = json.dumps({"task": task}).encode()
        headers = {"Content-Type": "application/json"}
        request = urllib.request.Request(f"{self.plane.url}/jobs/{JOB}/drain", body, headers, method="POST")
        try:
            urllib.request.urlopen(request, timeout=10).close()
        except OSError as why:
            raise self.control.failed(f"did not drain task {task}: {why}") from why

    def sessions(self) -> Counter[int]:
        """Returns how many sessions each task owns."""
        owners = (self.plane.owner(f"session-{number}") for number in range(SESSIONS))
        return Counter(owner for owner in owners if owner is not None)

    def end(self) -> None:
        """Ends all processes, one kind after the other, so that tasks can free their leases. Raises
        Ended if one does not end well."""
        self.check()
        self.plane.stop()
        for kind in ([self.clients], list(self.tasks.values()), [self.control]):
            for process in kind:
                process.ask_to_end()
            for process in kind:
                was_running = process.running is not None
                status = process.end(20.0)
                if was_running and status != 0:
                    raise process.failed(f"ended with status {status}")

    def kill(self) -> None:
        """Kills all processes that are left."""
        self.plane.stop()
        for process in self.processes():
            process.kill()
