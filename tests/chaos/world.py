"""The processes of a run: control planes, tasks, clients, the proxy between them, and their disks."""

import argparse
import json
import re
import shutil
import socket
from collections import Counter
from pathlib import Path
from random import Random
from typing import NamedTuple
from urllib.parse import urlsplit

from bugs import BUGS, LET_IN_EARLY, RELEASED_LATE
from disks import Disk
from weather import Weather

from hourstable.demo import engines
from hourstable.demo.processes import Process, wait_for

HERE = Path(__file__).resolve().parent

GUARD = 2000
POLICY = {
    "redundancy": [1, 1], "skew": 10, "guard": GUARD, "bridge": GUARD, "job": GUARD,
    "numbers": 1 << 32,
}
TASKS, LOADS = range(1, 5), range(1, 3)
DRIFT = 100_000  # in a million, that the tasks are given
FAIL = 0.3  # the part of the tasks' callbacks that raise
RATE = 45_000  # most by which a clock is fast or slow: 1.045 / 0.955 is below 1.1
BEYOND = -300_000  # of the tasks' clocks beyond the drift
MEGABYTES = 64  # of a disk of logs
ELSEWHERE = "elsewhere"  # the folder of second processes
OVERTAKEN = re.compile(r"^task \d+: life \d+ of another process is let in, after \d+; this one ends$", re.MULTILINE)
SECRETS = {"secret": "the one of all callers", "wrong-secret": "that of another service"}


class Used(NamedTuple):
    """What a run uses: its words, the folder of its files, the URL of the store, and the library."""

    words: argparse.Namespace
    folder: Path
    store: str
    library: Path


class World:
    """All processes of a run."""

    def __init__(self, used: Used, random: Random) -> None:
        self.words, self.folder, self.random = used.words, used.folder, random
        self.variables = {"HOURSTABLE_LIBRARY": str(used.library)}
        self.planes = {n: engines.free_port() for n in range(self.words.planes)}
        self.ports = {task: engines.free_port() for task in TASKS}
        self.second_ports = {f"task-{task}": engines.free_port() for task in TASKS}
        self.disks = {  # of the logs, by the kind of processes
            "task-": Disk(self.folder / "logs", MEGABYTES), "plane-": Disk(self.folder / "plane-logs", MEGABYTES),
        }
        for name, text in SECRETS.items():
            (self.folder / name).write_text(f"{text}\n")
        self.weather = Weather(self.folder, self.words.seed, self.links(), self.streams(used.store))
        self.processes: dict[str, Process] = {}
        for plane, port in self.planes.items():
            self.processes[f"plane-{plane}"] = self.plane(plane, port, used.store)
        for task, port in self.ports.items():
            self.processes[f"task-{task}"] = self.task(task, port)
        for load in LOADS:
            self.processes[f"load-{load}"] = self.load(load)
        self.seconds = {f"task-{task}": self.second(task) for task in TASKS}
        self.beside = {f"task-{task}": self.one_beside(task) for task in TASKS}
        self.begins: dict[str, int] = {}  # where in the output of a process its last start is
        self.overtaken: Counter[str] = Counter()  # how often processes ended, as another one of their task was let in

    def callers(self) -> list[str]:
        names = [f"{kind}-{task}" for kind in ("task", "second") for task in TASKS]
        return [*names, *(f"load-{load}" for load in LOADS)]

    def links(self) -> dict[str, str]:
        """The links of the proxy: from each task and each load to each plane, and to each task."""
        made = {f"to-task-{task}": local(port) for task, port in self.ports.items()}
        for plane, port in self.planes.items():
            made.update({f"{who}-to-plane-{plane}": local(port) for who in self.callers()})
        return made

    def streams(self, store: str) -> dict[str, str]:
        """The links of bytes: from each plane to the server of the store, if it has one."""
        server = urlsplit(store)
        if server.port is None:
            return {}
        return {f"plane-{plane}-to-store": f"{server.hostname}:{server.port}" for plane in self.planes}

    def store_of(self, plane: int, store: str) -> str:
        port = self.weather.ports.get(f"plane-{plane}-to-store")
        return store if port is None else store.replace(f":{urlsplit(store).port}", f":{port}")

    def plane(self, plane: int, port: int, store: str) -> Process:
        words = ["hourstable.command", "control", "--store", self.store_of(plane, store)]
        words += ["--listen", f"127.0.0.1:{port}", "--secret-file", str(self.folder / "secret")]
        words += ["--process", str(plane), "--logs", str(self.disks["plane-"].folder)]
        words += ["--state", str(self.folder / "state")]
        words += ["--assigner", str(plane + 1), "--settle", "1", "--rest", "3"]
        words += ["--shared" if self.words.planes > 1 else "--alone", "--standby", "1"]
        return self.process("control", f"plane-{plane}", words)

    def task(self, task: int, port: int) -> Process:
        return self.process("task", f"task-{task}", self.words_of(f"task-{task}", task, port, "time"))

    def second(self, task: int) -> Process:
        """A second process of a task, as on another host."""
        name = f"second-{task}"
        words = self.words_of(name, task, self.second_ports[f"task-{task}"], "time")
        return self.process("task", name, [*words, "--place", ELSEWHERE])

    def one_beside(self, task: int) -> Process:
        """A second process of a task with the folders of the first one."""
        words = self.words_of(f"second-{task}", task, engines.free_port(), "follow")
        return self.process("task", f"beside-{task}", words)

    def words_of(self, name: str, task: int, port: int, tickets: str) -> list[str]:
        """Returns what runs a process of a task, with links of a name to the planes."""
        words = ["hourstable.demo.cache_task", "--task", str(task), "--port", str(port), "--tickets", tickets]
        words += ["--control", self.urls(name), "--folder", str(self.folder)]
        words += ["--secret-file", str(self.folder / "secret")]
        words += ["--policy", json.dumps(POLICY), "--drift", str(DRIFT), "--work", "4", "--fail", str(FAIL)]
        # Half of them stop by the age of their clocks, before their leases end.
        is_long = task % 2 or self.words.bug == RELEASED_LATE
        return [*words, "--oldest", str(10 * GUARD if is_long else 9 * GUARD // 10)]

    def load(self, load: int) -> Process:
        addresses = ",".join(f"{task}={self.weather.url(f'to-task-{task}')}" for task in TASKS)
        words = ["hourstable.demo.clients", "--number", str(load), "--tasks", addresses, "--logs"]
        words += ["--control", self.urls(f"load-{load}"), "--folder", str(self.folder)]
        clients = 16 if self.words.bug == LET_IN_EARLY else 4  # it shows for about a second alone
        words += ["--secret-file", str(self.folder / "secret"), "--clients", str(clients), "--pause", "40"]
        return self.process("load", f"load-{load}", words)

    def process(self, kind: str, name: str, words: list[str]) -> Process:
        """Returns a process of a kind, with the bug of the run if it is one of this kind."""
        variables = {**self.variables, "CHAOS_LOOPS": str(self.folder / f"loops-{name}.json")}
        if self.words.bug and BUGS[self.words.bug][0] == kind:
            variables["CHAOS_BUG"] = self.words.bug
        return Process(name, [str(HERE / "buggy.py"), *words], self.folder, variables)

    def urls(self, who: str) -> str:
        return ",".join(self.weather.url(f"{who}-to-plane-{plane}") for plane in self.planes)

    def addresses(self) -> dict[int, str]:
        """Returns where the tasks are, past the proxy."""
        return {task: local(port) for task, port in self.ports.items()}

    def start(self, name: str, secret: str = "secret") -> None:
        """Starts a process, on a host with another clock; a plane with one of the secrets."""
        process = self.processes[name]
        if name.startswith("plane-"):
            process.words[process.words.index("--secret-file") + 1] = str(self.folder / secret)
        self.start_process(process)

    def start_process(self, process: Process) -> None:
        rate = self.random.randint(-RATE, RATE)
        if self.words.drift_beyond:
            rate = BEYOND if process.name.startswith("task-") else RATE
        epoch = self.random.randint(0, 1 << 40)
        process.variables["HOURSTABLE_CLOCK"] = f"epoch={epoch},ppm={rate:+d}"
        if not process.is_alive():
            self.begins[process.name] = process.out.stat().st_size if process.out.exists() else 0
        process.start()

    def start_second(self, name: str) -> None:
        """Starts a second process of a task elsewhere, which gets half of its requests."""
        self.seconds[name].kill()
        self.start_process(self.seconds[name])
        self.weather.change([f"to-{name}"], also=[self.second_address(name)])

    def send_to_first(self, name: str) -> None:
        """Lets the first process of a task have all of its requests."""
        self.weather.change([f"to-{name}"], also=[])

    def start_beside(self, name: str) -> None:
        """Starts a second process of a task with the folders of the first one."""
        self.start_process(self.beside[name])

    def second_address(self, name: str) -> str:
        return local(self.second_ports[name])

    def said(self, process: Process) -> str:
        """Returns what a process wrote since its last start."""
        with open(process.out, "rb") as out:
            out.seek(self.begins[process.name])
            return out.read().decode(errors="replace")

    def was_overtaken(self, process: Process) -> bool:
        """Whether a process has ended as another one of its task was let in."""
        return process.has_ended() and bool(OVERTAKEN.search(self.said(process)))

    def waits(self, name: str) -> bool:
        """Whether a process has said that it waits for another one of its task."""
        return " waits: life " in self.said(self.processes[name])

    def start_overtaken(self) -> None:
        """Starts the processes of tasks again that were overtaken, as their supervisors do."""
        for name in self.second_ports:
            if self.was_overtaken(self.processes[name]):
                self.overtaken[name] += 1
                self.start(name)

    def start_all(self) -> None:
        self.weather.start()
        for plane, port in self.planes.items():
            self.start(f"plane-{plane}")
            wait_for(f"{local(port)}/healthz", self.processes[f"plane-{plane}"])
        for name in self.processes:
            self.start(name)

    def listens(self, name: str) -> bool:
        """Whether a process that has a port listens on it."""
        ports = {f"plane-{plane}": port for plane, port in self.planes.items()}
        ports.update({f"task-{task}": port for task, port in self.ports.items()})
        if name not in ports:
            return True
        try:
            socket.create_connection(("127.0.0.1", ports[name]), timeout=1).close()
            return True
        except OSError:
            return False

    def ended(self) -> list[str]:
        """Returns the processes that have ended by themselves."""
        return sorted(name for name, process in self.processes.items() if not process.is_alive())

    def end(self) -> None:
        """Ends all processes, and lays the logs of all of them into one folder."""
        for process in (*self.seconds.values(), *self.beside.values()):
            process.end()
        for kind in ("load-", "task-", "plane-"):
            for name, process in self.processes.items():
                if name.startswith(kind):
                    process.end()
        self.weather.process.end()
        kept = self.folder / "kept-logs"
        for disk in self.disks.values():
            disk.move_into(kept)
        for path in (self.folder / ELSEWHERE / "logs/cache").glob("*"):
            task, _, day = path.name.partition(".")
            shutil.move(path, kept / "cache" / f"{task}-{ELSEWHERE}.{day}")
        self.disks["task-"].folder.rmdir()
        shutil.move(kept, self.disks["task-"].folder)


def local(port: int) -> str:
    return f"http://127.0.0.1:{port}"
