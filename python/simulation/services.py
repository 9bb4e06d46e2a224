"""The services of a run, and a supervisor that starts what ended."""

import asyncio
from collections.abc import Awaitable, Callable
from functools import partial
from pathlib import Path
from random import Random
from typing import Any, NamedTuple

from hourstable.beats import PART
from hourstable.ranges import Ranges
from hourstable.service import ControlPlane
from hourstable.task import Task

from .disks import Disk
from .example import Shelf
from .network import Network
from .oracle import Oracle
from .scene import JobScene, Scene
from .stores import Engine
from .world import SECOND, Host, Process, World

PORT, SERVICE = 8070, 9000
SECRET = "open-sesame-open-sesame"
OTHER_SECRET = "another-secret-of-others"
AGAIN = 2.0  # seconds after which a program that ended is started again
JOB_TERMS = 2  # guard terms that a job lease lasts
Main = Callable[["Service"], Awaitable[None]]


class Exit(NamedTuple):
    """A program that ended by itself."""

    at: int
    name: str
    why: str

    def __str__(self) -> str:
        return f"{self.at / SECOND:.6f} {self.name}: {self.why}"


class Gain(NamedTuple):
    """Slice keys that a task was told to have gained."""

    at: int
    task: str
    ranges: Ranges


class Loss(NamedTuple):
    """Slice keys that a task was told to give up, or to have lost."""

    at: int
    task: str
    ranges: Ranges


class Broken(NamedTuple):
    """A block of `serving` that a task lost, from its entry to its end: that may be long after the loss."""

    since: int
    at: int
    task: str
    key: str


class Service:
    """A program that is to run on a host: it is started again after it ended."""

    def __init__(self, cluster: "Cluster", name: str, host: Host, main: Main) -> None:
        self.cluster, self.name, self.host, self.main = cluster, name, host, main
        self.process: Process | None = None
        self.object: Any = None  # the plane, task or router of the process
        self.is_wanted = True  # whether it is to run
        self.starts = 0
        self._starting = 0  # what was begun before counts no more

    @property
    def kind(self) -> str:
        return self.name.rstrip("0123456789")

    def start(self) -> None:
        if self.process is not None or self.host.is_down or not self.is_wanted:
            return
        self.starts += 1
        process = self.process = Process(self.cluster.world, self.name, self.host)
        if self.host.is_asleep:
            process.stop()
        self.cluster.world.tell(f"{self.name} starts")
        self.cluster.world.at(self.cluster.world.now, partial(self._run, process), process)

    def _run(self, process: Process) -> None:
        task = process.loop.create_task(self.main(self))
        process.main = task  # a loop has only weak references to its tasks
        task.add_done_callback(partial(self._ended, process))

    def _ended(self, process: Process, task: "asyncio.Task[None]") -> None:
        error = None if task.cancelled() else task.exception()
        self.cluster.world.tell(f"{self.name} exits: {error!r}")
        if process is self.process:
            if not process.is_to_end:
                self.cluster.exits.append(Exit(self.cluster.world.now, self.name, repr(error)))
            self.kill(AGAIN)

    def kill(self, again: float | None, silent: bool = False) -> None:
        """Kills the process, and starts it again after some seconds. One that stalls inside its code
        is killed as soon as it goes on."""
        if self.process is not None and self.process.is_stalled:
            self.cluster.world.after(0.01, lambda: self.kill(again, silent))
            return
        if self.process is not None:
            self.process.kill(silent)
            self.cluster.world.tell(f"{self.name} is dead")
            self.process = self.object = None
        self._starting += 1
        if again is not None:
            number = self._starting
            self.cluster.world.after(again, lambda: self._start_if(number))

    def _start_if(self, number: int) -> None:
        if number == self._starting:
            self.start()

    @property
    def task(self) -> Task | None:
        return self.object if isinstance(self.object, Task) else None

    @property
    def plane(self) -> ControlPlane | None:
        return self.object if isinstance(self.object, ControlPlane) else None


class Cluster:
    """All services, with what they share."""

    def __init__(self, world: World, folder: Path, scene: Scene) -> None:
        self.world, self.folder, self.scene = world, folder, scene
        self.rng = Random(f"{world.seed} cluster")
        world.beat = scene.guard / 1000 / PART
        self.network = world.network = Network(world)
        self.engine = Engine(world, scene.engine == "sqlite")
        self.shelf = Shelf()
        owners = {key: job.owners for job in scene.jobs for key in job.keys}
        self.oracle = Oracle(world, owners)
        self.exits: list[Exit] = []
        self.gains: list[Gain] = []
        self.losses: list[Loss] = []
        self.broken: list[Broken] = []
        self.failed: list[str] = []  # requests that a plane answered by 500
        self.trespassed: list[str] = []  # calls that a plane did although the role of the caller does not allow them
        self.turned_away = 0  # and those that it did not
        self.callbacks = 0.0  # the part of callbacks of tasks that fail
        self.hot: str | None = None  # the key for which half of all requests are
        self.forms = {f"plane{at}": form for at, form in enumerate(scene.forms)}  # the newest ones that planes read
        self.turns = 0  # of planes to another release
        self.wrong: dict[str, str] = {}  # planes that are started wrongly, and how
        self.wrong_secrets: set[str] = set()  # tasks that are started with another secret
        self.draining: set[int] = set()
        self.services: dict[str, Service] = {}
        self.planes = self._places_of_planes()
        self.urls = [f"http://{address}:{port}" for address, port in self.planes]

    def _places_of_planes(self) -> list[tuple[str, int]]:
        """SQLite is for planes of one host."""
        count = range(self.scene.planes)
        if self.scene.engine == "sqlite":
            return [("10.0.0.1", PORT + at) for at in count]
        return [(f"10.0.0.{1 + at}", PORT) for at in count]

    def policy(self, job: JobScene) -> dict[str, Any]:
        guard = self.scene.guard
        return {
            "redundancy": [job.owners, job.owners], "skew": 0, "guard": guard, "bridge": guard,
            "job": JOB_TERMS * guard, "numbers": 100_000,
        }

    def add(self, name: str, address: str, main: Main) -> Service:
        host = self.network.hosts.get(address) or self._host(address)
        self.services[name] = Service(self, name, host, main)
        return self.services[name]

    def _host(self, address: str) -> Host:
        rng, drift = self.rng, min(self.scene.drift, 100)
        ppm = rng.choice((-drift, 0, drift, rng.randint(-drift, drift)))
        folder = self.folder / address
        folder.mkdir(parents=True, exist_ok=True)
        wall = int(rng.gauss(0, 2) * SECOND) if self.scene.is_skewed else 0
        kinds = set(self.scene.kinds)
        disk = Disk(folder, "power" in kinds, not {"disk", "disk_of_job"} & kinds or rng.random() < 0.5)
        host = self.network.hosts[address] = Host(self.world, address, ppm, wall, disk)
        return host

    def of(self, kind: str) -> list[Service]:
        return [one for one in self.services.values() if one.kind == kind]

    def on(self, host: Host) -> list[Service]:
        return [one for one in self.services.values() if one.host is host]

    def tasks_of(self, job: JobScene) -> list[Service]:
        """Returns the services of a job's tasks, also spare ones and second processes."""
        first = job is self.scene.jobs[0]
        numbers = {*job.tasks, *(self.scene.spare_tasks if first else ())}
        names = {f"task{number}" for number in numbers}
        seconds = self.scene.seconds if first else ()
        names |= {f"{kind}{number}" for number in seconds for kind in ("again", "beside")}
        return [one for name, one in self.services.items() if name in names]

    def running(self, job: JobScene) -> list[tuple[Process, Task]]:
        """Returns the processes of a job's tasks with their tasks."""
        return [
            (one.process, one.task) for one in self.tasks_of(job)
            if one.process is not None and one.task is not None
        ]

    def scan(self) -> None:
        """Looks from time to time whether too many processes serve one key."""
        job = self.rng.choice(self.scene.jobs)
        self.oracle.scan(self.running(job), self.rng.choice(job.keys))
        self.world.after(self.rng.expovariate(0.5), self.scan)

    def holder(self, job: str) -> Service | None:
        """Returns the plane that holds a job."""
        for service in self.of("plane"):
            plane = service.plane.plane if service.plane is not None else None
            if plane is not None and job in plane.jobs and plane.jobs[job].job.is_held:
                return service
        return None
