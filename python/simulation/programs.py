"""The programs of a run: planes, lone assigners, tasks and clients, each the real code of the package
in a simulated process."""

import asyncio
from collections.abc import AsyncIterator
from contextlib import asynccontextmanager
from functools import partial
from typing import Any

from hourstable.assigner import AssignerOfJobs
from hourstable.client import Again, NoOwner, Router
from hourstable.clock import local_clock
from hourstable.control import Plane
from hourstable.demo.shelf import Late
from hourstable.desk import HttpDesk
from hourstable.plans import Hysteresis
from hourstable.ranges import Ranges
from hourstable.service import ControlPlane, Options
from hourstable.store import Store, store_of
from hourstable.system import System
from hourstable.task import Denied, Lease, LeaseLost, Task
from hourstable.tickets import Tickets
from hourstable.transport import Transport

from .example import Sessions
from .exchanges import ask
from .handlers import Direct, Handlers
from .machine import Machine
from .scene import JobScene
from .roles import WORLD as ROLES
from .roles import callers_of, run_operator, secret_of
from .services import OTHER_SECRET, SECRET, SERVICE, Broken, Cluster, Gain, Loss, Service
from .stores import SharedStore
from .strangers import listen
from .world import Process

RULES = Hysteresis(settle=1.0, rest=2.0)
REPORT = 5.0  # seconds between two reports of loads


def add_all(cluster: Cluster) -> None:
    """Adds all services of the scene."""
    scene = cluster.scene
    for at, (address, _) in enumerate(cluster.planes):
        cluster.add(f"plane{at}", address, partial(run_plane, at))
    for at in range(scene.lone_assigners):
        cluster.add(f"assigner{at}", f"10.0.3.{at}", partial(run_assigner, at))
    for job in scene.jobs:
        for number in job.tasks:
            cluster.add(f"task{number}", f"10.0.1.{number}", partial(run_task, job, number))
    for number in scene.spare_tasks:
        main = partial(run_task, scene.jobs[0], number)
        cluster.add(f"task{number}", f"10.0.1.{number}", main).is_wanted = False
    for number in scene.seconds:
        main = partial(run_task, scene.jobs[0], number)
        cluster.add(f"again{number}", f"10.0.4.{number}", main).is_wanted = False
        if scene.world == "folders":
            cluster.add(f"beside{number}", f"10.0.1.{number}", main).is_wanted = False
    if scene.world == ROLES:
        cluster.add("operator", "10.0.5.0", run_operator)
    for at in range(scene.clients):
        job = scene.jobs[at % len(scene.jobs)]
        cluster.add(f"client{at}", f"10.0.2.{at}", partial(run_client, job, at))


def process_of(service: Service) -> Process:
    assert service.process is not None
    return service.process


def transport_of(service: Service) -> Transport | None:
    """Returns what brings requests to planes; None for HTTP over connections."""
    return None if service.cluster.scene.is_whole else Direct(process_of(service))


# Planes and assigners. ---------------------------------------------------------------------------


async def run_plane(at: int, service: Service) -> None:
    """Runs what the command `hourstable-service control` runs, or a stranger in its place."""
    cluster, process = service.cluster, process_of(service)
    wrong = cluster.wrong.get(service.name, "")
    host, port = cluster.planes[at]
    if wrong not in ("", "401"):
        await listen(process, (host, port), wrong)
        return
    options = Options(
        "simulated:", service.host.disk.folder, host, port, process=at, shared=cluster.scene.is_shared,
        assigner=0 if cluster.scene.lone_assigners else at + 1,
        secrets=secrets_of(cluster, wrong == "401"), callers=callers_of(cluster), rules=RULES,
        state=service.host.disk.folder / "state", row_form=cluster.forms[service.name],
    )
    opens = partial(open_shared, cluster)
    running = ControlPlane(options, opens=opens, transport=transport_of(service), system=Machine(process))
    stopped = asyncio.Event()
    process.on_signal = stopped.set
    if not await running.start_unless(stopped):
        return
    service.object = running
    assert running.plane is not None
    answer_exchanges(cluster, process, (host, port), running.plane)
    await stopped.wait()
    await running.stop()


def secrets_of(cluster: Cluster, is_wrong: bool) -> list[str]:
    """Returns the secrets by which a plane lets everybody do everything."""
    if is_wrong:
        return [OTHER_SECRET]
    return [] if cluster.scene.world == ROLES else [SECRET]


async def open_shared(cluster: Cluster, _: str, deadline: float, system: System) -> Store:
    if not cluster.engine.is_sqlite:
        return SharedStore(cluster.engine, deadline, system)
    return store_of(f"sqlite:{cluster.folder}/jobs.sqlite", deadline, system)


def answer_exchanges(
    cluster: Cluster, process: Process, at: tuple[str, int], plane: Plane
) -> None:
    if not cluster.scene.is_whole:
        handlers = Handlers(plane)
        handlers.failed = cluster.failed
        cluster.network.serve(process, at, handlers.answer)


async def run_assigner(at: int, service: Service) -> None:
    """Runs what the command `hourstable-service assigner` runs."""
    cluster, machine = service.cluster, Machine(process_of(service))
    number = cluster.scene.planes + at
    path = service.host.disk.folder / f"assigner-{number}.ticket"
    tickets = Tickets(number, path, system=machine)
    secret = secret_of(cluster, service.name)
    desk = HttpDesk(cluster.urls, tickets, secret, transport=transport_of(service), system=machine)
    clock = local_clock(system=machine)
    try:
        await AssignerOfJobs(number + 1, desk, clock, RULES, system=machine).run()
    finally:
        await desk.close()
        tickets.close()


# Tasks. ------------------------------------------------------------------------------------------


class Served:
    """What a task's application does: it answers clients, and is told of gains and losses."""

    def __init__(self, service: Service, job: JobScene, number: int) -> None:
        self.cluster, self.process = service.cluster, process_of(service)
        self.sessions: Sessions
        self.task: Task
        self.job, self.number = job, number

    async def on_lose(self, ranges: Ranges, deadline: int) -> None:
        cluster, rng = self.cluster, self.process.rng
        cluster.losses.append(Loss(cluster.world.now, self.process.name, ranges))
        if rng.random() < cluster.callbacks:
            if rng.random() < 0.5:
                raise RuntimeError("on_lose fails")
            await asyncio.sleep(rng.uniform(0, 3 * cluster.scene.term))

    def on_gain(self, ranges: Ranges) -> None:
        self.cluster.gains.append(Gain(self.cluster.world.now, self.process.name, ranges))
        if self.process.rng.random() < self.cluster.callbacks:
            raise RuntimeError("on_gain fails")

    async def answer(self, asked: tuple[str, str, str, float]) -> object:
        """Answers a client: what it read, True for what was done, and a word for what was not."""
        do, key, write, length = asked
        try:
            if do == "read":
                session = await self.sessions.read(key, length)
                return session.version, session.ids[0] if session.ids else ""
            if do == "write":
                await self.sessions.write(key, write, length)
            else:
                await self.work(key, length)
            return True
        except Denied as why:
            return f"denied {why.ground}"
        except LeaseLost:
            return "lost"
        except Late:
            return "late"

    @asynccontextmanager
    async def serving(self, key: str) -> AsyncIterator[Lease]:
        """A block of `Task.serving`, which is noted if the task loses it."""
        since, world = -1, self.cluster.world
        try:
            async with self.task.serving(key) as lease:
                since = world.now
                yield lease
        except LeaseLost:
            self.cluster.broken.append(Broken(since, world.now, self.process.name, key))
            raise

    async def work(self, key: str, length: float) -> None:
        """Works for a key, and checks twice that it still has it."""
        oracle, world = self.cluster.oracle, self.cluster.world
        async with self.serving(key) as lease:
            block = oracle.enter(key, self.process, lease)
            try:
                for _ in range(2):
                    await asyncio.sleep(length / 2)
                    begun = world.now
                    lease.check()
                    oracle.hold(block, begun)
            finally:
                oracle.leave(block)


async def run_task(job: JobScene, number: int, service: Service) -> None:
    """Runs a task, whose application has the sessions of its keys."""
    cluster, process = service.cluster, process_of(service)
    served = Served(service, job, number)
    process.is_to_end = service.name in cluster.wrong_secrets
    secret = OTHER_SECRET if process.is_to_end else secret_of(cluster, service.name)
    task = Task(
        cluster.urls, job.name, number, logs=service.host.disk.folder,
        state=service.host.disk.folder / "state", policy=cluster.policy(job),
        on_lose=served.on_lose, on_gain=served.on_gain, secret=secret, timeout=2.0, report=REPORT,
        transport=transport_of(service), system=Machine(process),
    )
    service.object = served.task = task
    served.sessions = Sessions(process, task, cluster.shelf, served.serving)
    stopped = asyncio.Event()
    process.on_signal = stopped.set
    async with task:
        cluster.network.serve(process, (service.host.address, SERVICE), served.answer)
        ends = [process.loop.create_task(stopped.wait())]
        if cluster.scene.waits:
            ends.append(process.loop.create_task(task.wait()))
        done, _ = await asyncio.wait(ends, return_when=asyncio.FIRST_COMPLETED)
        for one in done:
            one.result()


# Clients. ----------------------------------------------------------------------------------------


class Client:
    """Asks for keys, one after the other, over a router."""

    def __init__(self, service: Service, job: JobScene, router: Router) -> None:
        self.cluster, self.process = service.cluster, process_of(service)
        self.job, self.router = job, router
        self._writes = 0

    async def run(self) -> None:
        rng = self.process.rng
        while True:
            await asyncio.sleep(rng.expovariate(1.0))
            key = rng.choice(self.job.keys)
            if self.cluster.hot in self.job.keys and rng.random() < 0.5:
                key = str(self.cluster.hot)
            do = rng.choice(("read", "write", "work") if self.job.owners == 1 else ("work",))
            await self._do(do, key, rng.uniform(0, 0.2) if rng.random() < 0.9 else rng.uniform(0, 2))

    async def _do(self, do: str, key: str, length: float) -> None:
        self._writes += 1
        write = f"{self.process.name}.{self.process.number}.{self._writes}"
        shelf, world = self.cluster.shelf, self.cluster.world
        begun = world.now
        place = shelf.begin(key, begun, write) if do == "write" else -1
        attempt = partial(self._attempt, (do, key, write, length))
        try:
            told = await self.router.send(key, attempt, patience=4)
        except (Again, NoOwner):
            return
        if do == "write":
            shelf.acknowledge(key, place, world.now)
        elif do == "read":
            version, found = told
            shelf.note_read(key, begun, world.now, version, found)

    async def _attempt(self, asked: tuple[str, str, str, float], task: int) -> Any:
        addresses = [f"10.0.1.{task}"]
        if task in self.cluster.scene.seconds:
            addresses.append(f"10.0.4.{task}")
        try:
            async with asyncio.timeout(3):
                at = self.process.rng.choice(addresses), SERVICE
                answer = await ask(self.process, at, asked)
        except (OSError, TimeoutError) as error:
            raise Again(repr(error)) from error
        if isinstance(answer, str):
            raise Again(answer)
        return answer


async def run_client(job: JobScene, number: int, service: Service) -> None:
    cluster = service.cluster
    urls = list(cluster.urls)
    process_of(service).rng.shuffle(urls)
    router = service.object = Router(
        urls, job.name, logs=service.host.disk.folder, clerk=number + 1, secret=secret_of(cluster, service.name),
        state=service.host.disk.folder / "state", transport=transport_of(service),
        system=Machine(process_of(service)),
    )
    async with router:
        await Client(service, job, router).run()
