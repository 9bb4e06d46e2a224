"""Callers with roles of their own, and calls that these roles do not allow."""

import asyncio
import json
from collections.abc import Iterator
from random import Random
from typing import Any, NamedTuple

import aiohttp

from hourstable.callers import Caller, Callers, Known, Role
from hourstable.calls import Control, Rejected, Unreachable
from hourstable.clock import local_clock
from hourstable.tickets import Tickets
from hourstable.transport import Http, Transport

from .handlers import Direct
from .machine import Machine
from .services import OTHER_SECRET, SECRET, Cluster, Service
from .world import Process

WORLD = "roles"
TURNED_AWAY = (401, 403)
UNDONE = (429, 500, 502, 503, 504)  # of a plane that cannot do a call, whoever makes it


def secret_of(cluster: Cluster, name: str) -> str:
    """Returns the secret of a service: in this world one of its own, else that of all."""
    return f"the-secret-of-{name}" if cluster.scene.world == WORLD else SECRET


def callers_of(cluster: Cluster) -> Callers:
    """Returns what planes know of the services: nothing but in this world."""
    scene = cluster.scene
    if scene.world != WORLD:
        return Callers()
    known = [Known(Caller("operator", Role.ADMIN), (SECRET,))]
    for job in scene.jobs:
        for number in (*job.tasks, *(scene.spare_tasks if job is scene.jobs[0] else ())):
            caller = Caller(f"task{number}", Role.TASK, frozenset({job.name}), number)
            known.append(Known(caller, (secret_of(cluster, caller.name),)))
    names = frozenset(job.name for job in scene.jobs)
    for at in range(scene.lone_assigners):
        caller = Caller(f"assigner{at}", Role.ASSIGNER, names)
        known.append(Known(caller, (secret_of(cluster, caller.name),)))
    for at in range(scene.clients):
        known.append(Known(Caller(f"client{at}", Role.READ), (secret_of(cluster, f"client{at}"),)))
    return Callers(known)


async def run_operator(service: Service) -> None:
    """Creates all jobs, which tasks may not."""
    cluster = service.cluster
    assert service.process is not None
    machine = Machine(service.process)
    for job in cluster.scene.jobs:
        control = Control(
            cluster.urls, job.name, Tickets(254, None, system=machine), local_clock(system=machine), secret=SECRET,
            transport=_transport(cluster, service.process), system=machine,
        )
        async with control:
            await _create(control, cluster.policy(job))
    await asyncio.Event().wait()


async def _create(control: Control, policy: dict[str, Any]) -> None:
    while True:
        try:
            await control.call("PUT", "", policy)
            return
        except (Unreachable, Rejected):
            await asyncio.sleep(0.5)


def _transport(cluster: Cluster, process: Process) -> Transport:
    if cluster.scene.is_whole:
        return Http()
    return Direct(process)


# Calls that are not allowed. ---------------------------------------------------------------------


class Trespass(NamedTuple):
    """A call, and the secret by which it may not be made."""

    secret: str
    method: str
    path: str
    body: object


def trespasses(cluster: Cluster, rng: Random) -> Iterator[Trespass]:
    """Returns calls for a task, as an assigner and as an admin, each by callers who may not make it."""
    job = rng.choice(cluster.scene.jobs)
    task, other = rng.sample(job.tasks, 2)
    at, life = f"/jobs/{job.name}", rng.randint(1, 3)
    note = {"job": job.name, "type": "note", "version": 2,
            "value": {"kind": "guard", "life": life, "number": str(rng.choice((1 << 32, rng.randint(1, 50)))),
                      "task": task}}
    slices = {"job": job.name, "type": "assignment", "version": 2,
              "value": {"generation": str(rng.randint(1, 9)), "slices": [["0", [task]]]}}
    of_task: list[tuple[str, object]] = [
        (f"{at}/tasks/{task}/life", None), (f"{at}/grant", {"task": task, "life": life}), (f"{at}/free", note),
        (f"{at}/loads", {"task": task, "loads": [[0, 1 << 63, 1 << 30]]}), (f"{at}/drain", {"task": task}),
    ]
    of_assigner: list[tuple[str, object]] = [
        (f"{at}/take", {"assigner": 7}), (f"{at}/renew", {"term": rng.randint(1, 5)}),
        (f"{at}/propose?term={rng.randint(1, 5)}", slices), (f"{at}/commit", {"term": rng.randint(1, 5)}),
    ]
    of_admin: list[tuple[str, object]] = [(f"{at}/hold", {"process": 1})]
    everybody = [OTHER_SECRET, *(secret_of(cluster, f"client{it}") for it in range(cluster.scene.clients))]
    tasks = [secret_of(cluster, f"task{other}")]
    for calls, callers in ((of_task, tasks), (of_assigner, tasks), (of_admin, tasks)):
        for path, body in calls:
            yield Trespass(rng.choice([*everybody, *callers]), "POST", path, body)
    yield Trespass(rng.choice(everybody), "PUT", at, {**cluster.policy(job), "guard": 1000})


async def trespass(cluster: Cluster, process: Process, rng: Random) -> None:
    """Makes such calls at planes by chance, and notes those that were not turned away."""
    transport = _transport(cluster, process)
    for one in list(trespasses(cluster, rng)):
        headers = {"Authorization": f"Bearer {one.secret}", "Content-Type": "application/json"}
        body = None if one.body is None else json.dumps(one.body).encode()
        try:
            async with asyncio.timeout(2):
                told = await transport.fetch(one.method, rng.choice(cluster.urls) + one.path, headers, body)
        except (aiohttp.ClientError, OSError, TimeoutError, ValueError):
            continue
        cluster.turned_away += told.status in TURNED_AWAY
        if told.status not in (*TURNED_AWAY, *UNDONE):
            cluster.trespassed.append(f"{one.secret}: {one.method} {one.path}: {told.status} {told.body[:200]!r}")
    await transport.close()
