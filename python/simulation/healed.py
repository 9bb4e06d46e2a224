"""Whether all is well again after the faults of a run have ended."""

import asyncio
from collections import Counter as Counts
from dataclasses import dataclass, field
from typing import Any

from hourstable.library import slice_key
from hourstable.ranges import holds
from hourstable.task import Denied, LeaseLost

from .services import Cluster, Service
from .sizes import sizes_of
from .world import SECOND, Process

RENEWALS = 2  # that each task must make in the time
SOME_FILES = 3  # beside a log for each job
MOST_KEPT = 100  # elements of the containers of a process that stand at one place
MORE_KEPT = 60  # of them after two guard terms in which nothing fails
RECORDS = {  # places that keep a number of the newest, or what each task has
    "Lanes.stretches", "Lanes.terms", "Lanes.phases", "Lanes.events", "Lanes.given", "Job.notes", "Record._shown",
    "Rights.seats", "Start.steps",
}
LOOKS = 10  # at the keys that nobody serves, in a guard term
CALLS_SETTLE = 20  # looks at which a plane may be busy before it counts as one that waits


@dataclass
class Health:
    """What does not work again: keys that nobody serves, tasks that do not renew, planes in which
    calls wait or that show what was before, and processes that have more than they need."""

    unserved: list[str] = field(default_factory=list)
    not_renewed: list[str] = field(default_factory=list)
    waiting: list[str] = field(default_factory=list)
    grown: list[str] = field(default_factory=list)
    behind: list[str] = field(default_factory=list)
    seconds: float | None = None  # until each key was served


def health(cluster: Cluster) -> Health:
    """Lets the service go on without faults for three guard terms, and looks what is not well."""
    world, term = cluster.world, int(cluster.scene.term * SECOND)
    begun, end = world.now, world.now + 3 * term
    before = {one.process: _renewed(one) for one in _tasks(cluster)}
    missing = set(_unnoticed(cluster))
    late: set[str] | None = None
    kept: dict[Process, Counts[str]] = {}
    made = Health()
    while world.now < end:
        world.run_until(world.now + term // LOOKS)
        if missing:
            missing &= set(_unnoticed(cluster))
        if not kept and world.now >= begun + term:
            kept = {process: sizes_of(one.object) for one in _served(cluster) if (process := one.process)}
        if made.seconds is None and not missing:
            made.seconds = (world.now - begun) / SECOND
        if world.now > end - term and late != set():  # a key that moves is denied for a lease at most
            found = set(unserved(cluster))
            late = found if late is None else late & found
    made.unserved = sorted(late or ())
    made.not_renewed = [
        one.name for one in _tasks(cluster)
        if one.task is None or _renewed(one) - before.get(one.process, 0) < RENEWALS
    ]
    made.behind = _behind(cluster)
    made.waiting = _waiting(cluster)
    made.grown = [*_grown(cluster), *_kept(cluster, kept)]
    for name in (*made.not_renewed, *made.waiting):
        world.tell(f"{name} waits in {where(cluster.services[name].process)}")
    return made


def _tasks(cluster: Cluster) -> list[Service]:
    return [one for one in cluster.of("task") if one.is_wanted]


def _renewed(service: Service) -> int:
    return service.task.renewed.times if service.task is not None else 0


def unserved(cluster: Cluster) -> list[str]:
    """Returns the keys that no task serves now. It asks tasks as their applications may."""
    return [
        key for job in cluster.scene.jobs for key in job.keys
        if not any(
            _serves(cluster, process, task, key) for process, task in cluster.running(job)
        )
    ]


def _unnoticed(cluster: Cluster) -> list[str]:
    """Returns the keys that no task serves, as far as tasks noticed: they are not asked, which their logs would
    tell."""
    return [
        key for job in cluster.scene.jobs for key in job.keys
        if not any(_noticed(process, task, key) for process, task in cluster.running(job))
    ]


def _noticed(process: Process, task: Any, key: str) -> bool:
    return not process.stops and holds(task.served(), slice_key(key.encode()))


def _serves(cluster: Cluster, process: Process, task: Any, key: str) -> bool:
    if not _noticed(process, task, key):
        return False
    with cluster.world.inside(process):
        try:
            task.ask(key).check()
            return True
        except (Denied, LeaseLost, OSError):
            return False


def _behind(cluster: Cluster) -> list[str]:
    """Returns the planes that show another generation of a job than all did a while ago."""
    before = _shown(cluster)
    cluster.world.run_until(cluster.world.now + 4 * SECOND)
    made = []
    for (name, job), generation in _shown(cluster).items():
        due = max([it for (_, other), it in before.items() if other == job], default=0)
        if generation < due:
            made.append(f"{name} shows generation {generation} of {job}, and not {due}")
    return made


def _shown(cluster: Cluster) -> dict[tuple[str, str], int]:
    """Returns the generation that each plane shows of each job."""
    made = {}
    for service in cluster.of("plane"):
        plane = service.plane.plane if service.plane is not None else None
        for name, followed in plane.jobs.items() if plane is not None else ():
            made[service.name, name] = followed.job.view.committed
    return made


def _waiting(cluster: Cluster) -> list[str]:
    """Returns the planes that are never idle in a while, and those that do not run."""
    busy = {one.name for one in cluster.of("plane")}
    for _ in range(CALLS_SETTLE):
        for name in list(busy):
            running = cluster.services[name].plane
            if running is not None and running.plane is not None and running.plane.idle():
                busy.discard(name)
        if not busy:
            break
        cluster.world.run_until(cluster.world.now + SECOND // 13)
    return sorted(busy)


def _served(cluster: Cluster) -> list[Service]:
    """Returns the services whose programs have begun."""
    return [one for one in cluster.services.values() if one.process is not None and one.object is not None]


def _kept(cluster: Cluster, before: dict[Process, Counts[str]]) -> list[str]:
    """Returns the processes that keep more than they need, or ever more."""
    made = []
    for service in _served(cluster):
        assert service.process is not None
        known = before.get(service.process)
        for place, length in sizes_of(service.object).items():
            more = length - known[place] if known is not None else 0
            if place not in RECORDS and (length > MOST_KEPT or more > MORE_KEPT):
                made.append(f"{service.name}: {place} has {length} elements, {more} of them new")
    return made


def _grown(cluster: Cluster) -> list[str]:
    """Returns the processes that have more tasks, files or connections than they need."""
    jobs, made = len(cluster.scene.jobs), []
    others = len(cluster.services)
    for service in cluster.services.values():
        process = service.process
        if process is None:
            continue
        tasks = sum(not it.done() for it in process.loop.tasks)
        files = service.host.disk.opened_by(process)
        used = cluster.network.used_by(process)
        if tasks > 16 + 6 * others or files > jobs + SOME_FILES or used > 8 + 4 * others:
            made.append(f"{service.name}: {tasks} tasks, {files} files, {used} connections")
    return made


def where(process: Process | None) -> list[str]:
    """Returns where each task of asyncio of a process waits."""
    made = []
    for task in asyncio.all_tasks(process.loop) if process is not None else ():
        at: Any = task.get_coro()
        places: list[str] = []
        while at is not None and hasattr(at, "cr_frame"):
            frame = at.cr_frame
            places.append(f"{at.__qualname__}:{frame.f_lineno if frame else '-'}")
            at = at.cr_await
        made.append(" > ".join(places))
    return sorted(made)
