"""What people and applications do."""

from collections.abc import Callable

from hourstable.desk import HttpDesk
from hourstable.desk import Unreachable as NoPlane
from hourstable.tickets import Tickets

from ..handlers import Direct
from ..machine import Machine
from ..roles import trespass
from ..services import SECRET
from ..world import Host, Process
from .base import Strike, kind


@kind
def strike_callbacks(strike: Strike) -> None:
    """Callbacks of applications raise, or take long."""
    cluster = strike.cluster
    cluster.callbacks = strike.rng.choice((0.1, 0.5, 1.0))
    strike.tell(f"{cluster.callbacks} of them fail")
    strike.lasts(strike.leases(6), lambda: setattr(cluster, "callbacks", 0.0))


@kind
def strike_load(strike: Strike) -> None:
    """One key becomes hot, so that keys move."""
    keys = [key for job in strike.cluster.scene.jobs for key in job.keys]
    strike.cluster.hot = strike.rng.choice(keys)


@kind
def strike_join(strike: Strike) -> None:
    """A task that was not there before joins."""
    spare = [strike.cluster.services[f"task{it}"] for it in strike.cluster.scene.spare_tasks]
    waiting = [it for it in spare if not it.is_wanted]
    if waiting:
        service = strike.rng.choice(waiting)
        service.is_wanted = True
        strike.tell(service.name)
        service.start()


@kind
def strike_leave(strike: Strike) -> None:
    """A task leaves for good: it is asked to end, or killed, and not started again for a while."""
    service = strike.any("task")
    if service.process is None or not service.is_wanted or service.process.is_stalled:
        return
    service.is_wanted = False
    strike.tell(service.name)
    process = service.process
    if process.on_signal is not None and strike.rng.random() < 0.7:
        strike.world.enter(process, process.on_signal)
    else:
        service.kill(None)

    def back() -> None:
        service.is_wanted = True
        service.start()

    strike.lasts_for(strike.rng.uniform(1, strike.leases(4)), back)


@kind
def strike_lose_task(strike: Strike) -> None:
    """A task of the first job is lost and comes back, so that its keys move."""
    number = strike.rng.choice(strike.cluster.scene.jobs[0].tasks)
    strike.tell(f"task{number}")
    strike.cluster.services[f"task{number}"].kill(10.0)


@kind
def strike_trespass(strike: Strike) -> None:
    """Callers whose role is too small, or who are unknown, make calls for a task, as an assigner and as an admin."""
    process = Process(strike.world, "trespasser", strike.any("client").host)

    def begin() -> None:
        process.main = process.loop.create_task(trespass(strike.cluster, process, strike.rng))

    strike.world.at(strike.world.now, begin, process)


@kind
def strike_drain(strike: Strike) -> None:
    """A task is drained, and started again later, with another life."""
    job = strike.rng.choice(strike.cluster.scene.jobs)
    number = strike.rng.choice(job.tasks)
    service = strike.cluster.services[f"task{number}"]
    host = strike.any("client").host
    strike.tell(service.name)
    drain(strike, job.name, number, host)
    strike.lasts_for(strike.rng.uniform(1, strike.leases(3)), lambda: service.kill(0.2))


def drain(strike: Strike, job: str, number: int, host: Host, done: Callable[[], object] = lambda: None) -> None:
    """Drains a task from a host, and does something then, if a plane answered."""
    process = Process(strike.world, "drainer", host)

    async def ask() -> None:
        tickets = Tickets(255, None, system=Machine(process))
        whole = strike.cluster.scene.is_whole
        desk = HttpDesk(
            strike.cluster.urls, tickets, SECRET, transport=None if whole else Direct(process),
            system=Machine(process),
        )
        try:
            await desk.drain(job, number)
            done()
        except NoPlane:
            pass
        finally:
            await desk.close()

    def begin() -> None:
        process.main = process.loop.create_task(ask())

    strike.world.at(strike.world.now, begin, process)
