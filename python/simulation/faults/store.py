"""Faults of the store and of disks."""

import asyncio
from collections.abc import Callable
from functools import partial

from hourstable.recover import StillRuns, recover
from hourstable.store import DEADLINE, Conflict, StoreFailed

from ..machine import Machine
from ..services import Service
from ..stores import SharedStore
from ..world import SECOND, Process
from .base import Strike, kind

LOOKED = 3  # seconds in which each plane that runs has looked at the store


@kind
def strike_store_freezes(strike: Strike) -> None:
    """The engine, or the way of one plane to it, stands still."""
    engine, planes = strike.cluster.engine, [it for it, _ in strike.cluster.planes]
    seconds = strike.leases(3) * strike.rng.random() ** 2
    chosen = strike.rng.choice((planes, [strike.rng.choice(planes)]))
    strike.tell(f"for {chosen} for {seconds:.3f} s")
    for address in chosen:
        engine.frozen[address] = strike.world.now + int(seconds * SECOND)
    strike.lasts_for(seconds, lambda: None)


@kind
def strike_store_locks(strike: Strike) -> None:
    """Another client of the store holds a lock on the row of a job."""
    job = strike.rng.choice(strike.cluster.scene.jobs).name
    _lock(strike, job, strike.leases(strike.rng.choice((1, 5))) * strike.rng.random())


@kind
def strike_lock_second_job(strike: Strike) -> None:
    """The row of the second job is locked for a long time."""
    _lock(strike, strike.cluster.scene.jobs[-1].name, strike.rng.uniform(20, 60))


def _lock(strike: Strike, job: str, seconds: float) -> None:
    locked = strike.cluster.engine.locked
    locked[job] = max(locked.get(job, 0), strike.world.now + int(seconds * SECOND))
    strike.tell(f"{job} for {seconds:.3f} s")
    strike.lasts_for(seconds, lambda: None)


@kind
def strike_store_fails(strike: Strike) -> None:
    engine = strike.cluster.engine
    engine.fails = strike.rng.choice((0.05, 0.3, 1.0))
    strike.tell(f"{engine.fails} of all calls")
    strike.lasts(strike.leases(3), lambda: setattr(engine, "fails", 0.0))


@kind
def strike_store_slow(strike: Strike) -> None:
    engine = strike.cluster.engine
    engine.slow = strike.rng.choice((10.0, 100.0, 1000.0))
    strike.tell(f"{engine.slow} times")
    strike.lasts(strike.leases(3), lambda: setattr(engine, "slow", 1.0))


@kind
def strike_backup(strike: Strike) -> None:
    """Somebody copies the store."""
    strike.cluster.engine.keep_backup()
    strike.tell("a copy is made")


@kind
def strike_go_back(strike: Strike) -> None:
    """The store goes back to the copy as it is to be done: no plane runs, and the jobs are recovered first."""
    engine = strike.cluster.engine
    if engine.backup is None or engine.is_back:
        return
    _stop_planes(strike)
    engine.go_back()
    strike.tell("no plane runs, and the store is the copy")
    strike.lasts_for(strike.rng.uniform(0, strike.leases(1)), partial(_recover, strike))


@kind
def strike_slip_back(strike: Strike) -> None:
    """The store goes back to a copy under planes that run, and somebody sees that later. Planes stop the jobs then:
    each has looked at the store since the copy was made."""
    engine = strike.cluster.engine
    if engine.backup is None or engine.is_back or strike.world.now - engine.backup_at < LOOKED * SECOND:
        return
    engine.go_back()
    strike.tell("the store is the copy, and nobody knows")

    def see() -> None:
        _stop_planes(strike)
        _recover(strike)

    strike.lasts_for(strike.rng.uniform(1, strike.leases(2)), see)


@kind
def strike_recover(strike: Strike) -> None:
    """The jobs are recovered while no plane runs, although the store did not go back."""
    _stop_planes(strike)
    strike.tell("no plane runs")
    _recover(strike)


@kind
def strike_slip_unheard(strike: Strike) -> None:
    """The store goes back under planes that run to a copy in which the leases of a task end soon, and no task reaches
    a plane which could show that it knows more, but a second process of that one."""
    second = strike.any("again")
    if second.process is None and strike.cluster.engine.backup_of is None:
        Unheard(strike, second).begin()


class Unheard:
    """The way of a store that goes back unheard: a task does not reach planes, the copy is made, all goes on, no task
    reaches planes, the store is the copy, and a second process of the task asks for leases."""

    def __init__(self, strike: Strike, second: Service) -> None:
        self.strike, self.second = strike, second
        self.cluster, self.engine = strike.cluster, strike.cluster.engine
        planes, ways = {it for it, _ in self.cluster.planes}, set[tuple[str, str]]()
        for task in self.cluster.of("task"):
            ways |= {way for it in planes for way in ((task.host.address, it), (it, task.host.address))}
        first = self.cluster.services[f"task{second.name.removeprefix(second.kind)}"].host.address
        self.links, self.first = ways, {way for way in ways if first in way}
        self.has_gone_back = self.is_over = False

    def begin(self) -> None:
        self.engine.backup_of = self
        copied = self.strike.leases(0.7)
        slips = copied + 2 * LOOKED + self.strike.rng.uniform(0, LOOKED)
        asks = slips + 2.0  # planes have looked at the store, but for those that do not compare what they see
        self.cluster.network.cut |= self.first
        for at, step in ((copied, self._copy), (slips, self._slip), (asks, self._ask)):
            self.strike.world.after(at, partial(self._do, step))
        self.strike.lasts_for(asks + self.strike.leases(0.8), self._end)

    def _do(self, step: Callable[[], None]) -> None:
        if not self.is_over:
            step()

    def _copy(self) -> None:
        self.cluster.network.mend(self.first)
        self.engine.keep_backup()
        self.engine.backup_of = self

    def _slip(self) -> None:
        if self.engine.backup_of is self and not self.engine.is_back:
            self.cluster.network.cut |= self.links
            self.engine.go_back()
            self.has_gone_back = True
            self.strike.tell("the store is the copy, and tasks do not reach planes")

    def _ask(self) -> None:
        if self.has_gone_back:
            self.second.is_wanted = True
            self.second.start()
            self.strike.look(self.strike.leases(0.8))

    def _end(self) -> None:
        self.is_over, self.engine.backup_of = True, None
        self.cluster.network.mend(self.links)
        self.second.is_wanted = False
        self.second.kill(None)
        if self.has_gone_back:
            _stop_planes(self.strike)
            _recover(self.strike)


def _stop_planes(strike: Strike) -> None:
    for plane in strike.cluster.of("plane"):
        plane.is_wanted = False
        plane.kill(None)


def _recover(strike: Strike) -> None:
    """Recovers all jobs of the store, and starts the planes after that."""
    cluster, process = strike.cluster, Process(strike.world, "operator", strike.any("client").host)

    async def run() -> None:
        store = SharedStore(cluster.engine, DEADLINE, Machine(process))
        while True:
            try:
                await recover(store, [], Machine(process))
                break
            except (StillRuns, StoreFailed, Conflict) as why:
                strike.tell(f"not recovered: {why}")
                await asyncio.sleep(1)
        strike.tell("the jobs are recovered")
        cluster.engine.is_back = False
        for plane in cluster.of("plane"):
            plane.is_wanted = True
            plane.start()

    def begin() -> None:
        process.main = process.loop.create_task(run())

    strike.world.at(strike.world.now, begin, process)


@kind
def strike_disk(strike: Strike) -> None:
    """The disk of a host takes no more."""
    _fill(strike, "/")


@kind
def strike_disk_of_job(strike: Strike) -> None:
    """The disk of a plane takes no more of one job."""
    _fill(strike, f"/{strike.rng.choice(strike.cluster.scene.jobs).name}/")


def _fill(strike: Strike, below: str) -> None:
    host = strike.any("plane", "task" if below == "/" else "plane").host
    host.disk.full_below = below
    strike.tell(f"{host.address} below {below}")
    strike.lasts(strike.leases(2), lambda: setattr(host.disk, "full_below", ""))
