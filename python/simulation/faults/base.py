"""Faults by a plan: what strikes, and how it is undone."""

from collections.abc import Callable
from random import Random
from typing import NamedTuple

from ..scene import Scene
from ..services import Cluster, Service
from ..world import SECOND

Undo = Callable[[], object]
# Worlds in which one fault has ended before the next one.
ONE_BY_ONE = ("failover", "handovers", "pairs", "upgrades", "unheard")
LOOK = 0.25  # seconds between two looks for processes that serve one key
LOAD_EVERY = 4.0  # seconds between two changes of the hot key


class Fault(NamedTuple):
    """A fault of a plan: its number, and when it strikes."""

    number: int
    at: int
    kind: str


class Strike:
    """A fault that strikes: its chance, and whom it meets."""

    def __init__(self, faults: "Faults", fault: Fault) -> None:
        self.faults, self.fault, self.cluster = faults, fault, faults.cluster
        self.world = faults.cluster.world
        self.rng = Random(f"{self.world.seed} fault {fault.number}")

    def tell(self, text: str) -> None:
        self.world.tell(f"fault {self.fault.number} {self.fault.kind}: {text}")

    def any(self, *kinds: str) -> Service:
        """Returns a service, of one of these kinds if any are given."""
        known = list(self.cluster.services.values())
        found = [one for one in known if not kinds or one.kind in kinds]
        return self.rng.choice(found)

    def look(self, seconds: float) -> None:
        """Asks all processes for all keys of the first job, again and again for a while: what is wrong may be so for
        a moment alone."""
        cluster, job = self.cluster, self.cluster.scene.jobs[0]
        for key in job.keys:
            cluster.oracle.scan(cluster.running(job), key)
        if seconds > 0:
            self.world.after(LOOK, lambda: self.look(seconds - LOOK))

    def leases(self, times: float) -> float:
        """Returns the seconds of so many guard terms."""
        return times * self.cluster.scene.term

    def lasts(self, most: float, undo: Undo) -> None:
        """Undoes the fault after some seconds: mostly soon, at times much later."""
        self.faults.undo_after(self.fault, most * self.rng.random() ** 2, undo)

    def lasts_for(self, seconds: float, undo: Undo) -> None:
        self.faults.undo_after(self.fault, seconds, undo)


Kind = Callable[[Strike], None]
KINDS: dict[str, Kind] = {}


def kind(strike: Kind) -> Kind:
    """Adds a kind of fault, named as its function without `strike_`."""
    KINDS[strike.__name__.removeprefix("strike_")] = strike
    return strike


def plan_of(scene: Scene) -> list[Fault]:
    """Returns the faults of a scene in the order of their times."""
    rng = Random(f"{scene.seed} plan")
    made: list[Fault] = []
    at = scene.begin + scene.recovering
    if scene.recovering:
        made.append(Fault(0, int(scene.begin * SECOND), "recover"))
    others = [it for it in scene.kinds if it != "load"]
    while others:
        at += rng.expovariate(1 / scene.every) if scene.world not in ONE_BY_ONE else scene.every
        if at >= scene.end:
            break
        made.append(Fault(len(made), int(at * SECOND), rng.choice(others)))
    at = scene.begin
    while True:
        at += rng.expovariate(1 / LOAD_EVERY)  # else keys hardly move
        if at >= scene.end:
            break
        made.append(Fault(len(made), int(at * SECOND), "load"))
    return sorted(made, key=lambda it: it.at)


class Faults:
    """Does the faults of a plan to a cluster, and undoes what is left of them at the end."""

    def __init__(self, cluster: Cluster, plan: list[Fault]) -> None:
        self.cluster, self.plan = cluster, plan
        self.is_over = False
        self.active: dict[Fault, int] = {}  # those that last
        self.struck: list[Fault] = []
        self._undo: dict[Fault, Undo] = {}

    def begin(self) -> None:
        world = self.cluster.world
        for fault in self.plan:
            world.at(fault.at, lambda fault=fault: self._strike(fault))

    def _strike(self, fault: Fault) -> None:
        if not self.is_over:
            self.struck.append(fault)
            KINDS[fault.kind](Strike(self, fault))

    def undo_after(self, fault: Fault, seconds: float, undo: Undo) -> None:
        self._undo[fault] = undo
        self.active[fault] = self.cluster.world.now
        self.cluster.world.after(seconds, lambda: self._undo_once(fault))

    def _undo_once(self, fault: Fault) -> None:
        undo = self._undo.pop(fault, None)
        if undo is not None:
            self.active.pop(fault, None)
            undo()
            self.cluster.world.tell(f"fault {fault.number} {fault.kind} ends")

    def end(self) -> None:
        """Undoes all that is left."""
        self.is_over = True
        for fault in list(self._undo):
            self._undo_once(fault)
        self.cluster.engine.frozen.clear()
        self.cluster.engine.locked.clear()
        for service in self.cluster.services.values():
            service.start()
