"""For how long keys were denied: those that stay at their owner, and those that move, by the faults
that were there."""

from collections.abc import Callable
from typing import NamedTuple

from hourstable.library import slice_key
from hourstable.ranges import holds

from .services import Cluster
from .world import SECOND

EVERY = 0.25  # seconds between two looks
RECENT = 2.0  # seconds for which a fault that struck counts
LOOK = int(EVERY * SECOND)
AROUND = 4 * SECOND  # a loss, in which another task gains a key that moves


class Denial(NamedTuple):
    """A key that no task served for a while."""

    key: str
    begun: int
    ended: int
    moved: bool  # whether another task served it afterwards
    kinds: tuple[str, ...]  # of the faults that were there when it began

    @property
    def seconds(self) -> float:
        return (self.ended - self.begun) / SECOND

    def lasts_from(self, at: int) -> int:
        """Returns for how many ns it lasted from a time on, below 0 if it had ended."""
        return self.ended - max(self.begun, at)

    def __str__(self) -> str:
        how = "moved" if self.moved else "stayed"
        return f"{self.key} {how}, denied from {self.begun / SECOND:.2f} for {self.seconds:.2f} s"


def lapses(cluster: Cluster, end: int) -> list[str]:
    """Returns the keys that tasks lost although they stayed, be it too shortly for a look: those that a task was told
    to lose while no other one gained them at about that time, and those of blocks that a task lost untold. What tasks
    were told so late that the gain may come after `end` is not judged."""
    made = []
    for job in cluster.scene.jobs:
        tasks = {it.name for it in cluster.tasks_of(job)}
        losses = [it for it in cluster.losses if it.task in tasks]
        gains = [it for it in cluster.gains if it.task in tasks]
        for key in job.keys:
            place = slice_key(key.encode())
            told = [it for it in losses if holds(it.ranges, place)]
            gained = [it for it in gains if holds(it.ranges, place)]
            made += [
                f"{key} lapsed, {loss.task} was told to lose it at {loss.at / SECOND:.2f}" for loss in told
                if loss.at + AROUND < end
                and not any(abs(it.at - loss.at) < AROUND and it.task != loss.task for it in gained)
            ]
            made += [
                f"{key} lapsed, {block.task} lost a block on it untold at {block.at / SECOND:.2f}"
                for block in cluster.broken if block.key == key
                and not any(it.task == block.task and block.since <= it.at <= block.at for it in told)
            ]
    return made


class Watch:
    """Looks again and again which task serves each key, as far as it last noticed."""

    def __init__(self, cluster: Cluster, kinds: Callable[[], tuple[str, ...]]) -> None:
        self._cluster, self._kinds = cluster, kinds
        self._places = {
            key: slice_key(key.encode()) for job in cluster.scene.jobs for key in job.keys
        }
        self._owners: dict[str, str] = {}  # keys, and who served them last
        self._missing: dict[str, tuple[int, tuple[str, ...]]] = {}
        self.denials: list[Denial] = []

    def look(self) -> None:
        for job in self._cluster.scene.jobs:
            served = [
                (process.name, task.served()) for process, task in self._cluster.running(job)
                if not process.stops
            ]
            for key in job.keys:
                place = self._places[key]
                owner = next((name for name, ranges in served if holds(ranges, place)), None)
                self._saw(key, owner)
        self._cluster.world.at(self._cluster.world.now + LOOK, self.look)

    def _saw(self, key: str, owner: str | None) -> None:
        now = self._cluster.world.now
        if owner is None:
            if key in self._owners and key not in self._missing:
                self._missing[key] = now, self._kinds()
            return
        if key in self._missing:
            begun, kinds = self._missing.pop(key)
            moved = owner != self._owners[key]
            self.denials.append(Denial(key, begun, now, moved, kinds))
        self._owners[key] = owner

    def end(self, seconds: float) -> None:
        """Ends the denials that last. Those that began before are followed first, for so many seconds at most:
        whether a key moves is seen once it is served again."""
        world = self._cluster.world
        before, until = world.now, world.now + int(seconds * SECOND)
        while world.now < until and any(begun <= before for begun, _ in self._missing.values()):
            world.run_until(min(world.now + LOOK, until))
        for key, (begun, kinds) in self._missing.items():
            if begun <= before:
                self.denials.append(Denial(key, begun, world.now, False, kinds))
        self._missing.clear()

    def worst(self) -> dict[str, list[float]]:
        """Returns, for each set of kinds, the longest denial of a key that stayed and of one that
        moved."""
        made: dict[str, list[float]] = {}
        for it in self.denials:
            longest = made.setdefault("+".join(it.kinds) or "none", [0.0, 0.0])
            longest[it.moved] = max(longest[it.moved], round(it.seconds, 2))
        return made
