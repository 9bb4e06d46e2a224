"""What happens to the processes of a run, chosen by a seed."""

import heapq
import sqlite3
import time
from collections import Counter
from collections.abc import Callable
from functools import partial
from random import Random

from bugs import OF_SECONDS
from second import HERE as SECOND
from second import Seconds
from world import GUARD, LOADS, TASKS, World

from hourstable.demo import engines

LEASE = GUARD / 1000  # seconds
LOOKED = 0.2  # seconds between two looks whether a process listens
RESTED = 2.0  # seconds after which a disk that was full has taken what it was to take
Kind = tuple[int, Callable[[], None]]


class Chaos:
    """The faults of a world. Each is mended after a while, and so are all at the end."""

    def __init__(self, world: World, engine: engines.Engine | None, random: Random) -> None:
        self.world, self.engine, self.random = world, engine, random
        self.happened: Counter[str] = Counter()
        self.later: list[tuple[float, int, Callable[[], None]]] = []
        self.busy: set[str] = set()
        self.pushed = 0
        self.seconds = Seconds(self)
        seconds = self.second_processes()
        self.first = [kind for _, kind in seconds]  # what happens in each run
        self.kinds = [kind for weight, kind in (*self.usual(), *self.others(), *seconds) for _ in range(weight)]

    def usual(self) -> list[Kind]:
        """What happens in each run, with how often beside the others."""
        made: list[Kind] = [
            (5, self.kill_task), (4, self.kill_plane), (1, self.kill_load), (3, self.stop_task),
            (2, self.stop_plane), (3, self.cut_task), (2, self.cut_load), (3, self.change_weather),
        ]
        if self.engine is not None:
            made.append((2, self.kill_engine))
        return made

    def others(self) -> list[Kind]:
        """What happens in runs without a bug. A seed decides whose disks are full: those of tasks, those of planes or
        none."""
        words = self.world.words
        if words.bug or words.drift_beyond:
            return []
        made: list[Kind] = [(2, self.cut_plane), (2, self.give_wrong_secret)]
        if self.engine is not None:
            made += [(3, self.freeze_engine), (2, self.cut_store)]
        else:
            made.append((2, self.lock_store))
        full = (None, "task-", "plane-")[words.seed % 3 - 1]
        return made if full is None else [*made, (3, partial(self.fill_disk, full))]

    def second_processes(self) -> list[Kind]:
        """What happens in runs with second processes of tasks, or with a bug of which only these tell."""
        words = self.world.words
        if not (words.second or words.bug in OF_SECONDS):
            return []
        return [(20 if words.bug else 5, self.seconds.begin_elsewhere), (1, self.seconds.begin_beside)]

    def run(self, seconds: float) -> None:
        """Lets things happen for a while, and then mends all."""
        end = time.monotonic() + seconds
        following = time.monotonic() + 3.0
        while time.monotonic() < end:
            if time.monotonic() >= following:
                happens = self.first.pop() if self.first else self.random.choice(self.kinds)
                happens()
                following = time.monotonic() + self.random.uniform(0.2, 1.4)
            self.do_later(time.monotonic())
            time.sleep(0.02)
        while self.later:
            self.do_later(float("inf"))
            time.sleep(0.02)
        self.world.weather.change(self.world.weather.links, lose=0, repeat=0, delay=0)

    def do_later(self, now: float) -> None:
        due = []
        while self.later and self.later[0][0] <= now:
            due.append(heapq.heappop(self.later)[2])
        for do in due:
            do()
        self.world.start_overtaken()

    def after(self, seconds: float, do: Callable[[], None]) -> None:
        self.pushed += 1
        heapq.heappush(self.later, (time.monotonic() + seconds, self.pushed, do))

    def is_free(self, name: str) -> bool:
        """Takes what nothing happens to now, and lets it be busy."""
        is_free = name not in self.busy
        self.busy.add(name)
        return is_free

    def one_of(self, kind: str) -> str | None:
        """Returns a process of a kind to which nothing happens now, and lets it be busy."""
        free = [it for it in self.world.processes if it.startswith(kind) and it not in self.busy]
        if not free:
            return None
        name = self.random.choice(free)
        self.busy.add(name)
        return name

    # Processes. ---------------------------------------------------------------------------------

    def kill(self, kind: str, down: float) -> None:
        if f"disk-{kind}" in self.busy:
            return  # who is killed before its disk takes lines again cannot say what its log lacks
        name = self.one_of(kind)
        if name is not None:
            self.world.processes[name].kill()
            self.happened[f"kills of a {kind.rstrip('-')}"] += 1
            self.after(self.random.uniform(0, down), partial(self.again, name))

    def again(self, name: str) -> None:
        """Lets a process that was killed or stopped go on."""
        process = self.world.processes[name]
        if process.is_stopped:
            process.go_on()
            self.busy.discard(name)
        else:
            self.world.start(name)
            self.look(name)

    def look(self, name: str) -> None:
        """Looks whether a process that was started listens: until then nothing happens to it."""
        if self.world.listens(name) or not self.world.processes[name].is_alive():
            self.busy.discard(name)
        else:
            self.after(LOOKED, partial(self.look, name))

    def kill_task(self) -> None:
        self.kill("task-", 3.0)

    def kill_plane(self) -> None:
        self.kill("plane-", 1.5)

    def kill_load(self) -> None:
        self.kill("load-", 0.5)

    def stop(self, kind: str, longest: float) -> None:
        name = self.one_of(kind)
        if name is not None:
            self.world.processes[name].stop()
            self.happened[f"stops of a {kind.rstrip('-')}"] += 1
            self.after(self.random.uniform(0.1, longest), partial(self.again, name))

    def stop_task(self) -> None:
        self.stop("task-", 2.5 * LEASE)

    def stop_plane(self) -> None:
        self.stop("plane-", 2.0 * LEASE)

    def give_wrong_secret(self) -> None:
        """Starts a plane again with a secret that no caller has."""
        if "disk-plane-" in self.busy:
            return
        name = self.one_of("plane-")
        if name is not None:
            self.world.processes[name].kill()
            self.world.start(name, "wrong-secret")
            self.happened["planes with a wrong secret"] += 1
            self.after(self.random.uniform(0.5, LEASE), partial(self.mend_secret, name))

    def mend_secret(self, name: str) -> None:
        self.world.processes[name].kill()
        self.again(name)

    # Stores. ------------------------------------------------------------------------------------

    def kill_engine(self) -> None:
        if self.engine is not None and self.is_free("engine"):
            self.engine.kill()
            self.happened["kills of the store's server"] += 1
            self.after(self.random.uniform(0, 1.5), partial(self.engine_again, self.engine.start))

    def freeze_engine(self) -> None:
        """Lets the server of the store stand still (SIGSTOP) for up to two leases."""
        if self.engine is not None and self.is_free("engine"):
            self.engine.stop()
            self.happened["freezes of the store's server"] += 1
            self.after(self.random.uniform(0.5, 2 * LEASE), partial(self.engine_again, self.engine.go_on))

    def engine_again(self, mend: Callable[[], None]) -> None:
        mend()
        self.busy.discard("engine")

    def lock_store(self) -> None:
        """Locks the file of the store for up to two leases."""
        if self.is_free("store"):
            locking = sqlite3.connect(self.world.folder / "jobs.sqlite", isolation_level=None, timeout=0.5)
            try:
                locking.execute("BEGIN EXCLUSIVE")
            except sqlite3.OperationalError:  # a process that was stopped has locked it
                self.unlock_store(locking)
                return
            self.happened["locks of the store's file"] += 1
            self.after(self.random.uniform(0.5, 2 * LEASE), partial(self.unlock_store, locking))

    def unlock_store(self, locking: sqlite3.Connection) -> None:
        locking.close()
        self.busy.discard("store")

    # Disks. -------------------------------------------------------------------------------------

    def fill_disk(self, kind: str) -> None:
        """Fills the disk with the logs of a kind of processes, for up to two leases."""
        if kind == "task-" and SECOND in self.busy:
            return
        if self.is_free(f"disk-{kind}"):
            self.world.disks[kind].fill()
            self.happened[f"full disks of {kind.rstrip('-')}s"] += 1
            self.after(self.random.uniform(LEASE, 2 * LEASE), partial(self.empty_disk, kind))

    def empty_disk(self, kind: str) -> None:
        self.world.disks[kind].empty()
        self.after(RESTED, partial(self.busy.discard, f"disk-{kind}"))

    # The network. -------------------------------------------------------------------------------

    def cut_task(self) -> None:
        """Cuts a task off from all control planes. Clients still reach it."""
        self.cut_caller(f"task-{self.random.choice(list(TASKS))}")

    def cut_load(self) -> None:
        """Cuts clients off from all control planes: they go on asking who owned their keys."""
        self.cut_caller(f"load-{self.random.choice(list(LOADS))}")

    def cut_caller(self, who: str) -> None:
        links = [f"{who}-to-plane-{plane}" for plane in self.world.planes]
        self.cut(f"cut-{who}", links, f"cuts of a {who[:4]}'s links", 2.5 * LEASE)

    def cut_plane(self) -> None:
        """Cuts a plane off from all callers. It still reaches its store."""
        plane = self.random.choice(list(self.world.planes))
        links = [f"{who}-to-plane-{plane}" for who in self.world.callers()]
        self.cut(f"cut-plane-{plane}", links, "planes cut off from callers", 2.0 * LEASE)

    def cut_store(self) -> None:
        """Cuts a plane off from the store. Its callers still reach it."""
        plane = self.random.choice(list(self.world.planes))
        self.cut(f"cut-store-{plane}", [f"plane-{plane}-to-store"], "planes cut off from the store", 2.0 * LEASE)

    def cut(self, name: str, links: list[str], what: str, longest: float) -> None:
        if self.is_free(name):
            self.world.weather.change(links, cut=True)
            self.happened[what] += 1
            self.after(self.random.uniform(0.5, longest), partial(self.mend, name, links))

    def mend(self, name: str, links: list[str]) -> None:
        self.world.weather.change(links, cut=False)
        self.busy.discard(name)

    def change_weather(self) -> None:
        """Changes how messages fare on some links."""
        names = [it for it in self.world.weather.links if self.random.random() < 0.5]
        bad = self.random.random() < 0.7
        self.world.weather.change(
            names,
            lose=self.random.uniform(0, 0.15) if bad else 0,
            repeat=self.random.uniform(0, 0.2) if bad else 0,
            delay=self.random.uniform(0, 0.8) if bad else 0,
        )
        self.happened["changes of the weather"] += 1
