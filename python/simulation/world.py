"""The world of a run: virtual time, hosts with clocks, and processes that stop, stall and die.

One heap of events in virtual nanoseconds drives everything. Each simulated process has an event loop
of its own, and all loops share the heap. So a process is stopped by keeping its events back, and
killed by forgetting them: no `finally` of it runs.
"""

import asyncio
from asyncio import events
from collections.abc import Callable
from heapq import heappop, heappush
from random import Random
from typing import TYPE_CHECKING, Any, NamedTuple
from zlib import crc32

if TYPE_CHECKING:
    from .disks import Disk
    from .loop import Loop
    from .network import Network

SECOND = 1_000_000_000
MILLISECOND = 1_000_000
MILLION = 1_000_000
STEP = 1_000  # ns that a callback takes, so that time passes even in a loop that waits for nothing
DEEPEST = 2  # processes that may stall inside their code at once
FIRST_DAY = 20_000 * 86_400 * SECOND  # the real time of the world when it begins
Action = Callable[[], object]


class Timed:
    """An event of the world that may be cancelled: then it does not happen at all."""

    __slots__ = ("is_cancelled",)
    is_cancelled: bool

    def __call__(self) -> object:
        raise NotImplementedError


class Host:
    """A machine: its address, its clocks, its disk, and whether it runs."""

    def __init__(self, world: "World", address: str, ppm: int, wall: int, disk: "Disk") -> None:
        self.world, self.address, self.ppm, self.disk = world, address, ppm, disk
        self.own_rate, self.wrong_rates = ppm, 0  # how many faults let it run at another one
        self.wall = wall  # ns by which its real time is ahead of the world's
        self.is_down = self.is_asleep = False
        self.boots = 0
        self.slept = 0  # ns of this boot in which CLOCK_MONOTONIC stood still
        self._begun = self._epoch = 0
        self.boot(world.rng.randrange(1 << 32) * MILLISECOND)

    def boot(self, epoch: int) -> None:
        """Begins a boot, whose CLOCK_BOOTTIME is `epoch` now."""
        self.is_down, self.boots, self.slept = False, self.boots + 1, 0
        self._begun, self._epoch = self.world.now, epoch

    def boottime(self) -> int:
        """Returns CLOCK_BOOTTIME in ns."""
        passed = self.world.now - self._begun
        return self._epoch + passed + passed * self.ppm // MILLION

    def monotonic(self) -> int:
        """Returns CLOCK_MONOTONIC in ns."""
        passed = self.world.now - self._begun
        return self._epoch + passed + passed * self.ppm // MILLION - self.slept

    def real_time(self) -> int:
        """Returns CLOCK_REALTIME in ns."""
        return FIRST_DAY + self.world.second + self.wall + self.world.now

    def set_rate(self, ppm: int) -> None:
        """Runs the clocks at another rate from now on."""
        self._epoch, self._begun, self.ppm = self.boottime(), self.world.now, ppm

    def jump(self, nanoseconds: int) -> None:
        """Lets CLOCK_BOOTTIME and CLOCK_MONOTONIC jump ahead, as no clock of Linux does."""
        self._epoch += nanoseconds

    def until(self, monotonic: int) -> int:
        """Returns the world's time at which CLOCK_MONOTONIC reaches a value in ns."""
        return self.world.now + self.lasts(monotonic - self.monotonic())

    def lasts(self, nanoseconds: int) -> int:
        """Returns how long the world takes for so many ns of CLOCK_MONOTONIC, and a little more."""
        return max(0, nanoseconds * MILLION // (MILLION + self.ppm) + 1)

    def boot_id(self) -> bytes:
        return f"{self.address}-{self.boots}".encode()


class Process:
    """One run of a program on a host, from its start to its end."""

    def __init__(self, world: "World", name: str, host: Host) -> None:
        from . import loop

        self.world, self.name, self.host = world, name, host
        self.number, self.begun = world.next_number(), world.now
        self.rng = Random(f"{world.seed} {name} {self.number}")  # of its own code
        self.is_dead = self.is_stalled = False
        self.is_to_end = False  # it is started wrongly, and ends rightly
        self.stops = 0  # how many reasons there are for which it stands still
        self.backlog: list[Any] = []
        self.main: "asyncio.Task[None] | None" = None
        self.on_signal: Action | None = None
        self.at_kill: list[Action] = []  # what its kernel does when it is killed
        self.loop: "Loop" = loop.Loop(self)  # type: ignore[abstract]

    def stop(self) -> None:
        self.stops += 1

    def go_on(self) -> None:
        self.stops -= 1
        if not self.stops and not self.is_dead:
            waiting, self.backlog = self.backlog, []
            for action in waiting:
                self.world.at(self.world.now, action, self)

    def kill(self, silent: bool = False) -> None:
        """Ends the process at once: none of its code runs again. If not `silent`, as at the crash of
        its machine, its peers are told by the kernel."""
        self.loop.note_dead_tasks()
        self.is_dead = True
        self.backlog.clear()
        self.world.grave.append((self.loop, list(self.loop.tasks)))
        self.world.network.forget(self, silent)
        for action in self.at_kill:
            action()
        self.host.disk.release(self)


class Death(NamedTuple):
    """A task of asyncio that ended by an exception which nobody took."""

    at: int
    process: str
    task: str
    error: str

    def __str__(self) -> str:
        return f"{self.at / SECOND:.6f} {self.process}: {self.task}: {self.error}"


class World:
    """What happens, in the order of virtual time."""

    network: "Network"

    def __init__(self, seed: int, tell: Callable[[int, str], None] | None = None) -> None:
        self.seed, self.rng = seed, Random(f"{seed} world")
        self.now, self.events, self.digest = 0, 0, seed
        self.second = 0  # ns after midnight at which it begins
        self.beat = 1.0  # seconds between two beats of a call that waits
        self.current: Process | None = None
        self.grave: list[object] = []  # what dead processes had, so that nothing of it is collected
        self.died: list[Death] = []
        self.call_delay: Callable[[Process], tuple[int, int]] = lambda _: (0, 0)  # of executors
        self.call_through: Callable[[Action], object] = lambda call: call()  # of real executors
        self.stall_every = 0.0  # the part of clock readings and writes at which a process stalls
        self.stall_most = 0
        self.stall_rng = Random(f"{seed} stalls")
        self._heap: list[tuple[int, int, Process | None, Any]] = []
        self._orders = self._numbers = self._depth = 0
        self.is_quiet = False
        self._tell = tell

    def next_number(self) -> int:
        self._numbers += 1
        return self._numbers

    def at(self, when: int, action: Any, process: Process | None = None) -> None:
        """Does an action at a time, as code of a process if one is given."""
        self._orders += 1
        heappush(self._heap, (when, self._orders, process, action))

    def after(self, seconds: float, action: Action) -> None:
        self.at(self.now + int(seconds * SECOND), action)

    def run_until(self, end: int) -> None:
        heap, enter = self._heap, self.enter
        while heap and heap[0][0] <= end:
            when, _, process, action = heappop(heap)
            if isinstance(action, Timed) and action.is_cancelled:
                continue
            now = self.now
            self.now = (when if when > now else now) + STEP
            enter(process, action)
        self.now = max(self.now, end)

    def has_due(self) -> bool:
        """Whether something else is to happen by now."""
        return bool(self._heap) and self._heap[0][0] <= self.now

    def enter(self, process: Process | None, action: Any) -> None:
        """Does an action as code of a process: later if it stands still, never if it is dead."""
        if process is None:
            if self.current is not None:
                self.be(None)
        elif process.is_dead:
            return
        elif process.stops:
            process.backlog.append(action)
            return
        else:
            self.events += 1
            self.digest = hash((self.digest, self.now, process.number))
            if process is not self.current:
                self.be(process)
        action()

    def be(self, process: Process | None) -> None:
        """Runs what follows as code of a process, or of the world."""
        self.current = process
        events._set_running_loop(process.loop if process else None)

    def inside(self, process: Process) -> "Inside":
        """Runs code as that of a process, now, even if it stands still. All of it is at one moment."""
        return Inside(self, process)

    def may_stall(self) -> None:
        """A place at which the kernel may take the processor away from the running process."""
        process = self.current
        if self.stall_every and process is not None and not (process.stops or self.is_quiet):
            if self._depth < DEEPEST and self.stall_rng.random() < self.stall_every:
                self._stall(process)

    def _stall(self, process: Process) -> None:
        """Lets a process stand still in the middle of its code, while all others go on."""
        self._depth += 1
        process.stop()
        process.is_stalled = True
        self.run_until(self.now + self.stall_rng.randrange(self.stall_most))
        process.is_stalled = False
        process.go_on()
        self._depth -= 1
        self.be(process)

    def tell(self, text: str) -> None:
        """Notes something in the trace."""
        self.digest ^= crc32(f"{self.now} {text}".encode())
        if self._tell is not None:
            self._tell(self.now, text)

    def note_death(self, process: Process, name: str, error: BaseException) -> None:
        death = Death(self.now, process.name, name, f"{type(error).__name__}: {error}")
        if not process.is_to_end:
            self.died.append(death)
        self.tell(f"{process.name}: {name} ended by {death.error}")


class Inside:
    """A block of code that runs as that of a process."""

    def __init__(self, world: World, process: Process) -> None:
        self._world, self._process = world, process
        self._before, self._quiet = world.current, world.is_quiet

    def __enter__(self) -> None:
        self._world.is_quiet = True
        self._world.be(self._process)

    def __exit__(self, *_: object) -> None:
        self._world.is_quiet = self._quiet
        self._world.be(self._before)
