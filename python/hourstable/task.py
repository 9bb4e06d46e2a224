"""A task: a server process that owns keys, and answers for them only while it may.

    async with Task("http://control:7000", "shop", 3, logs="/var/log/shop") as task:
        ...
        async with task.serving(key) as lease:
            answer = work(key)      # asked at entry, and again at the end of the block
        return answer

All runs in one event loop. Calls of the library take microseconds, and nothing is held while a
message is on its way.
"""

import asyncio
import logging
import os
import ssl
import time
import weakref
from collections import Counter as Counts
from collections import deque
from collections.abc import Callable, Mapping, Sequence
from functools import partial
from pathlib import Path
from types import TracebackType
from typing import Any, NamedTuple, NoReturn

from . import replies
from .caller_metrics import Metrics
from .calls import TIMEOUT, UNREADABLE, Control, Keyed, Rejected, Troubles, Unreachable
from .clock import local_clock as local_clock_of
from .context import about
from .kept_log import KeptLog
from .leases import KINDS, AllEnded, ClockBehind, Entered, Leases, NoToken, policy_of
from .library import Phase, Policy, Refused, TaskClock, ended_note, slice_key
from .logs import TASKS, LogFiles, NoLog, folder_of, job_line
from .moves import Moves, OnGain, OnLose
from .own_lives import EVICTED, OVERTAKEN, WAITING, Life, OwnLives
from .phases import Phases
from .ranges import KEYS, Ranges, holds, minus
from .state import state_folder, tickets_in
from .supervisor import Supervisor
from .system import SYSTEM, System
from .tickets import CALLERS, Tickets, follow, number_of_caller
from .transport import Transport
from .waiting import Backoff, pause, within

__all__ = [
    "ClockBehind", "ClockBroken", "Denied", "Drift", "Hold", "Lease", "LeaseLost", "Metrics", "NoToken", "OnGain",
    "OnLose", "Overtaken", "Rejected", "Renewed", "Task",
]

GRAIN = 2
REPLACED_AT = 1024  # calls left of a slicelet below which it is replaced, once a renewal was answered
LAST_CALLS = 64  # and those below which it gives its leases up for that
JUST = 1000  # ticks in which a plane must have answered before a slicelet is replaced
LOAD_BITS = 10  # loads are reported for 1,024 parts of the slice keys
LOAD_SHIFT = 63 - LOAD_BITS
JITTER = 0.1  # of half a lease, by which a renewal comes earlier or later
LEAST_WAIT = 0.1  # seconds between two questions of a life that waits
DRAINED = 0.05  # seconds between two looks whether a task that is drained has keys

logger = logging.getLogger("hourstable.task")


class Drift(NamedTuple):
    """While a task's local clock gains `per` ticks, the table's gains at most `per` + `extra`."""

    extra: int = 1001
    per: int = 1_000_000


class Denied(Exception):
    """The task may not serve the key now. The ground is the word of the written rule, `moving`
    while the task gives the key up, or `clock-behind`."""

    def __init__(self, key: str, words: str) -> None:
        super().__init__(f"{key}: denied {words}")
        self.key, self.ground = key, words.split(" ")[0]


class LeaseLost(Exception):
    """The task lost the key between the question and the answer, so there is no answer."""


class Overtaken(Exception):
    """Another process of the task is let in, or an operator let this one in no more. It has ended: its supervisor may
    start it again, and then it waits."""


class ClockBroken(Exception):
    """A clock breaks the drift that it was given. The task gave up its leases, and has ended."""


class Renewed(NamedTuple):
    """How many leases a task heard since its start, and when it heard the last one, by the seconds
    of its system that never fall; None if it heard none."""

    times: int
    last: float | None


class Dropped(NamedTuple):
    """A life that has ended with leases: its key, and until when by the table's clock a lease lasts that it heard."""

    life: int
    key: str
    until: int

    def lasts(self, at: int | None) -> bool:
        """Whether it may have a lease at a reading, so that up to then no plane let another process in."""
        return bool(self.key) and at is not None and at < self.until


class Handle:
    """What a task took on a key."""

    __slots__ = ("_entered", "_is_logged", "_leases", "_task", "generation", "key", "slice_key")

    def __init__(self, task: "Task", key: str, leases: Leases, entered: Entered, is_logged: bool = True) -> None:
        self.key, self._task, self._leases = key, task, leases
        self._entered, self._is_logged = entered, is_logged
        self.slice_key, self.generation = entered[0], entered[2]

    @property
    def token(self) -> bytes:
        """The fencing token that the task had at the entry, which it sends to a store with each write of the key: 16
        bytes, whose order is that of the tokens. The store keeps the greatest token of the key, and refuses a write
        with a lower one. Raises NoToken."""
        return self._task._token(self._leases, self._entered)

    @property
    def ticket(self) -> int | None:
        """The ticket of the entry in the log, None if the task does not log the block."""
        return self._entered[4] or None

    def wrote(self, reply: str, revision: int | None = None) -> None:
        """Logs a write of the key with this token, once the store has answered, so that an audit judges it. `reply`
        is what the store said: "taken", "refused", or "unknown" if no answer came. `revision` is the number that the
        store gave a write that it took, if it gives any: of two writes of a key the later one has the greater one.
        Nothing is written of a block that the task does not log, or once the task has ended. Raises NoToken, and
        ValueError if the store cannot say so."""
        self._task._wrote(self._leases, self._entered, reply, revision)

    def _is_held(self) -> bool:
        """Whether the task has held the key since the entry. A handle is of a life: another one has not given it."""
        return self._task._leases is self._leases and self._leases.check(self._entered, self._is_logged)


class Lease(Handle):
    """The right to a key, from the entry of a block of `Task.serving` on, under a lease of a generation."""

    __slots__ = ()

    def check(self) -> None:
        """Raises LeaseLost unless the task has held the key since the entry, and still does. Call
        it before each write that others see."""
        if not self._is_held():
            raise LeaseLost(self.key)


class Hold(Handle):
    """A handle on a key, for work that takes a while."""

    __slots__ = ()

    def continuous(self) -> bool:
        """Whether the task has held the key without a break since it took the handle, and may
        serve it now. The call is logged as a `check`, if the task logs the block of the handle."""
        return self._is_held()


class Serving:
    """A block of `Task.serving`."""

    __slots__ = ("_key", "_lease", "_task")

    def __init__(self, task: "Task", key: str) -> None:
        self._task, self._key = task, key

    async def __aenter__(self) -> Lease:
        task = self._task
        if task._replacing is not None:
            await task._replacing.wait()
        self._lease = lease = task._enter(self._key)
        task._moves.enter(lease)
        return lease

    async def __aexit__(
        self, kind: type[BaseException] | None, why: BaseException | None, trace: TracebackType | None
    ) -> None:
        task, lease = self._task, self._lease
        try:
            if kind is None:
                lease.check()
            elif issubclass(kind, LeaseLost):
                task.metrics.lost += 1
        except LeaseLost:
            task.metrics.lost += 1
            raise
        finally:
            task._moves.leave(lease)


class Task:
    """A task of a job. It runs from `start`, or from the entry of an `async with`, to `stop`.

    `control` is the URL of a control plane, or of several. `logs` is the folder of logs, which has
    one for each job; with None the task keeps none. `state` is the folder of its lock, its keys and its tickets, with
    one for each job: by default $STATE_DIRECTORY, or the one beside `logs` with the ending `.state`. While a process
    runs, no other one of its task starts with this folder; one that is started again is let in at once. With neither
    folder it keeps no tickets, and waits until the leases of the process before have ended.
    `sample` is the part of blocks that are logged, each with all of its calls or with none; other
    calls are always logged. `keep_logs` is for how many days its files are kept. `policy` creates the job if it is
    not there, and is compared if it is. `process` is the number of the process for its tickets, 64 to 255, by default
    63 and that of the task. `oldest` is for how many ticks the task goes on without an
    answer of the table, by default a guard term, in which its leases end. `timeout` is for how many seconds
    it waits for an answer, at most a fifth of a guard lease.

    `on_gain(ranges)` is told of slice keys that the task may serve from now on, and
    `on_lose(ranges, deadline)` of those that it gives up: it is awaited, for at most `patience`
    seconds, before the lease is released. Then blocks of `serving` that are open on these keys
    have as long to end, and new ones are denied as `moving`. `deadline` is the reading of the
    task's clock at which the lease ends anyway. What a callback raises is logged and counted, and
    changes nothing else.

    Raises ValueError if a number or the name of the job is outside its limits, and BlockingIOError if another process
    has its lock, or draws its tickets.

    `transport` brings its requests to planes in place of HTTP by `tls`. `system` has its clocks but
    for `local_clock`, its chance and its files.
    """

    def __init__(
        self,
        control: str | Sequence[str],
        job: str,
        task: int,
        *,
        logs: str | os.PathLike[str] | None,
        state: str | os.PathLike[str] | None = None,
        sample: float = 1.0,
        keep_logs: int | None = None,
        policy: Mapping[str, Any] | None = None,
        on_gain: OnGain | None = None,
        on_lose: OnLose | None = None,
        process: int | None = None,
        tickets: Tickets | None = None,
        local_clock: Callable[[], int] | None = None,
        drift: Drift = Drift(),
        oldest: int | None = None,
        secret: str | None = None,
        tls: ssl.SSLContext | None = None,
        timeout: float = TIMEOUT,
        patience: float = 1.0,
        report: float = 5.0,
        transport: Transport | None = None,
        system: System = SYSTEM,
    ) -> None:
        if not 1 <= task <= TASKS:
            raise ValueError(f"task {task} is not 1 to {TASKS}")
        self.job, self.task = job, task
        self.metrics = Metrics(job, task)
        self.clock_behind_total = 0  # how often its clock stopped the task
        self.renewed = Renewed(0, None)
        self._system, self._random = system, system.random()
        self._folder = None if logs is None else folder_of(logs, job)
        self._sample, self._keep_logs = sample, keep_logs
        self._lives = OwnLives(self._state_of(state, logs), task, system)
        try:
            self._tickets = tickets or self._tickets_of(process, state, logs)
        except BaseException:
            self._lives.close()
            raise
        self._local_clock = local_clock or local_clock_of(system=system)
        name = f"task {task}"
        self._supervisor = Supervisor(
            name, logger, self.metrics.internal_error, self._random.random, most=TIMEOUT
        )
        self._control = Control(
            control, job, self._tickets, self._local_clock, secret=secret, tls=tls, timeout=timeout,
            transport=transport, system=system,
            troubles=Troubles(name, logger, self.metrics.wrong_answer, system.monotonic),
        )
        self._given_policy = policy
        self._moves = Moves(self._supervisor, on_gain, on_lose)
        self._drift, self._oldest = drift, oldest
        self._patience, self._report_every = patience, report
        self._policy: Policy | None = None
        self._most = TIMEOUT  # seconds of a call, and between two that fail while a lease is held
        self._longest = 5 * TIMEOUT  # seconds between two calls that fail
        self._log: KeptLog | NoLog | None = None
        self._leases: Leases | None = None
        self._next: Life | None = None  # a life that was drawn, and is not let in
        self._replacing: asyncio.Event | None = None  # while a slicelet is replaced: when that is done
        self._dropped: list[Dropped] = []  # lives whose leases are to be freed
        self._freeing: list[asyncio.Task[None]] = []  # what frees those that were dropped last
        self._late: deque[tuple[int, replies.Granted]] = deque()  # lives, and answers that came after the first one
        self._phases = Phases(self._control)
        self._renew_at = 0
        self._served: Ranges = []
        self._is_behind = False
        self._loads: Counts[int] = Counts()
        self._loops: list[asyncio.Task[None]] = []
        self._answered = 0  # when a plane answered a call for a lease last, in ns of real time
        self._is_cut_off = self._is_draining = self._is_waiting = self._is_forked = False
        self._over = asyncio.Event()
        self._broken: ClockBroken | Overtaken | None = None
        _running.add(self)

    def _forked(self) -> None:
        """In a child that was forked: it serves nothing, and the locks are those of its parent."""
        self._leases, self._is_forked = None, True
        self._lives.leave_to_parent()
        self._tickets.leave_to_parent()

    def _state_of(self, given: str | os.PathLike[str] | None, logs: str | os.PathLike[str] | None) -> Path | None:
        if given is None and logs is None:
            return None
        return state_folder(given, logs if logs is not None else "logs") / self.job

    def _tickets_of(
        self, process: int | None, state: str | os.PathLike[str] | None, logs: str | os.PathLike[str] | None
    ) -> Tickets:
        number = number_of_caller(CALLERS.start + self.task - 1 if process is None else process)
        path = tickets_in(state, logs, self.job, f"task-{self.task}.ticket")
        return Tickets(number, path, now=follow, system=self._system)

    # Life of the process. -----------------------------------------------------------------------

    async def start(self) -> None:
        """Begins to follow the table. Returns when the job is known, not when keys are served.

        Raises ValueError if the policy is none or the log of today is of another one, and Rejected if the job has
        another policy, or is not there and no policy is given.
        """
        members = await self._learn_policy()
        self._policy = policy_of(members)
        # A lease that is renewed at half of it leaves time for two calls that are lost.
        self._most = min(TIMEOUT, self._policy.guard / 5000)
        self._longest = max(self._most, self._policy.guard / 1000)
        self._control.limit(self._most)
        self._log = self._log_of(job_line(members))
        loops = {"phase": self._watch, "lease": self._act, "report": self._report}
        with about(job=self.job, task=self.task):
            self._loops = [self._supervisor.watch(where, loop) for where, loop in loops.items()]

    @property
    def state(self) -> str:
        """What the task does, in words: `starting` until its first lease, `waiting` while another process of the task
        may have leases, `serving`, `moving` while it gives keys up, `cut off since` a real time if no plane has
        answered a call for a lease since then, `draining` while it is drained or stopped, and `stopped`."""
        if self._over.is_set() or self._is_forked:
            return "stopped"
        if self._is_draining:
            return "draining"
        if self._is_waiting:
            return "waiting"
        if not self.renewed.times:
            return "starting"
        if self._is_cut_off:
            seconds = self._answered // 1_000_000_000
            return time.strftime("cut off since %Y-%m-%dT%H:%M:%SZ", time.gmtime(seconds))
        return "moving" if self._moves.moving else "serving"

    def is_ready(self) -> bool:
        """Whether requests may be sent to the task, for a readiness probe: from its first lease on, also while it is
        cut off, so that planes that are gone empty no load balancer; not while it is drained or has ended."""
        return self.renewed.times > 0 and self.state not in ("draining", "waiting", "stopped")

    def _log_of(self, job: str) -> KeptLog | NoLog:
        if self._folder is None:
            return NoLog()
        name, system = f"task-{self.task}", self._system
        files = LogFiles(self._folder, name, job, self._keep_logs, system)
        return KeptLog(files, f"task {self.task}", logger, self.metrics.log_missing.inc, system.monotonic)

    async def wait(self) -> None:
        """Waits until the task has ended: by `stop`, or by what cannot mend itself, which it raises: ClockBroken or
        Overtaken."""
        await self._over.wait()
        if self._broken is not None:
            raise self._broken

    async def stop(self) -> None:
        """Gives up all leases, frees them at the table and ends."""
        self._is_draining = True
        for loop in self._loops:
            loop.cancel()
        await asyncio.gather(*self._loops, return_exceptions=True)
        try:
            if self._leases is not None:
                await within(2 * self._patience + TIMEOUT, self._end_all())
        except (Unreachable, TimeoutError, Refused, ClockBehind, Overtaken) as why:
            logger.warning("task %d ends with leases that were not freed: %s", self.task, why)
        except Exception as why:
            self._supervisor.caught("stop", why)
        self._close_life()  # what it serves by ends before another process may have the lock
        self._lives.close()
        await self._supervisor.close()
        await self._control.close()
        if self._log is not None:
            self._log.close()
        self._tickets.close()
        self._over.set()

    async def drain(self, seconds: float = 60.0) -> None:
        """Lets the assigner give the keys of this task to others, and returns when it has none: then `stop` denies
        nobody. Another life of the task takes keys again. Raises TimeoutError if it has keys after these seconds."""
        backoff = Backoff(self._random.random, most=self._most)
        async with asyncio.timeout(seconds):
            while True:
                try:
                    await self._control.read(replies.done, "POST", "/drain", {"task": self.task})
                    break
                except Unreachable as why:
                    await asyncio.sleep(self._wait_after(why, backoff))
            self._is_draining = True
            while self._leases is not None and any(lease.ranges for lease in self._leases.held.values()):
                await asyncio.sleep(DRAINED)

    async def __aenter__(self) -> "Task":
        try:
            await self.start()
        except BaseException:
            await self.stop()
            raise
        return self

    async def __aexit__(self, *_: object) -> None:
        await self.stop()

    async def _learn_policy(self) -> Mapping[str, Any]:
        if self._given_policy is not None:
            replies.check_policy(self.job, self._given_policy)
        backoff = Backoff(self._random.random)
        while True:
            try:
                return await self._policy_told()
            except Unreachable as why:
                if why.status == 404 and self._given_policy is None and "there is no job" in str(why):
                    raise Rejected(404, f"there is no job {self.job}: PUT it, or give the task a policy") from why
                await asyncio.sleep(self._wait_after(why, backoff))

    async def _policy_told(self) -> Mapping[str, Any]:
        if self._given_policy is None:
            return await self._control.read(partial(replies.policy_in, self.job), "GET")
        if not await self._control.read(replies.is_created, "PUT", body=dict(self._given_policy)):
            raise Rejected(409, f"job {self.job} has another policy")
        return self._given_policy

    # What is asked for a key. -------------------------------------------------------------------

    def serving(self, key: str) -> Serving:
        """The right to a key, from the question at the entry of an `async with` to the end of its block, which is a
        Lease.

        Raises Denied at the entry, and LeaseLost at the end if the task did not hold the key all
        the time: then the block has no answer. A block that raises is not asked again.
        """
        return Serving(self, key)

    def ask(self, key: str) -> Lease:
        """Asks for a key as the entry of a block of `serving` does, and returns the right to it.
        Nobody waits for its end before the key moves. Raises Denied."""
        return self._enter(key)

    def hold(self, key: str) -> Hold:
        """Takes a handle on a key, for work that takes a while. Raises Denied."""
        leases = self._leases
        if leases is None:
            raise self._denied(key, "down")
        return Hold(self, key, leases, self._asked(leases, key, key.encode(), True))

    def _token(self, leases: Leases, entered: Entered) -> bytes:
        assert self._policy is not None
        if self._policy.high > 1:
            raise NoToken("many-owners")
        return leases.token(entered)

    def _wrote(self, leases: Leases, entered: Entered, reply: str, revision: int | None) -> None:
        token = self._token(leases, entered)
        if not (self._over.is_set() or self._is_forked):
            leases.wrote(entered, token, reply, revision)

    def reading(self) -> int:
        """Returns the reading of the task's clock. Raises ClockBehind."""
        if self._leases is None:
            raise ClockBehind("no life has begun")
        return self._leases.read()

    def served(self) -> Ranges:
        """Returns the slice keys that the task may serve, as far as it last noticed."""
        return minus(self._served, self._moves.moving)

    def _enter(self, key: str) -> Lease:
        self.metrics.requests += 1
        leases, data = self._leases, key.encode()
        if self._moves.moving and holds(self._moves.moving, slice_key(data)):
            raise self._denied(key, "moving")
        if leases is None:
            raise self._denied(key, "down")
        is_logged = self._sample >= 1 or self._random.random() < self._sample
        entered = self._asked(leases, key, data, is_logged)
        self._loads[entered[0] >> LOAD_SHIFT] += 1
        return Lease(self, key, leases, entered, is_logged)

    def _asked(self, leases: Leases, key: str, data: bytes, is_logged: bool) -> Entered:
        try:
            return leases.enter(data, is_logged)
        except Refused as refused:
            raise self._denied(key, str(refused)) from refused
        except ClockBehind as behind:
            raise self._denied(key, "clock-behind") from behind

    def _denied(self, key: str, words: str) -> Denied:
        denied = Denied(key, words)
        self.metrics.denied(denied.ground)
        return denied

    # The phase of the table. --------------------------------------------------------------------

    async def _watch(self) -> None:
        """Follows the phase of the table."""
        backoff = Backoff(self._random.random, most=self._most)
        while True:
            try:
                await self._phases.look()
                backoff.reset()
            except Unreachable as why:
                await asyncio.sleep(self._wait_after(why, backoff))

    # Leases. ------------------------------------------------------------------------------------

    async def _act(self) -> None:
        """Does what the slicelet says, one thing after the other. After an error that nobody expected it begins with
        another life: what the slicelet then knows is not sure."""
        self._drop_life()
        backoff = Backoff(self._random.random, most=self._most)
        while True:
            must = 0.0  # seconds that pass whatever happens
            try:
                seconds = await self._step()
                backoff.reset()
            except Unreachable as why:
                self._is_cut_off, must = True, why.least
                seconds = self._wait_after(why, backoff)
            except ClockBehind as behind:
                self._note_behind(str(behind))
                seconds = backoff.seconds()
            except (ClockBroken, Overtaken) as broken:
                self._broken = broken
                await self._give_all()
                self._close_life()
                self._over.set()
                return
            self._notice()
            if must > 0:
                await asyncio.sleep(seconds)
            elif seconds > 0:
                await self._pause(seconds)

    def _wait_after(self, why: Unreachable, backoff: Backoff) -> float:
        """Notes a call that no plane did, and returns for how many seconds to wait before it is made again: for at
        most a guard term, or a twentieth of it while a lease is held, and for no less than planes at a limit need."""
        self._note_unreachable(why)
        most = self._most / 4 if self._served else self._longest
        seconds = min(backoff.seconds(why.again), most)
        return max(seconds, why.least * (1 + JITTER * self._random.random()))

    async def _pause(self, seconds: float) -> None:
        """Waits, but not longer than until the phase is another one."""
        await pause(seconds, self._phases.changed)
        self._phases.changed.clear()

    async def _step(self) -> float:
        """Does one thing, and returns for how many seconds nothing is to be done."""
        assert self._log is not None
        if self._log.is_stopped and self._log.is_ready():
            await self._leave_life()
            self._log.go_on()
        self._hear_late()
        if self._leases is not None and self._leases.calls_left() < LAST_CALLS:
            await self._end_life()
        if self._leases is None:
            return await self._come_in()
        leases, phase = self._leases, self._phases.known
        if not leases.is_sampled():
            return await self._ask(leases)
        try:
            at = leases.read()
        except ClockBehind as why:
            self._note_behind(str(why))
            return await self._ask(leases)
        self._is_behind = False
        if phase is None:
            return await self._rest(leases, at, "guard")
        if self._is_spent(leases, phase):
            return await self._replace(leases)
        action = leases.next(phase, at)
        if action == "start":
            leases.start()
            return 0.0
        if action.startswith("ask "):
            return await self._ask(leases)
        if action.startswith("give up "):
            await self._give_up(leases, action.removeprefix("give up "))
            return 0.0
        return await self._rest(leases, at, "bridge" if phase.proposed else "guard")

    async def _come_in(self) -> float:
        """Asks to be let in with a life that has not begun, and begins it then, so that a process that waits for
        another one logs nothing, and no lease is asked for before the start of its life."""
        if self._next is None:
            self._next = await self._control.read(replies.life_in, "POST", f"/tasks/{self.task}/life")
            self._lives.draw(self._next)
            self._is_draining = False  # the life before may have been drained
        life = self._next
        told = await self._let_in(life.life)
        if told.refused:
            return self._refused(life.life, told)
        if self._local_clock() - told.answer.sent >= self._policy_known().guard // 2:
            return 0.0  # it was stopped, and another life may be let in since
        ended = self._ended_before(life, told.answer.reading)
        leases = self._leases = self._begin(life, ended, told.epoch)
        self._lives.heard(life.life)
        self._free_dropped(leases)
        return self._hear(leases, told)

    def _ended_before(self, life: Life, at: int | None) -> int:
        """Returns the life that has ended before one that was let in at a reading. It is the one that was given out
        before, whoever drew it, or lost the answer; but the one that was dropped if a lease of it lasted: then none
        was let in since."""
        return max((it.life for it in self._dropped if it.lasts(at)), default=life.last)

    async def _let_in(self, life: int) -> replies.Granted:
        """Returns the answer to a life that asks to be let in."""
        body = {"task": self.task, "life": life, "let_in": True, **self._lives.asking(life)}
        return await self._control.first(
            partial(replies.let_in, self.job, life), lambda _: None, "POST", "/grant", body
        )

    def _policy_known(self) -> Policy:
        assert self._policy is not None
        return self._policy

    def _begin(self, life: Life, ended: int, epoch: int) -> Leases:
        """Begins a life that is let in after one that has ended, with a clock of its own."""
        assert self._policy is not None and self._log is not None
        self._next, self._is_waiting = None, False
        oldest = self._policy.guard if self._oldest is None else self._oldest
        clock = TaskClock(self._drift.extra, self._drift.per, GRAIN, oldest)
        self.metrics.lives.inc()
        given = (clock, self._local_clock, self._tickets, self._log)
        return Leases(self.job, self.task, life.life, ended, *given, epoch)

    def _is_spent(self, leases: Leases, phase: Phase) -> bool:
        """Whether the slicelet is replaced now: few of its calls are left, a plane has just answered, and no key
        moves. The key of its life shows that the next one is of the same process."""
        is_still = not (phase.proposed or self._is_draining) and list(leases.held) == ["guard"]
        if leases.calls_left() >= REPLACED_AT or not is_still or not self._lives.key_of(leases.life):
            return False
        return self._system.monotonic() - (self.renewed.last or 0.0) < JUST / 1000

    async def _replace(self, old: Leases) -> float:
        """Begins another life in place of one whose slicelet accepts few more calls, and denies no key for it: new
        blocks wait until those that are open have ended, and then for one answer."""
        life = await self._control.read(replies.life_in, "POST", f"/tasks/{self.task}/life")
        self._lives.draw(life)
        told = await self._let_in(life.life)
        self._replacing = asyncio.Event()
        try:
            await self._moves.wait_for(old.held["guard"].ranges, self._patience)
            if self._local_clock() - told.answer.sent >= min(JUST, self._policy_known().guard // 2):
                told = await self._let_in(life.life)  # else it would start a life that nobody may answer
            if told.refused:
                return LEAST_WAIT
            leases = self._started_after(old, life, told.epoch)
            return self._hear(leases, told if told.lease else await self._answer_to(leases.life))
        finally:
            self._replacing.set()
            self._replacing = None

    def _started_after(self, old: Leases, life: Life, epoch: int) -> Leases:
        """Begins and starts a life in place of another one, whose slicelet is not asked again. Its clock goes on. No
        life in between was let in, so none was started: the notes of the old one are those of the last."""
        assert self._log is not None
        given = old.clock, self._local_clock, self._tickets, self._log
        leases = Leases(self.job, self.task, life.life, old.life, *given, epoch)
        self.metrics.lives.inc()
        self._leases = leases
        self._dropped.append(self._as_dropped(old))
        old.close()
        leases.start()
        return leases

    async def _end_life(self) -> None:
        """Gives up all leases of the life, and ends it. A bridge lease that a task must keep for its tokens is freed
        once the next life has begun."""
        leases = self._leases
        assert leases is not None
        for kind in reversed(KINDS) if leases.may_give_up("bridge") else ("guard",):
            if kind in leases.held:
                await self._give_up(leases, kind, is_last=True)
            if self._leases is not leases:
                return
        if leases.held:
            await self._leave_life()
            return
        self._notice()
        self._leases = None
        leases.close()

    async def _end_all(self) -> None:
        """Ends the life, and frees what it kept by the notes of a life that has ended: the next one begins, and asks
        for no lease."""
        await self._end_life()
        if self._dropped:
            await self._come_in()
            self._is_draining = True
            await asyncio.gather(*self._freeing)

    async def _give_all(self) -> None:
        """Gives back the leases that the task still has, if planes answer, before it ends."""
        try:
            if self._leases is not None and self._leases.held:
                await within(2 * self._patience + TIMEOUT, self._end_life())
        except (Unreachable, TimeoutError, Refused, ClockBehind) as why:
            logger.warning("task %d ends with leases that were not freed: %s", self.task, why)

    async def _leave_life(self) -> None:
        """Ends the life after its blocks, without a line of the log, which has not its other lines."""
        leases = self._leases
        if leases is not None:
            for kind in KINDS:
                if kind in leases.held:
                    self._moves.moving = leases.held[kind].ranges
                    await self._leave(leases, self._moves.moving, leases.held[kind].until)
            self._drop_life()

    def _drop_life(self) -> None:
        """Ends the life at once. What it may hold, also a lease that `held` lacks, is freed once the next one has
        begun, as the notes of a life that has ended."""
        if self._leases is not None:
            self._dropped.append(self._as_dropped(self._leases))
        self._close_life()

    def _as_dropped(self, leases: Leases) -> Dropped:
        until = max((lease.until for lease in leases.held.values()), default=0)
        return Dropped(leases.life, self._lives.key_of(leases.life), until)

    def _close_life(self) -> None:
        """Closes the slicelet: nothing is served from then on."""
        leases, self._leases = self._leases, None
        self._moves.moving = []
        if leases is not None:
            self._notice()
            leases.close()

    def _free_dropped(self, leases: Leases) -> None:
        """Frees what a life may have that was dropped, once the next one is let in. That has the notes of the life
        alone of which its `open` tells that it has ended; the leases of another one end by themselves."""
        dropped, self._dropped = [it for it in self._dropped if it[0] == leases.last], []
        notes = [(ended_note(self.job, self.task, life, kind), key) for life, key, _ in dropped for kind in KINDS]
        self._freeing = [self._supervisor.spawn("free", self._free(*note)) for note in notes]

    async def _ask(self, leases: Leases) -> float:
        """Asks the table for a grant, and hears it."""
        return self._hear(leases, await self._answer_to(leases.life))

    async def _answer_to(self, life: int) -> replies.Granted:
        """Returns the answer to a life that asks for a lease."""
        body: dict[str, Any] = {"task": self.task, "life": life, **self._lives.asking(life)}
        if "key" in body and self._leases is not None and self._leases.heard["number"]:
            body["heard"] = self._leases.heard  # a store that went back is noticed by it
        return await self._control.first(
            partial(replies.granted, self.job), partial(self._heard_late, life), "POST", "/grant", body,
        )

    def _heard_late(self, life: int, told: replies.Granted) -> None:
        """Lets an answer be heard that came after another one: a note closes the rows up to its number alone."""
        self._late.append((life, told))
        self._phases.changed.set()

    def _hear_late(self) -> None:
        while self._late:
            life, told = self._late.popleft()
            if self._leases is not None and self._leases.life == life and told.lease is not None:
                self._hear(self._leases, told)

    def _hear(self, leases: Leases, told: replies.Granted) -> float:
        """Hears a grant, or returns for how long to wait after it was refused."""
        self._answered, self._is_cut_off = self._system.real_nanoseconds(), False
        if told.answer.reading is not None:
            leases.sample(told.answer.sent, told.answer.reading)
        if not leases.started and leases.is_sampled():
            leases.start()
        if told.refused:
            return self._refused(leases.life, told)
        if told.lease is None:
            return 0.0  # it was let in
        assert self._policy is not None
        try:
            if not leases.hear(told.answer.body, told.lease, self._policy):
                self._stop_at_evidence(leases)
        except Refused as refused:
            if refused.code < 0:  # the message is none of a grant
                self.metrics.wrong_answer(UNREADABLE)
            logger.info("task %d: a grant was not heard: %s", self.task, refused)
            if refused.name == "TOO_LATE" and not self._served:
                self._leave_behind(leases, told.lease.until)
            return 0.1
        self._heard(leases, told.lease.kind)
        return 0.0

    def _leave_behind(self, leases: Leases, until: int) -> None:
        """Ends a life whose clock is so far ahead that it would hear no lease for long, as after a time in which the
        table's clock stood still. The next life has a clock of its own."""
        if leases.read() > until + int(1000 * self._most):
            self._drop_life()

    def _refused(self, life: int, told: replies.Granted) -> float:
        """Returns for how long to wait after a grant was refused. Raises Overtaken."""
        word = told.refused
        if word in (WAITING, OVERTAKEN):
            return self._not_let_in(life, told)
        if word == EVICTED:
            why = f"task {self.task}: an operator lets life {life} have no more leases; this process ends"
            logger.error(why)
            raise Overtaken(why)
        if word == "no-assignment":
            return 0.5
        logger.warning("task %d: the table refused a grant: %s", self.task, word)
        return 2.0

    def _not_let_in(self, life: int, told: replies.Granted) -> float:
        """Returns for how long to wait while another life is let in, be it one of this process. Raises Overtaken if
        it is one of a later process."""
        if told.admitted > self._lives.greatest():
            why = f"task {self.task}: life {told.admitted} of another process is let in, after {life}; this one ends"
            logger.error(why)
            raise Overtaken(why)
        if told.refused == OVERTAKEN:
            self._drop_life()
            if not told.admitted:  # the store went back: no note of a life before counts any more
                self._dropped.clear()
            self._next = self._lives.drawn.get(told.admitted) if told.admitted != life else None
            return 0.0
        if not self._is_waiting:
            other = f"life {told.admitted} of another process is let in" if told.admitted else "a lease may last"
            logger.warning("task %d waits: %s", self.task, other)
        self._is_waiting = True
        return max(LEAST_WAIT, told.after * (1 + JITTER * self._random.random()))

    def _heard(self, leases: Leases, kind: str) -> None:
        """Sets when the lease is renewed: at half of it, a little earlier or later."""
        self._phases.learn(kind, leases.held[kind].generation)
        if self._dropped:
            self._lives.heard(leases.life)
            self._free_dropped(leases)
        self.metrics.heard(kind)
        self.renewed = Renewed(self.renewed.times + 1, self._system.monotonic())
        self.metrics.left.set(leases.calls_left())
        at = leases.read()
        half = max(0, leases.held[kind].until - at) / 2
        self._renew_at = at + int(half * (1 + JITTER * (2 * self._random.random() - 1)))
        self._notice()

    async def _rest(self, leases: Leases, at: int, kind: str) -> float:
        """Renews the lease of a kind if it is time, or returns how long there is nothing to do."""
        held = leases.held.get(kind)
        if held is None or at >= self._renew_at:
            return await self._ask(leases) or (0.5 if held is None else 0.0)
        return max(0.001, min(self._renew_at, held.until) - at) / 1000

    async def _give_up(self, leases: Leases, kind: str, is_last: bool = False) -> None:
        """Gives up the lease of a kind, and frees it at the table. A life none of whose leases lasts is dropped.

        Before that, what the task loses by it is told, and open blocks on these keys end.
        """
        lost = leases.held[kind].ranges if is_last else leases.lost_without(kind)
        if lost and kind in leases.held:
            self._moves.moving = lost
            try:
                await self._leave(leases, lost, leases.held[kind].until)
                note = self._released(leases, kind)
            finally:
                self._served = minus(self._served, lost)
                self._moves.moving = []
        else:
            note = self._released(leases, kind)
        if note is None:
            self._drop_life()
            return
        freeing = self._free(note, self._lives.key_of(leases.life))
        if is_last:
            await freeing
        else:
            self._supervisor.spawn("free", freeing)

    def _released(self, leases: Leases, kind: str) -> bytes | None:
        """Gives up the lease of a kind, and returns the message of its note, or None if no lease lasts any more, as
        after the process stood still."""
        try:
            return leases.give_up(kind)
        except AllEnded:
            return None

    async def _leave(self, leases: Leases, lost: Ranges, deadline: int) -> None:
        """Tells that keys are given up, and waits until no block is open on them, but not until the lease has ended:
        then they are lost anyway."""
        try:
            left = max(0, deadline - leases.read()) / 1000
        except ClockBehind:
            left = 0.0
        late = await self._moves.give_up(lost, deadline, min(self._patience, left))
        if late:
            logger.info("task %d gives up keys, and did not wait for %s", self.task, late)

    async def _free(self, note: bytes, key: str) -> None:
        """Brings a note to the table, with the key of its life, as long as it may be of use."""
        assert self._policy is not None
        body: bytes | Keyed = Keyed(note, key) if key else note
        backoff = Backoff(self._random.random, most=self._most)
        end = asyncio.get_running_loop().time() + self._policy.guard / 1000
        while asyncio.get_running_loop().time() < end:
            try:
                await self._control.read(replies.freed_in, "POST", "/free", body)
                return
            except Unreachable as why:
                await asyncio.sleep(self._wait_after(why, backoff))

    def _stop_at_evidence(self, leases: Leases) -> NoReturn:
        """Ends the task, since a grant shows that a clock breaks the drift that it was given.

        The leases are released first, at the reading that shows it, so that the log has it.
        """
        self._count_behind()
        for kind in KINDS:
            try:
                freeing = self._free(leases.release(kind), self._lives.key_of(leases.life))
                self._supervisor.spawn("free", freeing)
            except (Refused, ClockBehind):
                pass  # nothing of the kind is held
        self._notice()
        why = f"task {self.task}: a grant shows that a clock breaks its drift; the task ends"
        logger.error(why)
        raise ClockBroken(why)

    # What the application and the operator are told. --------------------------------------------

    def _notice(self) -> None:
        """Notices which keys the task may serve, and tells of gains and losses."""
        leases = self._leases
        try:
            live = [] if leases is None else leases.live(leases.read())
        except ClockBehind:
            live = []
        gained, lost = minus(live, self._served), minus(self._served, live)
        self._served = live
        self.metrics.keys.set(sum(end - start for start, end in live) / KEYS)
        if lost:
            self._moves.lost(lost, 0 if leases is None else leases.clock.given)
        if gained:
            self._moves.gained(gained)

    async def _report(self) -> None:
        """Reports how many requests each part of the keys had, and why keys were denied; and asks whether the task is
        drained, as long as it has no keys."""
        while True:
            await asyncio.sleep(self._report_every)
            try:
                if self._leases is not None:  # one that waits, or has ended, acts for no life
                    await self._control.read(replies.done, "POST", "/loads", self._told())
                if self.renewed.times and not self._served and not self._is_cut_off:
                    reads = partial(replies.is_draining, self.task)
                    self._is_draining = await self._control.read(reads, "GET")
            except Unreachable as why:
                self._note_unreachable(why)

    def _told(self) -> dict[str, Any]:
        """Returns what is reported."""
        counts, self._loads = self._loads, Counts()
        width = KEYS >> LOAD_BITS
        loads = [
            [str(part * width), str((part + 1) * width), count] for part, count in sorted(counts.items())
        ]
        told = {
            "task": self.task, "loads": loads, "denied": dict(self.metrics.denials),
            "clock_behind": self.clock_behind_total,
        }
        if self._leases is not None:
            told["calls_left"] = self._leases.calls_left()
            key = self._lives.key_of(self._leases.life)
            told |= {"life": self._leases.life, "key": key} if key else {}
        return told

    def _note_unreachable(self, why: Unreachable) -> None:
        self.metrics.unreachable.inc()
        logger.info("task %d: %s", self.task, why)

    def _note_behind(self, why: str) -> None:
        if not self._is_behind and self._leases is not None and self._leases.is_sampled():
            self._count_behind()
            logger.warning("task %d serves nothing: its clock is %s", self.task, why)
            self._is_behind = True

    def _count_behind(self) -> None:
        self.clock_behind_total += 1
        self.metrics.behind.inc()


_running: "weakref.WeakSet[Task]" = weakref.WeakSet()


def _leave_to_parent() -> None:
    for task in list(_running):
        task._forked()


os.register_at_fork(after_in_child=_leave_to_parent)
