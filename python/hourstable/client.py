"""A client: finds the task that owns a key, and tries again where it is denied.

    async with Router("http://control:7000", "shop") as router:
        answer = await router.send(key, lambda task: ask(addresses[task], key))

It may be wrong: what it knows is the newest assignment that it was given. A task that does not own
the key says so, and `send` tries again.
"""

import asyncio
import logging
import os
import ssl
from collections import Counter as Counts
from collections.abc import Awaitable, Callable, Sequence
from functools import partial
from typing import Any, TypeVar

from . import replies
from .asked import RetryBudget
from .caller_metrics import RouterMetrics
from .calls import TIMEOUT, WAIT, Control, Troubles, Unreachable
from .clock import local_clock as local_clock_of
from .kept_log import KeptLog
from .library import CALLS, Clerk, Found, LoggedCall, Refused, log_line, owners_of, slice_key
from .logs import CLERKS, LogFiles, folder_of, job_line
from .state import tickets_in
from .supervisor import Supervisor
from .system import SYSTEM, System
from .tickets import Tickets, follow, number_of_caller
from .transport import Transport
from .waiting import Backoff, pause

FIRST_PROCESS = 128  # of clients
RETRIES_A_SECOND = 10.0  # at one task, beside a tenth of all calls
Made = TypeVar("Made")
logger = logging.getLogger("hourstable.client")


class Again(Exception):
    """An attempt that did not succeed and may be made again, as one that was denied."""


class NoOwner(Exception):
    """No owner of the key is known."""


class Router:
    """Knows the newest assignment of a job that it was given, and picks an owner of a key.

    It goes on whatever planes answer; `metrics` has what it counts. With `by_load` it picks, of several
    owners, the one to which the fewest attempts are underway, and else one at random. With `logs` it
    writes a log of its clerk, which is number `clerk` of the job, 1 to 128; `keep_logs` is for how many days
    its files are kept, by default for ever. `state` is the folder of its tickets, as that of a task. `process` is
    its number for its tickets, 64 to 255, by default 127 and that of the clerk; a number outside these limits is a
    ValueError. `transport` brings its requests to planes in place of HTTP, `local_clock` is the clock by which
    answers are timed, and `system` has its other clocks, chance and files.
    """

    def __init__(
        self,
        control: str | Sequence[str],
        job: str,
        *,
        by_load: bool = True,
        logs: str | os.PathLike[str] | None = None,
        keep_logs: int | None = None,
        state: str | os.PathLike[str] | None = None,
        clerk: int = 1,
        process: int | None = None,
        secret: str | None = None,
        tls: ssl.SSLContext | None = None,
        timeout: float = TIMEOUT,
        local_clock: Callable[[], int] | None = None,
        transport: Transport | None = None,
        system: System = SYSTEM,
    ) -> None:
        if not 1 <= clerk <= CLERKS:
            raise ValueError(f"clerk {clerk} is not 1 to {CLERKS}")
        self.job, self.clerk, self.by_load = job, clerk, by_load
        self.metrics = RouterMetrics(job, clerk)
        self._logs, self._keep_logs, self._system = logs, keep_logs, system
        self._random = system.random()
        self._tickets = self._tickets_of(process, state)
        name = f"clerk {clerk}"
        self._control = Control(
            control, job, self._tickets, local_clock or local_clock_of(system=system),
            secret=secret, tls=tls, timeout=timeout, transport=transport, system=system,
            troubles=Troubles(name, logger, self.metrics.wrong_answer, system.monotonic),
        )
        self._supervisor = Supervisor(name, logger, self.metrics.internal_error, self._random.random)
        self._budget = RetryBudget(a_second=RETRIES_A_SECOND, now=system.monotonic)
        self._clerk = Clerk(job)
        self._log: KeptLog | None = None
        self._known = b""  # the newest assignment
        self._why = "no control plane has told an assignment yet"
        self._generation = 0
        self._heard: float | None = None  # when a control plane last answered
        self._underway: Counts[int] = Counts()
        self._changed = asyncio.Event()

    def _tickets_of(self, process: int | None, state: str | os.PathLike[str] | None) -> Tickets:
        number = number_of_caller(FIRST_PROCESS + self.clerk - 1 if process is None else process)
        path = tickets_in(state, self._logs, self.job, f"clerk-{self.clerk}.ticket")
        return Tickets(number, path, now=follow, system=self._system)

    async def start(self) -> None:
        """Begins to follow the assignments of the job."""
        self._supervisor.watch("assignments", self._follow)

    async def stop(self) -> None:
        """Ends, and closes all connections."""
        await self._supervisor.close()
        await self._control.close()
        self._clerk.close()
        if self._log is not None:
            self._log.close()
        self._tickets.close()

    async def __aenter__(self) -> "Router":
        await self.start()
        return self

    async def __aexit__(self, *_: object) -> None:
        await self.stop()

    # What is known. -----------------------------------------------------------------------------

    @property
    def generation(self) -> int:
        """The generation of the known assignment, 0 for none."""
        return self._generation

    def stale(self) -> float:
        """Returns for how many seconds no control plane has said that the known assignment is the
        newest: the time since the last answer, and so up to 30 s if all is well."""
        return float("inf") if self._heard is None else self._system.monotonic() - self._heard

    def owners(self, key: str) -> Found:
        """Returns the owners of a key and the generation. Raises NoOwner if nothing is known."""
        slice_key_ = slice_key(key.encode())
        try:
            found = self._clerk.look_at(slice_key_)
        except Refused as refused:
            self._tell("look", refused, slice_key=slice_key_)
            raise NoOwner(f"{key}: {self._why}") from refused
        self._tell("look", slice_key=slice_key_, owners=owners_of(found))
        return found

    def pick(self, key: str) -> int:
        """Returns the number of a task that owns a key. Raises NoOwner."""
        tasks = self.owners(key).tasks
        if not self.by_load:
            return self._random.choice(tasks)
        least = min(self._underway[task] for task in tasks)
        return self._random.choice([task for task in tasks if self._underway[task] == least])

    async def send(
        self, key: str, attempt: Callable[[int], Awaitable[Made]], *, patience: float = 10.0
    ) -> Made:
        """Returns what an attempt at an owner of a key gives.

        `attempt(task)` raises Again if it was denied or its task did not answer. It is then made
        again, at an owner as known then, for up to `patience` seconds and at most as often as
        waits that grow allow. Of the attempts that are made again at one task those that raise Again
        are at most a tenth of all calls, and ten more a second. Raises the last Again, or NoOwner.
        """
        backoff = Backoff(self._random.random, least=0.01, most=0.5)
        end = self._system.monotonic() + patience
        tried: set[tuple[int, int]] = set()  # generations, and their owners
        failed: Exception = NoOwner(key)
        self._budget.add()
        while True:
            try:
                place = self._generation, self.pick(key)
                is_again = place in tried
                if not is_again or self._budget.take():
                    tried.add(place)
                    made = await self._attempt(place[1], attempt)
                    if is_again:
                        self._budget.give_back()
                    return made
            except (Again, NoOwner) as why:
                failed = why
            left = end - self._system.monotonic()
            if left <= 0:
                raise failed
            await self._pause(min(backoff.seconds(), left))

    async def _attempt(self, task: int, attempt: Callable[[int], Awaitable[Made]]) -> Made:
        self._underway[task] += 1
        try:
            return await attempt(task)
        finally:
            self._underway[task] -= 1

    async def _pause(self, seconds: float) -> None:
        """Waits, but not longer than until there is another assignment."""
        self._changed.clear()
        await pause(seconds, self._changed)

    # How it is learnt. --------------------------------------------------------------------------

    async def _follow(self) -> None:
        backoff = Backoff(self._random.random)
        while True:
            try:
                if self._logs is not None and self._log is None:
                    await self._open_log(self._logs)
                await self._learn()
                backoff.reset()
            except Unreachable as why:
                self._why = str(why)
                self.metrics.unreachable.inc()
                logger.info("clerk %d: %s", self.clerk, why)
                least = why.least * (1 + 0.1 * self._random.random())
                await asyncio.sleep(max(backoff.seconds(why.again), least))

    async def _open_log(self, logs: str | os.PathLike[str]) -> None:
        policy = await self._control.read(partial(replies.policy_in, self.job), "GET")
        folder, name = folder_of(logs, self.job), f"clerk-{self.clerk}"
        files = LogFiles(folder, name, job_line(policy), self._keep_logs, self._system)
        try:
            self._log = KeptLog(
                files, f"clerk {self.clerk}", logger, self.metrics.log_missing.inc, self._system.monotonic
            )
        except ValueError as why:
            logger.error("clerk %d: nothing is logged: %s", self.clerk, why)
            self._logs = None
        self._tell("forget")  # what an earlier process of this clerk had learnt

    async def _learn(self) -> None:
        """Learns the next assignment, as soon as there is one."""
        path = f"/assignment?after={self._generation}"
        reads = partial(replies.generation_in, self.job)
        generation, message = await self._control.read(
            reads, "GET", path, timeout=WAIT + self._control.timeout
        )
        self._heard = self._system.monotonic()
        if not generation:
            return
        try:
            self._clerk.learn(message)
        except Refused as refused:
            self._tell("learn", refused, message)
            await asyncio.sleep(0.2)  # a plane that stands by is behind
            return
        self._known = message
        self._tell("learn", message=message)
        self._generation = generation
        self._changed.set()

    def _tell(
        self, do: str, refused: Refused | None = None, message: bytes = b"", **members: Any
    ) -> None:
        """Writes the line of a call, if the clerk was asked."""
        code = 0 if refused is None else refused.code
        if self._log is not None and code >= 0:
            call = LoggedCall(self._tickets.draw(), CALLS[do], code, clerk=self.clerk, **members)
            call.told = self._clerk.told
            self._log.append(log_line(self.job, call, message))
            if self._log.is_stopped and self._log.is_ready():
                self._begin_anew(self._log)

    def _begin_anew(self, log: KeptLog) -> None:
        """Goes on with a log that had stopped: the clerk forgets all, and learns it again."""
        log.go_on()
        self._clerk.forget()
        self._tell("forget")
        if self._known:
            self._clerk.learn(self._known)
            self._tell("learn", message=self._known)
