"""Loops that do not die silently: what a loop did not expect is logged with its traceback and counted, and the loop
begins again after a backoff.

    supervisor = Supervisor("task 3", logger, metrics.internal_error)
    supervisor.watch("renewal", self._act)         # a loop: `_act` is called anew each time it fails
    supervisor.spawn("on_gain", self._tell(keys))  # a piece of work that is done once
    await supervisor.close()
"""

import asyncio
import logging
import random
from collections import Counter as Counts
from collections.abc import Callable, Coroutine
from typing import Any

from hourstable.waiting import Backoff

LEAST, MOST = 0.1, 5.0  # seconds before a loop begins again
CLOSING = 5.0  # seconds that what is cancelled has to end
Begin = Callable[[], Coroutine[Any, Any, None]]


class Supervisor:
    """Watches asyncio tasks, and keeps them from the garbage collector.

    `name` says in log lines whose they are. `count(where)` is called for each exception that nobody expected, and
    `errors` has their numbers by `where`. A loop that fails begins again after `least` seconds, and after twice as
    long each time it fails again, up to `most`; one that ran for longer than `most` seconds begins with `least`
    again. `random` returns numbers below 1, so that many that failed at once do not begin again at once.
    """

    def __init__(
        self,
        name: str,
        log: logging.Logger,
        count: Callable[[str], object] | None = None,
        random: Callable[[], float] = random.random,
        least: float = LEAST,
        most: float = MOST,
    ) -> None:
        self.name = name
        self.errors: Counts[str] = Counts()
        self._log, self._count = log, count
        self._random, self._least, self._most = random, least, most
        self._loops: dict[asyncio.Task[None], str] = {}
        self._others: set[asyncio.Task[None]] = set()

    def watch(self, where: str, begin: Begin) -> "asyncio.Task[None]":
        """Runs a loop until it returns or `close` is called. `begin` returns its coroutine, and is called again
        after each failure. The asyncio task that is returned ends without an exception."""
        made = asyncio.get_running_loop().create_task(self._watch(where, begin))
        self._loops[made] = where
        return made

    def spawn(self, where: str, work: Coroutine[Any, Any, Any]) -> "asyncio.Task[None]":
        """Does a piece of work once. The asyncio task that is returned ends without an exception."""
        made = asyncio.get_running_loop().create_task(self._once(where, work))
        self._others.add(made)
        made.add_done_callback(self._others.discard)
        made.add_done_callback(lambda _: work.close())  # which is not begun if the task is cancelled at once
        return made

    def caught(self, where: str, error: BaseException, then: str = "") -> None:
        """Logs an exception that nobody expected, and counts it. `then` says what follows."""
        self.errors[where] += 1
        self._log.error("%s: %s failed%s", self.name, where, f"; {then}" if then else "", exc_info=error)
        if self._count is not None:
            self._count(where)

    def ended(self) -> list[str]:
        """Returns the loops that run no more, by their `where`."""
        return sorted(where for loop, where in self._loops.items() if loop.done())

    async def close(self) -> None:
        """Cancels all that runs, and returns once it has ended, or after a few seconds. A caller that is watched
        itself goes on."""
        running = {*self._loops, *self._others} - {asyncio.current_task()}
        for one in running:
            one.cancel()
        late = (await asyncio.wait(running, timeout=CLOSING))[1] if running else ()
        for one in late:
            self._log.error("%s: it was cancelled, and does not end: %s", self.name, one)

    async def _watch(self, where: str, begin: Begin) -> None:
        loop, backoff = asyncio.get_running_loop(), Backoff(self._random, self._least, self._most)
        while True:
            begun = loop.time()
            try:
                return await begin()
            except (Exception, asyncio.CancelledError) as error:
                if _is_cancelled(error):
                    raise
                if loop.time() - begun > self._most:
                    backoff.reset()
                seconds = backoff.seconds()
                self.caught(where, error, f"it begins again in {seconds:.1f} s")
            await asyncio.sleep(seconds)

    async def _once(self, where: str, work: Coroutine[Any, Any, Any]) -> None:
        try:
            await work
        except (Exception, asyncio.CancelledError) as error:
            if _is_cancelled(error):
                raise
            self.caught(where, error)


def _is_cancelled(error: BaseException) -> bool:
    """Whether the running task is cancelled. A future that somebody else cancelled raises the same exception in who
    awaits it, and is a failure like any other."""
    task = asyncio.current_task()
    return isinstance(error, asyncio.CancelledError) and task is not None and task.cancelling() > 0
