"""Waiting for something, but not for ever.

`asyncio.wait_for` of Python 3.11 may swallow the cancellation of its caller. `asyncio.timeout` of
3.11.2 raises CancelledError once aiohttp 3.8 timed out in the same task, since aiohttp cancels the
task and takes no cancellation back. Here the work has a task of its own, and neither happens.
"""

import asyncio
from collections.abc import Callable, Coroutine
from functools import partial
from typing import Any, Generic, TypeVar

T = TypeVar("T")


async def within(seconds: float, work: Coroutine[Any, Any, T]) -> T:
    """Returns what a coroutine returns. Raises TimeoutError, and cancels it, if that takes longer
    than these seconds."""
    child = asyncio.create_task(work)
    try:
        await _first_of(child, seconds=seconds)
        if child.done() and not child.cancelled():
            return child.result()
        raise TimeoutError
    finally:
        if not child.done():
            child.cancel()
            await asyncio.gather(child, return_exceptions=True)
        elif not child.cancelled():
            child.exception()  # it is told, or the caller was cancelled at the same time


async def unless(ends: Coroutine[Any, Any, None], work: Coroutine[Any, Any, T]) -> T:
    """Returns what a coroutine returns. Raises TimeoutError, and cancels it, if another one ends first."""
    child, end = asyncio.create_task(work), asyncio.create_task(ends)
    try:
        await _first_of(child, end)
        if child.done() and not child.cancelled():
            return child.result()
        raise TimeoutError("another control plane is asked now")
    finally:
        for one in (child, end):
            one.cancel()
        await asyncio.gather(child, end, return_exceptions=True)


async def _first_of(*tasks: "asyncio.Task[Any]", seconds: float | None = None) -> None:
    """Returns once one of the tasks has ended, or after these seconds. `asyncio.wait` takes more than twice as
    long."""
    loop = asyncio.get_running_loop()
    ended = loop.create_future()
    timer = None if seconds is None else loop.call_later(seconds, _wake, ended)
    for task in tasks:
        task.add_done_callback(partial(_wake, ended))
    try:
        await ended
    finally:
        if timer is not None:
            timer.cancel()


def _wake(waiting: "asyncio.Future[None]", _: object = None) -> None:
    if not waiting.done():
        waiting.set_result(None)


async def pause(seconds: float, event: asyncio.Event) -> None:
    """Waits until an event is set, but not longer than these seconds."""
    try:
        await within(seconds, event.wait())
    except TimeoutError:
        pass


class Shared(Generic[T]):
    """Work by name whose result several want at once: it is done once at a time, for all of them."""

    def __init__(self) -> None:
        self._under_way: dict[str, asyncio.Task[T]] = {}

    def is_begun(self, name: str) -> bool:
        """Whether the work of a name is under way."""
        return name in self._under_way

    async def result(self, name: str, begin: Callable[[], Coroutine[Any, Any, T]]) -> T:
        """Returns what the work that is under way returns, or raises what it raises; if none is, `begin` begins it.
        It goes on if a caller is cancelled."""
        work = self._under_way.get(name)
        if work is None:
            work = self._under_way[name] = asyncio.create_task(begin())
            work.add_done_callback(lambda _: self._under_way.pop(name))
        return await asyncio.shield(work)

    async def close(self) -> None:
        """Cancels what is under way, and returns once it has ended."""
        works = list(self._under_way.values())
        for work in works:
            work.cancel()
        await asyncio.gather(*works, return_exceptions=True)


class Backoff:
    """How long to wait after failures: longer at each, up to `most` seconds, and at random, so that
    many that failed at once do not try again at once."""

    def __init__(self, random: Callable[[], float], least: float = 0.05, most: float = 2.0) -> None:
        self._random, self._least, self._most = random, least, most
        self._next = least

    def reset(self) -> None:
        """Forgets the failures."""
        self._next = self._least

    def seconds(self, at_least: float = 0.0) -> float:
        """Returns how long to wait after another failure."""
        limit, self._next = self._next, min(2 * self._next, self._most)
        return max(at_least, limit * (0.5 + 0.5 * self._random()))
