"""Keys that come and go: what an application is told of them, and how long it has to end its work.

Callbacks are the application's own, and may raise or take long. Each runs in an asyncio task of its own: what it
raises is logged and counted, and when its time is over nobody waits for it.
"""

import asyncio
from collections.abc import Awaitable, Callable
from contextlib import suppress
from typing import Protocol

from .ranges import Ranges, holds
from .supervisor import Supervisor
from .waiting import within

OnGain = Callable[[Ranges], Awaitable[None] | None]
OnLose = Callable[[Ranges, int], Awaitable[None] | None]


class Block(Protocol):
    """A block of `serving` that is open on a key."""

    slice_key: int


class Moves:
    """The callbacks of a task and its open blocks."""

    def __init__(self, supervisor: Supervisor, on_gain: OnGain | None, on_lose: OnLose | None) -> None:
        self.moving: Ranges = []  # slice keys that are given up just now
        self._supervisor = supervisor
        self._on_gain, self._on_lose = on_gain, on_lose
        self._open: set[Block] = set()
        self._left = asyncio.Event()

    def enter(self, block: Block) -> None:
        """Notes a block that is open from now on."""
        self._open.add(block)

    def leave(self, block: Block) -> None:
        """Notes the end of a block."""
        self._open.discard(block)
        self._left.set()

    def gained(self, ranges: Ranges) -> None:
        """Tells the application of slice keys that the task may serve from now on."""
        if self._on_gain is not None:
            self._supervisor.spawn("on_gain", _tell(self._on_gain, ranges))

    def lost(self, ranges: Ranges, deadline: int) -> "asyncio.Task[None] | None":
        """Tells the application of slice keys that the task gives up, or has lost."""
        if self._on_lose is None:
            return None
        return self._supervisor.spawn("on_lose", _tell(self._on_lose, ranges, deadline))

    async def give_up(self, ranges: Ranges, deadline: int, patience: float) -> str:
        """Tells the application that slice keys are given up, and waits until it has done what it does about it, and
        then until no block is open on them: each for at most `patience` seconds. Returns what it did not wait for."""
        late = []
        told = self.lost(ranges, deadline)
        if told is not None:
            await asyncio.wait({told}, timeout=patience)
            if not told.done():
                told.cancel()  # and nobody waits until it has ended
                late.append("on_lose")
        try:
            await within(patience, self._all_left(ranges))
        except TimeoutError:
            late.append("a block")
        return " and ".join(late)

    async def wait_for(self, ranges: Ranges, patience: float) -> None:
        """Waits until no block is open on slice keys, for at most `patience` seconds."""
        with suppress(TimeoutError):
            await within(patience, self._all_left(ranges))

    async def _all_left(self, ranges: Ranges) -> None:
        while any(holds(ranges, block.slice_key) for block in self._open):
            self._left.clear()
            await self._left.wait()


async def _tell(callback: Callable[..., Awaitable[None] | None], *given: object) -> None:
    made = callback(*given)
    if made is not None:
        await made
