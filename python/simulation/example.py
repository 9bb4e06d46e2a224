"""The example of a run: sessions that tasks keep in memory while they own their keys, over a shelf
that all tasks share. What clients were told of each key is kept as a history."""

import asyncio
from collections.abc import Callable
from contextlib import AbstractAsyncContextManager
from dataclasses import dataclass, field
from typing import NamedTuple

from hourstable.demo.shelf import NOTHING, Late, Session
from hourstable.library import Fence
from hourstable.task import Hold, Lease, Task

from .world import Process

Serving = Callable[[str], AbstractAsyncContextManager[Lease]]
FOR_EVER = 1 << 62  # when an operation ended whose caller was told nothing
STOPS, LONGEST = 0.03, 25.0  # the part of writes that are stopped after their check, and for how many seconds at most


class Operation(NamedTuple):
    """A write or a read of a key as its client saw it: from when to when, the id of the write, and
    what the read found: the version and the id of the write that made it."""

    begun: int
    ended: int
    write: str | None
    version: int = 0
    found: str = ""

    def __str__(self) -> str:
        end = "-" if self.ended == FOR_EVER else f"{self.ended / 1e9:.6f}"
        did = f"write {self.write}" if self.write else f"read {self.version} {self.found or '-'}"
        return f"[{self.begun / 1e9:.6f}, {end}] {did}"


@dataclass
class Shelf:
    """Where sessions stand that a write was acknowledged for. It refuses writers that are late."""

    rows: dict[str, list[Session]] = field(default_factory=dict)
    history: dict[str, list[Operation]] = field(default_factory=dict)
    fences: dict[str, Fence] = field(default_factory=dict)

    def take(self, key: str, token: bytes) -> Session:
        """Raises the fence of a key, and returns its session. Raises Late."""
        if not self.fences.setdefault(key, Fence()).accept(token):
            raise Late(key)
        return self.rows[key][-1] if key in self.rows else NOTHING

    def put(self, key: str, token: bytes, session: Session) -> None:
        """Raises Late."""
        if not self.fences.setdefault(key, Fence()).accept(token):
            raise Late(key)
        self.rows.setdefault(key, []).append(session)

    def begin(self, key: str, now: int, write: str) -> int:
        """Notes a write that begins, and returns its place in the history of the key."""
        history = self.history.setdefault(key, [])
        history.append(Operation(now, FOR_EVER, write))
        return len(history) - 1

    def acknowledge(self, key: str, place: int, now: int) -> None:
        """Notes that the client of a write was told that it is done."""
        self.history[key][place] = self.history[key][place]._replace(ended=now)

    def note_read(self, key: str, begun: int, now: int, version: int, found: str) -> None:
        self.history.setdefault(key, []).append(Operation(begun, now, None, version, found))


class Sessions:
    """The sessions of a task, whose blocks `serving` makes. One in memory counts as long as its handle is
    continuous."""

    def __init__(self, process: Process, task: Task, shelf: Shelf, serving: Serving) -> None:
        self._process, self._task, self._shelf, self._serving = process, task, shelf, serving
        self._memory: dict[str, tuple[Hold, Session]] = {}
        self._turns: dict[str, asyncio.Lock] = {}

    def _session(self, key: str) -> tuple[Hold, Session]:
        if key in self._memory:
            hold, session = self._memory[key]
            if hold.continuous():
                return hold, session
        hold = self._task.hold(key)
        self._memory[key] = hold, self._shelf.take(key, hold.token)
        return self._memory[key]

    async def write(self, key: str, write: str, length: float) -> None:
        """Writes once, also if it is asked again. Raises Denied, LeaseLost and Late. At times it is stopped after its
        last check, for longer than two leases."""
        rng = self._process.rng
        async with self._turns.setdefault(key, asyncio.Lock()):
            async with self._serving(key) as lease:
                hold, session = self._session(key)
                await asyncio.sleep(length)
                if write not in session.ids:
                    session = session.after(write, write)
                    lease.check()
                    if rng.random() < STOPS:
                        await asyncio.sleep(rng.uniform(0, LONGEST))
                    try:
                        self._shelf.put(key, lease.token, session)
                    except Late:
                        self._memory.pop(key, None)
                        raise
                    self._memory[key] = hold, session

    async def read(self, key: str, length: float) -> Session:
        """Reads, from memory if that counts. Raises Denied and LeaseLost."""
        async with self._serving(key):
            _, session = self._session(key)
            await asyncio.sleep(length)
        return session
