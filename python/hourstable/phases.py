"""The phase of a table, as a task learns it: from planes, and from its leases."""

import asyncio

from . import replies
from .calls import WAIT, Control
from .library import Phase


class Phases:
    """The newest phase that is known. `changed` is set when planes tell another one."""

    def __init__(self, control: Control) -> None:
        self.known: Phase | None = None
        self.changed = asyncio.Event()
        self._control = control

    async def look(self) -> None:
        """Learns the phase of the table, as soon as it is another one than the known one. Raises Unreachable."""
        known, limit = self.known, self._control.timeout
        path = "/phase"
        if known is not None:
            path += f"?committed={known.committed}&pending={known.proposed}"
            limit = WAIT + self._control.timeout
        phase = await self._control.read(replies.phase_in, "GET", path, timeout=limit)
        if phase is None:
            return
        if known is None or _place(phase) > _place(known):
            self.known = phase
            self.changed.set()
        elif _place(phase) < _place(known):
            await asyncio.sleep(0.2)  # a plane that stands by is behind

    def learn(self, kind: str, generation: int) -> None:
        """Learns from a lease: a bridge to a generation says that it is proposed."""
        pair = (generation, 0) if kind == "guard" else (generation - 1, generation)
        if self.known is None or pair > _place(self.known):
            self.known = Phase(*pair)


def _place(phase: Phase) -> tuple[int, int]:
    """Phases of a table in the order in which they come."""
    return phase.committed, phase.proposed
