"""How far a control plane is behind, and what it leaves out then: pages first, then waiting calls, renewals never."""

import asyncio
from collections import deque
from collections.abc import Callable

EVERY = 0.1  # seconds between two looks
SAMPLES = 3  # looks in a row that have to be late: one alone is a process that stood still
PAGES, WAITS = 0.25, 1.0  # seconds by which the loop is behind when these are left out


class Overload:
    """Measures by how much the event loop is late. `now` returns seconds that never fall."""

    def __init__(self, now: Callable[[], float]) -> None:
        self._now = now
        self._late: deque[float] = deque([0.0] * SAMPLES, maxlen=SAMPLES)
        self._timer: asyncio.TimerHandle | None = None

    async def watch(self) -> None:
        """Measures until it is cancelled."""
        loop = asyncio.get_running_loop()
        try:
            self._wait(loop)
            await loop.create_future()  # a timer calls for less than a coroutine that sleeps
        finally:
            if self._timer is not None:
                self._timer.cancel()

    def _wait(self, loop: asyncio.AbstractEventLoop, due: float | None = None) -> None:
        now = self._now()
        if due is not None:
            self.note(now - due)
        self._timer = loop.call_later(EVERY, self._wait, loop, now + EVERY)

    def note(self, late: float) -> None:
        """Takes by how many seconds a timer came late."""
        self._late.append(late)

    def level(self) -> int:
        """Returns 0 while the loop keeps up, 1 if pages are to be left out, and 2 if waiting calls are, too."""
        least = min(self._late)
        return 2 if least > WAITS else 1 if least > PAGES else 0
