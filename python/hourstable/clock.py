"""Clocks of processes: the local clock, and the table's clock of a job.

A tick is a millisecond.
"""

import asyncio
import os
import re
from collections.abc import Callable

from hourstable.library import Refused, TableClock
from hourstable.system import SYSTEM, System, steady_ticks

GRAIN = 2  # ticks that rounding down may show, for a drift of at most 1
VARIABLE = "HOURSTABLE_CLOCK"
FORM = re.compile(r"epoch=(\d+),ppm=([+-]?\d+)")


def local_clock(text: str | None = None, system: System = SYSTEM) -> Callable[[], int]:
    """Returns the local clock of the process: that of its system, in ticks, which counts suspension and which no
    time service slews.

    For tests, `epoch=N,ppm=P` is a clock that is N ticks ahead of it and P parts in a million
    faster. If `text` is None, that of the variable HOURSTABLE_CLOCK is taken. Raises ValueError if
    it has another form.
    """
    text = os.environ.get(VARIABLE, "") if text is None else text
    ticks = steady_ticks if system is SYSTEM else system.ticks  # the same, by one call less
    if not text:
        return ticks
    found = FORM.fullmatch(text)
    if found is None or int(found[2]) <= -1_000_000:
        raise ValueError(f"{text!r} is no clock: epoch=N,ppm=P")
    epoch, per = int(found[1]), 1_000_000 + int(found[2])
    return lambda: epoch + ticks() * per // 1_000_000


class JobClock:
    """The table's clock of a job in this process, which goes on from the reading that was kept.

    `ahead` is how many ticks above the reading values are kept. The clock starts below what was
    kept by that, the grain and a tick, so that it is not ahead of what tasks may have read. `wait`
    returns when it is there again.
    """

    def __init__(self, kept: int, ahead: int, local: Callable[[], int]) -> None:
        self._local = local
        self._clock = TableClock(kept, ahead + GRAIN + 1, local())

    def read(self) -> int:
        """Returns the reading. Raises Refused NOT_YET while it is below what was kept."""
        return self._clock.read(self._local())

    async def wait(self) -> int:
        """Returns the reading, as soon as it is not below what was kept."""
        while True:
            try:
                return self.read()
            except Refused as refusal:
                if refusal.name != "NOT_YET":
                    raise
            await asyncio.sleep(0.001)
