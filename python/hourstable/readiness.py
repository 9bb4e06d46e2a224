"""Whether a control plane can do its work: what `/readyz` answers, and `hourstable-service doctor` explains.

`/healthz` says that the process answers; if it does not, start it again. `/readyz` says whether its
store, its poller, its assigner and its disk do their work; a new process would not mend them.
"""

import asyncio
import os
from collections.abc import Awaitable, Callable
from pathlib import Path
from typing import NamedTuple, Protocol

from hourstable.store import Store, StoreFailed
from hourstable.system import System
from hourstable.waiting import within

LEAST_FREE = 64 << 20  # bytes of a disk on which logs are written
KEPT_FOR = 1.0  # seconds for which an answer counts, however many ask
PATIENCE = 2.0  # seconds in which the store and the disk answer
STANDS_STILL = 20.0  # seconds after which a loop that shows no sign stands still
OK, NONE = "ok", "none"


class Assigner(Protocol):
    """An assigner of the plane."""

    def late(self, seconds: float) -> list[str]:
        """Returns the jobs of which a step is due for so long."""


class Check(NamedTuple):
    """What was looked at: `ok`, `none` if there is nothing of it, or else in words what is wrong."""

    name: str
    found: str

    @property
    def is_well(self) -> bool:
        return self.found in (OK, NONE)


class Readiness:
    """Looks at the parts of a plane. `poller` has to beat; the other parts are asked."""

    def __init__(self, store: Store, system: System) -> None:
        self._store, self._now = store, system.monotonic
        self.folders: list[Path] = []  # in which logs and state stand
        self.assigner: Assigner | None = None
        self.polls = False
        self.lacks = ""  # why the store does not let the plane begin
        self._beaten = self._now()
        self._looking = asyncio.Lock()
        self._looked: tuple[float, list[Check]] = -KEPT_FOR, []

    def beat(self) -> None:
        """Says that the poller has looked at the store, or tried."""
        self.polls, self._beaten = True, self._now()

    async def checks(self) -> list[Check]:
        """Returns what was found, a second ago at most."""
        async with self._looking:
            if self._now() - self._looked[0] >= KEPT_FOR:
                found = [
                    Check("store", await self._said(self._ask_store)), Check("poller", self._poller()),
                    Check("assigner", self._assigner()), Check("disk", await self._said(self._disk)),
                ]
                self._looked = self._now(), found
            return self._looked[1]

    async def shown(self, tells_all: bool) -> tuple[bool, dict[str, object]]:
        """Returns whether all is well, and what `/readyz` shows; what is wrong only to who may read everything."""
        checks = await self.checks()
        is_ready = all(check.is_well for check in checks)
        shown: dict[str, object] = {"ready": is_ready}
        for check in checks:
            shown[check.name] = check.found if check.is_well or tells_all else "fails"
        return is_ready, shown

    async def _said(self, look: Callable[[], Awaitable[str]]) -> str:
        try:
            return await within(PATIENCE, _awaited(look))
        except TimeoutError:
            return f"no answer in {PATIENCE:g} s"
        except (StoreFailed, OSError) as error:
            return str(error) or type(error).__name__

    async def _ask_store(self) -> str:
        if self.lacks:
            return f"the plane waits for it since its start: {self.lacks}"
        await self._store.jobs()
        return OK

    def _poller(self) -> str:
        late = self._now() - self._beaten
        if not self.polls:
            return NONE if late < STANDS_STILL else "it has not begun"
        return OK if late < STANDS_STILL else f"it stands still since {late:.0f} s"

    def _assigner(self) -> str:
        if self.assigner is None:
            return NONE
        late = self.assigner.late(STANDS_STILL)
        return f"it stands still: {', '.join(late)}" if late else OK

    async def _disk(self) -> str:
        found = [await asyncio.to_thread(_room_in, folder) for folder in self.folders]
        return next((one for one in found if one != OK), OK)


async def _awaited(look: Callable[[], Awaitable[str]]) -> str:
    return await look()


def _room_in(folder: Path) -> str:
    """Returns whether the disk of a folder takes logs. Raises OSError."""
    found = os.statvfs(folder)
    free = found.f_bavail * found.f_frsize
    if found.f_flag & os.ST_RDONLY:
        return f"{folder} is read-only"
    if not os.access(folder, os.W_OK | os.X_OK):
        return f"{folder} is not writable"
    if free < LEAST_FREE:
        return f"{free >> 20} MB are free in {folder}"
    return OK
