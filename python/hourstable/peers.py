"""The control planes that share a store: who they are, and which of them are gone.

Each plane beats: it writes its row again and again, with who it is, where it is reached, how many tasks it heard and
which jobs fail on it. A plane is gone if its beat stands still while another one writes its own. So time in which the
store stands still counts against nobody.
"""

import asyncio
import json
from collections.abc import Callable, Mapping
from types import MappingProxyType
from typing import NamedTuple

from hourstable.store import Seen, Store, StoreFailed
from hourstable.versions import ROWS, ROWS_BEFORE

VERSION = 1  # of the text of a beat
PART = 4  # beats in the time after which another plane takes over


class Heard(NamedTuple):
    """The tasks of a job that asked a plane itself: how many did in the last guard term, and how many seconds ago the
    last one."""

    tasks: int
    ago: float


class Beat(NamedTuple):
    """What a plane says of itself."""

    incarnation: str  # that was drawn at its start
    address: str  # the URL at which planes and callers reach it
    number: int
    heard: Mapping[str, Heard]  # by job
    failed: frozenset[str]  # jobs
    has_ended: bool = False
    rows: Mapping[str, Seen] = MappingProxyType({})  # by job, the newest version of its row that the plane knows
    reads: int = ROWS_BEFORE  # the newest form of a row that it reads
    terms: Mapping[str, int] = MappingProxyType({})  # by job that it holds, the last term if its own assigner has it

    def text(self) -> str:
        return json.dumps({
            "version": VERSION, **self._asdict(), "heard": {job: list(it) for job, it in self.heard.items()},
            "failed": sorted(self.failed), "rows": {job: list(it) for job, it in self.rows.items()},
            "terms": dict(self.terms),
        })

    @classmethod
    def read(cls, text: str) -> "Beat":
        """Reads the text of a beat. Raises ValueError."""
        try:
            given = json.loads(text)
            heard = {str(job): Heard(int(tasks), float(ago)) for job, (tasks, ago) in given["heard"].items()}
            texts = str(given["incarnation"]), str(given["address"])
            rows = {str(job): Seen(int(version), str(mark)) for job, (version, mark) in given.get("rows", {}).items()}
            failed, has_ended = frozenset(map(str, given["failed"])), bool(given["has_ended"])
            reads = int(given.get("reads", ROWS_BEFORE))
            terms = {str(job): int(term) for job, term in given.get("terms", {}).items()}
            return cls(*texts, int(given["number"]), heard, failed, has_ended, rows, reads, terms)
        except (LookupError, TypeError, AttributeError, ValueError) as error:
            raise ValueError(f"the beat of a plane cannot be read: {error!r}") from error


class Peers:
    """The planes of a store. `process` is the number of this one, which takes over from one that is silent for
    `standby` seconds, and reads rows of forms up to `reads`. `now` returns seconds that never fall."""

    def __init__(
        self, store: Store, process: int, incarnation: str, standby: float, now: Callable[[], float],
        reads: int = ROWS,
    ) -> None:
        self.process, self.incarnation, self.standby, self._reads = process, incarnation, standby, reads
        self.interval = standby / PART
        self.address = ""
        self.known: dict[int, Beat] = {}
        self.is_known = False  # whether a beat of this plane was written
        self._store, self._now = store, now
        self._number = 0
        self._texts: dict[int, str] = {}
        self._told: dict[int, float] = {}  # planes, and when their beats were read first
        self._still: dict[int, int] = {}  # planes, and how many own beats were written since theirs
        self._written = self.steady_since = now()  # when a beat of this plane was written last, and first in a row

    async def check(self) -> None:
        """Raises BlockingIOError if another plane runs under the number of this one, for which it waits as long as
        planes wait for a silent one. Raises StoreFailed."""
        before = (await self._store.beats()).get(self.process)
        if before is None or self._has_ended(before):
            return
        await asyncio.sleep(self.standby)
        after = (await self._store.beats()).get(self.process)
        if after is not None and after != before and not self._has_ended(after):
            mend = "give this one a number of its own (--process)"
            raise BlockingIOError(f"another plane beats as process {self.process}: {mend}; it is {after}")

    async def beat(
        self, heard: Mapping[str, Heard], failed: frozenset[str], has_ended: bool = False,
        rows: Mapping[str, Seen] = MappingProxyType({}), terms: Mapping[str, int] = MappingProxyType({}),
    ) -> None:
        """Writes the beat of this plane, and reads those of the others. Raises StoreFailed."""
        self._number += 1
        given = self.incarnation, self.address, self._number, heard, failed, has_ended, rows, self._reads, terms
        mine = Beat(*given)
        found = await self._store.beat(self.process, mine.text())
        if self.is_cut_off():
            self.steady_since = self._now()
        self._written, self.is_known = self._now(), True
        for process, text in found.items():
            is_same = text == self._texts.get(process)
            self._still[process] = self._still.get(process, 0) + 1 if is_same else 0
            self._texts[process] = text
            if not is_same:
                self._told[process] = self._now()
                self._read(process, text)

    def _read(self, process: int, text: str) -> None:
        try:
            self.known[process] = Beat.read(text)
        except ValueError:
            self.known.pop(process, None)

    def _has_ended(self, text: str) -> bool:
        try:
            return Beat.read(text).has_ended
        except ValueError:
            return False

    def of(self, process: int | None) -> Beat | None:
        """Returns what another plane said last, None if it is not known."""
        return None if process is None or process == self.process else self.known.get(process)

    def told_at(self, process: int) -> float:
        """Returns when what another plane said last was read first."""
        return self._told.get(process, 0.0)

    def told(self, job: str) -> list[Seen]:
        """Returns the versions of the row of a job that other planes know."""
        return [beat.rows[job] for it, beat in self.known.items() if it != self.process and job in beat.rows]

    def reads(self) -> int:
        """Returns the newest form of a row that this plane and all others read which beat. One whose beat cannot be
        read says nothing."""
        beating = [it for it in self._texts if it != self.process and self._still[it] < PART and not self.is_gone(it)]
        known = [self.known[it].reads if it in self.known else ROWS_BEFORE for it in beating]
        return min([self._reads, *known])

    def is_gone(self, process: int) -> bool:
        """Whether a plane that was known has ended, or stood still for so long that its jobs are to be taken."""
        beat = self.known.get(process)
        return beat is not None and (beat.has_ended or self._still[process] >= PART)

    def left_term(self, process: int, incarnation: str, job: str) -> int:
        """Returns the term of the job lease of a job that a plane which is gone had for its assigner, as it said
        last; 0 if it said none, or another start of it did."""
        beat = self.of(process)
        if beat is None or not self.is_gone(process) or beat.incarnation != incarnation:
            return 0
        return beat.terms.get(job, 0)

    def others(self) -> list[int]:
        """Returns the planes that are not gone, without this one."""
        return [it for it in self.known if it != self.process and not self.is_gone(it)]

    def is_cut_off(self) -> bool:
        """Whether this plane could write no beat for so long that others may have taken its jobs."""
        return self.is_known and self._now() - self._written >= self.standby

    async def end(self) -> None:
        """Says that this plane has ended, if the store takes it."""
        if self.is_known:
            try:
                await self.beat({}, frozenset(), has_ended=True)
            except StoreFailed:
                pass
