"""Tables that a control plane hands over with their rows, when it ends.

What is stored of a table has no rows, so a table that is restored accepts no commit until all earlier leases have
ended. A plane that ends tells more: earlier kept values of the table, and the calls that were accepted since. The
plane that takes the job restores a table from these values and makes these calls again, by the library. All rows of
before have ended if the readings are past the deadline of these values; the others come of the calls. So it is the
very table, which the plane makes sure of by its kept values and its rows. The assigner of the plane that ends does
no call from then on, and that of the other plane goes on with its term of the job lease.

It counts for the version of the row of the store that it was told with, and else not: then the table is restored.
"""

from collections.abc import Mapping, Sequence
from ctypes import ArgumentError
from dataclasses import dataclass, field
from typing import Any, NamedTuple

from hourstable.library import Policy, Refused, Table
from hourstable.library import Row as OpenRow
from hourstable.table_calls import Call, deadline_in

MOST = 4096  # calls that are told
ROW = tuple(name for name, _ in OpenRow._fields_)


class Step(NamedTuple):
    """A call that a table accepted: its name in logs, its numbers, its reading, and the message that it delivered."""

    do: str
    numbers: Mapping[str, int]
    at: int
    message: str = ""

    @classmethod
    def of(cls, call: Call[Any], at: int) -> "Step":
        """Returns a call that was accepted at a reading."""
        return cls(call.do, call.numbers, at, call.message.decode())

    def play(self, table: Table) -> None:
        """Makes the call. Raises Refused, and KeyError if numbers are missing."""
        given, at = self.numbers, self.at
        match self.do:
            case "grant":
                table.grant(given["task"], given["life"], at)
            case "free":
                table.free(self.message.encode(), at)
            case "take":
                table.take(given["assigner"], at)
            case "renew":
                table.renew(given["term"], at)
            case "propose":
                table.propose(given["term"], self.message.encode(), at)
            case "commit":
                table.commit(given["term"], at)
            case _:
                raise KeyError(self.do)


@dataclass
class Start:
    """Kept values of a table, and the calls that it accepted since."""

    kept: bytes
    steps: list[Step] = field(default_factory=list)

    def __post_init__(self) -> None:
        self.deadline = deadline_in(self.kept)

    def is_past(self, step: Step) -> bool:
        """Whether the leases from before these values have ended at a call."""
        return step.at >= self.deadline


class Trail:
    """How a table is made again with its rows.

    `_sure` are values and calls that lead to it, None if there were too many. `_next` are later values, which will do
    once the leases from before them have ended; a commit until then is not accepted by a table restored from them.
    """

    def __init__(self, start: Start) -> None:
        self._sure: Start | None = start
        self._next: Start | None = None

    def add(self, steps: Sequence[Step], table: Table) -> None:
        """Notes calls that the table has just accepted."""
        for start in (self._sure, self._next):
            if start is not None:
                start.steps += steps
        for step in steps:
            if self._next is not None and self._next.is_past(step):
                self._sure, self._next = self._next, None
            elif self._next is not None and step.do == "commit":
                self._next = None
        if self._sure is not None and len(self._sure.steps) > MOST:
            self._sure = None
        if self._next is None or len(self._next.steps) > MOST:
            self._next = Start(table.kept())

    def told(self) -> Start | None:
        """Returns what leads to the table, None if that is not known."""
        return self._sure


class Handed(NamedTuple):
    """A table with its rows, as a plane that ends tells it, and for which row of the store: its version and its
    holder. `unknown` and `coming` are what that plane knows of leases that the table does not (`jobs.Held`). `term`
    is the last term of the job lease if the assigner of that plane has it, else 0."""

    version: int
    holder: str
    start: Start
    kept: bytes
    rows: list[list[int]]
    grace: int
    unknown: Mapping[int, int]
    coming: Mapping[int, int]
    term: int = 0

    def value(self) -> dict[str, Any]:
        """Returns the members of it, for JSON."""
        steps = [[it.do, dict(it.numbers), it.at, it.message] for it in self.start.steps]
        return {
            "version": self.version, "holder": self.holder, "from": self.start.kept.decode(), "steps": steps,
            "kept": self.kept.decode(), "rows": self.rows, "grace": self.grace,
            "unknown": list(self.unknown.items()), "coming": list(self.coming.items()), "term": self.term,
        }

    @classmethod
    def read(cls, given: object) -> "Handed | None":
        """Reads the members of one, None if they are none."""
        if not isinstance(given, dict):
            return None
        try:
            steps = [Step(str(do), dict(numbers), int(at), str(text)) for do, numbers, at, text in given["steps"]]
            start = Start(str(given["from"]).encode(), steps)
            rows = [[int(number) for number in row] for row in given["rows"]]
            unknown, coming = (
                {int(task): int(until) for task, until in given[name]} for name in ("unknown", "coming")
            )
            version, holder, kept = int(given["version"]), str(given["holder"]), str(given["kept"]).encode()
            term = int(given.get("term", 0))  # planes of the release before tell none
            return cls(version, holder, start, kept, rows, int(given["grace"]), unknown, coming, term)
        except (LookupError, TypeError, ValueError):
            return None

    def table(self, job: str, policy: Policy) -> Table | None:
        """Returns the table, None if the calls do not lead to it."""
        try:
            table = Table.restore(job, policy, self.start.kept)
        except Refused:
            return None
        try:
            for step in self.start.steps:
                if not self._is_made(step, table):
                    break
            else:
                if table.kept() == self.kept and rows_of(table) == self.rows:
                    return table
        except (LookupError, ValueError, ArgumentError):
            pass
        except BaseException:
            table.close()
            raise
        table.close()
        return None

    @staticmethod
    def _is_made(step: Step, table: Table) -> bool:
        """Makes a call again. A note may find no row: what it freed was of a lease from before."""
        try:
            step.play(table)
        except Refused as refusal:
            return step.do == "free" and refusal.name == "NO_ROW"
        return True


def rows_of(table: Table) -> list[list[int]]:
    """Returns the open rows of a table as numbers."""
    return [[int(getattr(row, name)) for name in ROW] for row in table.rows()]
