"""What tasks report: the loads of ranges of slice keys, and how often they denied keys."""

from collections import Counter as Counts
from collections.abc import Iterable, Sequence
from itertools import accumulate, pairwise
from typing import Any, NamedTuple

from hourstable.jobs import is_number

Piece = tuple[int, int, int]  # the first key of a range, the one after its last, and its load
KEYS = 1 << 63  # slice keys are below it
PARTS = 1024  # of the keys, for which tasks count their requests
PART = KEYS // PARTS
FEW = 32  # ranges of a report that count as they are
MOST_LOAD = 1 << 40
KEPT_FOR = 60.0  # seconds for which a report counts
GROUNDS = ("down", "clock-back", "ended", "not-owned", "no-lease", "moving", "clock-behind")


class Loads:
    """The newest report of each task, joined: loads of ranges of keys that do not overlap, some 3,000
    at most, however many ranges were reported."""

    def __init__(self) -> None:
        self._few: dict[int, tuple[float, list[Piece]]] = {}  # reports of a few ranges, and when they came
        self._many: dict[int, tuple[float, list[int]]] = {}  # the others, as loads of parts
        self._joined: list[Piece] | None = []

    def report(self, task: int, given: object, now: float) -> None:
        """Takes a report: a list of [low, high, load]. Its keys are texts of digits or numbers.
        Raises ValueError if it is none.

        A report of more than a few ranges counts for equal parts of all keys, as many as those for which tasks count
        their requests: of a range that has keys of several parts, each has its share.
        """
        if not isinstance(given, list) or len(given) > 1024:
            raise ValueError("loads is a list of at most 1,024 ranges")
        pieces = [_piece_of(piece) for piece in given]
        self._forget(task)
        if len(pieces) <= FEW:
            self._few[task] = now, pieces
        else:
            self._many[task] = now, loads_of_parts(pieces)

    def counting(self, now: float) -> "Reports":
        """Returns the reports that still count."""
        for task, (at, _) in [*self._few.items(), *self._many.items()]:
            if at < now - KEPT_FOR:
                self._forget(task)
        return Reports([few for _, few in self._few.values()], [many for _, many in self._many.values()])

    def pieces(self, now: float) -> list[Piece]:
        """Returns the loads of ranges, in the order of their keys, of all reports that still count."""
        reports = self.counting(now)
        if self._joined is None:
            self._joined = reports.joined()
        return self._joined

    def newest(self, now: float) -> list[list[str | int]]:
        """Returns the same as a report says it."""
        return [[str(low), str(high), load] for low, high, load in self.pieces(now)]

    def _forget(self, task: int) -> None:
        self._few.pop(task, None)
        self._many.pop(task, None)
        self._joined = None


class Reports(NamedTuple):
    """Reports of tasks as they stood at a moment, so that any thread may join them."""

    few: list[list[Piece]]  # of a few ranges each
    many: list[list[int]]  # loads of all parts

    def joined(self) -> list[Piece]:
        """Returns their sum, as loads of ranges that do not overlap."""
        found: Counts[tuple[int, int]] = Counts()
        for low, high, load in (piece for pieces in self.few for piece in pieces if piece[2]):
            found[low, high] += load
        parts = pieces_of_parts([sum(loads) for loads in zip(*self.many)])
        if not found:
            return parts
        for low, high, load in parts:
            found[low, high] += load
        made = sorted((low, high, load) for (low, high), load in found.items())
        overlap = any(one[1] > other[0] for one, other in pairwise(made))
        return pieces_of_parts(loads_of_parts(made)) if overlap else made


def loads_of_parts(pieces: Iterable[Piece]) -> list[int]:
    """Returns the loads of equal parts of all keys. Together they are those of the pieces."""
    loads, changes = [0] * PARTS, [0] * (PARTS + 1)  # of the parts between the first and the last of a piece
    for low, high, load in pieces:
        first, last = low // PART, (high - 1) // PART
        if first == last:
            loads[first] += load
            continue
        head = load * ((first + 1) * PART - low) // (high - low)
        each = load * PART // (high - low)
        loads[first] += head
        changes[first + 1] += each
        changes[last] -= each
        loads[last] += load - head - each * (last - first - 1)
    return [load + more for load, more in zip(loads, accumulate(changes))]


def pieces_of_parts(loads: Sequence[int]) -> list[Piece]:
    """Returns the loads of parts as ranges, without those that have none."""
    return [(at * PART, (at + 1) * PART, load) for at, load in enumerate(loads) if load]


class Denials(NamedTuple):
    """What a process of a task counted since its start."""

    denied: dict[str, int]  # by the ground
    clock_behind: int  # times that its clock stopped it
    calls_left: int | None  # that its slicelet still accepts

    @classmethod
    def read(cls, given: dict[str, Any]) -> "Denials":
        """Returns what a report says of denials; each member may be missing. Raises ValueError if
        one has another form."""
        denied, behind = given.get("denied", {}), given.get("clock_behind", 0)
        left = given.get("calls_left")
        if not isinstance(denied, dict) or not set(denied) <= set(GROUNDS):
            raise ValueError(f"denied has the members {', '.join(GROUNDS)}")
        if not all(is_number(it) for it in (*denied.values(), behind, 0 if left is None else left)):
            raise ValueError("counts are whole numbers")
        return cls(denied, behind, left)


def _piece_of(piece: object) -> Piece:
    """Returns a range with its load. Raises ValueError."""
    if not isinstance(piece, list) or len(piece) != 3:
        raise ValueError("a range of loads is [low, high, load]")
    low, high, load = piece
    low = int(low) if type(low) is str and low.isdigit() else low
    high = int(high) if type(high) is str and high.isdigit() else high
    if not type(low) is type(high) is type(load) is int:
        raise ValueError("a range of loads is made of whole numbers")
    if not (0 <= low < high <= KEYS and 0 <= load <= MOST_LOAD):
        raise ValueError("a range of loads ends above its start, and has at most 2^40")
    return low, high, load
