"""A failing run made smaller: the fewest faults that still make it fail, and the shortest time."""

from collections.abc import Callable
from dataclasses import replace

from .many import one
from .run import Found, Wanted
from .world import SECOND

LINES = 20  # of the trace that is told
WIDE = 100  # columns of a timeline
MOST_RUNS = 80


class Shrinking:
    """The search for a smaller run that fails the same way."""

    def __init__(self, wanted: Wanted, tell: Callable[[str], None]) -> None:
        self._wanted, self._tell = wanted, tell
        self._runs = 0
        self.smallest = one(wanted)
        self.checks = set(self.smallest.wrong)
        self._left_out = set(wanted.left_out)

    def _fails(self, left_out: set[int]) -> bool:
        if self._runs >= MOST_RUNS:
            return False
        self._runs += 1
        found = one(replace(self._wanted, left_out=frozenset(left_out)))
        if not self.checks & set(found.wrong):
            return False
        self.smallest, self._left_out = found, left_out
        struck = len(found.faults)
        self._tell(f"run {self._runs}: still fails with {struck} faults")
        return True

    def shrink(self) -> Found:
        """Leaves out halves, quarters and so on of the faults, as long as it fails without them."""
        parts = 2
        while self.smallest.faults and self._runs < MOST_RUNS:
            numbers = [it.number for it in self.smallest.faults]
            parts = min(parts, len(numbers))
            size = -(-len(numbers) // parts)
            pieces = [numbers[at:at + size] for at in range(0, len(numbers), size)]
            if any(self._fails(self._left_out | set(piece)) for piece in pieces):
                parts = max(2, parts - 1)
            elif size == 1:
                break
            else:
                parts *= 2
        return self.smallest

    @property
    def wanted(self) -> Wanted:
        return replace(self._wanted, left_out=frozenset(self._left_out))


def told(found: Found) -> list[str]:
    """Returns the trace of a run in some twenty lines: what struck, what ended and what was wrong."""
    numbers = {it.number for it in found.faults if it.kind != "load"}
    kept = [
        (at, text) for at, text in found.lines
        if any(text.startswith(f"fault {number} ") for number in numbers)
        or " exits: " in text or "UNSAFE" in text or " ended by " in text or text == "faults end"
        or "too-old" in text or "serves nothing" in text or " waits in " in text or "planes show" in text
    ]
    if len(kept) > LINES:
        kept = [*kept[:LINES // 2], *kept[-LINES // 2:]]
    return [f"{at / SECOND:11.6f} {text[:150]}" for at, text in kept]


def timeline(found: Found) -> list[str]:
    """Returns a line for each fault and each process that exits, over the time of the run."""
    whole = max(found.virtual, 1.0)
    rows: dict[str, list[str]] = {}

    def mark(name: str, at: int, sign: str) -> None:
        row = rows.setdefault(name, [" "] * WIDE)
        row[min(WIDE - 1, int(at / SECOND / whole * WIDE))] = sign

    for fault in found.faults:
        if fault.kind != "load":
            mark(f"{fault.number} {fault.kind}", fault.at, "#")
    for at, text in found.lines:
        words = text.split()
        if text.startswith("fault ") and text.endswith(" ends"):
            mark(f"{words[1]} {words[2]}", at, "|")
        elif " exits: " in text and "exits: None" not in text:
            mark(words[0], at, "X")
        elif text.endswith(" is dead"):
            mark(words[0], at, "x")
        elif "UNSAFE" in text:
            mark("unsafe", at, "!")
    scale = f"{'seconds':>20} 0{f'{whole:.0f}':>{WIDE - 1}}"
    return [scale, *(f"{name:>20} {''.join(row)}" for name, row in rows.items())]
