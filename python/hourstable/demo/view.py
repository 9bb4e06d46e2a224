"""What the demo shows: a table that is drawn again in place, or a line a second."""

import os
import shutil
import textwrap
from collections.abc import Mapping, Sequence
from typing import NamedTuple, Protocol, TextIO

WIDEST = 100
GROUNDS = {  # of denials, in words that need no page
    "no answer": "no answer",
    "not-owned": "not its key",
    "no-lease": "no lease yet",
    "ended": "lease ended",
    "moving": "handing over",
    "lost": "lost the key meanwhile",
    "clock-behind": "lease not renewed",
    "not-started": "just started",
    "down": "just started",
}
COLOURS = {1: 44, 2: 43, 3: 42, 4: 45}  # of tasks, as backgrounds
NOBODY = "x"


class TaskSeen(NamedTuple):
    """A task: its number, what it does, how many of the sessions are its, and which part of all
    keys."""

    number: int
    state: str
    sessions: int
    share: float


class Part(NamedTuple):
    """A part of the key space, from 0 to 1, and the task that owns it. `is_gone` says that this
    task does not run."""

    begin: float
    end: float
    owner: int
    is_gone: bool


class Seen(NamedTuple):
    """What is known at a moment. Requests and denials are those of the last second."""

    second: float
    seconds: float
    url: str
    is_plane_there: bool
    generation: int
    tasks: Sequence[TaskSeen]
    parts: Sequence[Part]
    requests: int
    denied: Mapping[str, int]


def denials(denied: Mapping[str, int]) -> str:
    """Returns how many requests were denied, by the ground."""
    told: dict[str, int] = {}
    for ground, count in denied.items():
        words = GROUNDS.get(ground, ground)
        told[words] = told.get(words, 0) + count
    return ", ".join(f"{count} {words}" for words, count in sorted(told.items())) or "none"


def plain(seen: Seen) -> str:
    """Returns the line of a second."""
    owned = " ".join(f"{it.number}:{it.sessions}" for it in seen.tasks if it.sessions)
    return (
        f"{int(seen.second):3} s: {seen.requests:4} requests, denied: {denials(seen.denied)};"
        f" sessions by task {owned or 'none'}; generation {seen.generation}"
    )


def bar(parts: Sequence[Part], width: int, is_coloured: bool) -> str:
    """Returns the key space as so many cells: each has the number of the task that owns the keys in
    its middle, x if that task is gone, or a blank if nobody owns them."""
    cells = [(" ", 0)] * width
    for at in range(width):
        middle = (at + 0.5) / width
        for part in parts:
            if part.begin <= middle < part.end:
                cells[at] = (NOBODY if part.is_gone else str(part.owner % 10), part.owner)
    if not is_coloured:
        return "".join(sign for sign, _ in cells)
    return "".join(_coloured(sign, owner) for sign, owner in cells)


def _coloured(sign: str, owner: int) -> str:
    if owner not in COLOURS:
        return sign
    return f"\x1b[30;{COLOURS[owner]}m{sign}\x1b[0m"


def table(seen: Seen, width: int, is_coloured: bool) -> list[str]:
    """Returns the lines of the table, none of them wider than `width`."""

    def cut(line: str) -> str:
        return line[:width]

    where = f"at {seen.url}" if seen.is_plane_there else "GONE"
    lines = [
        cut(f"{min(seen.second, seen.seconds):3.0f} s of {seen.seconds:.0f}   control plane {where}"),
        "",
        cut("task  state        sessions  of all keys"),
    ]
    for it in seen.tasks:
        mark = _coloured(f" {it.number} ", it.number) if is_coloured else f" {it.number} "
        rest = f"   {it.state:11}  {it.sessions:8}  {100 * it.share:9.0f} %"
        lines.append(mark + rest[: max(0, width - 3)])
    lines += [
        "",
        cut("keys  ") + bar(seen.parts, max(0, width - 6), is_coloured),
        cut(f"      by the task that owns them ({NOBODY}: it is gone); generation {seen.generation}"),
        "",
        cut(f"{seen.requests} requests in the last second, denied: {denials(seen.denied)}"),
    ]
    return lines


class Screen(Protocol):
    """Where the demo shows what it sees, and says what happens, with the second of it if it is not
    about the whole."""

    def show(self, seen: Seen) -> None: ...
    def say(self, text: str, second: float | None = None) -> None: ...
    def close(self) -> None: ...


class Lines:
    """A line a second, for files and for terminals that cannot redraw."""

    def __init__(self, out: TextIO) -> None:
        self._out = out
        self._second = -1

    def show(self, seen: Seen) -> None:
        if int(seen.second) > self._second:
            self._second = int(seen.second)
            print(plain(seen), file=self._out, flush=True)

    def say(self, text: str, second: float | None = None) -> None:
        print(text if second is None else f"       {text}", file=self._out, flush=True)

    def close(self) -> None:
        pass


class Redrawn:
    """A table at the bottom of a terminal. What is said scrolls by above it."""

    def __init__(self, out: TextIO) -> None:
        self._out = out
        self._drawn: list[str] = []
        self._is_coloured = not os.environ.get("NO_COLOR")

    def show(self, seen: Seen) -> None:
        width, height = self._size()
        lines = table(seen, width, self._is_coloured)[: max(0, height - 1)]
        self._write(lines, "")

    def say(self, text: str, second: float | None = None) -> None:
        width, _ = self._size()
        first, indent = ("", "") if second is None else (f"{second:3.0f} s  ", " " * 7)
        filled = textwrap.fill(
            text, max(width, 20), initial_indent=first, subsequent_indent=indent
        )
        self._write(self._drawn, f"{filled}\n\n")

    def close(self) -> None:
        """Leaves the table as it is, for what is printed below it."""
        self._drawn = []
        self._out.write("\x1b[?25h")
        self._out.flush()

    def _write(self, table_: list[str], said: str) -> None:
        """Draws the table over the last one, below what is said."""
        back = f"\x1b[{len(self._drawn)}F" if self._drawn else ""
        above = f"\x1b[J{said}" if said else ""
        drawn = "".join(f"{line}\x1b[K\n" for line in table_)
        self._out.write(f"\x1b[?25l{back}{above}{drawn}\x1b[J")
        self._out.flush()
        self._drawn = table_

    def _size(self) -> tuple[int, int]:
        size = shutil.get_terminal_size()
        return min(size.columns - 1, WIDEST), size.lines


def screen(out: TextIO, is_plain: bool) -> Screen:
    """Returns the table, or lines if these are asked for or there is no terminal that can redraw."""
    if is_plain or not out.isatty() or os.environ.get("TERM", "dumb") == "dumb":
        return Lines(out)
    return Redrawn(out)
