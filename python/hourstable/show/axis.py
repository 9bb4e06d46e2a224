"""Where the readings of a picture are, in pixels from the left."""

from __future__ import annotations

from collections.abc import Iterable
from typing import NamedTuple

LEFT, WIDTH = 92, 888  # where readings begin, and how wide they are
LINE_ROOM = 8  # how far two lines of the grid are from each other at least


class GridLine(NamedTuple):
    reading: int
    x: int


def gap_width(ticks: int) -> int:
    """Returns how wide a gap is drawn, in parts of the whole: it grows with the number of its binary digits, so that
    a long gap does not push the others together."""
    return ticks.bit_length() + 2


class Axis:
    """The positions of readings, and the lines of the grid."""

    def __init__(self, readings: Iterable[int]) -> None:
        found = sorted(set(readings))
        places, length = [], 0
        for index, reading in enumerate(found):
            length += gap_width(reading - found[index - 1]) if index else 0
            places.append(length)
        self.positions = {it: LEFT + WIDTH * place // length if length else LEFT for it, place in zip(found, places)}
        self.lines: list[GridLine] = []
        for reading, x in self.positions.items():
            if not self.lines or x - self.lines[-1].x >= LINE_ROOM:
                self.lines.append(GridLine(reading, x))

    def x(self, reading: int) -> int:
        """Returns the position of a reading. One that is not of the picture, as the end of a span that does not end,
        is at the right edge."""
        return self.positions.get(reading, LEFT + WIDTH)
