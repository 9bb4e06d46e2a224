"""Pictures as SVG, 1,000 pixels wide: lanes below each other, each thing on a free level of its row."""

from __future__ import annotations

from collections.abc import Iterator
from typing import NamedTuple

from .axis import LEFT, WIDTH, Axis
from .lanes import MARKS, Alarm, Item, Lane, Part, Row, Shown, Span
from .style import STYLE

PAGE, MARGIN, RIGHT = 1000, 14, 984  # the width, the left of the legend, and where labels end at the farthest
TOP, ABOVE_LANES = 34, 68  # of the numbers of the readings, and of the first lane
LEVEL, ROOM = 20, 5  # how high a level is, and how far rows are from the edges of their lane
MOST_LEVELS, MOST_LABELLED = 10, 8  # of a row
MOST_WARNINGS = 8  # that are written below the legend
SIGNS = (
    ("guard", "guard lease held"), ("bridge", "bridge lease held"), ("out", "lease out, not held"),
    ("skew", "skew: over for the task, not for the table"), ("waiting", "proposal waits"),
    ("handle", "handle, up to where it breaks"), ("served", "served, or handle kept"),
    ("denied", "denied, or handle broken"), ("refused", "step refused"), ("released", "lease released"),
)
ENTITIES = {"&": "&amp;", "<": "&lt;", ">": "&gt;", '"': "&quot;", "'": "&apos;", "\t": " ", "\n": " ", "\r": " "}


def is_allowed(character: str) -> bool:
    """Whether XML 1.0 allows a character."""
    return " " <= character <= "\ud7ff" or "\ue000" <= character <= "\ufffd" or character >= "\U00010000"


def text(words: str) -> str:
    """Returns words between tags."""
    return "".join(ENTITIES.get(it) or (it if is_allowed(it) else "\ufffd") for it in words)


def text_width(words: str) -> int:
    """Returns about how many pixels wide a text is."""
    return 7 * len(words)


def less(value: int, other: int) -> int:
    return max(value - other, 0)


def mark_svg(look: str, first: int, end: int, middle: int) -> str:
    if look in ("denied", "refused"):
        return f'<path class="{look}" d="M{less(end, 4)} {less(middle, 4)}l8 8m0 -8l-8 8"/>\n'
    if look == "released":
        room = less(end, first)
        width = min(room, 6) if room else 6
        return f'<path class="{look}" d="M{end} {less(middle, 7)}l-{width} 7l{width} 7z"/>\n'
    return f'<circle class="{look}" cx="{end}" cy="{middle}" r="4.5"/>\n'


def look_svg(look: str, first: int, end: int, y: int = 0) -> str:
    """Returns a part between two positions, below a height."""
    if look in MARKS:
        return mark_svg(look, first, end, y + 9)
    if look == "out":
        return f'<path class="{look}" d="M{first} {y + 9}H{end}"/>\n'
    if look == "handle":
        return f'<path class="{look}" d="M{first} {y + 4}V{y + 17}H{end}V{y + 4}"/>\n'
    width = max(less(end, first), 2)
    return f'<rect class="{look}" x="{first}" y="{y + 2}" width="{width}" height="15" rx="2"/>\n'


class Label(NamedTuple):
    first: int
    end: int
    words: str


class Space(NamedTuple):
    """The space that a thing takes on a level, in pixels from the left, with its label if it has one."""

    first: int
    end: int
    label: Label | None


def label_from(first: int, words: str) -> Label | None:
    """Returns a label that begins at a position, if there is room for it."""
    width = text_width(words) + 4
    if first < LEFT or width > RIGHT or first > RIGHT - width:
        return None
    return Label(first, first + width, words)


def label_inside(axis: Axis, bar: Part, words: str, spare: int) -> Label | None:
    """Returns a label inside a bar, if there is room for it and `spare` pixels more."""
    first = axis.x(bar.first)
    if text_width(words) + spare > less(axis.x(bar.end), first):
        return None
    return label_from(first + 5, words)


def own_label(axis: Axis, item: Item) -> Label | None:
    """Returns the label of a thing inside its bar, the shorter one if there is no room for the other."""
    bar = next((it for it in item.parts if it.look not in ("out", "skew")), None)
    if bar is None:
        return None
    return label_inside(axis, bar, item.label, 12) or label_inside(axis, bar, item.short_label, 7)


def extent(axis: Axis, item: Item) -> tuple[int, int]:
    first, end = LEFT + WIDTH, 0
    for part in item.parts:
        room = 6 if part.look in MARKS else 0
        first, end = min(first, less(axis.x(part.first), room)), max(end, axis.x(part.end) + room)
    return first, end


def space_of(axis: Axis, item: Item) -> Space:
    """Returns the space of a thing with its label: inside it, or else right of it, or else left of it."""
    first, end = extent(axis, item)
    words = item.short_label
    left = less(first, text_width(words) + 3)
    label = own_label(axis, item) or label_from(end + 3, words) or label_from(left, words)
    return Space(min(first, label.first), max(end, label.end), label) if label else Space(first, end, None)


def label_svg(label: Label | None) -> str:
    return f'<text class="label" x="{label.first}" y="14">{text(label.words)}</text>' if label else ""


class Levels:
    """The levels of a lane whose top is at a height, the highest first."""

    def __init__(self, top: int) -> None:
        self.top = top
        self.ends: list[int] = []  # where the free space of each begins
        self.drawn: list[list[str]] = []

    def height_of(self, number: int) -> int:
        return self.top + LEVEL * number

    def add(self) -> None:
        self.ends.append(0)
        self.drawn.append([])

    def put(self, first: int, most: int, space: Space, svg: str) -> bool:
        """Puts a thing on the first free one of so many levels from one on, and returns whether there is one."""
        places = range(first, min(len(self.ends), first + most))
        found = next((it for it in places if self.ends[it] <= space.first), None)
        if found is None:
            if len(self.ends) - first >= most:
                return False
            found = len(self.ends)
            self.add()
        self.drawn[found].append(f"<g>{svg}{label_svg(space.label)}</g>\n")
        self.ends[found] = space.end
        return True

    def svg(self) -> Iterator[str]:
        for number, drawn in enumerate(self.drawn, 1):
            yield f'<g transform="translate(0 {self.height_of(number)})">\n{"".join(drawn)}</g>\n'


def item_svg(axis: Axis, item: Item) -> str:
    parts = "".join(look_svg(it.look, axis.x(it.first), axis.x(it.end)) for it in item.parts)
    return f"<title>{text(item.words)}</title>\n{parts}"


def draw_row(levels: Levels, axis: Axis, row: Row) -> str:
    """Lays a row out below the others, and returns its name, with how many of its things have no label."""
    first, labels, things = len(levels.ends), 0, 0
    for item in row.items:
        svg, space = item_svg(axis, item), space_of(axis, item)
        if space.label and levels.put(first, MOST_LABELLED, space, svg):
            continue
        labels += 1
        things += not levels.put(first, MOST_LEVELS, Space(*extent(axis, item), None), svg)
    names = f'<text class="quiet" x="20" y="{levels.height_of(first + 1) + 14}">{row.name}</text>\n'
    if labels == 0:
        return names
    if len(levels.ends) < first + 2:
        levels.add()
    return names + (
        f'<text class="quiet" x="14" y="{levels.height_of(first + 2) + 14}"><title>{labels} have no label here,'
        f" {things} of them are not drawn; the description has all</title>+{labels} more</text>\n"
    )


def stretch_svg(axis: Axis, stretch: Span, y: int, height: int) -> str:
    left = axis.x(stretch.first)
    width = max(less(axis.x(stretch.end), left), 1)
    title = f"<title>may serve from {stretch.first} to {stretch.end}</title>"
    return f'<rect class="may" x="{left}" y="{y}" width="{width}" height="{height}">\n{title}</rect>\n'


def lane_svg(axis: Axis, shown: Shown, lane: Lane, y: int) -> tuple[str, int]:
    """Returns a lane below a height, and the height below it."""
    levels = Levels(y)
    names = "".join(draw_row(levels, axis, row) for row in lane.rows)
    foot = levels.height_of(len(levels.ends) + 1) + ROOM
    grid = "".join(f"M{line.x} {y}V{foot}" for line in axis.lines)
    alarms = "".join(
        f'<path class="alarm" d="M{axis.x(it.at)} {y}V{foot}"><title>{it}</title></path>\n'
        for it in shown.alarms_of(lane)
    )
    svg = (
        f'<rect class="lane" x="8" y="{y}" width="984" height="{foot - y}" rx="4"/>\n'
        f'{"".join(stretch_svg(axis, it, y, foot - y) for it in shown.stretches_of(lane))}'
        f'<path class="grid" d="{grid}"/>\n<text class="name" x="14" y="{y + 15}">{lane.name}</text>\n'
        f'{names}{alarms}{"".join(levels.svg())}'
    )
    return svg, foot + ROOM


def readings_svg(axis: Axis) -> str:
    """Returns the readings of the grid's lines, in two rows of numbers, as many as fit."""
    found, taken = [], [0, 0]
    for line in axis.lines:
        width = text_width(str(line.reading)) + 8
        half = width // 2
        x = min(line.x, PAGE - half)
        left = less(x, half)
        row = next((it for it, end in enumerate(taken) if end <= left), None)
        if row is not None:
            taken[row] = left + width
            found.append(
                f'<text class="quiet" text-anchor="middle" x="{x}" y="{TOP + row * 14 + 12}">{line.reading}</text>\n'
            )
    return "".join(found)


def entry_svg(look: str, words: str, x: int, y: int) -> str:
    first, end = (x + 16, x + 16) if look in MARKS else (x, x + 22)
    return f'{look_svg(look, first, end, y)}<text class="quiet" x="{x + 28}" y="{y + 14}">{words}</text>\n'


def legend_svg(has_key: bool, has_warnings: bool, y: int) -> tuple[str, int]:
    """Returns the legend below a height, and the height below it."""
    signs = [("alarmed", "served untimely, or by no owner of the key")] if has_warnings else []
    signs += [("may", "may serve the key")] if has_key else []
    svg, x = "", MARGIN
    for look, words in (*signs, *SIGNS):
        width = text_width(words) + 48
        if (look, words) in SIGNS and x + width > LEFT + WIDTH:
            x, y = MARGIN, y + LEVEL
        svg += entry_svg(look, words, x, y)
        x += width
    return svg, y + LEVEL


def warnings_svg(note: str, alarms: list[Alarm], y: int) -> tuple[str, int]:
    """Returns the lines of a note and the first warnings below a height, and the height below them."""
    lines = [text(line) for line in note.splitlines()]
    lines += map(str, alarms[:MOST_WARNINGS])
    if len(alarms) > MOST_WARNINGS:
        lines.append(f"and {len(alarms) - MOST_WARNINGS} more")
    svg = "".join(
        f'<text class="warning" x="{MARGIN}" y="{y + LEVEL * index + 14}">{line}</text>\n'
        for index, line in enumerate(lines)
    )
    return svg, y + LEVEL * len(lines)


def stretch_words(stretches: list[Span]) -> str:
    """Returns stretches in words. Those that touch are one."""
    if not stretches:
        return ""
    words, end = f"May serve the key from {stretches[0].first}", stretches[0].end
    for it in stretches[1:]:
        words += f" to {end}, and from {it.first}" if end != it.first else ""
        end = it.end
    return f"{words} to {end}.\n"


def summary(shown: Shown) -> str:
    """Returns what a picture shows in words, one line for each thing."""
    note = f"{text(shown.note)}\n" if shown.note else ""
    lines = [note, *(f"{it}.\n" for it in shown.alarms)]
    for lane in shown.drawn():
        items = "".join(f"{text(item.words)}.\n" for row in lane.rows for item in row.items)
        lines.append(f"{lane.name}:\n{stretch_words(shown.stretches_of(lane))}{items}")
    return "".join(lines)


def draw(shown: Shown, heading: str, has_key: bool) -> str:
    """Returns a picture. `has_key` is whether its stretches are those of a key."""
    axis = Axis(shown.readings())
    lanes, y = "", ABOVE_LANES
    for lane in shown.drawn():
        svg, y = lane_svg(axis, shown, lane, y)
        lanes += svg
    legend, y = legend_svg(has_key, bool(shown.alarms), y)
    warnings, y = warnings_svg(shown.note, shown.alarms, y)
    height = y + 8
    return (
        '<svg xmlns="http://www.w3.org/2000/svg" role="img" aria-labelledby="title desc"'
        f' width="1000" height="{height}" viewBox="0 0 1000 {height}">\n'
        f'<title id="title">{text(heading)}</title>\n<desc id="desc">{summary(shown)}</desc>\n{STYLE}'
        f'<rect class="paper" width="1000" height="{height}"/>\n'
        '<text class="quiet" text-anchor="end" x="980" y="22">readings in ticks; long gaps are drawn shorter</text>\n'
        f'<text class="heading" x="14" y="22">{text(heading)}</text>\n'
        f"{readings_svg(axis)}{lanes}{legend}{warnings}</svg>\n"
    )
