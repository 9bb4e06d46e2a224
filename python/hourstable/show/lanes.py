"""The contents of a picture, before it is drawn: lanes with rows of things, warnings, and stretches."""

from __future__ import annotations

from collections.abc import Iterable, Iterator
from dataclasses import dataclass, field
from typing import NamedTuple

FOREVER = (1 << 64) - 1  # the end of a span that does not end
MARKS = frozenset("released served alarmed denied refused done".split())


class Part(NamedTuple):
    """A part of a thing, between two readings in ticks, which are the same for a mark. `look` is the class of what is
    drawn; a `released` is a mark at its end."""

    look: str
    first: int
    end: int


@dataclass(slots=True)
class Item:
    """A thing in a row: its parts, its label and a description. `short` is a label for a part that has no room for
    the other."""

    parts: list[Part]
    label: str
    words: str
    short: str | None = None

    @property
    def short_label(self) -> str:
        return self.label if self.short is None else self.short


def mark(look: str, at: int, label: str, words: str) -> Item:
    return Item([Part(look, at, at)], label, words)


class Row(NamedTuple):
    name: str
    items: list[Item]


@dataclass(slots=True)
class Lane:
    """The lane of an actor: `table`, or `task` or `clerk` with its number."""

    actor: str
    number: int
    rows: list[Row] = field(default_factory=list)

    @property
    def name(self) -> str:
        return f"{self.actor} {self.number}" if self.number else self.actor


class Alarm(NamedTuple):
    """A warning of a call that reads a task's clock. `words` follow where it stands."""

    place: str
    task: int
    at: int
    words: str

    def __str__(self) -> str:
        return f"{self.place}: {self.words}"


class Span(NamedTuple):
    """Readings from `first` up to but not with `end`."""

    first: int
    end: int


@dataclass(slots=True)
class Shown:
    """What a picture shows: what it says before all else, its lanes, for each task the readings at which it may serve
    the key, and the warnings."""

    note: str
    lanes: list[Lane]
    stretches: dict[int, list[Span]]
    alarms: list[Alarm]

    def stretches_of(self, lane: Lane) -> list[Span]:
        return self.stretches.get(lane.number, []) if lane.actor == "task" else []

    def alarms_of(self, lane: Lane) -> list[Alarm]:
        return [it for it in self.alarms if lane.actor == "task" and it.task == lane.number]

    def is_drawn(self, lane: Lane) -> bool:
        """Whether a lane is drawn: those of tasks and clerks to which nothing happened are left out."""
        return bool(lane.actor == "table" or lane.rows or self.stretches_of(lane) or self.alarms_of(lane))

    def drawn(self) -> list[Lane]:
        return [it for it in self.lanes if self.is_drawn(it)]

    def readings(self) -> Iterator[int]:
        """Yields all readings of the picture, each as often as it occurs."""
        for alarm in self.alarms:
            yield alarm.at
        for stretches in self.stretches.values():
            for stretch in stretches:
                yield from stretch
        for lane in self.lanes:
            for row in lane.rows:
                for item in row.items:
                    yield from readings_of(item.parts)


def readings_of(parts: Iterable[Part]) -> Iterator[int]:
    for part in parts:
        yield part.first
        if part.end != FOREVER:
            yield part.end


def cut_part(part: Part, span: Span) -> Part | None:
    """Returns the part of a part that lies in a span. A mark outside of it moves to its edge: it is of a call that
    reads no clock."""
    first = min(max(part.first, span.first), span.end)
    end = max(min(part.end, span.end), span.first)
    return Part(part.look, first, end) if part.first == part.end or first < end else None


def cut_items(items: Iterable[Item], span: Span) -> Iterator[Item]:
    for item in items:
        parts = [it for it in (cut_part(part, span) for part in item.parts) if it]
        if parts:
            yield Item(parts, item.label, item.words, item.short)


def cut(lane: Lane, span: Span) -> Lane:
    """Returns what of a lane lies in a span."""
    rows = (Row(row.name, list(cut_items(row.items, span))) for row in lane.rows)
    return Lane(lane.actor, lane.number, [row for row in rows if row.items])


def ending(reading: int) -> str:
    return "on" if reading == FOREVER else f"to {reading}"
