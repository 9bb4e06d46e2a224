"""Which calls of logs are wanted."""

from __future__ import annotations

from typing import NamedTuple

from .trace import Trace

AROUND = 50  # how many calls are shown before a call and after it


class BadView(Exception):
    """Words that name no view: the option with its value, and what is wrong."""


class Window(NamedTuple):
    """The calls from the index `first` up to but not with `end`."""

    first: int
    end: int


class View(NamedTuple):
    """Which calls: all, those around the one at a line of a log, or those from the first to the last that reads a
    clock from a reading to another."""

    around: tuple[int, int] | None = None
    readings: tuple[int, int] | None = None


def number_in(words: str, limit: int = 1 << 64) -> int | None:
    """Returns the number that words write in their shortest form, if it is below a limit."""
    if not (words.isascii() and words.isdecimal()) or words != str(int(words)):
        return None
    return int(words) if int(words) < limit else None


def around_of(logs: tuple[str, ...], words: str) -> tuple[int, int]:
    name, colon, line = words.rpartition(":")
    number = number_in(line)
    if not colon or number is None or name not in logs:
        raise BadView(f"--around {words}: it must be LOG:LINE, one of the logs and the number of a line in it")
    return logs.index(name), number


def readings_of(words: str) -> tuple[int, int]:
    first, dots, last = words.partition("..")
    found = number_in(first), number_in(last)
    if not dots or found[0] is None or found[1] is None:
        raise BadView(f"--readings {words}: it must be A..B, two numbers below 2^64")
    return found[0], found[1]


def view_of(logs: tuple[str, ...], around: str | None, readings: str | None) -> View:
    """Returns the view that words ask for, or raises BadView."""
    if readings is None:
        return View(around=None if around is None else around_of(logs, around))
    if around is not None:
        raise BadView(f"--readings {readings}: it cannot be given with --around")
    return View(readings=readings_of(readings))


def slice_key_of(words: str) -> int:
    found = number_in(words, 1 << 63)
    if found is None:
        raise BadView(f"--slice-key {words}: it must be a number below 2^63")
    return found


def window_of(trace: Trace, view: View) -> Window | None:
    """Returns the window of the wanted calls, None if there is none."""
    every = [*trace.calls, *trace.rest]
    if view.around:
        found = next((it for it, call in enumerate(every) if (call.place.log, call.place.line) == view.around), None)
        return None if found is None else Window(max(found - AROUND, 0), min(found + 1 + AROUND, len(every)))
    if view.readings:
        first, last = view.readings
        inside = [it for it, call in enumerate(every) if call.at is not None and first <= call.at <= last]
        return Window(inside[0], inside[-1] + 1) if inside else None
    return Window(0, len(every))
