"""Lines of logs, read as calls. Lines that are none were refused before: a real audit read them first."""

from __future__ import annotations

import json
from collections.abc import Iterator
from typing import Any, NamedTuple

from hourstable.library import slice_key

from .tasks import Members

NUMBERS = frozenset((
    "at term generation assigner last granted deadline sent reading now number ends until slice_key position"
).split())
TEXTS = NUMBERS  # of a trace: their limit is 2^53 or more
ENDED_LIFE = 1 << 32


class Entry(NamedTuple):
    """A call of a log: where it stands, its ticket, its members with numbers, and the words of its reply."""

    log: int
    line: int
    ticket: int
    call: Members
    words: str

    @property
    def do(self) -> str:
        return str(self.call["do"])


def with_numbers(found: Members) -> Members:
    return {name: int(it) if name in NUMBERS and isinstance(it, str) else it for name, it in found.items()}


def slices_of(found: list[Any]) -> list[tuple[int, list[int]]]:
    return [(int(start), sorted(owners)) for start, owners in found]


def joined(ranges: list[Any]) -> list[tuple[int, int]]:
    """Returns ranges, of which those that touch are one."""
    found: list[tuple[int, int]] = []
    for first, end in ((int(first), int(end)) for first, end in ranges):
        if found and found[-1][1] == first:
            found[-1] = found[-1][0], end
        else:
            found.append((first, end))
    return found


def call_of(found: Members) -> Members:
    """Returns the members of a call, without its ticket and its reply."""
    own = ("ticket", "reply")
    call = {name: it for name, it in found.items() if name not in own and not name.startswith("_")}
    if "key" in call:
        call["slice_key"] = slice_key(call.pop("key").encode("utf-8", "surrogatepass"))
    if call["do"] == "resume":
        call["do"] = "open"
    if "slices" in call:
        call["slices"] = slices_of(call["slices"])
    return call


def parsed(log: int, text: bytes, torn: frozenset[int]) -> Iterator[tuple[int, Members]]:
    """Yields the values of the lines of a log with their numbers, but for blank ones and those that were left out."""
    for number, line in enumerate(text.split(b"\n"), 1):
        if line.strip(b" \t\r") and number not in torn:
            yield number, json.loads(line, object_hook=with_numbers)


def read(logs: list[bytes], torn: list[frozenset[int]]) -> tuple[Members, list[Entry]]:
    """Returns the job of logs, and their calls in the order of their tickets; writes are none. `torn` are the lines
    of each that were left out."""
    job: Members = {}
    entries = []
    for log, text in enumerate(logs):
        for number, found in parsed(log, text, torn[log]):
            if "job" in found and "do" not in found:
                job = found["job"]
            elif found["do"] != "write":
                entries.append(Entry(log, number, int(found["ticket"]), call_of(found), found["reply"]))
    return job, sorted(entries, key=lambda it: it.ticket)


def written(value: Any, name: str = "") -> Any:
    """Returns a member as a trace has it: a number that may be 2^53 or more is a text."""
    if isinstance(value, dict):
        return {key: written(it, key) for key, it in value.items()}
    if name == "slices":
        return [[str(start), owners] for start, owners in value]
    if name == "ranges":
        return [[str(first), str(end)] for first, end in value]
    return str(value) if name in TEXTS and isinstance(value, int) else value
