"""Writes the lines of `serve`, `hold` and `check` at the least and the greatest numbers of each field, by hs_log_line
and by a block, and reads them by Python's own `json`. Each has just the members that docs/AUDIT.md names, with the
numbers that were passed, as the compact text of an object whose members are sorted.

Usage: lines.py
Run at the top of the repository, with HOURSTABLE_LIBRARY set. The status is 0 if all is as it should be.
"""

import itertools
import json
import sys
from collections.abc import Iterator
from ctypes import byref, c_size_t, create_string_buffer

sys.path.insert(0, "python")
from hourstable import library as hourstable  # noqa: E402
from hourstable.library import CALLS, CODES, KINDS, Block, KeyHandle, LoggedCall, Place, TaskClock  # noqa: E402

JOB = b"shop"
LEAST, MOST = {"owner": 1}, {"life": 2**32 - 1, "owner": 64, "slice_key": 2**63 - 1}
WIDTHS = [*(10**digits for digits in (1, 2, 3, 4, 5, 8, 9, 16, 19)), 2**31, 2**32, 2**53, 2**63, 2**64]
GROUNDS = {"DOWN": "down", "CLOCK_BACK": "clock-back", "ENDED": "ended", "NOT_OWNED": "not-owned {generation}",
           "NO_LEASE": "no-lease"}
CODE_OF = {name: code for code, name in CODES.items()}
Fields = dict[str, int]
library = hourstable.library


def numbers(field: str) -> list[int]:
    """The ends of a field's range, and where the text of its number gets another digit."""
    least, most = LEAST.get(field, 0), MOST.get(field, 2**64 - 1)
    near = {least, most, *(width + step for width in WIDTHS for step in (-1, 0, 1))}
    return sorted(number for number in near if least <= number <= most)


def given_numbers(fields: list[str]) -> Iterator[Fields]:
    """Each number of each field beside small numbers of the others, and all fields at their ends."""
    small = {field: place + 1 for place, field in enumerate(fields)}
    for field in fields:
        yield from ({**small, field: number} for number in numbers(field))
    for ends in itertools.product((0, -1), repeat=len(fields)):
        yield {field: numbers(field)[end] for field, end in zip(fields, ends, strict=True)}


def set_handle(handle: KeyHandle, given: Fields) -> None:
    handle.task, handle.life = given["owner"], given["life"]
    handle.slice_key, handle.position = given["slice_key"], given["position"]


def logged(do: str, code: int, given: Fields, kind: int = KINDS["guard"]) -> bytes:
    """The line of a call by hs_log_line."""
    call = LoggedCall(call=CALLS[do], code=code, ticket=given["ticket"], task=given["task"])
    call.at, call.slice_key = given["at"], given["slice_key"]
    call.told.generation, call.told.kind = given["generation"], kind
    set_handle(call.handle, given)
    return hourstable.log_line(JOB.decode(), call).encode()


def key_line(do: str, given: Fields, reply: str) -> dict[str, object]:
    return {"do": do, "reply": reply, **{name: given[name] for name in ("at", "slice_key", "task", "ticket")}}


def check_line(given: Fields, reply: str) -> dict[str, object]:
    handle = {name: given[name] for name in ("life", "position", "slice_key")}
    numbered = {name: given[name] for name in ("at", "task", "ticket")}
    return {"do": "check", "handle": {**handle, "task": given["owner"]}, "reply": reply, **numbered}


class Tried:
    """How many lines were tried, and how many of them are not as they should be."""

    def __init__(self) -> None:
        self.lines, self.faults = 0, 0

    def line(self, text: bytes, wanted: dict[str, object]) -> None:
        self.lines += 1
        compact = json.dumps(wanted, separators=(",", ":"), sort_keys=True)
        if text.decode() != compact or json.loads(text) != wanted:
            self.faults += 1
            print(f"{text!r}: should be {compact}")


def try_logged(tried: Tried) -> None:
    for given in given_numbers(["ticket", "task", "at", "slice_key", "generation", "life", "position", "owner"]):
        for word, kind in KINDS.items():
            words = f"served {word} {given['generation']}"
            tried.line(logged("serve", 0, given, kind), key_line("serve", given, words))
        words = f"handle life {given['life']} position {given['position']}"
        tried.line(logged("hold", 0, given), key_line("hold", given, words))
        for name, ground in GROUNDS.items():
            for do in ("serve", "hold"):
                words = "denied " + ground.format(**given)
                tried.line(logged(do, CODE_OF[name], given), key_line(do, given, words))
        for name, words in (("DONE", "continuous"), ("BROKEN", "broken"), ("STRANGER", "refused stranger")):
            tried.line(logged("check", CODE_OF[name], given), check_line(given, words))


def try_block(tried: Tried, given: Fields) -> None:
    """The lines of a block of a task that has begun no life: it is down, and each handle is a stranger's."""
    place, clock, block = Place(), TaskClock(0, 1, 0, oldest=9), Block(ticket=given["ticket"])
    needed, room = c_size_t(), create_string_buffer(512)
    out = (byref(block), room, len(room), byref(needed))
    assert library.hs_place_new(byref(place)) == 0
    assert library.hs_slicelet_open(byref(place), JOB, len(JOB), given["task"]) == 0
    clock.sample(0, given["at"], 0)
    code = library.hs_slicelet_enter_at(byref(place), byref(clock), 0, given["slice_key"], *out)
    assert code == CODE_OF["DOWN"]
    tried.line(room.raw[: needed.value - 1], key_line("hold", given, "denied down"))
    set_handle(block.handle, given)
    code = library.hs_slicelet_leave(byref(place), byref(clock), 0, *out)
    assert code == CODE_OF["STRANGER"]
    tried.line(room.raw[: needed.value - 1], check_line(given, "refused stranger"))
    library.hs_place_free(byref(place))


def main() -> int:
    tried = Tried()
    try_logged(tried)
    for given in given_numbers(["ticket", "slice_key", "life", "position"]):
        for task in (1, 9, 10, 64):
            try_block(tried, {**given, "task": task, "owner": task, "at": 5})
    print(f"{tried.lines} lines, {tried.faults} faults")
    return 1 if tried.faults else 0


sys.exit(main())
