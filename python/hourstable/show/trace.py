"""Traces, read from their lines. docs/FORMATS.md has the members and their units."""

from __future__ import annotations

import json
from collections.abc import Iterable, Iterator, Mapping
from dataclasses import dataclass, field
from typing import Any, NamedTuple

VERSION = 1
ENDED_LIFE = (1 << 32)  # the number of a note that gives back all leases of a kind of a life that ended
NUMBERS = frozenset((
    "assigner at bridge breaks churn committed deadline ends from gain generation grace granted guard handle here job"
    " last made now number numbers position proposed reading rows sent skew slice_key start term there ticket to"
    " total until untimely not_owner"
).split())  # a member of one of these names may be a text of digits

Members = dict[str, Any]


class Unreadable(Exception):
    """A text that is no trace of a version that is read here: the line, and what is wrong with it."""


class Place(NamedTuple):
    """Where a call stands: its number among the calls, from 1; of logs the index of its log, and its line there."""

    call: int
    log: int = 0
    line: int = 0


class Owners(NamedTuple):
    """The tasks that own the key of a request in the committed assignment, and its generation, 0 for none."""

    generation: int
    tasks: tuple[int, ...]


class Lease(NamedTuple):
    """A lease that a task holds, which may have ended. `ends` is the task's deadline."""

    kind: str
    number: int
    generation: int
    ends: int
    covers: bool
    heard: Place | None


class Rule(NamedTuple):
    """What the written rule is asked for a key: whether the task was started, the last reading that it accepted, and
    the leases that it holds, the guard lease first. `decides` is the one by which the rule answers, if one does."""

    started: bool
    last: int
    leases: tuple[Lease, ...]
    decides: Lease | None


class Sent(NamedTuple):
    """Why nothing sent before what a call delivers. `way` is `later`, `other` or `nothing`; `at` the call that sends
    it later, or that sent another one in its place, with the first member that differs."""

    way: str
    at: Place | None = None
    ticket: int = 0
    member: str = ""
    here: int | str | None = None
    there: int | str | None = None


@dataclass(frozen=True, slots=True)
class Reason:
    """The values that decide a reply. Which of them there are follows from the reply."""

    rule: Rule | None = None
    denied: str = ""
    owners: Owners | None = None
    last: int = 0
    life: int | None = None
    term: Members | None = None
    row: Members | None = None
    heard: Members | None = None
    made: int = 0
    sent: Sent | None = None
    taken_first: Place | None = None
    taken_last: Place | None = None


@dataclass(frozen=True, slots=True)
class Call:
    """A call, its reply and what decides it. `members` are those of its line, `at` the reading of its clock."""

    place: Place
    do: str
    members: Members
    reply: Members
    reason: Reason | None = None
    untimely: int | None = None
    not_owner: int | None = None

    @property
    def at(self) -> int | None:
        """The reading of its clock; None if it reads none. A `restore` counts as a reading of the table's."""
        found: int | None = self.members.get("last" if self.do == "restore" else "at")
        return found

    @property
    def word(self) -> str:
        """The first word of the reply's line, as `served`, `denied`, `refused` or `heard`; none without a reply."""
        for name in ("denied", "refused"):
            if name in self.reply:
                return name
        return str(self.reply.get("reply", ""))

    @property
    def ground(self) -> str:
        """Why the call is denied or refused, in one word."""
        return str(self.reply.get("denied") or self.reply.get("refused") or "")

    @property
    def task(self) -> int | None:
        """The task that takes the call, if a task does."""
        return int(self.members["task"]) if self.do in TASK_CALLS else None

    @property
    def slice_key(self) -> int | None:
        """The slice key of a request; None for other calls."""
        if self.do == "check":
            found = self.members.get("handle") or {}
        else:
            found = self.members if self.do in ("serve", "hold", "look") else {}
        key: int | None = found.get("slice_key")
        return key


TASK_CALLS = frozenset("start hear release serve hold check open".split())
TABLE_CLOCK = frozenset("take renew propose commit grant free".split())
TASK_CLOCK = TASK_CALLS - {"open"}


class Stretch(NamedTuple):
    """Readings of a task's clock at which one of its processes may serve the key of the trace, under one lease: from
    `first` up to but not with `end`. `process` is how many `open`s of the task came before."""

    task: int
    process: int
    first: int
    end: int
    lease: Members


class Handle(NamedTuple):
    """A handle, by its number: the first reading at which a check finds it broken."""

    number: int
    breaks: int


class Fault(NamedTuple):
    """A call whose caller was told other words than the machines answer."""

    call: Call
    told: str


class Reading(NamedTuple):
    place: Place | None
    at: int


class Untimely(NamedTuple):
    """The first reading of a task's clock that is not timely, with the first reading of the table's clock before it
    that is more than the skew above it, and the greatest one, whose place is None if it is of earlier logs."""

    task: Reading
    first: Reading
    greatest: Reading


class Counts(NamedTuple):
    """How many calls each actor took: tasks and clerks by their numbers."""

    table: int
    tasks: tuple[tuple[int, int], ...]
    clerks: tuple[tuple[int, int], ...]


@dataclass(frozen=True, slots=True)
class End:
    """What the last line says of the whole trace."""

    calls: int
    untimely: Untimely | None = None
    verdict: str = "one"
    double: Members | None = None
    counts: Counts | None = None
    one_word: int = 0
    silent: tuple[int, ...] = ()
    hints: tuple[Members, ...] = ()
    drift: Members | None = None
    forgotten: bool = False


@dataclass(frozen=True, slots=True)
class Head:
    """What the first line says: the job, and of logs their names. `slice_key` is the key whose stretches follow,
    and `key` its text if it was given so."""

    of_logs: bool
    job: Members
    logs: tuple[str, ...] = ()
    torn: tuple[Place, ...] = ()
    slice_key: int | None = None
    key: str | None = None


@dataclass(slots=True)
class Trace:
    """A trace. `calls` are in the order in which they were made. Those of logs that are not one run end before the
    first fault, and `rest` are the calls from there on, which have no reply."""

    head: Head
    end: End
    calls: list[Call] = field(default_factory=list)
    rest: list[Call] = field(default_factory=list)
    stretches: list[Stretch] = field(default_factory=list)
    handles: dict[int, Handle] = field(default_factory=dict)
    faults: list[Fault] = field(default_factory=list)

    def standing(self, place: Place | None) -> str:
        """Returns where a call stands: its log and its line."""
        if place is None or place.log >= len(self.head.logs):
            return ""
        return f"{escaped(self.head.logs[place.log])}:{place.line}"


def escaped(text: str) -> str:
    """Returns a text with escapes in place of quotes, backslashes and all bytes that are not printing ASCII."""
    if text.isascii() and text.isprintable() and '"' not in text and "\\" not in text:
        return text
    return "".join(map(escape, text.encode("utf-8", "surrogateescape")))


def escape(byte: int) -> str:
    named = {9: "\\t", 10: "\\n", 13: "\\r", 34: '\\"', 92: "\\\\"}
    if byte in named:
        return named[byte]
    return chr(byte) if 32 <= byte < 127 else f"\\x{byte:02x}"


def with_numbers(pairs: list[tuple[str, Any]]) -> Members:
    return {
        name: int(value) if value.__class__ is str and name in NUMBERS and value.isdecimal() else value
        for name, value in pairs
    }


DECODER = json.JSONDecoder(object_pairs_hook=with_numbers)


def place_of(found: Mapping[str, Any]) -> Place:
    return Place(found["call"], found.get("log", 0), found.get("line", 0))


def place_at(members: Members, name: str) -> Place | None:
    return place_of(members[name]) if name in members else None


def lease_of(found: Members) -> Lease:
    kind, number, generation = found["kind"], found["number"], found["generation"]
    return Lease(kind, number, generation, found["ends"], found["covers"], place_at(found, "heard"))


def rule_of(found: Members) -> Rule:
    leases = tuple(map(lease_of, found["leases"]))
    decides = next((it for it in leases if it.number == found.get("number")), None)
    return Rule(found["started"], found["last"], leases, decides)


def sent_of(found: Members) -> Sent:
    if "later" in found:
        return Sent("later", place_of(found["later"]), found["later"]["ticket"])
    if "other" in found:
        place, here, there = place_of(found["other"]), found.get("here"), found.get("there")
        return Sent("other", place, member=found["member"], here=here, there=there)
    return Sent("nothing")


def reason_of(found: Members) -> Reason:
    owners, taken = found.get("owners"), found.get("taken", {})
    return Reason(
        rule=rule_of(found["rule"]) if "rule" in found else None,
        denied=found.get("denied", ""),
        owners=Owners(owners["generation"], tuple(owners["tasks"])) if owners else None,
        last=found.get("last", 0),
        life=found.get("life"),
        term=found.get("term"),
        row=found.get("row"),
        heard=found.get("heard"),
        made=found.get("made", 0),
        sent=sent_of(found["sent"]) if "sent" in found else None,
        taken_first=place_at(taken, "first"),
        taken_last=place_at(taken, "last"),
    )


def call_of(found: Members) -> Call:
    return Call(
        place=place_of(found),
        do=found["do"],
        members=found,
        reply=found.get("reply", {}),
        reason=reason_of(found["reason"]) if "reason" in found else None,
        untimely=found.get("untimely"),
        not_owner=found.get("not_owner"),
    )


def stretch_of(found: Members) -> Stretch:
    return Stretch(found["task"], found["process"], found["from"], found["to"], found["lease"])


def reading_of(found: Members) -> Reading:
    return Reading(place_of(found) if "call" in found else None, found["at"])


def untimely_of(found: Members) -> Untimely:
    return Untimely(reading_of(found["task"]), reading_of(found["first"]), reading_of(found["greatest"]))


def counts_of(found: Members) -> Counts:
    tasks, clerks = (tuple((actor, many) for actor, many in found[it]) for it in ("tasks", "clerks"))
    return Counts(found["table"], tasks, clerks)


def end_of(found: Members) -> End:
    return End(
        calls=found["calls"],
        untimely=untimely_of(found["untimely"]) if "untimely" in found else None,
        verdict=found.get("verdict", "one"),
        double=found.get("double"),
        counts=counts_of(found["counts"]) if "counts" in found else None,
        one_word=found.get("one_word", 0),
        silent=tuple(found.get("silent", ())),
        hints=tuple(found.get("hints", ())),
        drift=found.get("drift"),
        forgotten=found.get("forgotten", False),
    )


def head_of(found: Members) -> Head:
    if found.get("trace") != VERSION:
        raise Unreadable(f"line 1 is not the first of a trace of version {VERSION}")
    torn = tuple(Place(0, it["log"], it["line"]) for it in found.get("torn", ()))
    key = found.get("slice_key"), found.get("key")
    return Head(found["of"] == "logs", found["job"], tuple(found.get("logs", ())), torn, *key)


def parsed(lines: Iterable[bytes]) -> Iterator[tuple[int, Members]]:
    """Yields the values of lines with their numbers."""
    for number, line in enumerate(lines, 1):
        try:
            found = DECODER.decode(line.decode())
        except ValueError as why:
            raise Unreadable(f"line {number} is no JSON text: {why}") from None
        if not isinstance(found, dict):
            raise Unreadable(f"line {number} is no object")
        yield number, found


def add(trace: Trace, found: Members) -> None:
    """Adds what a line between the first one and the last one says."""
    if "call" in found:
        (trace.calls if "reply" in found else trace.rest).append(call_of(found))
    elif "stretch" in found:
        trace.stretches.append(stretch_of(found["stretch"]))
    elif "broken" in found:
        handle = Handle(found["broken"]["handle"], found["broken"]["breaks"])
        trace.handles[handle.number] = handle
    elif "fault" in found:
        trace.faults.append(Fault(call_of(found["fault"]), found["fault"]["told"]))


def read(lines: Iterable[bytes]) -> Trace:
    """Returns the trace that lines say, or raises Unreadable. Lines of a kind that is not known are passed over."""
    trace: Trace | None = None
    number = 0
    for number, found in parsed(lines):
        try:
            if trace is None:
                trace = Trace(head_of(found), End(0))
            elif "end" in found:
                trace.end = end_of(found["end"])
                return trace
            else:
                add(trace, found)
        except (KeyError, TypeError, AttributeError) as why:
            raise Unreadable(f"line {number} lacks a member, or has one of another kind: {why!r}") from None
    raise Unreadable(f"it has no last line, and ends after line {number}" if number else "it is empty")
