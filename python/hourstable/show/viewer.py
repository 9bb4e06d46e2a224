"""A page that shows a trace: lanes that zoom, with a reason for each call. It is one file, which loads nothing."""

from __future__ import annotations

import base64
import gzip
import hashlib
import json
from collections.abc import Iterator
from pathlib import Path
from typing import Any

from . import report, sentences
from .lanes import FOREVER, Item, Part
from .pictures import cut_points, is_shown, later_readings, log_heading, shown_calls
from .story import Lease, Story
from .trace import TASK_CALLS, Call, Place, Reason, Trace, Unreadable, escaped
from .views import Window
from .words import line_of, plain_line

STATIC = Path(__file__).with_name("static")
SCRIPTS = ("data", "drawing", "viewer")  # in the order in which they run
KINDS = ("served", "denied", "refused", "done", "warned", "fault", "unjudged")  # of marks, as viewer.js numbers them
KIND_OF = {"served": 0, "continuous": 0, "found": 0, "denied": 1, "broken": 1, "refused": 2}
COLUMNS = ("at", "lane", "kind", "what", "reply", "why", "decides", "other", "place", "ticket", "number")  # of calls
ARROWS = ("grant", "note", "assignment")  # what a message is


class Data:
    """What the page is given: columns of calls, spans of lanes, arrows, and what was found."""

    def __init__(self, trace: Trace, window: Window) -> None:
        self.trace, self.window = trace, window
        self.story = Story(trace)
        self.lanes: dict[str, int] = {}
        self.columns: dict[str, list[Any]] = {it: [] for it in COLUMNS}
        self.rows: dict[int, int] = {}  # the index in the columns of each call
        self.heard: dict[int, int] = {}
        self.sent: dict[tuple[str, str], int] = {}  # who sent a message, by its kind and its number
        self.arrows: list[tuple[int, int, int]] = []
        # Calls without a reading are at the last one before them, or else at the first one.
        readings = (it.at for it in (*trace.calls, *trace.rest))
        self.now = next((it for it in readings if it is not None), 0)

    def lane_of(self, call: Call) -> int:
        if call.do in TASK_CALLS or call.do == "sample":
            name = f"task {call.members['task']}"
        elif "clerk" in call.members:
            name = f"clerk {call.members['clerk']}"
        else:
            name = "table"
        return self.lanes.setdefault(name, len(self.lanes))

    def standing(self, place: Place) -> str:
        return self.trace.standing(place) if self.trace.head.of_logs else sentences.step_name(place)

    def kind_of(self, call: Call) -> int:
        if not call.reply:
            return KINDS.index("unjudged")
        if call.untimely is not None or call.not_owner is not None:
            return KINDS.index("warned")
        return KIND_OF.get(call.word, KINDS.index("done"))

    def sentence(self, call: Call) -> str:
        """Returns why a reply is what it is, also of a handle that was given."""
        if call.word == "handle" and call.reason:
            return sentences.verdict_words(call, call.reason, "", self.standing)
        told = sentences.sentence(call, self.standing) or ""
        return told or report.why(self.trace, call).removeprefix(": ") if self.trace.head.of_logs else told

    def why(self, call: Call) -> str:
        """Returns the sentences on a call: why its reply is what it is, and what is warned of."""
        found = [self.sentence(call)]
        if call.untimely is not None:
            before = f"{call.untimely}, which the table read before"
            found.append(f"untimely: the reading is more than the skew below {before}")
        if call.not_owner is not None:
            found.append(f"the task does not own the key in generation {call.not_owner}")
        return " ".join(f"{it[0].upper()}{it[1:]}." for it in found if it)

    def key_of(self, call: Call) -> str | None:
        """Returns the key of a request, None if it is not known."""
        head = self.trace.head
        known: str | None = call.members.get("key", head.key if call.slice_key == head.slice_key else None)
        return None if call.slice_key is None else known

    def what(self, call: Call) -> str:
        """Returns the words of a call, with its key if it is known."""
        words, key = call_words(call), self.key_of(call)
        return words if key is None else words.replace(f"slice_key {call.slice_key}", f"key {key}")

    def place(self, call: Call) -> str:
        """Returns where a call stands, with the slice key if its words have the key."""
        slice_key = "" if self.key_of(call) is None else f", slice key {call.slice_key}"
        return f"{self.standing(call.place)}{slice_key}"

    def decides(self, call: Call) -> int:
        """Returns the number of the grant whose lease decides a reply, 0 if none does."""
        rule = call.reason.rule if call.reason else None
        if rule and rule.decides:
            return rule.decides.number
        return int(call.reason.row["number"]) if call.reason and call.reason.row else 0

    def other(self, call: Call) -> int:
        """Returns the number of another call that decides a reply, 0 if none does: one that took the key of a handle
        away, or that sent something else or later."""
        reason = call.reason or Reason()
        place = reason.taken_last or reason.taken_first or (reason.sent.at if reason.sent else None)
        return place.call if place else 0

    def add(self, call: Call) -> None:
        """Adds a call, with a mark if it is wanted."""
        self.now = self.now if call.at is None else call.at
        if call.reply:
            self.story.see(call, None)
        if not self.window.first <= call.place.call - 1 < self.window.end:
            return
        if not is_shown(call, self.trace.head.slice_key):
            return
        row = self.rows[call.place.call] = len(self.columns["at"])
        reply = plain_line(call.reply) if self.trace.head.of_logs and call.reply else ""
        told = {
            "at": self.now, "lane": self.lane_of(call), "kind": self.kind_of(call), "what": self.what(call),
            "reply": reply or (line_of(call.reply) if call.reply else "not judged"), "why": self.why(call),
            "decides": self.decides(call), "other": self.other(call), "place": self.place(call),
            "ticket": str(call.members.get("ticket", "")), "number": call.place.call,
        }
        for name, value in told.items():
            self.columns[name].append(value)
        if call.reply:
            self.add_messages(call, row)

    def add_messages(self, call: Call, row: int) -> None:
        """Adds what a call sent, or an arrow from who sent what it delivers."""
        reply, word = call.reply, call.word
        if word == "grant":
            self.sent["grant", str(reply["number"])] = row
        elif word == "released":
            self.sent["note", f"{call.members['task']} {reply['number']}"] = row
        elif word == "committed":
            self.sent["assignment", str(reply["generation"])] = row
        elif word == "heard":
            self.heard[reply["number"]] = row
            self.arrow("grant", str(reply["number"]), row)
        elif word == "freed":
            note = call.members["note"]
            self.arrow("note", f"{note['task']} {note['number']}", row)
        elif word == "learnt":
            self.arrow("assignment", str(reply["generation"]), row)

    def arrow(self, kind: str, key: str, row: int) -> None:
        sender = self.sent.get((kind, key))
        if sender is not None:
            self.arrows.append((sender, row, ARROWS.index(kind)))

    def add_fault(self) -> int | None:
        """Says what was told and what is right of the first fault. Returns its index."""
        for fault in self.trace.faults[:1]:
            row = self.rows.get(fault.call.place.call)
            if row is None:
                return None
            self.columns["kind"][row] = KINDS.index("fault")
            self.columns["reply"][row] = f'told "{escaped(fault.told)}"; should be "{plain_line(fault.call.reply)}"'
            self.columns["why"][row] = self.why(fault.call)
            self.columns["decides"][row] = self.decides(fault.call)
            self.columns["other"][row] = self.other(fault.call)
            return row
        return None

    def spans(self) -> Iterator[list[Any]]:
        """Yields the spans of lanes: lane, row, look, from, to, label, words, and the number of the grant."""
        table = self.story.table
        for name, items in (("phase", [*table.phases, table.phase(FOREVER)]), ("job lease", table.term_items())):
            yield from (it for item in items for it in spans_of_item(self.lane("table"), name, item, 0))
        for number, task in self.story.tasks.items():
            if f"task {number}" not in self.lanes and not task.leases:
                continue
            lane = self.lane(f"task {number}")
            yield from (it for item in task.life_items() for it in spans_of_item(lane, "life", item, 0))
            yield from (it for lease in task.leases for it in spans_of_lease(lane, lease))

    def lane(self, name: str) -> int:
        return self.lanes.setdefault(name, len(self.lanes))

    def handles(self) -> Iterator[list[Any]]:
        for call in shown_calls(self.trace, self.window):
            if call.word == "handle":
                handle = self.trace.handles[call.reply["handle"]]
                words = f"handle {handle.number} on {call.members['slice_key']}; it breaks at {handle.breaks}"
                part = Part("handle", call.at or 0, handle.breaks)
                item = Item([part], f"handle {handle.number}", words)
                yield from spans_of_item(self.lane_of(call), "handles", item, 0)

    def stretches(self) -> Iterator[list[int]]:
        """Yields where tasks may serve the key: lane, from, to, and the number of the grant whose lease lets them."""
        points = cut_points(self.trace.calls)
        for it in self.trace.stretches:
            end = min([it.end, *later_readings(points, it.task, it.process)])
            if it.first < end and f"task {it.task}" in self.lanes:
                yield [self.lanes[f"task {it.task}"], it.first, end, int(it.lease["number"])]

    def value(self) -> dict[str, Any]:
        """Returns the data as JSON has them. Readings are counted from the lowest one of a call."""
        for call in (*self.trace.calls, *self.trace.rest):
            self.add(call)
        fault = self.add_fault()
        spans = [*self.spans(), *self.handles()]
        stretches = list(self.stretches())
        base = min(self.columns["at"], default=0)
        self.columns["at"] = [it - base for it in self.columns["at"]]
        return {
            "title": heading(self.trace, len(self.rows)), "base": str(base), "lanes": list(self.lanes),
            "columns": self.columns, "arrows": self.arrows, "fault": fault, "report": found_words(self.trace),
            "spans": [[*it[:3], it[3] - base, None if it[4] == FOREVER else it[4] - base, *it[5:]] for it in spans],
            "stretches": [[lane, first - base, end - base, number] for lane, first, end, number in stretches],
            "bands": [
                [first - base, None if end == FOREVER else end - base, generation]
                for first, end, generation in self.story.table.generations() if generation
            ],
            "heard": self.heard,
        }


def spans_of_item(lane: int, row: str, item: Item, number: int) -> Iterator[list[Any]]:
    for part in item.parts:
        yield [lane, row, part.look, part.first, part.end, item.label, item.words, number]


def spans_of_lease(lane: int, lease: Lease) -> Iterator[list[Any]]:
    yield from spans_of_item(lane, lease.kind, lease.item(), lease.number)


def call_words(call: Call) -> str:
    """Returns the word of a call, and its members with their names."""
    members = call.members
    if "assigner" in members and call.do != "take":
        return f"{call.do} assigner {members['assigner']} at {call.at}"
    try:
        return report.call_words(call)
    except Unreadable:  # a step that delivers what was not made
        told = (f"{name} {members[name]}" for name in ("task", "clerk", "number", "at") if name in members)
        return " ".join([call.do, *told])


def heading(trace: Trace, drawn: int) -> str:
    """Returns what the page shows. A key is named by its text if the trace has that."""
    head, calls = trace.head, trace.end.calls
    if head.of_logs and head.key is None:
        return log_heading(head, drawn, calls)
    shown = f"{drawn} of {calls} calls of logs" if head.of_logs else f"Timeline of {calls} steps"
    return shown if head.key is None else f"{shown}, key {head.key}"


def found_words(trace: Trace) -> str:
    """Returns what was found: the report on logs, or whether the clocks of a script were timely."""
    if trace.head.of_logs:
        return report.report(trace)
    untimely = trace.end.untimely
    if untimely is None:
        return "timely yes\n"
    return f"timely no: {sentences.untimely_words(untimely, trace.head.job['skew'])}\n"


def read_static(name: str) -> str:
    return (STATIC / name).read_text(encoding="utf-8")


def hashed(text: str) -> str:
    """Returns the hash of a script or a style by which the page allows it."""
    return f"'sha256-{base64.b64encode(hashlib.sha256(text.encode()).digest()).decode()}'"


def page(trace: Trace, window: Window) -> str:
    """Returns the page of the calls in a window."""
    script = "\n".join(read_static(f"{it}.js") for it in SCRIPTS)
    style, form = read_static("viewer.css"), read_static("viewer.html")
    value = json.dumps(Data(trace, window).value(), separators=(",", ":"), ensure_ascii=True)
    packed = base64.b64encode(gzip.compress(value.encode(), 6, mtime=0)).decode()
    policy = f"default-src 'none'; script-src {hashed(script)}; style-src {hashed(style)}"
    for name, text in (("POLICY", policy), ("STYLE", style), ("SCRIPT", script), ("DATA", packed)):
        form = form.replace(f"{{{{{name}}}}}", text)
    return form
