"""Why nothing sent before what a call of a log delivers, by the words of all logs."""

from __future__ import annotations

from collections.abc import Callable, Iterable

from hourstable.library import new_assignment
from hourstable.show.words import plain_line

from .entries import ENDED_LIFE, Entry, joined, written
from .log_machines import LogMachines
from .reasons import Refer
from .tasks import JOB, Members

Sends = Callable[[Entry], bool]
GRANT_MEMBERS = ("task", "life", "kind", "generation", "ranges", "ends", "until")


def first(entries: list[Entry], indices: Iterable[int], sends: Sends) -> int | None:
    return next((it for it in indices if sends(entries[it])), None)


def sends_grant(grant: Members) -> Sends:
    words = plain_line({"reply": "grant", **grant})

    def sends(entry: Entry) -> bool:
        call = entry.call
        is_asked = entry.do == "grant" and (call["task"], call["life"]) == (grant["task"], grant["life"])
        return is_asked and entry.words == words

    return sends


def commits(generation: int) -> Sends:
    return lambda entry: entry.do == "commit" and entry.words == f"committed {generation}"


def proposes(call: Members, other: bool) -> Sends:
    """Whether an entry proposes the assignment of a call, or another one of its generation, and was accepted."""
    def message(of: Members) -> bytes:
        return new_assignment(JOB, of["generation"], of["slices"])

    def sends(entry: Entry) -> bool:
        if entry.do != "propose" or entry.words != f"proposed {call['generation']}":
            return False
        is_same = message(entry.call) == message(call)
        return not is_same and entry.call["generation"] == call["generation"] if other else is_same

    return sends


def sends_note(note: Members) -> Sends:
    def sends(entry: Entry) -> bool:
        call, words = entry.call, entry.words
        if entry.do == "release" and (call["task"], call["kind"]) == (note["task"], note["kind"]):
            end = f" number {note['number']}"
            is_numbered = words.startswith("released note ") and words.endswith(end)
            return is_numbered or words == f"released life {note['life']}{end}"
        if entry.do == "open" and (call["task"], call["life"]) == (note["task"], note["life"]):
            return bool(note["number"] == ENDED_LIFE and words == f"opened {note['life']}")
        return False

    return sends


def takes(handle: Members, other: bool = False, hidden: bool = False) -> Sends:
    """Whether an entry takes a handle, or one on another key; `hidden` if its words do not say which it is."""
    words = f"handle life {handle['life']} position {handle['position']}"

    def sends(entry: Entry) -> bool:
        if entry.do != "hold" or entry.call["task"] != handle["task"]:
            return False
        if (entry.call["slice_key"] == handle["slice_key"]) is other:
            return False
        if hidden:
            return entry.words.startswith("handle ") and not entry.words.startswith("handle life ")
        return entry.words == words

    return sends


class Causes:
    """Finds causes in the calls of logs, by their indices in the order of their tickets."""

    def __init__(self, machines: LogMachines, entries: list[Entry], refer: Refer) -> None:
        self.machines, self.entries, self.refer = machines, entries, refer

    def later(self, index: int, sends: Sends, after: int = -1) -> Members | None:
        found = first(self.entries, range(max(index, after) + 1, len(self.entries)), sends)
        if found is None:
            return None
        return {"later": {**self.refer(found + 1), "ticket": str(self.entries[found].ticket)}}

    def other(self, found: int, member: str, here: object = None, there: object = None) -> Members:
        values = {} if here is None else {"here": str(here), "there": str(there)}
        return {"other": self.refer(found + 1), "member": member, **values}

    def before(self, index: int, sends: Sends) -> int | None:
        return first(self.entries, range(index), sends)

    def of(self, index: int) -> Members | None:
        """Returns why nothing sent before what the call at an index delivers."""
        call = self.entries[index].call
        if call["do"] == "hear":
            return self.of_grant(index, call["grant"])
        if call["do"] == "free":
            return self.of_note(index, call["note"])
        if call["do"] == "check":
            return self.of_handle(index, call["handle"])
        return self.of_assignment(index, call)

    def of_grant(self, index: int, grant: Members) -> Members:
        found = self.later(index, sends_grant(grant))
        if found:
            return found
        sent = self.machines.grants.get(grant["number"])
        if sent is None:
            return {"nothing": True}
        there = {**sent.members, "ranges": sent.ranges}
        ranges = joined(grant["ranges"]) if "ranges" in grant else sent.ranges
        here = {**written({it: grant[it] for it in sent.members}), "ranges": ranges}
        member = next((it for it in GRANT_MEMBERS if here[it] != there[it]), None)
        place = self.before(index, sends_grant(sent.members))
        if member is None or place is None:
            return {"nothing": True}
        if member == "ranges":
            return self.other(place, member)
        return self.other(place, member, here[member], there[member])

    def of_note(self, index: int, note: Members) -> Members:
        found = self.later(index, sends_note(note))
        if found:
            return found
        kind = "bridge" if note["kind"] == "guard" else "guard"
        place = self.before(index, sends_note({**note, "kind": kind}))
        return {"nothing": True} if place is None else self.other(place, "kind", note["kind"], kind)

    def of_handle(self, index: int, handle: Members) -> Members | None:
        found = self.later(index, takes(handle))
        if found:
            return found
        place = self.before(index, takes(handle, other=True))
        if place is not None:
            there = self.entries[place].call["slice_key"]
            return self.other(place, "slice_key", str(handle["slice_key"]), str(there))
        hidden = first(self.entries, range(len(self.entries)), takes(handle, hidden=True))
        return {"nothing": True} if hidden is None else None

    def of_assignment(self, index: int, call: Members) -> Members:
        generation = call["generation"]
        if "slices" not in call:
            return self.later(index, commits(generation)) or {"nothing": True}
        proposal = first(self.entries, range(len(self.entries)), proposes(call, other=False))
        found = None if proposal is None else self.later(index, commits(generation), proposal)
        if found:
            return found
        place = self.before(index, proposes(call, other=True))
        return {"nothing": True} if place is None else self.other(place, "slices")
