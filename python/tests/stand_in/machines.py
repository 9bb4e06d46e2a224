"""The machines of a job, as the library has them, with what was sent among them."""

from __future__ import annotations

import json
from typing import Any, NamedTuple

from hourstable import library
from hourstable.library import Clerk, Policy, Refused, Table

from .tasks import JOB, Members, Task

WORDS = {"OLD_GENERATION": "old"}
NUMERIC = ("until", "number", "generation")
NOT_SENT: Members = {"refused": "not-sent"}
NO_ACTOR: Members = {"refused": "no-actor"}


class SentGrant(NamedTuple):
    message: bytes
    ranges: list[tuple[int, int]]
    members: Members  # as a message has them, without the ranges


def refusal_of(why: Refused) -> Members:
    """Returns a refusal by a machine as a reply."""
    word = WORDS.get(why.name, why.name.lower().replace("_", "-"))
    return {"refused": word, **{name: str(it) if name in NUMERIC else it for name, it in why.carried.items()}}


def policy_of(job: Members) -> Policy:
    low, high = job["redundancy"] if isinstance(job["redundancy"], list) else [job["redundancy"]] * 2
    return Policy(
        low=low, high=high, skew=job["skew"], guard=job["guard"], bridge=job["bridge"], job=job["job"],
        numbers=job["numbers"],
    )


def grant_members(read: library.GrantRead) -> Members:
    return {
        "number": str(read.number), "task": read.task, "life": read.life, "kind": read.kind,
        "generation": str(read.generation), "ends": str(read.ends), "until": str(read.table_ends),
    }


def message(kind: str, value: Members) -> bytes:
    """Returns a message of version 2."""
    whole = {"job": JOB, "type": kind, "value": value, "version": 2}
    return json.dumps(whole, separators=(",", ":"), sort_keys=True).encode()


class Machines:
    """A table, tasks and clerks, and what they sent: what is delivered must be one of those."""

    def __init__(self, job: Members) -> None:
        self.job = job
        self.table = Table(JOB, policy_of(job))
        self.tasks = {number: Task(number) for number in range(1, job["tasks"] + 1)}
        self.clerks = {number: Clerk(JOB) for number in range(1, job["clerks"] + 1)}
        self.grants: dict[int, SentGrant] = {}
        self.notes: list[Members] = []
        self.handles: list[Members] = []
        self.published: dict[int, bytes] = {}
        self.pending: bytes | None = None
        self.term: Members | None = None
        self.last = 0  # the table's last accepted reading

    def close(self) -> None:
        for one in [self.table, *self.clerks.values(), *(it.slicelet for it in self.tasks.values())]:
            one.close()

    def committed(self) -> library.AssignmentRead | None:
        """Returns the committed assignment, None before the first."""
        try:
            return library.read_assignment(JOB, self.table.committed())
        except Refused:
            return None

    def generation(self) -> int:
        found = self.committed()
        return found.generation if found else 0

    def owners(self, slice_key: int) -> tuple[int, list[int]]:
        """Returns the committed generation, 0 for none, and the tasks that own a key in it."""
        try:
            message = self.table.committed()
        except Refused:
            return 0, []
        return library.read_assignment(JOB, message).generation, library.slice_of(JOB, message, slice_key)[1]

    def covers(self, number: int, slice_key: int) -> bool:
        sent = self.grants.get(number)
        return sent is not None and any(first <= slice_key < end for first, end in sent.ranges)

    # Calls of the table. Each returns its reply.

    def take(self, assigner: int, at: int, renewed: int | None = None) -> Members:
        """Takes the job lease, or renews a term."""
        if renewed is None and not 1 <= assigner <= self.job["assigners"]:
            return NO_ACTOR
        try:
            term = self.table.take(assigner, at) if renewed is None else self.table.renew(renewed, at)
        except Refused as why:
            return refusal_of(why)
        self.last = at
        self.term = {"number": str(term.number), "assigner": str(term.assigner), "until": str(term.until)}
        word = "term" if renewed is None else "renewed"
        return {"reply": word, "number": str(term.number), "until": str(term.until)}

    def propose(self, term: int, generation: int, slices: list[Any], at: int) -> Members:
        try:
            assignment = library.new_assignment(JOB, generation, [(int(start), owners) for start, owners in slices])
            self.table.propose(term, assignment, at)
        except Refused as why:
            return refusal_of(why)
        self.last, self.pending = at, assignment
        return {"reply": "proposed", "generation": str(generation)}

    def commit(self, term: int, at: int) -> Members:
        try:
            generation = self.table.commit(term, at)
        except Refused as why:
            return refusal_of(why)
        self.last = at
        self.published[generation] = self.table.committed()
        return {"reply": "committed", "generation": str(generation)}

    def grant(self, task: int, life: int, at: int) -> Members:
        if task not in self.tasks:
            return NO_ACTOR
        try:
            sent = self.table.grant(task, life, at)
        except Refused as why:
            return refusal_of(why)
        self.last = at
        read = library.read_grant(JOB, sent)
        members = grant_members(read)
        self.grants[read.number] = SentGrant(sent, read.ranges, members)
        return {"reply": "grant", **{it: members[it] for it in ("number", "kind", "generation", "until", "ends")}}

    def free(self, note: Members | None, at: int) -> Members:
        if note is None:
            return NOT_SENT
        try:
            rows = self.table.free(message("note", note), at)
        except Refused as why:
            return refusal_of(why)
        self.last = at
        return {"reply": "freed", "rows": rows}

    def lose(self) -> Members:
        return {"reply": "lost", "rows": self.table.restart()}

    def phase(self) -> Members:
        phase = self.table.phase()
        if phase.proposed == 0:
            return {"reply": "phase", "phase": "steady", "generation": str(phase.committed)}
        return {"reply": "phase", "phase": "bridging", "from": str(phase.committed), "to": str(phase.proposed)}

    def rows(self) -> list[Members]:
        return [
            {
                "number": str(row.number), "task": row.task, "life": row.life, "kind": library.KIND_WORDS[row.kind],
                "generation": str(row.generation), "until": str(row.table_ends),
            }
            for row in self.table.rows()
        ]

    # Calls of tasks.

    def start(self, call: int, task: int, life: int, at: int) -> Members:
        if task not in self.tasks:
            return NO_ACTOR
        try:
            self.tasks[task].start(call, life, at)
        except Refused as why:
            return refusal_of(why)
        return {"reply": "started", "life": life}

    def hear(self, call: int, task: int, sent: SentGrant | None, at: int) -> Members:
        if task not in self.tasks:
            return NO_ACTOR
        if sent is None:
            return NOT_SENT
        try:
            self.tasks[task].hear(call, sent.message, int(sent.members["number"]), at)
        except Refused as why:
            return refusal_of(why)
        return {"reply": "heard", "number": sent.members["number"]}

    def release(self, call: int, task: int, kind: str, at: int) -> Members:
        if task not in self.tasks:
            return NO_ACTOR
        try:
            note = json.loads(self.tasks[task].release(call, kind, at))["value"]
        except Refused as why:
            return refusal_of(why)
        self.notes.append(note)
        return {"reply": "released", "note": len(self.notes), "life": note["life"], "number": note["number"]}

    def open(self, call: int, task: int, life: int) -> Members:
        if task not in self.tasks:
            return NO_ACTOR
        try:
            self.tasks[task].open(call, life)
        except ValueError:
            return {"refused": "old-life"}
        for kind in ("guard", "bridge"):
            note = json.loads(library.ended_note(JOB, task, life, kind))["value"]
            self.notes.append(note)
        return {"reply": "opened", "life": life}

    def serve(self, task: int, slice_key: int, at: int) -> Members:
        return self.tasks[task].answer(slice_key, at) if task in self.tasks else NO_ACTOR

    def hold(self, task: int, slice_key: int, at: int) -> Members:
        if task not in self.tasks:
            return NO_ACTOR
        try:
            handle = self.tasks[task].slicelet.hold_at(slice_key, at)
        except Refused:
            return self.tasks[task].answer(slice_key, at)
        self.handles.append({
            "task": task, "life": handle.life, "slice_key": str(slice_key), "position": str(handle.position),
        })
        number = len(self.handles)
        return {"reply": "handle", "handle": number, "life": handle.life, "position": str(handle.position)}

    def check(self, task: int, handle: Members | None, at: int) -> Members:
        if task not in self.tasks:
            return NO_ACTOR
        if handle is None:
            return NOT_SENT
        kept = self.tasks[task].keeps(handle, at)
        if kept is None:
            return {"refused": "stranger"}
        return {"reply": "continuous" if kept else "broken"}

    # Calls of clerks.

    def learn(self, clerk: int, generation: int, assignment: bytes | None) -> Members:
        if clerk not in self.clerks:
            return NO_ACTOR
        if assignment is None:
            return NOT_SENT
        try:
            self.clerks[clerk].learn(assignment)
        except Refused as why:
            return refusal_of(why)
        return {"reply": "learnt", "generation": str(generation)}

    def look(self, clerk: int, slice_key: int) -> Members:
        if clerk not in self.clerks:
            return NO_ACTOR
        try:
            found = self.clerks[clerk].look_at(slice_key)
        except Refused as why:
            return refusal_of(why)
        return {"reply": "found", "generation": str(found.generation), "owners": found.tasks}

    def forget(self, clerk: int) -> Members:
        if clerk not in self.clerks:
            return NO_ACTOR
        self.clerks[clerk].forget()
        return {"reply": "forgotten"}
