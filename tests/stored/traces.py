"""The trace of a script, made of the lines that `hourstable run` writes of it.

It has what docs/FORMATS.md says of traces, and shares nothing with the crates: it keeps leases, handles and notes of
its own, and judges each request by the written rule (docs/CONCEPTS.md). So `hourstable trace` and this reader agree
on a wrong line only if both are wrong in the same way.
"""
import hashlib
import json
import re
from collections.abc import Iterator
from dataclasses import dataclass, field, replace
from typing import Any, NamedTuple

Json = dict[str, Any]
Ranges = list[tuple[int, int]]
Slices = list[tuple[int, list[int]]]

KEYS = 1 << 63
KINDS = ("guard", "bridge")
# Steps that no machine takes have no members but `do`.
ALONE = ("hash", "assign", "owners", "judge", "load", "gather", "plan", "next", "restart")
OF_TABLE = ("take", "renew", "propose", "commit", "grant", "free")
OF_TASK = ("start", "hear", "release")
OF_TASK_CLOCK = (*OF_TASK, "serve", "hold", "check")
# Members of replies that are JSON numbers, and lists of them; all others are texts.
NUMBERS = {"life", "rows", "note", "handle", "task", "slices", "total"}
REPLIES = [re.compile(it) for it in (
    r"(?P<reply>served) (?P<kind>\w+) (?P<generation>\d+)",
    r"denied (?P<denied>not-owned) (?P<generation>\d+)",
    r"denied (?P<denied>[\w-]+)",
    r"(?P<reply>term|renewed) (?P<number>\d+) until (?P<until>\d+)",
    r"(?P<reply>proposed|committed|learnt) (?P<generation>\d+)",
    r"(?P<reply>grant) (?P<number>\d+) (?P<kind>\w+) (?P<generation>\d+) until (?P<until>\d+) (?P<ends>\d+)",
    r"(?P<reply>freed|lost) (?P<rows>\d+)",
    r"(?P<reply>phase) (?P<phase>steady) (?P<generation>\d+)",
    r"(?P<reply>phase) (?P<phase>bridging) (?P<from>\d+) (?P<to>\d+)",
    r"(?P<reply>started) (?P<life>\d+)",
    r"(?P<reply>heard) (?P<number>\d+)",
    r"(?P<reply>released) note (?P<note>\d+) number (?P<number>\d+)",
    r"(?P<reply>handle) (?P<handle>\d+)",
    r"(?P<reply>found) generation (?P<generation>\d+) owners (?P<owners>[\d,]+)",
    r"(?P<reply>continuous|broken|forgotten|restarted)",
    r"(?P<reply>key) (?P<key>[0-9a-f]{16})",
    r"(?P<reply>owners) (?P<owners>[\d,]+)",
    r"(?P<reply>assigned) (?P<generation>\d+) slices (?P<slices>\d+)",
    r"(?P<reply>recorded) (?P<total>\d+)",
    r"(?P<reply>next) (?P<next>\w+)",
    r"refused (?P<refused>job-held|grace) (?P<until>\d+)",
    r"refused (?P<refused>not-holder) (?P<number>\d+)",
    r"refused (?P<refused>stale-base) (?P<generation>\d+)",
    r"refused (?P<refused>held) (?P<task>\d+) (?P<kind>\w+) (?P<number>\d+)",
    r"refused (?P<refused>[\w-]+)",
)]
ROW = re.compile(r"(?P<number>\d+):(?P<task>\d+):(?P<life>\d+):(?P<kind>\w+):(?P<generation>\d+):(?P<until>\d+)")


# VALUES

def slice_key(key: str) -> int:
    return int.from_bytes(hashlib.sha256(key.encode()).digest()[:8], "big") >> 1


def owned_by(task: int, slices: Slices) -> Ranges:
    found: Ranges = []
    for (start, owners), (end, _) in zip(slices, [*slices[1:], (KEYS, [])]):
        if task in owners:
            start = found.pop()[0] if found and found[-1][1] == start else start
            found.append((start, end))
    return found


def shared(some: Ranges, others: Ranges) -> Ranges:
    both = [(max(a, c), min(b, d)) for a, b in some for c, d in others]
    return [it for it in both if it[0] < it[1]]


def owners_at(key: int, slices: Slices) -> list[int]:
    return sorted(next((owners for start, owners in reversed(slices) if start <= key), []))


def numbers(text: str, by: str = ",") -> list[int]:
    return [int(it) for it in text.split(by)]


def members(found: re.Match[str]) -> Json:
    """What a line names, by the names of the members."""
    said: Json = {}
    for name, text in found.groupdict().items():
        said[name] = numbers(text) if name == "owners" else int(text) if name in NUMBERS else text
    return said


def move_of(text: str) -> Json:
    start, change, _, gain, _, churn = re.split(r"[: ]", text)
    move: Json = {"start": start, "gain": int(gain), "churn": churn}
    if change[0] in "+-":
        return {**move, {"+": "to", "-": "from"}[change[0]]: int(change[1:])}
    giver, taker = change.split(">")
    return {**move, "from": int(giver), "to": int(taker)}


def plan_of(line: str) -> Json:
    slices, moves = line.removeprefix("plan [").removesuffix("]").split("] moves [")
    pairs = [it.split(":") for it in slices.split(" ")]
    return {
        "reply": "plan",
        "slices": [[start, numbers(owners)] for start, owners in pairs],
        "moves": [move_of(it) for it in moves.split(", ") if it],
    }


def reply_of(do: str, line: str) -> Json:
    """The value of the reply in a line."""
    if line.startswith("plan "):
        return plan_of(line)
    if line.startswith("rows "):
        return {"reply": "rows", "rows": [members(it) for it in ROW.finditer(line)]}
    if line.startswith("loads "):
        loads, totals = line.removeprefix("loads ").split(" totals ")
        return {"reply": "loads", "loads": numbers(loads, " "), "totals": numbers(totals, " ")}
    if line.startswith("refused old "):
        return {"refused": "old", "number" if do == "hear" else "generation": line.split()[2]}
    found = next(filter(None, (it.fullmatch(line) for it in REPLIES)), None)
    assert found is not None, line
    return members(found)


# TASKS

@dataclass(frozen=True)
class Lease:
    """A grant, and the call in which its task heard it."""

    kind: str
    number: int
    generation: int
    task: int
    life: int
    until: int
    ends: int
    ranges: Ranges
    call: int = 0

    def covers(self, key: int) -> bool:
        return any(start <= key < end for start, end in self.ranges)

    def names(self) -> Json:
        return {"kind": self.kind, "number": str(self.number), "generation": str(self.generation)}

    def row(self) -> Json:
        return {**self.names(), "task": self.task, "life": self.life, "until": str(self.until)}

    def message(self) -> Json:
        return {**self.row(), "ends": str(self.ends), "ranges": [[str(a), str(b)] for a, b in self.ranges]}


class State(NamedTuple):
    """What a task holds."""

    life: int = 0
    started: bool = False
    last: int = 0
    leases: tuple[Lease, ...] = ()

    def with_lease(self, lease: Lease | None, kind: str) -> tuple[Lease, ...]:
        held = {it.kind: it for it in self.leases if it.kind != kind}
        if lease is not None:
            held[kind] = lease
        return tuple(held[it] for it in KINDS if it in held)

    def judge(self, key: int, at: int) -> tuple[str, Lease | None]:
        """What the written rule says, and the lease by which it says so."""
        if not self.started or at < self.last:
            return "clock-back" if self.started else "down", None
        covering = [it for it in self.leases if it.covers(key)]
        live = [it for it in self.leases if at < it.ends]
        serving = [it for it in covering if it in live]
        for word, found in (("served", serving), ("ended", covering), ("not-owned", live)):
            if found:
                return word, found[0]
        return "no-lease", None

    def denies(self, key: int, at: int) -> bool:
        return self.judge(key, at)[0] != "served"

    def values(self, key: int, at: int) -> Json:
        """The values by which the written rule decides."""
        lease = self.judge(key, at)[1]
        held: list[Json] = []
        for it in self.leases:
            held.append({**it.names(), "ends": str(it.ends), "covers": it.covers(key), "heard": {"call": it.call}})
        found: Json = {"started": self.started, "last": str(self.last), "leases": held}
        return found if lease is None else {**found, "number": str(lease.number)}


class Accepted(NamedTuple):
    """An accepted call of a task, and what it held before and after it."""

    call: int
    at: int
    before: State
    after: State

    def takes(self, key: int) -> bool:
        return self.before.denies(key, self.at) or self.after.denies(key, self.at)


@dataclass
class Task:
    """A task with its accepted calls."""

    state: State = State()
    heard: dict[str, int] = field(default_factory=dict)
    calls: list[Accepted] = field(default_factory=list)

    def accept(self, call: int, at: int, after: State) -> None:
        after = after._replace(last=at)
        self.calls.append(Accepted(call, at, self.state, after))
        self.state = after

    def state_at(self, at: int) -> State:
        """What it holds by the calls that it accepted up to a reading."""
        return next((it.after for it in reversed(self.calls) if it.at <= at), State())

    def readings(self) -> list[int]:
        """The readings at which what it may serve can change."""
        ends = {it.ends for call in self.calls for it in call.after.leases}
        return sorted(ends.union(it.at for it in self.calls))

    def stretches(self, number: int, key: int) -> Iterator[Json]:
        since = 0
        serving: Lease | None = None
        for at in self.readings():
            word, lease = self.state_at(at).judge(key, at)
            lease = lease if word == "served" else None
            if (lease and lease.names()) != (serving and serving.names()):
                if serving is not None:
                    readings = {"from": str(since), "to": str(at)}
                    yield {"stretch": {"task": number, "process": 0, **readings, "lease": serving.names()}}
                since, serving = at, lease


@dataclass(frozen=True)
class Handle:
    """A handle, and the reading of its `hold`."""

    task: int
    life: int
    key: int
    position: int
    at: int

    def message(self) -> Json:
        return {"task": self.task, "life": self.life, "position": str(self.position), "slice_key": str(self.key)}

    def takers(self, task: Task) -> list[Accepted]:
        """The calls since that take its key."""
        return [it for it in task.calls[self.position:] if it.takes(self.key)]

    def is_broken(self, task: Task, at: int) -> bool:
        state = task.state_at(at)
        taken = any(it.at <= at for it in self.takers(task))
        return taken or state.life != self.life or state.denies(self.key, at)

    def breaks(self, task: Task) -> int:
        readings = [self.at, *(it for it in task.readings() if it > self.at)]
        return next(it for it in readings if self.is_broken(task, it))


# SCRIPTS

class Reader:
    """Reads a script with the lines of its replies, step by step."""

    def __init__(self, job: Json) -> None:
        self.skew: int = job["skew"]
        self.tasks = {number: Task() for number in range(1, job["tasks"] + 1)}
        self.generation, self.slices = 0, Slices()
        self.pending = Slices()
        self.grants: list[Lease] = []
        self.rows: list[Lease] = []
        self.notes: list[Json] = []
        self.handles: list[Handle] = []
        self.term: Json | None = None
        self.last = 0
        self.table: list[tuple[int, int]] = []
        self.untimely: Json | None = None

    def line(self, call: int, step: Json, said: str) -> Json:
        """The line of a step."""
        do, at = step["do"], step.get("at", 0)
        reply = reply_of(do, said)
        told: Json = {"call": call, "do": do, **({} if do in ALONE else self.members(step))}
        reason = self.reason(step, reply)
        if reason is not None:
            told["reason"] = reason
        told.update(self.warnings(call, step, reply))
        if "reply" in reply and do in OF_TABLE:
            self.last = at
            self.of_table(step, reply)
        elif "reply" in reply and do in OF_TASK:
            self.of_task(call, step, reply)
        elif "handle" in reply:
            self.hold(step, reply)
        elif do == "lose":
            self.rows = []
        return {**told, "reply": reply}

    def members(self, step: Json) -> Json:
        """The members of a step, with what it delivers."""
        told: Json = {}
        for name, value in step.items():
            if name in ("at", "assigner", "generation"):
                told[name] = str(value)
            elif name in ("number", "note", "handle"):
                told["number"] = str(value)
            elif name == "slices":
                told[name] = [[str(start), owners] for start, owners in value]
            else:
                told[name] = value
        if "key" in step:
            told["slice_key"] = str(slice_key(step["key"]))
        delivered = self.delivered(step)
        return {**told, **({} if delivered is None else delivered)}

    def delivered(self, step: Json) -> Json | None:
        made: list[Json]
        if step["do"] == "hear":
            name, number, made = "grant", step["number"], [it.message() for it in self.grants]
        elif step["do"] == "free":
            name, number, made = "note", step["note"], self.notes
        elif step["do"] == "check":
            name, number, made = "handle", step["handle"], [it.message() for it in self.handles]
        else:
            return None
        return {name: made[number - 1]} if 1 <= number <= len(made) else None

    # Reasons

    def reason(self, step: Json, reply: Json) -> Json | None:
        do, refused = step["do"], reply.get("refused")
        if do in ("serve", "hold"):
            return self.asked(step["task"], slice_key(step["key"]), step["at"], reply.get("denied", "served"))
        if reply == {"reply": "broken"}:
            return self.broken(step)
        if refused == "clock-back":
            return {"last": str(self.tasks[step["task"]].state.last if do in OF_TASK else self.last)}
        if refused == "held":
            held = next(it for it in self.rows if it.generation <= self.generation and it.until > step["at"])
            assert reply == {"refused": "held", **{it: held.row()[it] for it in ("task", "kind", "number")}}
            return {"row": held.row()}
        if refused in ("not-holder", "job-held"):
            return None if self.term is None else {"term": self.term}
        if refused in ("old-life", "other-life"):
            return {"life": self.tasks[step["task"]].state.life}
        if refused == "old" and do == "hear":
            return self.heard(step, reply)
        if refused == "not-sent":
            made = {"hear": len(self.grants), "free": len(self.notes), "check": len(self.handles)}
            return {"made": str(made.get(do, self.generation))}
        return None

    def asked(self, task: int, key: int, at: int, word: str) -> Json:
        state = self.tasks[task].state
        assert state.judge(key, at)[0] == word, (state, word)
        owners = {"generation": str(self.generation), "tasks": owners_at(key, self.slices)}
        return {"rule": state.values(key, at), "owners": owners}

    def broken(self, step: Json) -> Json:
        handle, at = self.handles[step["handle"] - 1], step["at"]
        task = self.tasks[handle.task]
        if handle.life != task.state.life:
            return {"life": task.state.life}
        word = task.state.judge(handle.key, at)[0]
        if word != "served":
            return {"denied": word, **self.asked(handle.task, handle.key, at, word)}
        return {"taken": {"last": {"call": handle.takers(task)[-1].call}}}

    def heard(self, step: Json, reply: Json) -> Json:
        grant, task = self.grants[step["number"] - 1], self.tasks[step["task"]]
        assert reply["number"] == str(task.heard[grant.kind])
        return {"heard": {"kind": grant.kind, "number": reply["number"]}, "life": task.state.life}

    # Warnings

    def warnings(self, call: int, step: Json, reply: Json) -> Iterator[tuple[str, str]]:
        do, at = step["do"], step.get("at", 0)
        ahead = [it for it in self.table if it[0] > at + self.skew]
        if do in OF_TABLE:
            self.table.append((at, call))
        elif do in OF_TASK_CLOCK and ahead:
            greatest = max(self.table, key=lambda it: (it[0], -it[1]))
            placed = {"task": (at, call), "first": ahead[0], "greatest": greatest}
            found = {name: {"at": str(it[0]), "call": it[1]} for name, it in placed.items()}
            self.untimely = self.untimely or found
            yield "untimely", str(greatest[0])
        if do == "serve" and reply.get("reply") == "served":
            if step["task"] not in owners_at(slice_key(step["key"]), self.slices):
                yield "not_owner", str(self.generation)

    # What steps change

    def of_table(self, step: Json, reply: Json) -> None:
        do = step["do"]
        if do in ("take", "renew"):
            self.term = {"assigner": str(step["assigner"]), "number": reply["number"], "until": reply["until"]}
        elif do == "propose":
            self.pending = [(start, owners) for start, owners in step["slices"]]
        elif do == "commit":
            self.generation, self.slices = self.generation + 1, self.pending
        elif do == "grant":
            self.grant(step, reply)
        else:
            self.free(self.notes[step["note"] - 1], reply)

    def grant(self, step: Json, reply: Json) -> None:
        ranges = owned_by(step["task"], self.slices)
        if reply["kind"] == "bridge":
            ranges = shared(ranges, owned_by(step["task"], self.pending))
        of_task = (step["task"], step["life"], int(reply["until"]), int(reply["ends"]))
        lease = Lease(reply["kind"], int(reply["number"]), int(reply["generation"]), *of_task, ranges)
        self.grants.append(lease)
        self.rows.append(lease)

    def free(self, note: Json, reply: Json) -> None:
        def is_freed(row: Lease) -> bool:
            same = row.life == note["life"] and row.kind == note["kind"] and row.number <= int(note["number"])
            return row.task == note["task"] and (row.life < note["life"] or same)

        left = [it for it in self.rows if not is_freed(it)]
        assert len(self.rows) - len(left) == reply["rows"]
        self.rows = left

    def of_task(self, call: int, step: Json, reply: Json) -> None:
        task = self.tasks[step["task"]]
        state = task.state
        if step["do"] == "start":
            task.heard = {}
            state = State(step["life"], True)
        elif step["do"] == "hear":
            lease = replace(self.grants[step["number"] - 1], call=call)
            task.heard[lease.kind] = lease.number
            state = state._replace(leases=state.with_lease(lease, lease.kind))
        else:
            kind = step["kind"]
            lease = next(it for it in state.leases if it.kind == kind)
            assert (reply["note"], reply["number"]) == (len(self.notes) + 1, str(lease.number))
            self.notes.append({"task": step["task"], "life": state.life, "kind": kind, "number": str(lease.number)})
            reply["life"] = state.life
            state = state._replace(leases=state.with_lease(None, kind))
        task.accept(call, step["at"], state)

    def hold(self, step: Json, reply: Json) -> None:
        task = self.tasks[step["task"]]
        handle = Handle(step["task"], task.state.life, slice_key(step["key"]), len(task.calls), step["at"])
        self.handles.append(handle)
        assert reply["handle"] == len(self.handles)
        reply.update(life=handle.life, position=str(handle.position))

    def ends(self, calls: int, key: str | None) -> Iterator[Json]:
        """The lines after those of the steps."""
        if key is not None:
            for number, task in self.tasks.items():
                yield from task.stretches(number, slice_key(key))
        for number, handle in sorted(enumerate(self.handles, 1), key=lambda it: (it[1].task, it[0])):
            yield {"broken": {"handle": number, "breaks": str(handle.breaks(self.tasks[handle.task]))}}
        yield {"end": {"calls": calls, **({} if self.untimely is None else {"untimely": self.untimely})}}


def head_of(job: Json, key: str | None) -> Json:
    low, high = job["redundancy"] if isinstance(job["redundancy"], list) else (job["redundancy"],) * 2
    head: Json = {"trace": 1, "of": "script", "job": {**job, "redundancy": low if low == high else [low, high]}}
    return head if key is None else {**head, "key": key, "slice_key": str(slice_key(key))}


def trace_of(script: list[Json], lines: list[str], key: str | None) -> str:
    """The text of the trace of a script, of which `hourstable run` has written these lines."""
    job, steps = script[0]["job"], script[1:]
    reader = Reader(job)
    told = [reader.line(call, step, said) for call, (step, said) in enumerate(zip(steps, lines[:-1], strict=True), 1)]
    told = [head_of(job, key), *told, *reader.ends(len(steps), key)]
    assert lines[-1] == ("timely yes" if reader.untimely is None else "timely no")
    return "".join(json.dumps(it, sort_keys=True, separators=(",", ":"), ensure_ascii=False) + "\n" for it in told)
