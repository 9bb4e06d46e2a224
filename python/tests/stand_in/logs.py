"""The trace of logs."""

from __future__ import annotations

from collections.abc import Generator, Iterator
from typing import NamedTuple

from hourstable.library import Refused, TaskClock

from .causes import Causes
from .entries import read, written
from .hints import hints
from .log_machines import COARSE, LogMachines, is_worded
from .reasons import reason_of
from .tasks import Members
from .watching import Handles, Stretches, Watch, not_owner

MOST_FAULTS = 20
TABLE = frozenset("take renew propose commit grant free lose phase rows restore".split())
TASK = frozenset("start hear release open serve hold check sample".split())
CLERK = frozenset("learn look forget".split())


class Asked(NamedTuple):
    """What is asked of logs: their names and texts, the lines of each that were left out, a key, perhaps by its text,
    and a drift, as `1/10/2`."""

    names: list[str]
    texts: list[bytes]
    torn: list[frozenset[int]]
    slice_key: int | None = None
    drift: str | None = None
    key: str | None = None


class Logs:
    """Logs that are played."""

    def __init__(self, asked: Asked) -> None:
        self.asked = asked
        self.job, self.entries = read(asked.texts, asked.torn)
        self.machines = LogMachines(self.job)
        self.watch, self.handles = Watch(self.job["skew"]), Handles(self.machines)
        self.stretches = None if asked.slice_key is None else Stretches(self.machines, asked.slice_key)
        self.causes = Causes(self.machines, self.entries, self.refer)
        self.double = self.find_double()

    def refer(self, call: int) -> Members:
        entry = self.entries[call - 1]
        return {"call": call, "log": entry.log, "line": entry.line}

    def find_double(self) -> int | None:
        pairs = zip(self.entries, self.entries[1:])
        return next((index for index, (one, other) in enumerate(pairs) if one.ticket == other.ticket), None)

    def trace(self) -> Iterator[Members]:
        """Yields the lines of the trace."""
        shown: Members = {} if self.asked.slice_key is None else {"slice_key": str(self.asked.slice_key)}
        shown.update({} if self.asked.key is None else {"key": self.asked.key})
        torn = [{"log": log, "line": line} for log, lines in enumerate(self.asked.torn) for line in sorted(lines)]
        more = {"torn": torn, **shown} if torn else shown
        yield {"trace": 1, "of": "logs", "job": self.job, "logs": self.asked.names, **more}
        index = 0
        if self.double is None:
            index = yield from self.run()
        for number in range(index + 1, len(self.entries) + 1):
            yield {**self.placed(number), **written(self.entries[number - 1].call)}
        for stretch in self.stretches.all() if self.stretches else []:
            yield {"stretch": stretch}
        for handle in self.handles.all():
            yield {"broken": handle}
        yield from self.found(index)
        self.machines.close()

    def placed(self, number: int) -> Members:
        return {**self.refer(number), "ticket": str(self.entries[number - 1].ticket)}

    def run(self) -> Generator[Members, None, int]:
        """Yields the calls up to the first fault, and returns its index, or how many calls there are."""
        for number, entry in enumerate(self.entries, 1):
            call = entry.call
            foreign = not_owner(self.machines, call["task"], call["slice_key"]) if entry.do == "serve" else None
            reply = self.machines.tell(number, call)
            if not is_worded(entry.words, reply):
                self.first = self.fault(number, reply)
                return number - 1
            self.see(call, reply)
            late = self.watch.see(number, entry.do, call.get("at", call.get("last", 0)), self.refer)
            warned = {} if late is None else {"untimely": str(late)}
            if foreign is not None and reply.get("reply") == "served":
                warned["not_owner"] = str(foreign)
            yield {**self.placed(number), **self.answered(number, reply), **warned}
        return len(self.entries)

    def answered(self, number: int, reply: Members) -> Members:
        """Returns the members of a call with its reply and what decides it."""
        call = written(self.entries[number - 1].call)
        if reply.get("refused") == "not-sent":
            sent = self.causes.of(number - 1)
            reason = {"sent": sent} if sent else None
        else:
            reason = reason_of(self.machines, call, reply, self.refer)
        return {**call, "reply": reply, **({"reason": reason} if reason else {})}

    def fault(self, number: int, reply: Members) -> Members:
        return {**self.placed(number), **self.answered(number, reply), "told": self.entries[number - 1].words}

    def see(self, call: Members, reply: Members) -> None:
        if reply.get("reply") == "handle":
            self.handles.hold(call["at"])
        elif call["do"] in ("start", "hear", "release") and "reply" in reply:
            self.handles.see(call["task"])
            if self.stretches:
                self.stretches.see(call["task"])

    def faults(self) -> list[Members]:
        """Returns the first faults, by machines that make every call."""
        self.machines.close()
        self.machines = LogMachines(self.job)
        self.causes = Causes(self.machines, self.entries, self.refer)
        found = []
        for number, entry in enumerate(self.entries, 1):
            reply = self.machines.tell(number, entry.call)
            if not is_worded(entry.words, reply):
                found.append(self.fault(number, reply))
            if len(found) == MOST_FAULTS:
                break
        return found

    def found(self, index: int) -> Iterator[Members]:
        """Yields what was found of the calls."""
        calls = {"calls": len(self.entries)}
        if self.double is not None:
            first, second = (self.refer(self.double + it) for it in (1, 2))
            double = {"ticket": str(self.entries[self.double].ticket), "first": first, "second": second}
            yield {"end": {**calls, "verdict": "double", "double": double}}
        elif index < len(self.entries):
            faults = self.faults()
            yield from ({"fault": it} for it in faults)
            lacking = list(hints(self.job, self.entries, index, faults[0]["reply"], self.refer))
            yield {"end": {**calls, "verdict": "other", **({"hints": lacking} if lacking else {})}}
        else:
            yield {"end": {**calls, "verdict": "one", **self.counted()}}

    def counted(self) -> Members:
        """Returns what is told of calls that are one run."""
        counts = self.counts()
        taken = dict(counts["tasks"])
        named = {it.call["task"] if it.do == "grant" else it.call["note"]["task"]
                 for it in self.entries if it.do in ("grant", "free")}
        silent = sorted(it for it in named if it <= self.job["tasks"] and it not in taken)
        coarse = sum(it.words in COARSE for it in self.entries)
        found: Members = {"counts": counts}
        found.update({"one_word": coarse} if coarse else {})
        found.update({"silent": silent} if silent else {})
        found.update({"untimely": self.watch.untimely} if self.watch.untimely else {})
        found.update({"drift": self.drift(self.asked.drift)} if self.asked.drift else {})
        return found

    def counts(self) -> Members:
        tasks, clerks = dict[int, int](), dict[int, int]()
        for entry in self.entries:
            for calls, name, counted in ((TASK, "task", tasks), (CLERK, "clerk", clerks)):
                if entry.do in calls and 1 <= entry.call[name] <= self.job[f"{name}s"]:
                    counted[entry.call[name]] = counted.get(entry.call[name], 0) + 1
        table = sum(it.do in TABLE for it in self.entries)
        return {"table": table, "tasks": sorted(tasks.items()), "clerks": sorted(clerks.items())}

    def drift(self, drift: str) -> Members:
        """Returns the first sample that shows that clocks did not keep a drift."""
        extra, per, grain = map(int, drift.split("/"))
        clocks: dict[int, TaskClock] = {}
        for number, entry in enumerate(self.entries, 1):
            call = entry.call
            if entry.do == "open":
                clocks.pop(call["task"], None)
            if entry.do != "sample":
                continue
            clock = clocks.setdefault(call["task"], TaskClock(extra, per, grain, (1 << 64) - 1))
            why = sample_fault(clock, call)
            if why:
                sample = {name: str(call[name]) for name in ("sent", "reading", "now")}
                return {"kept": False, **self.refer(number), **sample, **why}
            clock.sample(call["sent"], call["reading"], call["now"])
        return {"kept": True}


def sample_fault(clock: TaskClock, call: Members) -> Members | None:
    """Returns what is wrong with a sample, by the samples before it."""
    probe = TaskClock.from_buffer_copy(clock)
    most: int | None = None
    try:
        most = probe.read(call["now"])
    except Refused as why:
        if why.name == "CLOCK_BACK":
            return {"why": "back"}
    if call["now"] < call["sent"]:
        return {"why": "ahead"}
    return {"why": "beyond", "most": str(most)} if most is not None and most < call["reading"] else None
