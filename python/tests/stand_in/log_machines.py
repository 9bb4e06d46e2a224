"""The machines of a job that play the calls of logs."""

from __future__ import annotations

import json

from hourstable import library
from hourstable.library import Table
from hourstable.show.words import line_of, plain_line

from .entries import Entry, joined, written
from .machines import Machines, SentGrant, policy_of
from .tasks import JOB, Members

MOST_AHEAD = 65_536
READINGS = 1 << 62
COARSE = ("served", "denied", "refused", "lost")


class LogMachines(Machines):
    """Machines that play what a line stands for."""

    def sent_grant(self, grant: Members) -> SentGrant | None:
        """Returns the grant that the table sent, if it is this one."""
        sent = self.grants.get(grant["number"])
        if sent is None or sent.members != written({name: it for name, it in grant.items() if name != "ranges"}):
            return None
        return sent if "ranges" not in grant or joined(grant["ranges"]) == sent.ranges else None

    def sent_assignment(self, call: Members) -> bytes | None:
        """Returns the assignment that was committed of a generation, if it has the slices of a call."""
        found = self.published.get(call["generation"])
        if found is None or "slices" not in call:
            return found
        slices = [(start, sorted(owners)) for start, owners in call["slices"]]
        return found if library.read_assignment(JOB, found).slices == slices else None

    def tell(self, number: int, call: Members) -> Members:
        """Plays a call, and returns the right reply."""
        do = call["do"]
        if do in ("take", "renew", "propose", "commit", "grant", "free"):
            return self.tell_table(call)
        if do in ("lose", "phase", "rows", "restore"):
            return self.tell_quiet(call)
        if do in ("start", "open", "hear", "release"):
            return self.tell_task(number, call)
        if do == "sample":
            return {"reply": "sampled"} if call["task"] in self.tasks else {"refused": "no-actor"}
        return self.tell_asked(call)

    def tell_table(self, call: Members) -> Members:
        do, at = call["do"], call["at"]
        if do == "take":
            return self.take(call["assigner"], at)
        if do == "renew":
            return self.take(0, at, call["term"])
        if do == "propose":
            return self.propose(call["term"], call["generation"], call["slices"], at)
        if do == "commit":
            return self.commit(call["term"], at)
        if do == "grant":
            return self.grant(call["task"], call["life"], at)
        note = written(call["note"])
        return self.free(note if note in self.notes else None, at)

    def tell_quiet(self, call: Members) -> Members:
        if call["do"] == "restore":
            return self.restore(call)
        if call["do"] == "rows":
            return {"reply": "rows", "rows": self.rows()}
        return self.lose() if call["do"] == "lose" else self.phase()

    def tell_task(self, number: int, call: Members) -> Members:
        do, task = call["do"], call["task"]
        if do == "start":
            return self.start(number, task, call["life"], call["at"])
        if do == "open":
            return self.open(number, task, call["life"])
        if do == "hear":
            return self.hear(number, task, self.sent_grant(call["grant"]), call["at"])
        return self.release(number, task, call["kind"], call["at"])

    def tell_asked(self, call: Members) -> Members:
        do = call["do"]
        if do == "serve":
            return self.serve(call["task"], call["slice_key"], call["at"])
        if do == "hold":
            return self.hold(call["task"], call["slice_key"], call["at"])
        if do == "check":
            handle = written(call["handle"])
            return self.check(call["task"], handle if handle in self.handles else None, call["at"])
        if do == "learn":
            return self.learn(call["clerk"], call["generation"], self.sent_assignment(call))
        return self.look(call["clerk"], call["slice_key"]) if do == "look" else self.forget(call["clerk"])

    def kept_numbers(self) -> Members:
        kept = json.loads(self.table.kept())["value"]
        return {name: int(kept[name]) for name in ("last", "granted", "deadline")}

    def restore(self, call: Members) -> Members:
        """Restores the table from the values that a line tells, or says what the table of the log keeps."""
        table = self.kept_numbers()
        fault = self.restore_fault(table, call)
        if fault:
            return {"refused": fault, **{name: str(it) for name, it in table.items()}}
        kept = json.loads(self.table.kept())
        kept["value"].update({name: str(call[name]) for name in table})
        generation = self.generation()
        self.table.close()
        self.table, self.last = Table.restore(JOB, policy_of(self.job), json.dumps(kept).encode()), call["last"]
        return {"reply": "restored", "generation": str(generation), "grace": str(call["deadline"])}

    def restore_fault(self, table: Members, call: Members) -> str | None:
        """Returns why a table that keeps such values is not restored from those of a line."""
        if any(call[name] < table[name] for name in table):
            return "less-than-log"
        more = call["granted"] - table["granted"]
        if more > MOST_AHEAD:
            return "far-ahead"
        phase, last = self.table.phase(), call["last"]
        is_within = call["granted"] <= self.job["numbers"] and last < READINGS
        expected = dict(table)
        if more and is_within and (phase.committed or phase.proposed):
            term = self.job["bridge" if phase.proposed else "guard"]
            expected = {"last": last, "granted": call["granted"], "deadline": max(table["deadline"], last + term)}
        return None if all(call[name] == expected[name] for name in expected) else "not-ahead"


def one_word(reply: Members) -> str:
    """Returns the one word of a reply that a log may keep, or else its plain line."""
    if "refused" in reply:
        return "refused"
    if "denied" in reply:
        return "denied"
    return str(reply["reply"]) if reply["reply"] in COARSE else plain_line(reply)


def is_worded(words: str, reply: Members) -> bool:
    """Whether the words of a log are those of a reply."""
    return words in (line_of(reply), plain_line(reply), one_word(reply))


def play(machines: LogMachines, entries: list[Entry]) -> bool:
    """Plays calls, and returns whether they are one run."""
    for number, entry in enumerate(entries, 1):
        if not is_worded(entry.words, machines.tell(number, entry.call)):
            return False
    return True
