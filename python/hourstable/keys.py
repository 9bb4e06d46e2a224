"""What is known of a key: who owns it, who may serve it until when, and why a task is denied.

Each answer is one of the library. Owners are what a clerk finds. Whether a task may serve the key
is what a slicelet says that heard the grants of the table, at the table's reading; the sentences
only name the lease, term or reading that decided, in the words of `hourstable.show`.
"""

from dataclasses import dataclass
from typing import Any

from hourstable.jobs import Job
from hourstable.lanes import Given, Lanes
from hourstable.library import Clerk, GrantRead, Refused, Row, Slicelet, slice_key
from hourstable.plans import message_of
from hourstable.show import phrases
from hourstable.table_calls import numbers_of


@dataclass
class Verdict:
    """What a slicelet says that heard the grants of a task which were not given back."""

    task: int
    served: str | None  # the kind of the lease under which it serves the key
    words: str  # of the denial, "" if it is served
    given: dict[str, Given]

    @property
    def ground(self) -> str:
        return self.words.split(" ")[0]


def owners_in(job: str, assignment: bytes | None, key: int) -> list[int]:
    """Returns the owners of a slice key, none if there is no assignment."""
    if assignment is None:
        return []
    with Clerk(job) as clerk:
        clerk.learn(assignment)
        return clerk.look_at(key).tasks


def proposed_of(job: Job) -> bytes | None:
    """Returns the message of the proposed assignment, None if there is none or another plane holds
    the job."""
    pending = job.kept()["pending"] if job.is_held else None
    if not pending:
        return None
    value = numbers_of(pending)
    return message_of(job.name, value["generation"], value["slices"])


def verdict_of(job: str, task: int, given: dict[str, Given], key: int, at: int) -> Verdict:
    """Asks a slicelet that heard these grants whether it may serve a key at a reading."""
    if not given:
        return Verdict(task, None, "no-lease", given)
    life = next(iter(given.values())).grant.life
    with Slicelet.resume(job, task, life - 1) as slicelet:
        slicelet.start(life, 0)
        for one in given.values():
            slicelet.hear(one.message, 0)
        try:
            return Verdict(task, slicelet.serve_at(key, at).kind, "", given)
        except Refused as refused:
            return Verdict(task, None, str(refused), given)


class KeyTold:
    """The answer for a key of a job."""

    def __init__(self, job: Job, lanes: Lanes, alive: list[int], draining: list[int], key: str):
        self._job, self._lanes, self._alive, self._draining = job, lanes, alive, draining
        self.key, self.slice_key = key, slice_key(key.encode())
        self.at = job.reading()
        self.proposed = proposed_of(job)
        self.owners = owners_in(job.name, job.view.assignment, self.slice_key)
        self.next_owners = owners_in(job.name, self.proposed, self.slice_key)
        self.verdicts = self._verdicts()

    def _verdicts(self) -> list[Verdict]:
        if self.at is None:
            return []
        given, name = self._lanes.given, self._job.name
        return [
            verdict_of(name, task, given.get(task, {}), self.slice_key, self.at)
            for task in sorted({*given, *self.owners, *self.next_owners})
        ]

    def value(self) -> dict[str, Any]:
        """Returns what GET /jobs/J/key answers."""
        return {
            "key": self.key, "slice_key": str(self.slice_key), "reading": self.at,
            "generation": self._job.view.committed, "owners": self.owners,
            "proposed": self._job.view.proposed or None, "proposed_owners": self.next_owners,
            "served": [_lease_of(it) for it in self.verdicts if it.served],
            "denied": [{"task": it.task, "ground": it.ground} for it in self.verdicts
                       if not it.served],
            "sentences": self.sentences(),
        }

    def sentences(self) -> list[str]:
        told = [self._owned()]
        if self._job.view.proposed and self._job.is_held:
            told += [self._moves(), *self._commit_waits()]
        if self.at is None:
            why = "its clock is not yet at the last reading that was stored"
            return [*told, why_unknown(self._job.is_held, why)]
        served = [self._served(it) for it in self.verdicts if it.served]
        told += served or ["No task may serve it by a lease that this table has a row of."]
        told += self._before_restart()
        told += [self._denied(it) for it in self.verdicts if not it.served and self._matters(it)]
        rest = sum(not it.served and not self._matters(it) for it in self.verdicts)
        if rest:
            which = "1 other task is denied: none of its" if rest == 1 else (
                f"{rest} other tasks are denied: none of their")
            told.append(f"{which} leases that run covers the key.")
        return told

    def _matters(self, verdict: Verdict) -> bool:
        """Whether a denial is told in a sentence of its own."""
        return verdict.task in {*self.owners, *self.next_owners} or verdict.ground == "ended"

    def _owned(self) -> str:
        if self._job.view.assignment is None:
            return "No assignment is committed, so no task owns it."
        generation = self._job.view.committed
        return f"{_tasks(self.owners)} it in generation {generation}, which is committed."

    def _moves(self) -> str:
        generation = self._job.view.proposed
        if self.next_owners == self.owners:
            return f"Generation {generation} is proposed, and the key stays where it is."
        return (f"Generation {generation} is proposed: {_tasks(self.next_owners).lower()} it "
                "once this is committed.")

    def _commit_waits(self) -> list[str]:
        """Says by the last answer of the table why the proposed generation is not committed."""
        told = []
        refused = self._lanes.refused_commit()
        if refused is not None:
            words = refused.words.split(" ")[1:]
            if words[0] == "held":
                row = next((it for it in self._job.rows() if it.number == int(words[3])), None)
                told.append(f"At {refused.at:,} the table refused the commit: {self._held(words, row)}.")
            elif words[0] == "grace":
                until_ = int(words[1])
                told.append(f"At {refused.at:,} the table refused the commit, until {until_:,}"
                            f"{self._away(until_)}: leases of before a restart may still be held.")
            else:
                told.append(f"At {refused.at:,} the table refused the commit: {' '.join(words)}.")
        term = self._job.term
        if self.at is not None and term is not None and term["until"] <= self.at:
            told.append(f"Term {term['number']} of the job lease ended at {term['until']:,}, so "
                        "nobody commits until an assigner takes it.")
        return told

    def _held(self, words: list[str], row: Row | None) -> str:
        """Says which lease a refused commit waits for. Its row may be gone by now."""
        if row is None:
            return f"task {words[1]} may hold {phrases.lease_name(words[2], int(words[3]))}"
        name = phrases.lease_name(words[2], row.number, phrases.granted_words(row.generation, row.life))
        return phrases.may_hold_words(row.task, name, self._when(row.table_ends))

    def _served(self, verdict: Verdict) -> str:
        assert verdict.served is not None
        grant = verdict.given[verdict.served].grant
        counted = "" if grant.ends == grant.table_ends else (
            f" by its clock; the table counts the lease until {grant.table_ends:,}")
        return f"Task {verdict.task} may serve it: {self._decides(grant, verdict)}{counted}."

    def _denied(self, verdict: Verdict) -> str:
        return f"Task {verdict.task} is denied, {verdict.words}: {self._why(verdict)}."

    def _decides(self, grant: GrantRead, verdict: Verdict) -> str:
        name = phrases.lease_name(grant.kind, grant.number, phrases.granted_words(grant.generation, grant.life))
        return phrases.lease_words(name, verdict.ground, self._when(grant.ends))

    def _why(self, verdict: Verdict) -> str:
        assert self.at is not None
        grants = [one.grant for one in verdict.given.values()]
        if verdict.ground == "ended":
            return self._decides(next(it for it in grants if _covers(it.ranges, self.slice_key)), verdict)
        if verdict.ground == "not-owned":
            return self._decides(next(it for it in grants if self.at < it.ends), verdict)
        if grants:
            grant = max(grants, key=lambda it: it.ends)
            name = phrases.lease_name(grant.kind, grant.number)
            return f"{phrases.no_lease_words(verdict.task)}; its last one, {name}, ended at {self._when(grant.ends)}"
        asked = "" if verdict.task in self._alive else (
            ", and has not asked for one in the last guard term")
        drained = ", and is being drained" if verdict.task in self._draining else ""
        return f"it holds no lease that this table gave{asked}{drained}"

    def _before_restart(self) -> list[str]:
        if not self._job.grace_left():
            return []
        at = "" if self._lanes.restored is None else f" at {self._lanes.restored:,}"
        return [f"The table was restored{at} and has no rows of leases that it gave before. A task "
                f"may still serve the key under such a lease until {self._job.grace:,}"
                f"{self._away(self._job.grace)}, and no commit is accepted before."]

    def _when(self, reading: int) -> str:
        return f"{reading:,}{self._away(reading)}"

    def _away(self, reading: int) -> str:
        """Says in seconds how far a reading is from that of the table."""
        if self.at is None:
            return ""
        seconds = (reading - self.at) / 1000
        return f" (in {seconds:.1f} s)" if seconds > 0 else f" ({-seconds:.1f} s ago)"


def why_unknown(is_held: bool, why: str) -> str:
    if is_held:
        return f"The table answers nothing now: {why}."
    return ("This control plane does not hold the job, so it has no rows of its leases. Ask the "
            "plane that does.")


def _covers(ranges: list[tuple[int, int]], key: int) -> bool:
    return any(start <= key < end for start, end in ranges)


def _lease_of(verdict: Verdict) -> dict[str, Any]:
    assert verdict.served is not None
    grant = verdict.given[verdict.served].grant
    return {
        "task": grant.task, "life": grant.life, "kind": grant.kind, "number": grant.number,
        "generation": grant.generation, "ends": grant.ends, "until": grant.table_ends,
    }


def _tasks(tasks: list[int]) -> str:
    if not tasks:
        return "No task owns"
    if len(tasks) == 1:
        return f"Task {tasks[0]} owns"
    return f"Tasks {', '.join(map(str, tasks[:-1]))} and {tasks[-1]} own"
