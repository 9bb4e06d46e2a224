"""What a control plane saw of a job in the last minutes: leases, phases, terms and refusals.

It is for people to look at and decides nothing. The plane forgets it when it ends.
"""

from collections import Counter, deque
from dataclasses import dataclass
from typing import Any, NamedTuple

from hourstable.jobs import Job, Made
from hourstable.library import GrantRead, JobTerm, read_grant
from hourstable.logs import told_refusal
from hourstable.metrics import word_of
from hourstable.table_calls import Call, Commit, Free, Grant, LetIn, Propose, Renew, Take, value_in

WINDOW = 600_000  # ticks for which what has ended is remembered
MOST = 4096  # of each sort that are remembered


@dataclass
class Stretch:
    """Leases of a task of one life, kind and generation, each given while the one before ran."""

    task: int
    life: int
    kind: str
    generation: int
    first: int  # number of the first grant
    last: int
    since: int  # the reading at which the first was given
    ends: int  # by the clock of the task
    until: int  # by the table's
    freed: int | None = None  # the reading at which it was given back

    def is_renewed_by(self, grant: GrantRead, at: int) -> bool:
        mine = self.task, self.life, self.kind, self.generation
        other = grant.task, grant.life, grant.kind, grant.generation
        return mine == other and self.freed is None and at < self.until

    def end(self) -> int:
        return self.until if self.freed is None else self.freed


@dataclass
class Term:
    """A term of the job lease, with its renewals."""

    number: int
    assigner: int
    since: int
    until: int


class Phase(NamedTuple):
    """The phase of the table from a reading on."""

    at: int
    committed: int
    proposed: int


class Event(NamedTuple):
    """A call that was refused, or a restart of the table."""

    at: int
    do: str
    words: str


class Given(NamedTuple):
    """A grant that was not given back, and its message."""

    grant: GrantRead
    message: bytes


class Lanes:
    """What a plane saw of a job, call by call."""

    def __init__(self) -> None:
        self.stretches: deque[Stretch] = deque(maxlen=MOST)
        self.terms: deque[Term] = deque(maxlen=MOST)
        self.phases: deque[Phase] = deque(maxlen=MOST)
        self.events: deque[Event] = deque(maxlen=MOST)
        self.refusals: Counter[tuple[str, str]] = Counter()  # by call and word, of this process
        self.given: dict[int, dict[str, Given]] = {}  # by task and kind, of its newest life
        self.restored: int | None = None  # the reading of the first call after a restart
        self._open: dict[tuple[int, str], Stretch] = {}
        self._held_since = 0.0
        self._last = 0

    def saw(self, job: Job, call: Call[Any], made: Made[Any]) -> None:
        """Takes a call that was made. One that repeats an earlier call is nothing new."""
        if made.at is None and made.refusal is None:
            return
        at = job.reading() or self._last if made.at is None else made.at
        self._last = at
        self._notice_hold(job, at)
        if made.refusal is not None:
            self.refusals[call.do, word_of(made.refusal.name)] += 1
            self.events.append(Event(at, call.do, told_refusal(call.do, str(made.refusal))))
            return
        result: Any = made.result
        if isinstance(call, LetIn):
            return
        if isinstance(call, Grant):
            self._granted(job.name, result, at)
        elif isinstance(call, Free):
            self._freed(value_in(call.note), at)
        elif isinstance(call, Take | Renew):
            self._termed(result, at)
        elif isinstance(call, Propose):
            self.phases.append(Phase(at, result - 1, result))
        elif isinstance(call, Commit):
            self.phases.append(Phase(at, result, 0))
        self._forget(at)

    def refused_commit(self) -> Event | None:
        """Returns the last commit that was refused since the last change of the phase."""
        since = self.phases[-1].at if self.phases else 0
        found = (event for event in reversed(self.events) if event.do == "commit")
        last = next(found, None)
        return last if last is not None and last.at >= since else None

    def _notice_hold(self, job: Job, at: int) -> None:
        """Begins anew if the plane took the job since the last call: its table has no rows then."""
        if job.held_since == self._held_since:
            return
        self._held_since = job.held_since
        self.given.clear()
        self._open.clear()
        if job.grace:
            self.restored = at
            self.events.append(Event(at, "restore", f"grace {job.grace}"))
        self.phases.append(Phase(at, job.view.committed, job.view.proposed))

    def _granted(self, job: str, message: bytes, at: int) -> None:
        grant = read_grant(job, message)
        leases = self.given.setdefault(grant.task, {})
        if any(one.grant.life != grant.life for one in leases.values()):
            leases.clear()
        leases[grant.kind] = Given(grant, message)
        known = self._open.get((grant.task, grant.kind))
        if known is not None and known.is_renewed_by(grant, at):
            known.last, known.ends, known.until = grant.number, grant.ends, grant.table_ends
            return
        made = Stretch(
            grant.task, grant.life, grant.kind, grant.generation, grant.number, grant.number,
            at, grant.ends, grant.table_ends,
        )
        self._open[grant.task, grant.kind] = made
        self.stretches.append(made)

    def _freed(self, note: dict[str, Any], at: int) -> None:
        task, kind = int(note["task"]), note["kind"]
        life, number = int(note["life"]), int(note["number"])
        leases = self.given.get(task, {})
        held = leases.get(kind)
        if held is not None and held.grant.life == life and held.grant.number <= number:
            del leases[kind]
        for one in self.stretches:
            if (one.task, one.life, one.kind) == (task, life, kind) and one.last <= number:
                if one.freed is None and at < one.until:
                    one.freed = at

    def _termed(self, term: JobTerm, at: int) -> None:
        if self.terms and self.terms[-1].number == term.number:
            self.terms[-1].until = term.until
        else:
            self.terms.append(Term(term.number, term.assigner, at, term.until))

    def _forget(self, at: int) -> None:
        """Forgets what ended before the window."""
        while self.stretches and self.stretches[0].end() < at - WINDOW:
            self.stretches.popleft()
        while self.events and self.events[0].at < at - WINDOW:
            self.events.popleft()
        while len(self.phases) > 1 and self.phases[1].at < at - WINDOW:
            self.phases.popleft()
        while len(self.terms) > 1 and self.terms[0].until < at - WINDOW:
            self.terms.popleft()
