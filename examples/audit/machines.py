"""The machines of the service: a lease table, a slicelet and a clerk.

They are written from docs/CONCEPTS.md and docs/FORMATS.md, and share no code with Hourstable. A
method that has the name of a call is that call. It returns the words of its reply with what it made
for others, a grant, a note, a handle or an assignment; or it raises `Refused`, and has changed
nothing. Readings are in ticks.

Each rule has a method of its own, so that a bug is a change of one of them (bugs_by_name.py).
"""

import hashlib
from dataclasses import dataclass, field, replace
from typing import NamedTuple

KEYS = 1 << 63
READINGS = 1 << 62  # of the table's clock
MOST_SLICES, MOST_OWNERS, MOST_TASKS = 1024, 5, 64
MOST_CALLS = 65_536  # that a slicelet accepts

Ranges = list[list[int]]  # pairs of a start and an end, which rise and do not touch
Slices = list[tuple[int, list[int]]]  # starts with their owners


class Refused(Exception):
    """A call is refused; the text is the words after `refused`."""


@dataclass(frozen=True)
class Assignment:
    generation: int
    slices: Slices


@dataclass(frozen=True)
class Term:
    number: int
    assigner: int
    until: int


@dataclass(frozen=True)
class Grant:
    number: int
    task: int
    life: int
    kind: str
    generation: int
    ranges: Ranges
    ends: int  # for the task
    until: int  # for the table


@dataclass(frozen=True)
class Note:
    task: int
    life: int
    kind: str
    number: int


@dataclass(frozen=True)
class Handle:
    task: int
    life: int
    slice_key: int
    position: int


class Reply(NamedTuple):
    """The words of a reply, and what the call made."""

    words: str
    made: Assignment | Term | Grant | Note | Handle | None = None


@dataclass(frozen=True)
class Policy:
    """What the machines of a job agree on. `high` is the greatest number of owners of a slice."""

    high: int = 1
    skew: int = 10
    guard: int = 100
    bridge: int = 80
    job: int = 1000
    numbers: int = 1000

    def term_of(self, kind: str) -> int:
        """Returns how many ticks a lease of a kind lasts."""
        return self.guard if kind == "guard" else self.bridge


def slice_key(key: str) -> int:
    """Hashes a key: the first 63 bits of its SHA-256."""
    return int.from_bytes(hashlib.sha256(key.encode()).digest()[:8], "big") >> 1


def covers(ranges: Ranges, key: int) -> bool:
    """Whether a slice key is in one of the ranges."""
    return any(start <= key < end for start, end in ranges)


def in_both(some: Ranges, others: Ranges) -> Ranges:
    """Returns the keys that are in both sets."""
    pairs = [[max(a, c), min(b, d)] for a, b in some for c, d in others]
    return sorted(pair for pair in pairs if pair[0] < pair[1])


def in_either(some: Ranges, others: Ranges) -> Ranges:
    """Returns the keys that are in one of the sets at least."""
    joined: Ranges = []
    for start, end in sorted([*some, *others]):
        if joined and start <= joined[-1][1]:
            joined[-1][1] = max(joined[-1][1], end)
        else:
            joined.append([start, end])
    return joined


def owners_of(slices: Slices, key: int) -> list[int]:
    """Returns the owners of the last slice that starts at the key or below it."""
    return next((owners for start, owners in reversed(slices) if start <= key), [])


def keys_of(slices: Slices, task: int) -> Ranges:
    """Returns the keys that a task owns."""
    ends = [start for start, _ in slices[1:]] + [KEYS]
    owned = [[start, end] for (start, owners), end in zip(slices, ends) if task in owners]
    return in_either(owned, [])


def slices_fault(slices: Slices) -> str | None:
    """Returns why slices are no assignment, the first of these in the order of docs/FORMATS.md."""
    starts = [start for start, _ in slices]
    owners = [it for _, it in slices]
    faults = {
        "no-slices": not slices,
        "first-not-zero": starts[:1] != [0],
        "not-rising": any(after <= before for before, after in zip(starts, starts[1:])),
        "past-end": any(start >= KEYS for start in starts),
        "no-owner": any(not it for it in owners),
        "too-many-owners": any(len(it) > MOST_OWNERS for it in owners),
        "owner-twice": any(len(set(it)) < len(it) for it in owners),
        "bad-task": any(not 1 <= task <= MOST_TASKS for it in owners for task in it),
        "too-many-slices": len(slices) > MOST_SLICES,
    }
    return next((fault for fault, is_so in faults.items() if is_so), None)


@dataclass
class LeaseTable:
    """Knows who may propose and commit, and which leases are out."""

    policy: Policy
    last: int = 0  # reading that was accepted
    term: Term | None = None
    committed: Assignment = Assignment(0, [])
    proposed: Assignment | None = None
    rows_out: list[Grant] = field(default_factory=list)
    granted: int = 0
    deadline: int = 0  # the greatest of all grants
    grace: int = 0

    # What an assigner calls.

    def take(self, assigner: int, at: int) -> Reply:
        """Gives the job lease to an assigner."""
        self.check_reading(at)
        if self.term is not None and not self.is_over(self.term, at):
            raise Refused(f"job-held {self.term.until}")
        number = 1 if self.term is None else self.term.number + 1
        self.last, self.term = at, Term(number, assigner, at + self.policy.job)
        return Reply(f"term {number} until {self.term.until}", self.term)

    def renew(self, term: int, at: int) -> Reply:
        """Moves the end of the term."""
        self.check_reading(at)
        held = self.holder(term, at)
        self.last, self.term = at, replace(held, until=at + self.policy.job)
        return Reply(f"renewed {term} until {self.term.until}", self.term)

    def propose(self, term: int, generation: int, slices: Slices, at: int) -> Reply:
        """Proposes the assignment that is to be committed next."""
        fault = slices_fault(slices)
        if fault is not None:
            raise Refused(fault)
        self.check_reading(at)
        self.holder(term, at)
        self.check_base(generation)
        self.check_no_other()
        self.check_owners(slices)
        self.last, self.proposed = at, Assignment(generation, slices)
        return Reply(f"proposed {generation}")

    def commit(self, term: int, at: int) -> Reply:
        """Commits the proposed assignment, once no older lease is out."""
        self.check_reading(at)
        self.holder(term, at)
        if self.proposed is None:
            raise Refused("nothing-pending")
        self.check_grace(at)
        held = [row for row in self.rows_out if self.holds_up(row, at)]
        if held:
            row = self.row_told(held)
            raise Refused(f"held {row.task} {row.kind} {row.number}")
        self.last, self.committed, self.proposed = at, self.proposed, None
        return Reply(f"committed {self.committed.generation}", self.committed)

    # What a task calls.

    def grant(self, task: int, life: int, at: int) -> Reply:
        """Gives a task a lease: a guard lease, or a bridge lease while an assignment waits."""
        self.check_reading(at)
        self.check_assignment()
        self.check_numbers()
        kind = self.kind_now()
        until = at + self.policy.term_of(kind)
        made = Grant(
            self.next_number(), task, life, kind, (self.proposed or self.committed).generation,
            self.keys_for(task), self.end_for_task(until), until,
        )
        self.last, self.granted = at, made.number
        self.deadline = max(self.deadline, until)
        self.rows_out.append(made)
        words = f"grant {made.number} {kind} {made.generation} until {until} {made.ends}"
        return Reply(words, made)

    def free(self, note: Note, at: int) -> Reply:
        """Frees the rows of the leases that a note gives back."""
        self.check_reading(at)
        freed = [row for row in self.rows_out if self.is_open(row, at) and self.frees(note, row)]
        if not freed:
            raise Refused("no-row")
        self.last = at
        self.drop(freed)
        return Reply(f"freed {len(freed)}")

    # What has no reading.

    def lose(self) -> Reply:
        """Restarts the table in its process: it loses its rows and keeps all else."""
        lost = len(self.open_rows())
        self.rows_out = []
        self.grace = self.deadline
        return Reply(f"lost {lost}")

    def phase(self) -> Reply:
        """Tells the phase."""
        committed = self.committed.generation
        if self.proposed is None:
            return Reply(f"phase steady {committed}")
        return Reply(f"phase bridging {committed} {self.proposed.generation}")

    def rows(self) -> Reply:
        """Tells the open rows."""
        texts = [
            f"{it.number}:{it.task}:{it.life}:{it.kind}:{it.generation}:{it.until}"
            for it in self.open_rows()
        ]
        return Reply(f"rows [{' '.join(texts)}]")

    # The rules.

    def check_reading(self, at: int) -> None:
        if at >= READINGS:
            raise Refused("reading-range")
        if at < self.last:
            raise Refused("clock-back")

    def is_over(self, term: Term, at: int) -> bool:
        return at >= term.until

    def holder(self, term: int, at: int) -> Term:
        """Returns the term with this number, which must be the last one and run."""
        held = self.term
        if held is None or term != held.number or self.is_over(held, at):
            raise Refused(f"not-holder {0 if held is None else held.number}")
        return held

    def check_base(self, generation: int) -> None:
        if generation != self.committed.generation + 1:
            raise Refused(f"stale-base {self.committed.generation}")

    def check_no_other(self) -> None:
        if self.proposed is not None:
            raise Refused("pending")

    def check_owners(self, slices: Slices) -> None:
        if any(len(owners) > self.policy.high for _, owners in slices):
            raise Refused("too-many-owners-for-job")

    def check_grace(self, at: int) -> None:
        if at < self.grace:
            raise Refused(f"grace {self.grace}")

    def is_open(self, row: Grant, at: int) -> bool:
        return at < row.until

    def holds_up(self, row: Grant, at: int) -> bool:
        return row.generation <= self.committed.generation and self.is_open(row, at)

    def row_told(self, rows: list[Grant]) -> Grant:
        """Returns the one of the rows that hold a commit up of which it tells."""
        return min(rows, key=lambda row: row.number)

    def check_assignment(self) -> None:
        if self.committed.generation == 0 and self.proposed is None:
            raise Refused("no-assignment")

    def check_numbers(self) -> None:
        if self.granted >= self.policy.numbers:
            raise Refused("numbers-spent")

    def kind_now(self) -> str:
        return "guard" if self.proposed is None else "bridge"

    def next_number(self) -> int:
        return self.granted + 1

    def keys_for(self, task: int) -> Ranges:
        owned = keys_of(self.committed.slices, task)
        if self.proposed is None:
            return owned
        return in_both(owned, keys_of(self.proposed.slices, task))

    def end_for_task(self, until: int) -> int:
        return until - self.policy.skew

    def frees(self, note: Note, row: Grant) -> bool:
        same = (note.task, note.life, note.kind) == (row.task, row.life, row.kind)
        return same and row.number <= note.number

    def drop(self, freed: list[Grant]) -> None:
        self.rows_out = [row for row in self.rows_out if row not in freed]

    def open_rows(self) -> list[Grant]:
        return [row for row in self.rows_out if self.is_open(row, self.last)]


@dataclass
class Slicelet:
    """Knows the leases of a task, and decides whether the task may serve a key.

    `opened` is the life that the process of the task began after. `kept` has for each accepted call
    the keys that the task might serve just before it and just after it.
    """

    task: int
    opened: int = 0
    life: int = 0
    last: int = 0  # reading of the last accepted call
    is_up: bool = False
    held: dict[str, Grant] = field(default_factory=dict)
    greatest: dict[str, int] = field(default_factory=dict)
    kept: list[Ranges] = field(default_factory=list)

    def open(self, life: int) -> Reply:
        """Begins another process of the task, after all lives up to this one."""
        if life < self.life:
            raise Refused("old-life")
        self.reset(life)
        return Reply(f"opened {life}")

    def start(self, life: int, at: int) -> Reply:
        """Starts a life, which holds nothing."""
        self.check_life(life)
        self.check_reading(at)
        self.check_room()
        self.life, self.is_up = life, True
        self.forget_leases()
        self.accept(at, [])
        return Reply(f"started {life}")

    def hear(self, grant: Grant, at: int) -> Reply:
        """Takes a lease that the table granted, in place of the one of its kind."""
        self.check_up()
        self.check_reading(at)
        self.check_receiver(grant)
        if self.is_old(grant):
            raise Refused(f"old {self.greatest[grant.kind]}")
        self.check_in_time(grant, at)
        self.check_room()
        before = self.permitted(at)
        self.put(grant)
        self.accept(at, before)
        return Reply(f"heard {grant.number}")

    def release(self, kind: str, at: int) -> Reply:
        """Gives the lease of a kind back. The note tells the table."""
        self.check_up()
        self.check_reading(at)
        self.check_held(kind)
        self.check_room()
        before = self.permitted(at)
        note = Note(self.task, self.life, kind, self.number_released(kind))
        self.remove(kind)
        self.accept(at, before)
        return Reply(f"released life {note.life} number {note.number}", note)

    def serve(self, key: int, at: int) -> Reply:
        """Decides whether the task may serve a slice key."""
        return Reply(self.verdict(key, at))

    def hold(self, key: int, at: int) -> Reply:
        """Gives a handle on a slice key that the task may serve."""
        verdict = self.verdict(key, at)
        if verdict.startswith("denied"):
            return Reply(verdict)
        handle = Handle(self.task, self.life, key, self.position())
        return Reply(f"handle life {handle.life} position {handle.position}", handle)

    def check(self, handle: Handle, at: int) -> Reply:
        """Decides whether the task might serve the key of a handle ever since it was given."""
        if self.is_stranger(handle):
            raise Refused("stranger")
        return Reply("continuous" if self.is_continuous(handle, at) else "broken")

    # The rules.

    def check_life(self, life: int) -> None:
        if life <= self.life:
            raise Refused("old-life")

    def check_reading(self, at: int) -> None:
        if at < self.last:
            raise Refused("clock-back")

    def check_room(self) -> None:
        if len(self.kept) >= MOST_CALLS:
            raise Refused("history-full")

    def check_up(self) -> None:
        if not self.is_up:
            raise Refused("not-started")

    def check_receiver(self, grant: Grant) -> None:
        if grant.task != self.task:
            raise Refused("other-task")
        if grant.life != self.life:
            raise Refused("other-life")

    def is_old(self, grant: Grant) -> bool:
        return grant.kind in self.greatest and grant.number <= self.greatest[grant.kind]

    def check_in_time(self, grant: Grant, at: int) -> None:
        if at >= grant.ends:
            raise Refused("too-late")

    def check_held(self, kind: str) -> None:
        if kind not in self.held:
            raise Refused("nothing-held")

    def is_live(self, lease: Grant, at: int) -> bool:
        return at < lease.ends

    def has_key(self, lease: Grant, key: int) -> bool:
        return covers(lease.ranges, key)

    def leases(self) -> list[Grant]:
        """Returns the held leases, the guard lease first."""
        return [self.held[kind] for kind in ("guard", "bridge") if kind in self.held]

    def verdict(self, key: int, at: int) -> str:
        """The written rule of docs/CONCEPTS.md."""
        if not self.is_up:
            return "denied down"
        if at < self.last:
            return "denied clock-back"
        for lease in self.leases():
            if self.is_live(lease, at) and self.has_key(lease, key):
                return f"served {lease.kind} {lease.generation}"
        return f"denied {self.ground(key, at)}"

    def ground(self, key: int, at: int) -> str:
        """Why a key is denied that no live lease covers."""
        if any(self.has_key(lease, key) for lease in self.leases()):
            return "ended"
        live = [lease.generation for lease in self.leases() if self.is_live(lease, at)]
        return f"not-owned {max(live)}" if live else "no-lease"

    def permitted(self, at: int) -> Ranges:
        """Returns the keys of the live leases."""
        keys: Ranges = []
        for lease in self.leases():
            if self.is_live(lease, at):
                keys = in_either(keys, lease.ranges)
        return keys

    def position(self) -> int:
        return len(self.kept)

    def is_stranger(self, handle: Handle) -> bool:
        if handle.task != self.task or handle.life > self.life or handle.life <= self.opened:
            return True
        return handle.life == self.life and handle.position > self.position()

    def is_continuous(self, handle: Handle, at: int) -> bool:
        if handle.life != self.life:
            return False
        since = self.kept[handle.position :]
        return all(covers(keys, handle.slice_key) for keys in since) and self.verdict(
            handle.slice_key, at
        ).startswith("served")

    # What changes.

    def reset(self, life: int) -> None:
        self.opened = self.life = life
        self.last, self.is_up, self.kept = 0, False, []
        self.forget_leases()

    def forget_leases(self) -> None:
        self.held, self.greatest = {}, {}

    def put(self, grant: Grant) -> None:
        self.held[grant.kind] = grant
        self.greatest[grant.kind] = grant.number

    def number_released(self, kind: str) -> int:
        return self.held[kind].number

    def remove(self, kind: str) -> None:
        del self.held[kind]

    def accept(self, at: int, before: Ranges) -> None:
        self.last = at
        self.kept.append(in_both(before, self.permitted(at)))


@dataclass
class Clerk:
    """Knows the newest assignment that a client learnt."""

    known: Assignment | None = None

    def learn(self, assignment: Assignment) -> Reply:
        """Learns a committed assignment, if it is newer."""
        if self.known is not None and not self.is_newer(assignment, self.known):
            raise Refused(f"old {self.known.generation}")
        self.known = assignment
        return Reply(f"learnt {assignment.generation}")

    def look(self, key: int) -> Reply:
        """Tells the owners of a slice key."""
        if self.known is None:
            raise Refused("unknown")
        owners = ",".join(map(str, sorted(owners_of(self.known.slices, key))))
        return Reply(f"found generation {self.known.generation} owners {owners}")

    def forget(self) -> Reply:
        """Forgets what was learnt."""
        self.known = None
        return Reply("forgotten")

    def is_newer(self, assignment: Assignment, known: Assignment) -> bool:
        return assignment.generation > known.generation
