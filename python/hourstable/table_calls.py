"""The calls of a table: how each is played on it, what its line of the log is made of, and what a repeated one
returns."""

import json
from abc import ABC, abstractmethod
from typing import TYPE_CHECKING, Any, Generic, TypeVar

from hourstable.library import CALLS, JobTerm, LoggedCall, Table
from hourstable.rights import ENDED, Asked, WentBack

if TYPE_CHECKING:
    from hourstable.jobs import Held, Job

T = TypeVar("T")
MOST_NOTES = 4096  # of which a job remembers the answers
TERM = "term"  # the key of the calls of assigners


class Malformed(Exception):
    """The body of a call cannot be read."""


class Call(ABC, Generic[T]):
    """A call of a table: its name in logs, the numbers that it passes as `log_line` takes them, and the message that
    it delivers. `repeated` asks what earlier calls of the same key did; None if it asks nothing."""

    do: str
    numbers: dict[str, int]
    message = b""
    key: str | None = None

    def logged(self, ticket: int, at: int) -> LoggedCall:
        """Returns the call for its line, before it is made."""
        return LoggedCall(ticket, CALLS[self.do], at=at, **self.numbers)

    @abstractmethod
    def play(self, table: Table, at: int) -> T:
        """Calls the library. Raises Refused."""

    def wrote(self, logged: LoggedCall, result: T) -> bytes:
        """Takes what the call wrote for its line, and returns the message that it delivered or made."""
        return self.message

    def repeated(self, job: "Job") -> T | None:
        """Returns the result of an earlier call that this one repeats, None if it repeats none."""
        return None

    def admit(self, job: "Job", held: "Held", at: int) -> None:
        """Raises NotAdmitted or WrongKey if who asks may not act at a reading, and Malformed if the call is none."""

    def done(self, job: "Job", result: T) -> None:
        """Remembers the call, which is stored."""


class Grant(Call[bytes]):
    """A task asks for a lease. Its result is the message of the grant."""

    do = "grant"

    def __init__(self, asked: Asked) -> None:
        self.asked, self.task, self.life = asked, asked.task, asked.life
        self.numbers = {"task": asked.task, "life": asked.life}

    def admit(self, job: "Job", held: "Held", at: int) -> None:
        job.need_key(self.task, self.life, self.asked.key)
        has_key = bool(self.asked.key) and held.rights.is_key(self.task, self.life, self.asked.key)
        if self.task not in job.lives or self.life > job.lives[self.task].life:
            if has_key:  # a plane gave it out
                raise WentBack(job.name, f"task {self.task} has life {self.life}, which the store does not know")
            raise Malformed(f"task {self.task} has had no life {self.life}")
        held.rights.judge(self.asked, at, held.ends_of(self.task, at))
        if has_key:
            self._compare(job, held)

    def _compare(self, job: "Job", held: "Held") -> None:
        """Raises WentBack if the task heard more than the table gave out."""
        number, generation = self.asked.heard
        phase = held.table.phase()
        if number > held.granted():
            why = f"task {self.task} heard grant {number}, and the table has made {held.granted()}"
            raise WentBack(job.name, why)
        if generation > max(phase.committed, phase.proposed):
            raise WentBack(job.name, f"task {self.task} heard generation {generation}, which the table does not know")

    def play(self, table: Table, at: int) -> bytes:
        return table.grant(self.task, self.life, at)

    def wrote(self, logged: LoggedCall, result: bytes) -> bytes:
        return result


class LetIn(Grant):
    """A life asks to be let in, before it is started: it is to ask for leases only from its start on. The table is
    not called, unless it gives no lease to anybody: then it says why. The result is the life and the job's epoch."""

    def told(self, held: "Held") -> bytes:
        """Returns the result."""
        return b'{"let_in":%d,"epoch":%d}' % (self.life, held.rights.epoch)


class Free(Call[int]):
    """A task gives leases back by a note, with the key of its life. Its result is how many rows were freed."""

    do = "free"

    def __init__(self, note: bytes, life_key: str = "") -> None:
        self.note = self.message = note
        self.life_key, self.value, self.numbers = life_key, value_in(note), {}
        self.key: str = json.dumps(self.value, sort_keys=True)
        self.task = _task_in(self.value)

    def admit(self, job: "Job", held: "Held", at: int) -> None:
        """Looks whether the note is of the task's own life, and one of an ended life not of that which is let in:
        that may have leases."""
        try:
            task, life, number = (int(self.value[name]) for name in ("task", "life", "number"))
        except (KeyError, TypeError, ValueError):
            return  # the library says what is wrong with it
        job.need_key(task, life, self.life_key)
        held.rights.check(task, life, self.life_key)
        if number >= ENDED and life >= held.rights.seat(task).life:
            raise Malformed(f"life {life} of task {task} has not ended: no later one is let in")

    def play(self, table: Table, at: int) -> int:
        return table.free(self.note, at)

    def wrote(self, logged: LoggedCall, result: int) -> bytes:
        logged.count = result
        return self.message

    def repeated(self, job: "Job") -> int | None:
        return job.notes.get(self.key)

    def done(self, job: "Job", result: int) -> None:
        job.notes[self.key] = result
        while len(job.notes) > MOST_NOTES:
            job.notes.popitem(last=False)


class OfTerm(Call[JobTerm]):
    """A call that begins or prolongs a term of the job lease. Its result is the term."""

    key = TERM

    def wrote(self, logged: LoggedCall, result: JobTerm) -> bytes:
        logged.job_term = result
        return self.message

    def done(self, job: "Job", result: JobTerm) -> None:
        job.term = term_of(result)


class Take(OfTerm):
    """An assigner takes the job lease."""

    do = "take"

    def __init__(self, assigner: int) -> None:
        self.assigner = assigner
        self.numbers = {"assigner": assigner}

    def play(self, table: Table, at: int) -> JobTerm:
        return table.take(self.assigner, at)


class Renew(OfTerm):
    """The holder of a term renews it."""

    do = "renew"

    def __init__(self, term: int) -> None:
        self.term = term
        self.numbers = {"term": term}

    def play(self, table: Table, at: int) -> JobTerm:
        return table.renew(self.term, at)


class Propose(Call[int]):
    """The holder of a term proposes an assignment. Its result is the generation."""

    do = "propose"
    key = TERM

    def __init__(self, term: int, assignment: bytes) -> None:
        self.term, self.message = term, assignment
        self.value = numbers_of(value_in(assignment))
        self.numbers = {"term": term}

    def play(self, table: Table, at: int) -> int:
        table.propose(self.term, self.message, at)
        generation: int = self.value["generation"]
        return generation

    def repeated(self, job: "Job") -> int | None:
        kept = job.kept()
        if not kept["pending"] or numbers_of(kept["pending"]) != self.value:
            return None
        generation: int = self.value["generation"]
        return generation if int(kept["term"]["number"]) == self.term else None


class Commit(Call[int]):
    """The holder of a term commits what is proposed. Its result is the generation.

    A call with the generation repeats an earlier one if this generation is committed and nothing
    is proposed; one without it, if the last commit of this process was of the same term.
    """

    do = "commit"
    key = TERM

    def __init__(self, term: int, generation: int | None) -> None:
        self.term, self.generation = term, generation
        self.numbers = {"term": term}

    def play(self, table: Table, at: int) -> int:
        return table.commit(self.term, at)

    def repeated(self, job: "Job") -> int | None:
        committed, proposed, _ = job.view
        if proposed or job.term is None or job.term["number"] != self.term:
            return None
        if self.generation is None:
            return committed if job.committed_by == (self.term, committed) else None
        return committed if committed and self.generation == committed else None

    def done(self, job: "Job", result: int) -> None:
        job.committed_by = (self.term, result)


def value_in(message: bytes) -> dict[str, Any]:
    """Returns the value of a message. Raises Malformed if it has none; the library checks the
    rest."""
    try:
        value = json.loads(message)["value"]
    except (ValueError, KeyError, TypeError, RecursionError) as error:
        raise Malformed("the body is not a message") from error
    if not isinstance(value, dict):
        raise Malformed("the body is not a message")
    return value


def _task_in(note: dict[str, Any]) -> int:
    """Returns the task of a note; 0 if it names none, and the library says so."""
    try:
        return int(note["task"])
    except (KeyError, TypeError, ValueError, OverflowError):
        return 0


def numbers_of(assignment: dict[str, Any]) -> dict[str, Any]:
    """Returns an assignment with numbers, which a message may have as the text of their digits.
    Raises Malformed."""
    try:
        slices = [[int(start), [int(owner) for owner in owners]]
                  for start, owners in assignment["slices"]]
        return {"generation": int(assignment["generation"]), "slices": slices}
    except (KeyError, TypeError, ValueError, OverflowError) as error:  # 1e999 is no whole number
        raise Malformed("the body is not an assignment") from error


LAST, DEADLINE, GRANTED = b'"last":"', b'"deadline":"', b'"granted":"'  # in kept values, but not in their assignments


def last_in(kept: bytes) -> int:
    """Returns the last reading of kept values."""
    return _number_after(LAST, kept)


def deadline_in(kept: bytes) -> int:
    """Returns the greatest deadline of kept values."""
    return _number_after(DEADLINE, kept)


def granted_in(kept: bytes) -> int:
    """Returns how many grants kept values count as made."""
    return _number_after(GRANTED, kept)


def _number_after(name: bytes, kept: bytes) -> int:
    at = kept.rindex(name) + len(name)
    return int(kept[at:kept.index(b'"', at)])


def term_of(term: JobTerm) -> dict[str, int]:
    """Returns the members of a term of the job lease."""
    return {"number": term.number, "assigner": term.assigner, "until": term.until}


def term_in(kept: bytes) -> dict[str, int] | None:
    """Returns the last term of the job lease in kept values."""
    term = json.loads(kept)["value"]["term"]
    return {name: int(number) for name, number in term.items()} if term else None
