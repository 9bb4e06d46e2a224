"""Who may act for a job: the life of each task that is let in, as it is stored with the row of the job.

A life is let in when no lease of another life of its task can still last: at a reading that is not below the task's
deadline, the greatest that any life of it was given; or, where the plane knows all open rows of the task, when there
is none. From then on lower lives are refused. The text is written with each write of the row, by the same
compare-and-set.

A life has a key, which follows from a secret of the row, the task and the life. Who shows the key of the life that is
let in, from the same process or from the folder that this process had locked, is let in at once: that process has
ended, or has closed what it served by.
"""

import hmac
import json
from collections.abc import Mapping
from dataclasses import dataclass, field
from typing import Any, NamedTuple

from hourstable.own_lives import EVICTED, OVERTAKEN, WAITING
from hourstable.store import Damaged, Life
from hourstable.versions import ROWS

PLAIN, AFTER_BACKUP = 1, 2  # forms of the text: the second one also tells of a store that went back
TASKS = range(1, 65)
SECRET = 32  # bytes of the secret of a row
ENDING, ENDED_JOB = "ending", "ended"  # states of a job that was deleted
WENT_BACK = "went-back"  # the state of a job whose row is older than what was answered: no plane does its calls
MOST_EPOCH = (1 << 32) - 1
ENDED = 1 << 32  # the number in the note of a life that has ended, which closes all of its rows


class NotAdmitted(Exception):
    """A life gets no lease: it is `waiting`, and may ask again after some seconds, or it is `overtaken` for good.
    `admitted` is the life that is let in, 0 for none."""

    def __init__(self, word: str, admitted: int, after: float | None = None) -> None:
        super().__init__(f"{word}: life {admitted} is let in")
        self.word, self.admitted, self.after = word, admitted, after


class JobEnds(Exception):
    """The job was deleted: no lease is given and nothing is proposed."""


class WentBack(Damaged):
    """The store has less of a job than was answered: it went back, as to a backup."""

    def __init__(self, job: str, why: str) -> None:
        super().__init__(
            f"the store went back: {why}. Stop all planes, run `hourstable-service recover` for {job}, and start them"
        )


class WrongKey(Exception):
    """Who acts for a life has not its key."""

    def __init__(self, task: int, life: int) -> None:
        super().__init__(f"the key is not that of life {life} of task {task}")


class Place(NamedTuple):
    """Where a life runs: its process, by a word that it drew at its start; and the boot of the machine, and the
    device and the inode of the file that the process has locked, all empty if it has none."""

    process: str = ""
    boot: str = ""
    device: str = ""
    inode: str = ""

    def follows(self, other: "Place") -> bool:
        """Whether nothing that ran at another place runs beside what runs here: it is the same process, or one that
        has locked the file which the other had locked."""
        is_same = bool(self.process) and self.process == other.process
        return is_same or (all(self[1:]) and self[1:] == other[1:])


class Heard(NamedTuple):
    """The greatest number of a grant that a life heard, and the greatest generation; 0 for none."""

    number: int = 0
    generation: int = 0


class Asked(NamedTuple):
    """Who asks for a lease, or with `let_in` only to be let in. `shown` are the lives of its task whose keys it has,
    with these."""

    task: int
    life: int
    key: str = ""
    place: Place = Place()
    shown: tuple[tuple[int, str], ...] = ()
    let_in: bool = False
    heard: Heard = Heard()


@dataclass
class Seat:
    """What is stored of a task: the life that is let in, 0 for none, and the greatest deadline that any life of it
    was given, or may be given before the row is written again. `keyed` says whether that life showed its key when it
    was let in; callers of versions up to 1.0 have none. None: it is not known."""

    life: int = 0
    deadline: int = 0
    keyed: bool | None = None
    place: Place = Place()
    is_evicted: bool = False  # the life gets no more leases, and its key is void
    favoured: int = 0  # the life that alone is let in until the reading `reserved`
    reserved: int = 0

    def value(self) -> dict[str, Any]:
        made: dict[str, Any] = {"life": self.life, "deadline": self.deadline, "keyed": self.keyed}
        if any(self.place):
            made["place"] = list(self.place)
        if self.is_evicted:
            made |= {"evicted": True, "favoured": self.favoured, "reserved": self.reserved}
        return made

    @classmethod
    def of(cls, value: Mapping[str, Any]) -> "Seat":
        evicted = bool(value.get("evicted")), int(value.get("favoured", 0)), int(value.get("reserved", 0))
        place = Place(*value.get("place", ()))
        return cls(int(value["life"]), int(value["deadline"]), value.get("keyed"), place, *evicted)


@dataclass
class Rights:
    """The text with its values. `ticket` is that of the last line of the row that it was written with: a row of
    another line was written by a version up to 1.0, which lets any life in."""

    secret: bytes
    epoch: int = 0  # of the job, which no other job of its store ever has; 0 for none yet
    state: str = ""  # or ENDING: no lease is given; or ENDED_JOB: none lasts; or WENT_BACK
    seats: dict[int, Seat] = field(default_factory=dict)
    ticket: int | None = None
    is_changed: bool = False  # since it was read or written
    floor: int = 0  # the greatest life that may have been given out before the store went back
    quiet: int = 0  # the reading before which no lease is given: one of before the store went back may last

    @classmethod
    def read(cls, job: str, text: str, newest: int = ROWS) -> "Rights":
        """Returns what a text says. Raises Damaged, also if its form is above the newest one that is read."""
        try:
            value = json.loads(text)
            if value["version"] > newest:
                raise Damaged(
                    f"the row of {job} is of form {value['version']}; this version of Hourstable reads those up to"
                    f" {newest}: run a newer one"
                )
            seats = {int(task): Seat.of(it) for task, it in value["tasks"].items()}
            epoch, state = int(value.get("epoch", 0)), str(value.get("state", ""))
            made = cls(bytes.fromhex(value["secret"]), epoch, state, seats, value["ticket"])
            made.floor, made.quiet = int(value.get("floor", 0)), int(value.get("quiet", 0))
            return made
        except (ValueError, KeyError, TypeError, AttributeError) as error:
            raise Damaged(f"the rights that are stored of {job} cannot be read: {error!r}") from error

    def form(self) -> int:
        """Returns the form of the text: the oldest that can say what is to be said."""
        return AFTER_BACKUP if self.floor or self.quiet or self.state == WENT_BACK else PLAIN

    def fit(self, newest: int) -> None:
        """Takes a form that is not above the newest one which others read, if one of these can keep what is promised.
        A job that is stopped stays in its form: who does not read it gives no lease either."""
        if self.form() > newest and self.state != WENT_BACK:
            self._say_plainly()

    def _say_plainly(self) -> None:
        """Says in the plain form what was said of a store that went back: the lives up to the floor count as lives of
        each task that were let in and evicted. Processes of them hear that they were overtaken, and end."""
        for task in TASKS:
            seat = self.seat(task)
            if seat.life <= self.floor:
                until = max(seat.reserved, self.quiet)
                self.seats[task] = Seat(self.floor, seat.deadline, True, is_evicted=True, reserved=until)
        self.floor, self.quiet, self.is_changed = 0, 0, True

    def text(self, ticket: int | None) -> str:
        """Returns the text that is written with a line of this ticket."""
        tasks = {str(task): seat.value() for task, seat in sorted(self.seats.items())}
        value: dict[str, Any] = {
            "version": self.form(), "ticket": ticket, "secret": self.secret.hex(), "epoch": self.epoch,
            "tasks": tasks,
        }
        if self.state:
            value["state"] = self.state
        if self.floor or self.quiet:
            value |= {"floor": self.floor, "quiet": self.quiet}
        return json.dumps(value, separators=(",", ":"))

    def after_older(self, lives: Mapping[int, Life], deadline: int) -> None:
        """Takes that versions up to 1.0 gave leases to any lives that were given out, until a deadline at most: the
        greatest life of each task counts as let in."""
        for task, life in lives.items():
            seat = self.seat(task)
            seat.deadline = max(seat.deadline, deadline)
            if life.life > seat.life:
                seat.life, seat.keyed, seat.place = life.life, None, Place()
        self.is_changed = True

    def seat(self, task: int) -> Seat:
        return self.seats.setdefault(task, Seat())

    # Keys. ---------------------------------------------------------------------------------------

    def key(self, task: int, life: int) -> str:
        """Returns the key of a life."""
        return hmac.digest(self.secret, f"task {task} life {life}".encode(), "sha256").hex()

    def check(self, task: int, life: int, key: str) -> None:
        """Raises WrongKey unless a key is that of a life. None is needed as long as the life that is let in showed
        none, as those of versions up to 1.0 do."""
        if not key and not self.seat(task).keyed:
            return
        if not self.is_key(task, life, key):
            raise WrongKey(task, life)

    def mark(self) -> str:
        """Returns a word that changes when the job is recovered, and tells nothing of the secret."""
        return hmac.digest(self.secret, b"mark", "sha256").hex()[:16] if self.secret else ""

    def is_key(self, task: int, life: int, key: str) -> bool:
        """Whether a key is that of a life."""
        return hmac.compare_digest(self.key(task, life).encode(), key.encode("utf-8", "surrogateescape"))

    # Lives. --------------------------------------------------------------------------------------

    def judge(self, asked: Asked, at: int, ends: int) -> None:
        """Raises WrongKey or NotAdmitted unless a life gets a lease at a reading. At the reading `ends` no lease of
        the task lasts any more."""
        task, life, seat = asked.task, asked.life, self.seat(asked.task)
        if life <= self.floor:
            raise NotAdmitted(OVERTAKEN, 0)  # its process begins another one
        if life < seat.life:
            raise NotAdmitted(OVERTAKEN, seat.life)
        if asked.key and not self.is_key(task, life, asked.key):
            raise WrongKey(task, life)
        if at < self.quiet:
            raise NotAdmitted(WAITING, seat.life, (self.quiet - at) / 1000)
        if life == seat.life and seat.is_evicted:
            raise NotAdmitted(EVICTED, seat.life)
        if life != seat.favoured and at < seat.reserved:
            raise NotAdmitted(WAITING, seat.life, (seat.reserved - at) / 1000)
        if life == seat.life and seat.keyed is False and asked.key:
            raise NotAdmitted(OVERTAKEN, seat.life)
        if life == seat.life and seat.keyed and not asked.key:
            raise WrongKey(task, life)
        if life > seat.life and at < ends and not self._is_next(asked, seat):
            raise NotAdmitted(WAITING, seat.life, (ends - at) / 1000)

    def _is_next(self, asked: Asked, seat: Seat) -> bool:
        """Whether a life takes the place of the one that is let in."""
        if not (seat.keyed and asked.key and not seat.is_evicted and asked.place.follows(seat.place)):
            return False
        return any(life == seat.life and self.is_key(asked.task, life, key) for life, key in asked.shown)

    def admit(self, asked: Asked) -> None:
        """Lets a life in that was given a lease."""
        seat = self.seat(asked.task)
        if asked.life != seat.life or seat.keyed is None:
            seat.life, seat.keyed, seat.place, self.is_changed = asked.life, bool(asked.key), asked.place, True
            seat.is_evicted, seat.favoured, seat.reserved = False, 0, 0

    def evict(self, task: int, favoured: int, reserved: int) -> int:
        """Gives the life that is let in no more leases, and voids its key. With a favoured life no other one is let
        in until a reading. Returns the life that was let in, 0 if there is none."""
        seat = self.seat(task)
        if not seat.life:
            return 0
        seat.is_evicted, self.is_changed = True, True
        seat.favoured, seat.reserved = (favoured, reserved) if favoured > seat.life else (0, 0)
        return seat.life

    def reach(self, task: int, deadline: int) -> None:
        """Takes that a task may have leases up to a deadline."""
        seat = self.seat(task)
        if deadline > seat.deadline:
            seat.deadline, self.is_changed = deadline, True
