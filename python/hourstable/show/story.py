"""What happened to each actor of a job, from the calls of a trace."""

from __future__ import annotations

from dataclasses import dataclass
from typing import NamedTuple

from .lanes import FOREVER, Item, Lane, Part, Row, ending, mark
from .trace import ENDED_LIFE, TABLE_CLOCK, TASK_CALLS, Call, Members, Trace
from .words import refusal_words

LEASE_LOOKS = ("guard", "bridge")


class Deed(NamedTuple):
    """The words of a picture for a call: where it stands, the label of its mark, what it asks for, the name of its
    key, and the line of its reply. `is_alarmed` is whether there is a warning of it."""

    place: str
    label: str
    asked: str
    key: str
    line: str
    is_alarmed: bool


@dataclass(slots=True)
class Lease:
    """What happened to a lease. `granted` and `freed` are readings of the table's clock, as is `until`, its deadline;
    `heard` and `stopped` are the task's, as is `ends`."""

    number: int
    life: int
    kind: str
    generation: int
    granted: int
    ends: int
    until: int
    heard: int | None = None
    stopped: int | None = None
    is_released: bool = False
    freed: int | None = None

    def stop(self, at: int, is_released: bool = False) -> None:
        """Sees that the task holds the lease no longer."""
        if self.heard is not None and self.stopped is None:
            self.stopped, self.is_released = at, is_released

    def free(self, note: Members, at: int) -> None:
        """Sees that a note was delivered to the table. That of a life that ended gives back all leases of a kind."""
        if (self.life, self.kind) != (note["life"], note["kind"]):
            return
        if self.number == note["number"] or note["number"] == ENDED_LIFE and self.freed is None:
            self.freed = at

    @property
    def held_to(self) -> int:
        return min(self.ends, self.ends if self.stopped is None else self.stopped)

    @property
    def out_to(self) -> int:
        return min(self.until, self.until if self.freed is None else self.freed)

    def words(self) -> str:
        """Returns what happened to it."""
        told = [f"{self.kind} lease {self.number} of generation {self.generation}, granted at {self.granted}"]
        told.append("never heard" if self.heard is None else f"heard at {self.heard}")
        if self.stopped is not None:
            told.append(f"{'released' if self.is_released else 'replaced'} at {self.stopped}")
        if self.freed is not None:
            told.append(f"freed at {self.freed}")
        return f"{', '.join(told)}; it ends at {self.ends} for the task and at {self.until} for the table"

    def parts(self) -> list[Part]:
        """Returns the parts that have readings: out, held, out again, over for the task alone, and its release."""
        out_from, found = self.granted, []
        if self.heard is not None:
            found = [Part("out", self.granted, self.heard), Part(self.kind, self.heard, self.held_to)]
            out_from = self.held_to
        found += [Part("out", out_from, min(self.ends, self.out_to)), Part("skew", self.ends, self.out_to)]
        found = [it for it in found if it.first < it.end]
        if self.is_released and self.stopped is not None:
            found.append(Part("released", min(self.stopped, self.heard or 0), self.stopped))
        return found

    def item(self) -> Item:
        label = f"grant {self.number}, generation {self.generation}"
        return Item(self.parts(), label, self.words(), f"grant {self.number}")


class TableStory:
    """What happened to the table. `last` is the last reading that it accepted."""

    def __init__(self) -> None:
        self.committed, self.proposed = 0, 0
        self.since, self.last = 0, 0
        self.begun = 0  # when the committed generation was committed
        self.ended: list[tuple[int, int, int]] = []
        self.phases: list[Item] = []
        self.terms: list[tuple[int, Members]] = []
        self.events: list[Item] = []

    def see(self, call: Call, now: int, first: int, deed: Deed | None) -> None:
        """Sees a call of the table at a reading. A phase that ends up to the reading `first` is left out."""
        reply, word = call.reply, call.word
        if word == "refused":
            if deed:
                words = f"{deed.place}{call.do} at {now}: {deed.line}"
                self.events.append(mark("refused", now, f"{call.do}: {refusal_words(reply)}", words))
            return
        self.last = now
        if word == "term":
            self.terms.append((now, {**reply, "assigner": call.members["assigner"]}))
        elif word == "renewed" and self.terms:
            taken, term = self.terms[-1]
            self.terms[-1] = (taken, {**term, "number": reply["number"], "until": reply["until"]})
        elif word in ("proposed", "committed"):
            self.close_phase(now, first)
            if word == "proposed":
                self.proposed = reply["generation"]
            else:
                self.ended.append((self.begun, now, self.committed))
                self.begun, self.committed, self.proposed = now, reply["generation"], 0

    def generations(self) -> list[tuple[int, int, int]]:
        """Returns the readings from which and to which each generation was the committed one, and its number."""
        return [*self.ended, (self.begun, FOREVER, self.committed)]

    def close_phase(self, now: int, first: int) -> None:
        if self.since < now and first < now:
            self.phases.append(self.phase(now))
        self.since = now

    def phase(self, end: int) -> Item:
        """Returns the phase up to a reading."""
        span = f"from {self.since} {ending(end)}"
        if self.proposed == 0:
            words = f"steady at generation {self.committed} {span}"
            return Item([Part("steady", self.since, end)], f"steady {self.committed}", words)
        words = f"generation {self.proposed} waits after generation {self.committed} {span}"
        return Item([Part("waiting", self.since, end)], f"{self.proposed} waits", words)

    def restart(self, call: Call, deed: Deed | None) -> None:
        """Sees that a process of the table began, or was refused to."""
        if call.word == "restored":
            self.last = call.members["last"]
        if deed:
            words = f"{deed.place}{deed.asked} at {self.last}: {deed.line}"
            self.events.append(mark("done", self.last, deed.label, words))

    def term_items(self) -> list[Item]:
        """Returns the terms, each up to its end or to the next one."""
        found = []
        for index, (taken, term) in enumerate(self.terms):
            until = term["until"]
            end = min([until, *(it[0] for it in self.terms[index + 1:index + 2])])
            named = f"term {term['number']}", f"assigner {term['assigner']}"
            words = f"{named[0]} of {named[1]} from {taken} to {until}"
            found.append(Item([Part("term", taken, end)], ", ".join(named), words))
        return found

    def rows(self) -> list[Row]:
        phases = [*self.phases, self.phase(FOREVER)]
        return [Row("phase", phases), Row("job lease", self.term_items()), Row("events", self.events)]


LOOKS = {"served": "served", "continuous": "served", "denied": "denied", "broken": "denied", "refused": "refused"}


class TaskStory:
    """What happened to a task."""

    def __init__(self) -> None:
        self.lives: list[tuple[int, int]] = []
        self.leases: list[Lease] = []
        self.handles: list[Item] = []
        self.requests: list[Item] = []

    def hear(self, number: int, at: int) -> None:
        """Sees that a grant was heard: its lease replaces that of its kind."""
        kind = next((it.kind for it in self.leases if it.number == number), None)
        for lease in self.leases:
            if lease.number == number:
                lease.heard = at
            elif lease.kind == kind:
                lease.stop(at)

    def start(self, life: int, at: int) -> None:
        for lease in self.leases:
            lease.stop(at)
        self.lives.append((life, at))

    def release(self, number: int, at: int) -> None:
        for lease in self.leases:
            if lease.number == number:
                lease.stop(at, is_released=True)

    def hold(self, number: int, at: int, breaks: int, deed: Deed) -> None:
        words = f"{deed.place}handle {number} on {deed.key} from {at}; it breaks at {breaks}"
        part = Part("handle", at, breaks)
        self.handles.append(Item([part], f"handle {number}: {deed.key}", words, f"handle {number}"))

    def request(self, look: str, at: int, deed: Deed) -> None:
        self.requests.append(mark(look, at, deed.label, f"{deed.place}{deed.asked} at {at}: {deed.line}"))

    def life_items(self) -> list[Item]:
        found = []
        for index, (life, first) in enumerate(self.lives):
            end = self.lives[index + 1][1] if index + 1 < len(self.lives) else FOREVER
            words = f"life {life} from {first} {ending(end)}"
            found.append(Item([Part("life", first, end)], f"life {life}", words))
        return found

    def rows(self) -> list[Row]:
        leases = [Row(kind, [it.item() for it in self.leases if it.kind == kind]) for kind in LEASE_LOOKS]
        return [Row("life", self.life_items()), *leases, Row("handles", self.handles), Row("requests", self.requests)]


def clerk_item(call: Call, now: int, deed: Deed) -> Item | None:
    """Returns the mark of a clerk's call, at the last reading before it."""
    reply, word = call.reply, call.word
    if call.do == "look":
        look, label = "denied", f"{deed.label}: unknown"
        if word == "found":
            owners = reply["owners"]
            named = f"owner{'' if len(owners) == 1 else 's'} {','.join(map(str, owners))}"
            look, label = "served", f"{deed.label}: {named}, generation {reply['generation']}"
        return mark(look, now, label, f"{deed.place}look for {deed.key} after {now}: {deed.line}")
    labels = {"learnt": "learnt generation {generation}", "forgotten": "forgot"}
    look = "refused" if word == "refused" else "done"
    label = refusal_words(reply) if word == "refused" else labels[word].format(**reply)
    return mark(look, now, label, f"{deed.place}{deed.line} after {now}")


class Story:
    """What happened to the actors of a job. Leases and phases that ended up to the reading `first` are left out."""

    def __init__(self, trace: Trace, first: int = 0) -> None:
        self.breaks, self.first, self.now = trace.handles, first, 0
        self.table = TableStory()
        self.tasks = {number: TaskStory() for number in range(1, trace.head.job["tasks"] + 1)}
        self.clerks: dict[int, list[Item]] = {it: [] for it in range(1, trace.head.job["clerks"] + 1)}

    def see(self, call: Call, deed: Deed | None) -> None:
        """Sees a call. One without a deed has no mark of its own; what it changes is shown in any case."""
        do = call.do
        if call.at is not None:
            self.now = call.at
        if do in TABLE_CLOCK:
            self.table.see(call, self.now, self.first, deed)
            self.see_leases(call)
        elif do in ("lose", "restore"):
            self.table.restart(call, deed)
        elif do in TASK_CALLS:
            self.see_task(call, deed)
        elif do in ("learn", "forget", "look") and deed and call.members["clerk"] in self.clerks:
            item = clerk_item(call, self.now, deed)
            self.clerks[call.members["clerk"]] += [item] if item else []

    def see_leases(self, call: Call) -> None:
        """Sees what a call of the table granted or freed."""
        reply = call.reply
        if call.word == "grant" and call.members["task"] in self.tasks:
            if max(reply["ends"], reply["until"]) < self.first:
                return
            numbers = (reply["number"], call.members["life"], reply["kind"], reply["generation"])
            lease = Lease(*numbers, self.now, reply["ends"], reply["until"])
            self.tasks[call.members["task"]].leases.append(lease)
        elif call.word == "freed":
            note = call.members["note"]
            task = self.tasks.get(note["task"])
            for lease in task.leases if task else []:
                lease.free(note, self.now)

    def see_task(self, call: Call, deed: Deed | None) -> None:
        task, word, at = self.tasks.get(call.members["task"]), call.word, self.now
        if task is None:
            return
        if call.do == "open":
            if deed:
                task.request("done", at, deed)
        elif word == "started":
            task.start(call.reply["life"], at)
        elif word == "heard":
            task.hear(call.reply["number"], at)
        elif word == "released":
            task.release(call.reply["number"], at)
        elif word == "handle":
            number = call.reply["handle"]
            if deed:
                task.hold(number, at, self.breaks[number].breaks, deed)
        elif deed:
            look = LOOKS[word]
            task.request("alarmed" if deed.is_alarmed and look == "served" else look, at, deed)

    def lanes(self, with_clerks: bool) -> list[Lane]:
        """Returns the lane of the table, those of the tasks in order, and those of the clerks if wanted."""
        found = [Lane("table", 0, self.table.rows())]
        found += [Lane("task", number, task.rows()) for number, task in self.tasks.items()]
        if with_clerks:
            found += [Lane("clerk", number, [Row("steps", items)]) for number, items in self.clerks.items()]
        for lane in found:
            lane.rows = [row for row in lane.rows if row.items]
        return found
