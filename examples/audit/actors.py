"""What the processes of the service do with a call: they read the clock, draw a ticket, make the
call on the machine, store what changed, write the line, and then answer."""

import json
import os
import threading
import time
from dataclasses import asdict, dataclass, field
from pathlib import Path
from typing import Any

from machines import (
    Assignment, Clerk, Grant, Handle, LeaseTable, Note, Policy, Refused, Reply, Slicelet, Term,
    slice_key,
)
from sockets import Message
from tickets import CLOCK, COUNTER, CommonClock, HybridClock, SharedCounter, Tickets

WITHOUT_READING = {"lose", "phase", "rows", "restore", "open", "learn", "look", "forget"}
TEXTS = ("number", "generation", "ends", "until")  # of a grant, in a message of version 2
PLAIN, SPARSE, WHOLE = FORMS = ("plain", "sparse", "whole")


@dataclass(frozen=True)
class Settings:
    """What all processes know. Offsets of clocks are in ticks, errors in nanoseconds."""

    policy: Policy = Policy()
    tasks: int = 3
    clients: int = 2
    tickets: str = COUNTER
    form: str = PLAIN  # of the lines
    ahead: tuple[int, int] = (0, 0)  # the grants and the ticks that are saved ahead
    offsets: dict[str, int] = field(default_factory=dict)
    errors: dict[str, int] = field(default_factory=dict)
    ports: dict[str, int] = field(default_factory=dict)

    def job(self) -> dict[str, int]:
        """Returns the job of the first line of a log."""
        policy = asdict(self.policy)
        return {
            "redundancy": policy.pop("high"), **policy,
            "assigners": 2, "tasks": self.tasks, "clerks": self.clients,
        }

    def names(self) -> list[str]:
        """Returns the names of the processes that have a machine."""
        tasks = [f"task-{it}" for it in range(1, self.tasks + 1)]
        return ["table", *tasks, *(f"client-{it}" for it in range(1, self.clients + 1))]


class Clock:
    """The clock of a process. A tick is a millisecond."""

    def __init__(self, offset: int) -> None:
        self.offset = offset

    def read(self, now: int | None) -> int:
        """Returns the reading at a time, which a story tells."""
        return (time.monotonic_ns() // 1_000_000 if now is None else now) + self.offset


class Log:
    """The log of a process. What was written outlasts it."""

    def __init__(self, path: Path) -> None:
        self.path = path
        self.file = os.open(path, os.O_WRONLY | os.O_APPEND | os.O_CREAT, 0o644)

    def write(self, line: Message) -> int:
        """Writes a line, and returns where it ends in the file, in bytes."""
        self.put(json.dumps(line) + "\n")
        return os.lseek(self.file, 0, os.SEEK_CUR)

    def put(self, text: str) -> None:
        """Writes a text by one call of the system, so that a kill leaves all of it or nothing."""
        os.write(self.file, text.encode())

    def has(self, line: Message) -> bool:
        return json.dumps(line) in self.path.read_text().splitlines()


def store_text(path: Path, text: str) -> None:
    """Stores a text in a file, so that a kill leaves all of it, or what was there before."""
    written = path.with_suffix(".new")
    written.write_text(text)
    written.replace(path)


class Actor:
    """A machine whose calls are logged."""

    machine: Any
    actor: dict[str, int] = {}  # what a line says of who made the call

    def __init__(self, folder: Path, name: str, settings: Settings) -> None:
        self.folder, self.name, self.settings = folder, name, settings
        self.lock = threading.Lock()
        self.log = Log(folder / f"{name}.jsonl")
        self.clock = Clock(settings.offsets.get(name, 0))
        self.tickets = tickets_of(folder, name, settings)
        self.last_ticket = 0

    def answer(self, asked: Message) -> Message:
        """Makes a call. `seen` is the ticket of what it delivers, and `now` the time in a story."""
        with self.lock:
            self.tickets.observe(asked.get("seen", 0))
            call = {name: it for name, it in asked.items() if name not in ("seen", "now")}
            ticket = self.stamp(call, asked.get("now"))
            return self.make(call, ticket)

    def stamp(self, call: Message, now: int | None) -> int:
        """Puts the reading of the call in it, and returns its ticket. The ticket is drawn first, so
        that each call of the table with a lower one has read its clock before."""
        ticket = self.tickets.draw(now)
        if call["do"] not in WITHOUT_READING:
            call["at"] = self.clock.read(now)
        return ticket

    def make(self, call: Message, ticket: int) -> Message:
        """Makes a call, and writes its line before its answer leaves."""
        try:
            reply = self.play(call)
        except Refused as refused:
            reply = Reply(f"refused {refused}")
        line = self.line_of(call, ticket, reply.words)
        self.keep(line)
        return self.told(reply, ticket, self.log.write(line))

    def told(self, reply: Reply, ticket: int, end: int) -> Message:
        """Returns the answer: the words, what was made, the ticket and where the line ends."""
        self.last_ticket = ticket
        made = None if reply.made is None else asdict(reply.made)
        return {"words": reply.words, "made": made, "ticket": ticket, "end": end}

    def play(self, call: Message) -> Reply:
        """Makes a call on the machine."""
        members = {name: it for name, it in call.items() if name != "do"}
        for name, kind in (("grant", Grant), ("note", Note), ("handle", Handle)):
            if name in members:
                members[name] = kind(**members[name])
        if "key" in members:
            members["key"] = slice_key(members["key"])
        elif "slice_key" in members:
            members["key"] = members.pop("slice_key")
        reply: Reply = getattr(self.machine, call["do"])(**members)
        return reply

    def keep(self, line: Message) -> None:
        """Stores what the next process of this actor has to know."""

    def line_of(self, call: Message, ticket: int, words: str) -> Message:
        """Returns the line of a call."""
        line = {"ticket": ticket, "do": call["do"], **self.actor, **call, "reply": words}
        form = self.settings.form
        if "grant" in call:
            line["grant"] = grant_in_line(call["grant"], form)
        if form == SPARSE:
            line["reply"] = one_word(call["do"], words)
            if "key" in call:
                line["slice_key"] = slice_key(line.pop("key"))
            if call["do"] == "learn":
                del line["slices"]
        return line


def grant_in_line(grant: Message, form: str) -> Message:
    """Returns a grant as a message of version 2 has it, or without its ranges, which follow from
    the log of the table."""
    if form != WHOLE:
        return {name: it for name, it in grant.items() if name != "ranges"}
    texts = {name: str(grant[name]) for name in TEXTS}
    return {**grant, **texts, "ranges": [[str(it) for it in pair] for pair in grant["ranges"]]}


def one_word(do: str, words: str) -> str:
    """Returns what a service logs that keeps as little of a reply as it may."""
    word = words.split()[0]
    return word if word in ("refused", "lost") or do == "serve" else words


class TableActor(Actor):
    """The lease table. It stores what changed before it answers, and saves ahead, so that most
    grants store nothing (docs/OPERATIONS.md)."""

    def __init__(self, folder: Path, name: str, settings: Settings) -> None:
        super().__init__(folder, name, settings)
        self.store = folder / "table.store"
        self.machine = LeaseTable(settings.policy)
        self.stored = self.load()
        if self.log.path.stat().st_size == 0:
            self.log.write({"job": settings.job()})

    def answer(self, asked: Message) -> Message:
        if asked["do"] not in ("restore", "committed"):
            return super().answer(asked)
        with self.lock:
            if asked["do"] == "restore":
                return self.restore(asked.get("now"))
            return self.told(Reply("", self.machine.committed), self.last_ticket, 0)

    def stamp(self, call: Message, now: int | None) -> int:
        """As a task does, but the clock is read first, so that each call of a task with a higher
        ticket reads its clock after."""
        if call["do"] not in WITHOUT_READING:
            call["at"] = self.clock.read(now)
        return self.tickets.draw(now)

    def restore(self, now: int | None) -> Message:
        """Begins where an earlier process of the table ended, once the clock is there."""
        if not self.stored:
            return {"words": "new"}
        while now is None and self.clock.read(now) < self.stored["last"]:
            time.sleep(0.001)
        line = self.stored.pop("line")
        if line is not None and not self.log.has(line):
            self.log.write(line)
        self.machine = table_of(self.settings.policy, self.stored)
        numbers = {name: self.stored[name] for name in ("last", "granted", "deadline")}
        generation, grace = self.machine.committed.generation, self.machine.grace
        words = f"restored generation {generation} grace {grace}"
        ticket = self.tickets.draw(now)
        line = {"ticket": ticket, "do": "restore", **numbers, "reply": words}
        return self.told(Reply(words), ticket, self.log.write(line))

    def keep(self, line: Message) -> None:
        if not self.is_covered(kept_of(self.machine)):
            self.save(line)

    def is_covered(self, kept: Message) -> bool:
        """Whether what is stored stands for these values too."""
        stored = self.stored
        if not stored or any(kept[it] != stored[it] for it in ("term", "committed", "proposed")):
            return False
        same = all(kept[it] == stored[it] for it in ("last", "granted", "deadline"))
        return same or kept["granted"] < stored["granted"] and kept["last"] <= stored["last"]

    def save(self, line: Message) -> None:
        """Stores the values, with some grants and ticks more, and the line of the call."""
        kept = self.ahead(kept_of(self.machine))
        store_text(self.store, json.dumps({**kept, "line": line}))
        self.stored = kept

    def ahead(self, kept: Message) -> Message:
        grants, ticks = self.settings.ahead
        more = min(grants, self.settings.policy.numbers - kept["granted"])
        if more == 0 or kept["committed"]["generation"] == 0 and kept["proposed"] is None:
            return kept
        last = kept["last"] + ticks
        kind = "guard" if kept["proposed"] is None else "bridge"
        deadline = max(kept["deadline"], last + self.settings.policy.term_of(kind))
        return {**kept, "last": last, "granted": kept["granted"] + more, "deadline": deadline}

    def load(self) -> Message:
        loaded: Message = json.loads(self.store.read_text()) if self.store.exists() else {}
        return loaded


def kept_of(table: LeaseTable) -> Message:
    """Returns what outlasts a process of the table."""
    kept = asdict(table)
    return {
        name: kept[name]
        for name in ("term", "committed", "proposed", "last", "granted", "deadline")
    }


def table_of(policy: Policy, kept: Message) -> LeaseTable:
    """Returns a table of kept values, which has lost its rows."""
    numbers = {name: kept[name] for name in ("last", "granted", "deadline")}
    table = LeaseTable(policy, **numbers)
    table.term = kept["term"] and Term(**kept["term"])
    table.committed = Assignment(**kept["committed"])
    table.proposed = kept["proposed"] and Assignment(**kept["proposed"])
    table.grace = table.deadline
    return table


class TaskActor(Actor):
    """A task. The number of a life is stored before the life starts."""

    def __init__(self, folder: Path, name: str, settings: Settings) -> None:
        super().__init__(folder, name, settings)
        self.actor = {"task": int(name.removeprefix("task-"))}
        self.machine = Slicelet(self.actor["task"])
        self.lives = folder / f"{name}.life"
        self.greatest_life = int(self.lives.read_text()) if self.lives.exists() else 0

    def answer(self, asked: Message) -> Message:
        times = asked.pop("times", 1)
        return self.start_many(asked, times) if times > 1 else super().answer(asked)

    def start_many(self, asked: Message, times: int) -> Message:
        """Starts so many lives at one reading, and stores the last of them before."""
        with self.lock:
            first = self.tickets.draw(asked["now"], times)
            call = {"do": "start", "at": self.clock.read(asked["now"])}
            self.store(asked["life"] + times - 1)
            for it in range(times):
                answered = self.make({**call, "life": asked["life"] + it}, first + it)
        return answered

    def play(self, call: Message) -> Reply:
        if call["do"] == "open":
            call["life"] = self.greatest_life
        elif call["do"] == "start" and call["life"] > self.greatest_life:
            self.store(call["life"])
        return super().play(call)

    def store(self, life: int) -> None:
        store_text(self.lives, str(life))
        self.greatest_life = life


class ClientActor(Actor):
    """A client, which has a clerk."""

    def __init__(self, folder: Path, name: str, settings: Settings) -> None:
        super().__init__(folder, name, settings)
        self.actor = {"clerk": int(name.removeprefix("client-"))}
        self.machine = Clerk()

    def play(self, call: Message) -> Reply:
        if call["do"] == "learn":
            return Reply(*self.machine.learn(Assignment(call["generation"], call["slices"])))
        return super().play(call)


def tickets_of(folder: Path, name: str, settings: Settings) -> Tickets:
    """Returns where a process gets its tickets; the process of the table has the number 0."""
    number = settings.names().index(name)
    if settings.tickets == COUNTER:
        return SharedCounter(settings.ports["counter"])
    if settings.tickets == CLOCK:
        return CommonClock(number, settings.errors.get(name, 0))
    return HybridClock(number, folder)


def actor_of(folder: Path, name: str, settings: Settings) -> Actor:
    """Returns the actor of the process with this name."""
    kinds = {"table": TableActor, "task": TaskActor, "client": ClientActor}
    return kinds[name.partition("-")[0]](folder, name, settings)
