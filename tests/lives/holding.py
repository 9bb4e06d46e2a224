"""Who holds a job: two planes, the row of the job, beats, calls that are handed on, and tasks that renew.

Links between planes, store and tasks are cut at a tick, and mended later or never; planes freeze, and the store
stands still. A tick is half a second: a beat of a plane. Within a tick planes and tasks go in one of two orders, and
calls take no time; a call to which nobody answers takes one. What is looked at:

  - a task is never answered by two planes over one version of the row
  - while one plane is cut off, from whatever it is, no lease ends and the job moves once at most
  - the job stops moving, whatever is cut off for ever
  - a store that stands still moves no job
"""

from collections.abc import Iterator
from dataclasses import dataclass, field
from itertools import product
from typing import NamedTuple

STANDBY, GUARD, RENEWED = 4, 20, 10  # ticks
POLL = 2  # ticks between two looks at the row
LATE = 2  # ticks after which a plane reaches a store that goes on
EARLY, MENDED, CUT, ENDS = 8, 26, 30, 150  # ticks: an earlier fault, and the one that is looked at
LINKS = ("A-store", "B-store", "A-B", "A-1", "B-1", "A-2", "B-2")  # 1 and 2 are hosts with tasks
NOT_NEEDED = ("without `missed`",)  # tasks that were turned away once are turned away until a plane does their calls
OTHER = {"A": "B", "B": "A"}
NEVER = -1000


class Rules(NamedTuple):
    """The rules of `Forwarding.may_take` and `Peers`. Each may be taken away."""

    counts: bool = True  # the holder's beat lists fewer tasks than this plane turned away
    deaf: bool = True  # or no task asked the holder for a standby
    since: bool = True  # .. nor since it is silent, but for half a standby
    missed: bool = True  # calls of tasks could not be handed on lately
    again: bool = True  # .. more than once
    steady: bool = True  # beats of this plane were written for as long as the holder is silent
    by_beats: bool = True  # a beat stands still while own beats are written, and not by the clock
    compares: bool = True  # a write compares the version


class Beat(NamedTuple):
    """What a plane wrote last: a number, how many tasks asked it in a guard term, and how long ago the last one."""

    number: int = 0
    tasks: int = 0
    ago: int = GUARD


@dataclass
class Plane:
    version: int = 1
    holder: str = "A"
    seen: Beat = Beat()
    still: int = 0
    seen_at: int = 0  # when that was seen first
    silent: int | None = None  # since when the other plane gives no answer
    written: int = 0  # when its own beat was written last
    steady: int = 0  # since when its beats are written
    missed: tuple[int, int] = (NEVER, NEVER)  # calls of tasks that were not handed on: the first and the last
    heard: dict[int, int] = field(default_factory=dict)  # tasks, and when they asked it


@dataclass
class Task:
    host: str
    prefers: str
    due: int
    distrusts: str = ""  # a plane that was silent to it lately
    ends: int = GUARD
    denied: int = 0  # ticks without a lease


class Faults(NamedTuple):
    """Links that are cut from a tick on, and what stands still from then on, a plane or `store`: until when. Others
    were cut for a while just before."""

    cut: tuple[str, ...] = ()
    until: int = ENDS
    frozen: str = ""
    thaws: int = CUT
    earlier: tuple[str, ...] = ()

    def is_of_one(self) -> bool:
        """Whether one plane is cut off from all tasks, from the store, from the other plane, or from several; or
        stands still, and nothing else happens."""
        cut, is_half = set(self.cut), any(len({f"{name}-1", f"{name}-2"} & set(self.cut)) == 1 for name in "AB")
        return self.frozen != "store" and not is_half and any(all(name in link for link in cut) for name in "AB")


class World:
    def __init__(self, rules: Rules, faults: Faults, order: str, tasks: list[Task]) -> None:
        self.rules, self.faults, self.order = rules, faults, order
        self.planes, self.beats = {"A": Plane(), "B": Plane()}, {"A": Beat(), "B": Beat()}
        self.version, self.holder, self.at = 1, "A", 0
        self.tasks = tasks
        self.moves: list[str] = []
        self.answered: list[int] = []  # the versions over which tasks were answered

    def run(self) -> "World":
        for self.at in range(ENDS):
            for name in self.order:
                self.beat(name)
            for number, task in enumerate(self.tasks):
                if self.at >= task.due:
                    self.renew(number, task)
                task.denied += self.at >= task.ends
        return self

    # What is cut off, and what stands still. ------------------------------------------------------

    def awake(self, name: str) -> bool:
        return self.faults.frozen != name or not CUT <= self.at < self.faults.thaws

    def link(self, one: str, other: str) -> bool:
        if other == "store" and not self.awake("store"):
            return False
        name = "A-B" if {one, other} == {"A", "B"} else f"{one}-{other}"
        if name in self.faults.earlier and EARLY <= self.at < MENDED:
            return False
        return name not in self.faults.cut or not CUT <= self.at < self.faults.until

    # Planes. --------------------------------------------------------------------------------------

    def beat(self, name: str) -> None:
        """Writes the beat of a plane, looks at that of the other one, and takes the job if it is to."""
        me, other = self.planes[name], OTHER[name]
        if not self.awake(name):
            return
        self.probe(name)
        if not self.link(name, "store"):
            me.still += not self.rules.by_beats
            return
        if self.at - me.written >= STANDBY:
            me.steady = self.at
        me.written = self.at
        lately = [at for at in me.heard.values() if self.at - at < GUARD]
        ago = self.at - max(lately, default=self.at - GUARD)
        self.beats[name] = Beat(self.beats[name].number + 1, len(lately), ago)
        me.still = 0 if self.beats[other] != me.seen else me.still + 1
        if self.beats[other] != me.seen:
            me.seen, me.seen_at = self.beats[other], self.at
        if self.at % POLL == 0:
            self.read(name)
        if me.holder == other and self.may_take(name):
            self.take(name)

    def probe(self, name: str) -> None:
        me, other = self.planes[name], OTHER[name]
        if self.link(name, other) and self.awake(other):
            me.silent = None
        elif me.silent is None:
            me.silent = self.at

    def may_take(self, name: str) -> bool:
        me, rules = self.planes[name], self.rules
        if me.still >= STANDBY:
            return True
        first, last = me.missed
        since = max(self.at if me.silent is None else me.silent, me.steady if rules.steady else 0)
        if self.at - since < STANDBY or (rules.missed and self.at - last > STANDBY):
            return False
        if self.at - me.written >= STANDBY:
            return False
        if rules.again and last == first:
            return False
        mine = sum(at >= since for at in me.heard.values())
        if not rules.counts:
            return mine > 0
        ago = max(STANDBY, me.seen_at - since - STANDBY // 2) if rules.since else STANDBY
        deaf = rules.deaf and me.seen.ago >= ago
        return mine > 0 and (me.seen.tasks < mine or deaf)

    def read(self, name: str) -> None:
        """Reads the row."""
        me = self.planes[name]
        me.version, me.holder = self.version, self.holder

    def swap(self, name: str) -> bool:
        """Writes the row over the version that a plane knows."""
        me = self.planes[name]
        if not self.link(name, "store"):
            return False
        if self.rules.compares and me.version != self.version:
            self.read(name)
            return False
        self.version, self.holder = me.version + 1, name
        self.read(name)
        return True

    def take(self, name: str) -> None:
        if self.swap(name):
            self.moves.append(f"{self.at}: {name}")

    # Tasks. ---------------------------------------------------------------------------------------

    def renew(self, number: int, task: Task) -> None:
        """Asks the plane that a task prefers, and the other one if that answers that it cannot do it."""
        for _ in range(2):
            name = task.prefers
            if not (self.link(name, task.host) and self.awake(name)):
                task.prefers, task.distrusts = OTHER[name], name
                return  # it is asked a tick later
            self.planes[name].heard[number] = self.at
            done = self.ask(name)
            if done is not None:
                task.prefers = name if done == task.distrusts else done
                task.due, task.ends = self.at + RENEWED, self.at + GUARD
                return
            task.prefers = OTHER[name]

    def ask(self, name: str) -> str | None:
        """Returns the plane that does a call of a task, None if none does."""
        me, other = self.planes[name], OTHER[name]
        if me.holder == name:
            done = self.do(name)
            return name if done else self.hand_on(name)
        if self.link(name, other) and self.awake(other) and self.planes[other].holder == other and self.do(other):
            me.missed = (NEVER, NEVER)
            return other
        first, last = me.missed
        me.missed = (first if self.at - last <= STANDBY else self.at), self.at
        return None

    def hand_on(self, name: str) -> str | None:
        """A holder whose write fails asks the other plane, which reads the row."""
        other = OTHER[name]
        if not (self.link(name, other) and self.awake(other) and self.link(other, "store")):
            return None
        self.read(other)
        return other if self.planes[other].holder == other and self.do(other) else None

    def do(self, name: str) -> bool:
        if not self.swap(name):
            return False
        self.answered.append(self.version)
        return True

    # What came of it. -----------------------------------------------------------------------------

    def fault(self) -> str:
        """Returns what is wrong, nothing if nothing is."""
        if self.answered != sorted(set(self.answered)):
            return "two planes answered over one version"
        denied, moved = sum(task.denied for task in self.tasks), "; ".join(self.moves) or "none"
        times = [int(move.partition(":")[0]) for move in self.moves]
        if self.faults.is_of_one() and (denied or sum(at >= CUT for at in times) > 1):
            return f"leases ended for {denied} ticks, moves: {moved}"
        if self.faults.frozen == "store" and times and times[0] < self.faults.thaws + STANDBY:
            return f"a store that stood still moved the job: {moved}"
        moves_on = times and times[-1] >= ENDS - 3 * GUARD and self.faults.until == ENDS
        return f"the job moves for ever: {moved}" if moves_on else ""


def cuts() -> Iterator[tuple[str, ...]]:
    """Each set of links."""
    for chosen in product((False, True), repeat=len(LINKS)):
        yield tuple(link for link, is_cut in zip(LINKS, chosen) if is_cut)


def of_one() -> Iterator[tuple[str, ...]]:
    """The sets that cut one plane off from all tasks, from the store, from the other plane, or from several."""
    for name, chosen in product("AB", product((False, True), repeat=3)):
        links = ((f"{name}-1", f"{name}-2"), (f"{name}-store",), ("A-B",))
        yield tuple(link for some, is_cut in zip(links, chosen) if is_cut for link in some)


def faults(whole: bool) -> Iterator[Faults]:
    """What may happen: each thing that stands still, and each set of links that are cut, for a while or for ever."""
    for frozen, length in product(("A", "B", "store"), (2, 6, 12, 40, ENDS - CUT)):
        yield Faults(frozen=frozen, thaws=CUT + length)
        if frozen == "store" and length > STANDBY:
            yield Faults(("A-B",), frozen=frozen, thaws=CUT + length)
            yield Faults(("A-store",), CUT + length + LATE, frozen, CUT + length)
    for cut, length in product(cuts(), (3, 12, 40, ENDS - CUT) if whole else (12, ENDS - CUT)):
        yield Faults(cut, CUT + length)
    for one, earlier in product(of_one(), repeat=2):
        yield Faults(one, earlier=earlier)


def tasks(first: int, count: int, distrusts: str) -> list[Task]:
    """Some tasks, which renew at different ticks; they ask the other plane than the one that they distrust."""
    dues = [(first + step) % RENEWED for step in (0, 3, 7)[:count]]
    prefers = OTHER[distrusts] if distrusts else "A"
    return [Task("12"[number % 2], prefers, due, distrusts) for number, due in enumerate(dues)]


def worlds(rules: Rules, whole: bool) -> Iterator[World]:
    """All runs: one task or three, whose renewals come at different ticks before the fault."""
    for fault, order, count, distrusts in product(faults(whole), ("AB", "BA"), (1, 3), ("", "A")):
        for first in range(0, RENEWED, 2 if whole else 3):
            yield World(rules, fault, order, tasks(first, count, distrusts))


def play(rules: Rules, whole: bool) -> tuple[int, str]:
    """Runs all, or until something is wrong, and returns how many runs there were and what was wrong."""
    made = 0
    for world in worlds(rules, whole):
        made += 1
        why = world.run().fault()
        if why:
            return made, f"{world.faults}, {len(world.tasks)} tasks, {world.order}: {why}"
    return made, ""


def checks(whole: bool) -> list[bool]:
    """Runs the rules of the package, and without each of them, and returns for each whether it came out right."""
    rules = {"the rules of the package": Rules()}
    rules |= {f"without `{name}`": Rules()._replace(**{name: False}) for name in Rules._fields}
    made = []
    for what, one in rules.items():
        runs, why = play(one, whole)
        made.append(bool(why) == (one != Rules() and what not in NOT_NEEDED))
        told = f"who holds, {what}: {runs} runs, {why or 'nothing is wrong'}"
        print(f"{told}{'' if made[-1] else ': FAILED'}", flush=True)
    return made
