"""What the processes do by themselves, in real time: an assigner that moves keys, tasks that keep
their leases, and clients that ask for keys. Messages are lost, repeated and late, and processes may
be killed at any moment."""

import threading
import time
from collections.abc import Callable
from random import Random

from actors import Actor, ClientActor, TableActor, TaskActor
from machines import KEYS, Slices, owners_of, slice_key
from sockets import Connection, Gone, Message

WORDS = [f"key {it}" for it in range(40)]


def act(actor: Actor, seed: int) -> None:
    """Lets a process act beside what it is asked. What it does differs after each restart."""
    random = Random(f"{seed} {actor.name} {actor.log.path.stat().st_size}")
    kinds = {TableActor: Assigner, TaskActor: Keeper, ClientActor: Asker}
    turn = kinds[type(actor)](actor, random).turn
    threading.Thread(target=act_on, args=(turn, random), daemon=True).start()


def act_on(turn: Callable[[], None], random: Random) -> None:
    while True:
        time.sleep(random.uniform(0.002, 0.02))
        try:
            turn()
        except Gone:
            continue


class Assigner:
    """Proposes new owners again and again, and commits them as soon as it may."""

    def __init__(self, table: TableActor, random: Random) -> None:
        self.table, self.random = table, random
        table.answer({"do": "restore"})
        held = table.machine.term
        self.term = 0 if held is None else held.number

    def turn(self) -> None:
        chance = self.random.random()
        if chance < 0.1 or self.term == 0:
            self.take()
        elif chance < 0.2:
            self.table.answer({"do": self.random.choice(["phase", "rows"])})
        elif chance < 0.3:
            self.table.answer({"do": "renew", "term": self.term})
        elif self.table.machine.proposed is not None:
            self.table.answer({"do": "commit", "term": self.term})
        elif chance < 0.5:
            generation = self.table.machine.committed.generation + 1
            slices = self.slices()
            self.table.answer(
                {"do": "propose", "term": self.term, "generation": generation, "slices": slices}
            )

    def take(self) -> None:
        taken = self.table.answer({"do": "take", "assigner": self.random.randint(1, 2)})
        if taken["made"] is not None:
            self.term = taken["made"]["number"]

    def slices(self) -> Slices:
        cuts = (self.random.randrange(KEYS) for _ in range(self.random.randint(0, 5)))
        starts = sorted({0, *cuts})
        return [(start, [self.random.randint(1, self.table.settings.tasks)]) for start in starts]


class Keeper:
    """Asks for leases, gives some back, and begins a new life now and then."""

    def __init__(self, task: TaskActor, random: Random) -> None:
        self.task, self.random = task, random
        self.table = Connection(task.settings.ports["table"])
        self.grants: list[Message] = []  # answers of the table
        self.handles: list[Message] = []
        task.answer({"do": "open"})
        self.start()

    def start(self) -> None:
        self.life = self.task.greatest_life + 1
        self.task.answer({"do": "start", "life": self.life})

    def turn(self) -> None:
        chance = self.random.random()
        if chance < 0.01:
            self.start()
        elif chance < 0.2:
            self.give_back()
        elif chance < 0.3:
            self.hear_again()
        elif chance < 0.6:
            self.work()
        else:
            self.ask()

    def ask(self) -> None:
        number = self.task.actor["task"]
        asked = {"do": "grant", "task": number, "life": self.life, "seen": self.task.last_ticket}
        answered = self.table.ask(asked)
        if answered["made"] is not None:
            self.grants.append(answered)
            if self.random.random() < 0.9:
                self.hear(answered)

    def hear(self, answered: Message) -> None:
        grant, ticket = answered["made"], answered["ticket"]
        self.task.answer({"do": "hear", "grant": grant, "seen": ticket})

    def hear_again(self) -> None:
        if self.grants:
            self.hear(self.random.choice(self.grants[-5:]))

    def give_back(self) -> None:
        kind = self.random.choice(["guard", "bridge"])
        released = self.task.answer({"do": "release", "kind": kind})
        if released["made"] is None:
            return
        for _ in range(self.random.choice([0, 1, 1, 1, 2])):
            note, ticket = released["made"], released["ticket"]
            self.table.ask({"do": "free", "note": note, "seen": ticket})

    def work(self) -> None:
        held = self.task.answer({"do": "hold", "key": self.random.choice(WORDS)})
        if held["made"] is not None:
            self.handles.append(held["made"])
        if self.handles:
            handle = self.random.choice(self.handles[-20:])
            self.task.answer({"do": "check", "handle": handle})


class Asker:
    """Learns assignments, and asks the owners of keys to serve them."""

    def __init__(self, client: ClientActor, random: Random) -> None:
        self.client, self.random = client, random
        self.table = Connection(client.settings.ports["table"])
        tasks = range(1, client.settings.tasks + 1)
        self.tasks = {it: Connection(client.settings.ports[f"task-{it}"]) for it in tasks}

    def turn(self) -> None:
        chance = self.random.random()
        if chance < 0.02:
            self.client.answer({"do": "forget"})
        elif chance < 0.2:
            self.learn()
        else:
            self.ask(self.random.choice(WORDS))

    def learn(self) -> None:
        told = self.table.ask({"do": "committed", "seen": self.client.last_ticket})
        if told["made"]["generation"] > 0:
            self.client.answer({"do": "learn", **told["made"], "seen": told["ticket"]})

    def ask(self, key: str) -> None:
        found = self.client.answer({"do": "look", "key": key})
        known = self.client.machine.known
        if known is not None:
            for owner in owners_of(known.slices, slice_key(key)):
                seen = found["ticket"]
                self.tasks[owner].ask({"do": "serve", "key": key, "seen": seen})
