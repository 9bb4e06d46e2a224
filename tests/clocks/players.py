"""The processes of a set: the table's, which answers requests with readings of its clock, and those of tasks."""
import heapq
import importlib
import random
import select
import socket
import struct
import time

from logs import DELAYED, LOST, READ, SAMPLED, TWICE, Cell, Log
from plans import GRAIN, PAUSE, TABLE, U64, Plan, plan_of

hourstable = importlib.import_module("hourstable.library")

# What a set orders: a schedule begins; the table closes its clock, and opens it anew; a schedule is over.
BEGIN, CLOSE, OPEN, END = b"B", b"C", b"O", b"E"
ORDER = struct.Struct("<cQQ?")
# A request and its answer: the schedule, the number of the request, and a reading. One of another schedule is left
# out.
MESSAGE = struct.Struct("<QQQ")


class Player:
    """What a process has: its number in the set, its log, its line to the set, and its lines to other processes."""

    def __init__(self, number: int, log: Log, line: socket.socket, peers: list[socket.socket]) -> None:
        self.number, self.log, self.line, self.peers = number, log, line, peers

    def run(self) -> None:
        while order := self.line.recv(64):
            word, seed, index, is_beyond = ORDER.unpack(order)
            if word == BEGIN:
                self.log.schedule = index
                self.play(plan_of(seed, index, is_beyond))
                self.done()

    def done(self) -> None:
        """Tells the set that an order is done."""
        self.line.send(bytes(1))

    def play(self, plan: Plan) -> None:
        raise NotImplementedError

    def messages(self, peer: socket.socket) -> list[tuple[int, int]]:
        """The messages of this schedule that are there: the number of a request, and a reading."""
        found: list[tuple[int, int]] = []
        try:
            while True:
                schedule, number, reading = MESSAGE.unpack(peer.recv(64))
                if schedule == self.log.schedule:
                    found.append((number, reading))
        except BlockingIOError:
            return found

    def send(self, peer: socket.socket, number: int, reading: int) -> None:
        try:
            peer.send(MESSAGE.pack(self.log.schedule, number, reading))
        except BlockingIOError:
            self.log.note(LOST)


class Table(Player):
    """The table keeps a value before it uses a reading, and answers nothing while its clock is below what was
    kept."""

    def __init__(self, log: Log, line: socket.socket, peers: list[socket.socket], kept: Cell) -> None:
        super().__init__(TABLE, log, line, peers)
        self.kept = kept

    def play(self, plan: Plan) -> None:
        self.go_on(plan, 0)

    def go_on(self, plan: Plan, process: int) -> None:
        """Plays the rest of a plan from the process of this number on."""
        while self.serve(plan, process):
            self.done()
            self.line.recv(64)
            process += 1

    def serve(self, plan: Plan, process: int) -> bool:
        """Opens the clock on the host of a process, and answers requests. Returns whether the clock will be opened
        anew."""
        self.plan, self.host = plan, plan.hosts[process]
        self.draw = random.Random(f"{plan.seed} table {process}")
        self.clock = hourstable.TableClock(self.kept.get(), plan.ahead, self.host.ticks())
        self.late: list[tuple[int, int, int, int]] = []
        while True:
            ready = select.select([self.line, *self.peers], [], [], self.draw.randrange(PAUSE) / 1e9)[0]
            if self.line in ready:
                word = ORDER.unpack(self.line.recv(64))[0]
                # The order to begin may have been for a process that was killed before it heard of it.
                if word != BEGIN:
                    return bool(word == CLOSE)
            for which, peer in enumerate(self.peers):
                for number, _ in self.messages(peer) if peer in ready else ():
                    self.answer(which, number)
            while self.late and self.late[0][0] < time.monotonic_ns():
                _, which, number, reading = heapq.heappop(self.late)
                self.send(self.peers[which], number, reading)
            for _ in range(self.draw.randrange(1, 4)):
                self.read()

    def read(self) -> int | None:
        """Reads the clock, and keeps a value before the reading is noted or used."""
        if self.log.is_full():
            return None
        before = time.monotonic_ns()
        try:
            reading = int(self.clock.read(self.host.ticks()))
        except hourstable.Refused as refusal:
            self.log.note(refusal.code)
            return None
        if reading > self.kept.get():
            self.kept.put(min(reading + self.plan.saved, U64))
        self.log.note(READ, before, time.monotonic_ns(), reading)
        return reading

    def answer(self, which: int, number: int) -> None:
        network, luck = self.plan.network, self.draw.randrange(200)
        reading = self.read() if luck >= network.lost else None
        if reading is None or luck < 2 * network.lost:
            self.log.note(LOST)
            return
        due = time.monotonic_ns() + self.draw.randrange(network.delay + 1)
        is_delayed = self.draw.randrange(100) < network.delayed
        is_twice = self.draw.randrange(100) < network.twice
        if is_delayed or is_twice:
            heapq.heappush(self.late, (due, which, number, reading))
            self.log.note(DELAYED if is_delayed else TWICE)
        if not is_delayed:
            self.send(self.peers[which], number, reading)


class Task(Player):
    """A task asks the table now and then, repeats requests, takes the answers, and reads its clock."""

    def __init__(self, number: int, log: Log, line: socket.socket, table: socket.socket) -> None:
        super().__init__(number, log, line, [table])
        self.asked: dict[int, int] = {}  # the local reading before each request was sent
        self.last = 0

    def play(self, plan: Plan) -> None:
        self.host = plan.tasks[self.number - 1]
        self.clock = hourstable.TaskClock(plan.extra, plan.per, GRAIN, plan.oldest)
        self.asked = {}
        draw = random.Random(f"{plan.seed} task {self.number}")
        table = self.peers[0]
        for _ in range(plan.turns):
            for number, reading in self.messages(table):
                self.take(number, reading)
            luck = draw.randrange(100)
            if luck < 40 or not self.asked:
                self.last += 1
                self.asked[self.last] = self.host.ticks()
                self.send(table, self.last, 0)
            elif luck < 50:
                self.send(table, draw.choice(list(self.asked)), 0)
            for _ in range(draw.randrange(1, 5)):
                self.read()
            select.select([table], [], [], draw.randrange(PAUSE) / 1e9)

    def take(self, number: int, reading: int) -> None:
        """Takes an answer with the `sent` of its own request."""
        if number in self.asked:
            self.clock.sample(self.asked[number], reading, self.host.ticks())
            self.log.note(SAMPLED)

    def read(self) -> None:
        before = time.monotonic_ns()
        try:
            value = int(self.clock.read(self.host.ticks()))
        except hourstable.Refused as refusal:
            self.log.note(refusal.code)
            return
        self.log.note(READ, before, time.monotonic_ns(), value)
