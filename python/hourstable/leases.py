"""The leases of a task in one life: its slicelet and its clock, each call of which is logged.

Nothing here waits. A call draws its ticket, then reads the clock, asks the library and writes its
line: in this order a process that is stopped in between has a reading that is newer than its
ticket, never an older one.
"""

import json
import struct
from collections.abc import Callable, Mapping
from functools import partial
from typing import Any, NamedTuple, NoReturn, TypeVar

from .kept_log import KeptLog
from .library import KINDS as NUMBERS
from .library import (
    CALLS, Door, LoggedCall, Phase, Policy, Receipt, Refused, Slicelet, TaskClock, log_line, log_write,
)
from .logs import NoLog
from .ranges import Ranges, minus, ranges_of, union
from .tickets import Tickets

Made = TypeVar("Made")
Entered = tuple[int, int, int, int, int]  # slice key, position of a handle, generation of its lease, greatest, ticket
KINDS = ("guard", "bridge")
TOKEN = struct.Struct(">IQI")


class ClockBehind(Exception):
    """The clock of the task gives no value: it has heard no answer of the table for too long, or
    none at all. Until it hears one, the task serves nothing."""


class NoToken(Exception):
    """The job gives no fencing tokens: `many-owners` if a slice of it may have more than one owner, `no-epoch` if the
    control plane that let the life in is of a version up to 1.0."""


class AllEnded(Exception):
    """No lease of a life lasts, so another process of the task may have been let in, which logs its own calls."""


class Held(NamedTuple):
    """The lease of a grant: its keys, and its end by the task's clock."""

    kind: str
    number: int
    generation: int
    ranges: Ranges
    until: int


def held_in(job: str, message: bytes) -> Held:
    """Returns the lease of a grant of a job, given as its message. Raises ValueError, LookupError or TypeError if it
    is none. Whether all of the message is as it must be is what the library says when the grant is heard."""
    told = json.loads(message)
    if (told["job"], told["type"]) != (job, "grant"):
        raise ValueError(f"no grant of {job}")
    grant = told["value"]
    if grant["kind"] not in KINDS:
        raise ValueError(f"a lease of the kind {grant['kind']!r}")
    number, generation, until = (int(grant[name]) for name in ("number", "generation", "ends"))
    return Held(grant["kind"], number, generation, ranges_of(grant["ranges"]), until)


def policy_of(members: Mapping[str, Any]) -> Policy:
    """Returns a policy from the members of a script."""
    redundancy = members["redundancy"]
    low, high = (redundancy, redundancy) if isinstance(redundancy, int) else redundancy
    rest = (members[name] for name in ("skew", "guard", "bridge", "job", "numbers"))
    return Policy(low, high, *rest)


class Leases:
    """A life of a task, from the `open` of its slicelet on. It is closed by close()."""

    def __init__(
        self,
        job: str,
        task: int,
        life: int,
        last: int,
        clock: TaskClock,
        local_clock: Callable[[], int],
        tickets: Tickets,
        log: KeptLog | NoLog,
        epoch: int = 0,
    ) -> None:
        self.job, self.task, self.life, self.last, self.epoch = job, task, life, last, epoch
        self.clock, self.local_clock = clock, local_clock
        self.started = False
        self.held: dict[str, Held] = {}
        self.heard = {"number": 0, "generation": 0}  # the greatest that it heard
        self._tickets, self._log, self._stops = tickets, log, log.stops
        self._receipt = Receipt()
        self._slicelet = Slicelet.resume(job, task, last)
        self._door = Door(self._slicelet, clock, task, life)
        opened = LoggedCall(ticket=tickets.draw(), call=CALLS["open"], task=task, life=last)
        if log.is_kept:
            log.append(log_line(job, opened))

    def close(self) -> None:
        """Destroys the slicelet. Nothing is released."""
        self._slicelet.close()

    def read(self) -> int:
        """Returns the task's reading now. Raises ClockBehind."""
        try:
            return self.clock.read(self.local_clock())
        except Refused as refused:
            raise ClockBehind(str(refused)) from refused

    def sample(self, sent: int, reading: int) -> None:
        """Takes an answer of the table to a request that was sent at the local reading `sent`."""
        now = self.local_clock()
        self.clock.sample(sent, reading, now)
        if self._log.is_kept:
            taken = LoggedCall(self._tickets.draw(), CALLS["sample"], task=self.task, at=now)
            taken.sent, taken.reading = sent, reading
            self._log.append(log_line(self.job, taken))

    def is_sampled(self) -> bool:
        """Whether the clock has heard an answer of the table."""
        return self.clock.sampled == 1

    def next(self, phase: Phase, at: int) -> str:
        """Returns what to do next, in a phase of the table: one of TASK_ACTIONS."""
        return self._slicelet.next(phase, at)

    def calls_left(self) -> int:
        """Returns how many more starts, hears and releases the slicelet accepts."""
        return self._slicelet.calls_left()

    def start(self) -> None:
        """Starts the life. Raises Refused or ClockBehind, as the calls below do."""
        self._call("start", lambda at: self._slicelet.start(self.life, at), life=self.life)
        self.started = True

    def hear(self, grant: bytes, lease: Held, policy: Policy) -> bool:
        """Hears a grant, given as its message and as its lease, and returns True; False if it shows that clocks are
        not timely, and so is not heard. `policy` is that of the table."""
        receipt, is_logged = self._receipt, self._log.is_kept
        ticket = self._tickets.draw() if is_logged else 0
        given = self.clock, self.local_clock(), ticket, policy, grant, receipt, is_logged
        try:
            heard = self._slicelet.receive(*given)
        except Refused as refused:
            if receipt.is_called or refused.code < 0:
                raise
            raise ClockBehind(str(refused)) from refused
        finally:
            if receipt.line:
                self._log.append(receipt.line)
        if heard is not None:
            self.held[lease.kind] = lease
            self.heard = {name: max(greatest, getattr(lease, name)) for name, greatest in self.heard.items()}
        return heard is not None

    def give_up(self, kind: str) -> bytes:
        """Gives up the lease of a kind, and returns the message of its note. Raises AllEnded: then no call is made,
        and none is logged."""

        def ask(at: int) -> bytes:
            if not self._has_lease():
                raise AllEnded
            return self._slicelet.release(kind, at)

        return self._release(kind, ask)

    def release(self, kind: str) -> bytes:
        """Gives up the lease of a kind, also once no lease lasts, and returns the message of its note."""
        return self._release(kind, partial(self._slicelet.release, kind))

    def _release(self, kind: str, ask: Callable[[int], bytes]) -> bytes:
        note = self._call("release", ask, kind=NUMBERS[kind])
        self.held.pop(kind, None)
        return note

    def enter(self, key: bytes, is_logged: bool = True) -> Entered:
        """Takes a handle on a key, by one call of the library. Like the calls of its checks, it may be left out of
        the log: it changes nothing."""
        door, is_logged = self._door, is_logged and self._log.is_kept
        ticket = self._tickets.draw() if is_logged else 0
        code = door.enter(self.local_clock(), ticket, key, is_logged)
        if door.line and (code == 0 or self._has_lease()):
            self._log.append_line(door.line)
        if code:
            self._raise(code)
        entry = door.entry
        return entry.slice_key, entry.position, entry.generation, entry.covering, ticket

    def token(self, entered: Entered) -> bytes:
        """Returns the fencing token that the task had at an entry. Raises NoToken if the epoch is not known."""
        if not self.epoch:
            raise NoToken("no-epoch")
        return TOKEN.pack(self.epoch, entered[3], self.life)

    def wrote(self, entered: Entered, token: bytes, reply: str, revision: int | None) -> None:
        """Logs a write with the token of an entry, and what the store said, if the log has the entry: an audit knows
        no other token. It is no call of the slicelet, so it may come once the life has ended."""
        ticket = self._tickets.draw() if entered[4] and self._log.stops == self._stops else 0
        line = log_write(ticket, entered[0], token, reply, revision)
        if ticket:
            self._log.append(line)

    def check(self, entered: Entered, is_logged: bool = True) -> bool:
        """Whether the task has held the key of a handle without a break since it was taken, and may serve it now. The
        call is logged if the entry was."""
        door, is_logged = self._door, is_logged and self._log.is_kept
        ticket = self._tickets.draw() if is_logged else 0
        code = door.leave(self.local_clock(), ticket, entered[0], entered[1], is_logged)
        if door.line and (code == 0 or self._has_lease()):
            self._log.append_line(door.line)
        if code == -1:
            raise MemoryError("hourstable")
        return code == 0

    def _has_lease(self) -> bool:
        """Whether a lease had not ended at the last reading. Else another process of the task may have been let in,
        which logs its own calls."""
        return any(self.clock.given < lease.until for lease in self.held.values())

    def _raise(self, code: int) -> NoReturn:
        """Raises what the code of an entry means."""
        refusal = self._door.refusal(code)
        if self._door.is_called or code < 0:
            raise refusal
        raise ClockBehind(str(refusal)) from refusal

    def live(self, at: int) -> Ranges:
        """Returns the keys of the leases that have not ended at a reading."""
        made: Ranges = []
        for lease in self.held.values():
            if at < lease.until:
                made = union(made, lease.ranges)
        return made

    def may_give_up(self, kind: str) -> bool:
        """Whether the lease of a kind may be given up before others, so that no token falls: a guard lease always, a
        bridge lease while a guard lease of its generation or a later one is held."""
        guard, bridge = self.held.get("guard"), self.held.get("bridge")
        if kind == "guard" or bridge is None:
            return True
        return guard is not None and bridge.generation <= guard.generation

    def lost_without(self, kind: str) -> Ranges:
        """Returns the keys of the lease of a kind that no other held lease has."""
        lost = self.held[kind].ranges if kind in self.held else []
        for other, lease in self.held.items():
            if other != kind:
                lost = minus(lost, lease.ranges)
        return lost

    def _call(
        self, do: str, ask: Callable[[int], Made], message: bytes = b"", **members: Any
    ) -> Made:
        """Makes a call, and writes its line. A note that it made is in the line."""
        if not self._log.is_kept:
            return ask(self.read())
        call = LoggedCall(self._tickets.draw(), CALLS[do], task=self.task, **members)
        call.at = self.read()
        try:
            made = ask(call.at)
        except Refused as refused:
            call.code = refused.code
            if refused.code > 0:  # otherwise the machine was not asked
                self._write(call, message)
            raise
        self._write(call, made if isinstance(made, bytes) else message)
        return made

    def _write(self, call: LoggedCall, message: bytes) -> None:
        call.told = self._slicelet.told
        self._log.append(log_line(self.job, call, message))
