"""Checks what python/hourstable/library.py adds to the library: numbers that do not fit are refused, refusals have
the texts of scripts, objects cannot be copied, and clocks can. Expected values are those of include/hourstable.h and
of the refusals in docs/FORMATS.md.

Run at the top of the repository, with HOURSTABLE_LIBRARY set.
"""

import copy
import ctypes
import json
import pickle
import sys
import time
from collections.abc import Callable
from typing import Any

sys.path[:0] = ["python", "examples/python"]
import handover  # noqa: E402
from hourstable import library as hourstable  # noqa: E402
from hourstable.library import (  # noqa: E402
    CALLS, Block, Clerk, Door, HeldLease, JobTerm, KeyHandle, LoadBook, LoadRecord, LoggedCall, Phase, PlanPolicy,
    Policy, Receipt, Refused, Slicelet, Table, TableClock, TaskClock, Told, boottime_ticks, clock_evidence, log_line,
    new_assignment, read_assignment, read_grant, slice_key, slice_of,
)

U32, U64 = 1 << 32, 1 << 64
faults: list[str] = []


def holds(fact: bool, what: str) -> None:
    if not fact:
        faults.append(what)


def raises(
    error: type[Exception] | tuple[type[Exception], ...], what: str, call: Callable[..., Any], *given: Any
) -> None:
    try:
        call(*given)
    except error:
        return
    faults.append(what)


def refuses(text: str, what: str, call: Callable[..., Any], *given: Any) -> None:
    """The call is refused with this text."""
    try:
        holds(False, f"{what} is refused: {call(*given)}")
    except Refused as refusal:
        holds(str(refusal) == text, f"{what} is refused as {text}: {refusal}")


def refused(code: int, **told: int) -> Refused | None:
    """Returns the exception that a code of the library raises."""
    try:
        hourstable.done(code, Told(**told))
    except Refused as refusal:
        return refusal
    return None


def check_numbers() -> None:
    for struct, limits in [
        (KeyHandle, [U64, U64, U64, U32]), (Policy, [U64] * 7), (JobTerm, [U64] * 3), (Phase, [U64] * 2),
        (PlanPolicy, [U64] * 6), (HeldLease, [U64] * 3), (LoadRecord, [U64] * 2),
    ]:
        most = struct(*[limit - 1 for limit in limits])
        for at, (limit, name) in enumerate(zip(limits, [it[0] for it in struct._fields_])):
            what = f"{struct.__name__}.{name}"
            holds(getattr(most, name) == limit - 1, f"{what} takes its greatest number")
            for value in (limit, limit + 1, -1, 1.0, "1", None):
                raises(ValueError, f"{what} refuses {value!r}", setattr, most, name, value)
                raises(ValueError, f"{what} refuses {value!r} when it is made", struct, *[1] * at, value)
            holds(getattr(most, name) == limit - 1, f"{what} is left as it was")
        raises(AttributeError, f"{struct.__name__} has no other field", setattr, most, "lives", 1)
    raises(ValueError, "KeyHandle by name", lambda: KeyHandle(task=2, slice_key=5, position=1, life=U32 + 1))
    policy, message = PlanPolicy(1, 1, 0, 0, 0, 1), b"{}"
    raises(ValueError, "a load of 2^64", hourstable.plan, "", message, [1, U64], [1], policy)
    raises(ValueError, "a task of 2^64 + 1", hourstable.plan, "", message, [1], [U64 + 1], policy)
    raises(ValueError, "a load of -1", hourstable.plan, "", message, [-1], [1], policy)
    raises(ctypes.ArgumentError, "a life of 2^32 + 1", hourstable.library.hs_slicelet_start, None, U32 + 1, 0)


def check_refusals() -> None:
    cases: list[tuple[int, dict[str, int], str, dict[str, Any], str]] = [
        (4, {"generation": 3}, "NOT_OWNED", {"generation": 3}, "not-owned 3"),
        (10, {"number": 7}, "OLD", {"number": 7}, "old 7"),
        (15, {}, "STRANGER", {}, "stranger"),
        (17, {"until": 1001}, "JOB_HELD", {"until": 1001}, "job-held 1001"),
        (22, {}, "TOO_MANY_OWNERS_FOR_JOB", {}, "too-many-owners-for-job"),
        (24, {"task": 2, "kind": 2, "number": 9}, "HELD",
         {"task": 2, "kind": "bridge", "number": 9}, "held 2 bridge 9"),
        (28, {"generation": 4}, "OLD_GENERATION", {"generation": 4}, "old 4"),
        (-7, {}, "PAST_END", {}, "past-end"),
        (34, {}, "SENT_AHEAD", {}, "sent-ahead"),
        (38, {"until": 1000}, "NOT_YET", {"until": 1000}, "not-yet 1000"),
        (45, {}, "WEIGHT_RANGE", {}, "weight-range"),
        (46, {}, "TOTAL_RANGE", {}, "total-range"),
        (47, {}, "MANY_OWNERS", {}, "many-owners"),
        (48, {}, "FENCED", {}, "fenced"),
        (49, {}, "CODE 49", {}, "code 49"),
        (-19, {}, "CODE -19", {}, "code -19"),
        (-21, {}, "CODE -21", {}, "code -21"),
    ]
    for code, told, name, carried, text in cases:
        refusal = refused(code, **told)
        for one in (refusal, copy.copy(refusal), copy.deepcopy(refusal), pickle.loads(pickle.dumps(refusal))):
            told_by = (type(one), one.code, one.name, one.carried, str(one))
            holds(told_by == (Refused, code, name, carried, text), f"code {code} is told as {text}: {told_by}")
    raises(MemoryError, "code -1 is out of memory", hourstable.done, -1)


def check_replies() -> None:
    tell_refusal: Callable[[str, Refused | None], str] = handover.tell_refusal
    cases: list[tuple[str, int, dict[str, int], str]] = [
        ("serve", 2, {}, "denied clock-back"), ("hold", 4, {"generation": 3}, "denied not-owned 3"),
        ("check", 14, {}, "broken"), ("check", 15, {}, "refused stranger"),
        ("start", 2, {}, "refused clock-back"), ("hear", 10, {"number": 7}, "refused old 7"),
    ]
    for do, code, told, reply in cases:
        told_as = tell_refusal(do, refused(code, **told))
        holds(told_as == reply, f"{do} is logged as {reply}: {told_as}")


def check_places() -> None:
    with Clerk("") as clerk:
        raises(TypeError, "a place is not copied", copy.copy, clerk)
        raises(TypeError, "a place is not copied deeply", copy.deepcopy, clerk)
        raises(TypeError, "a place is not pickled", pickle.dumps, clerk)


FIRST = b'{"job":"shop","type":"assignment","value":{"generation":"1","slices":[["0",[1]]]},"version":2}'
GRANT = (b'{"type":"grant","value":{"ends":130,"generation":3,"kind":"guard","life":1,"number":7,'
         b'"ranges":[[0,9223372036854775808]],"task":2,"until":140},"version":1}')
HALF = 1 << 62
BRIDGE = (b'{"type":"grant","value":{"ends":200,"generation":4,"kind":"bridge","life":1,"number":8,'
          b'"ranges":[[0,4611686018427387904]],"task":2,"until":210},"version":1}')


def check_leases() -> None:
    """GRANT is of guard lease 7 of generation 3, on all keys until 130, and BRIDGE of bridge lease 8 of generation 4,
    on the lower half."""
    lease = ("guard", 3, 7, 130)
    with Slicelet("", 2) as task:
        task.start(1, 5)
        holds(task.permitted(5) == [], "a task that heard no grant may serve no key")
        holds(task.hear(GRANT, 6) == (*lease, 0), "a grant that is heard tells its lease")
        holds(task.serve(b"apples", 7) == task.serve_at(5, 7) == (*lease, 3), "a key is served")
        task.hold(b"apples", 7)
        holds(task.served() == (*lease, 3), "a key is held under the lease")
        holds(task.permitted(129) == [(0, 1 << 63)] and task.permitted(130) == [], "what the task may serve")
        holds(task.hear(BRIDGE, 7) == ("bridge", 4, 8, 200, 0), "a bridge that is heard tells its lease")
        holds(task.serve_at(5, 8) == (*lease, 4), "a key that a newer lease covers too")
        task.hold_at(HALF, 8)
        holds(task.served() == (*lease, 3), "a key that the newer lease does not cover")
        refuses("ended", "a key whose leases have ended", task.hold_at, 5, 200)
        holds(task.covering() == 4, "a key is denied, and the newer lease covers it")
        refuses("ended", "a key whose only lease has ended", task.serve_at, HALF, 200)
        holds(task.covering() == 3, "a key is denied, and the older lease alone covers it")


# Steps of a task that was started at 5 and may serve the lower half until 130, by a clock that is 6 ahead of the
# local one once it has its sample: the call, its local reading, its key, and how its line ends, if there is one.
BLOCK_STEPS: list[tuple[str, int, bytes, str | None]] = [
    ("enter", 0, b"hello", None),  # the clock has no sample
    ("sample", 0, b"", None),
    ("enter", 0, b"hello", '"handle life 1 position 2","slice_key":1619368272448737671,"task":2'),
    ("leave", 9, b"", '"continuous","task":2'),
    ("leave", 8, b"", None),  # the local clock went back
    ("enter", 10, b"abc", '"denied not-owned 3","slice_key":6718257250126850037,"task":2'),
    ("leave", 123, b"", '"continuous","task":2'),
    ("leave", 124, b"", '"broken","task":2'),
    ("enter", 125, b"hello", '"denied ended","slice_key":1619368272448737671,"task":2'),
    ("sample", 126, b"", None),
    ("enter", 627, b"hello", None),  # the sample is too old
]


class Parts:
    """What the steps of a block are made of: a clock, and the handle that was taken last."""

    def __init__(self, task: Slicelet, clock: TaskClock) -> None:
        self.task, self.clock, self.handle = task, clock, KeyHandle()

    def play(self, do: str, now: int, ticket: int, key: bytes) -> tuple[str, str | None]:
        """Returns why the step is refused, and its line, if it has one."""
        try:
            at = self.clock.read(now)
        except Refused as refusal:
            return str(refusal), None
        call, why = LoggedCall(ticket, CALLS["hold" if do == "enter" else "check"], task=2, at=at), ""
        try:
            if do == "enter":
                call.slice_key = slice_key(key)
                self.handle = self.task.hold(key, at)
            else:
                self.task.check(self.handle, at)
        except Refused as refusal:
            why, call.code = str(refusal), refusal.code
        call.told, call.handle = self.task.told, self.handle
        return why, log_line("", call)


def play_block(
    task: Slicelet, clock: TaskClock, block: Block, do: str, now: int, ticket: int, key: bytes, logged: bool
) -> tuple[str, str | None]:
    """Returns what Parts.play returns; a line that is not wanted is empty."""
    why = ""
    try:
        if do == "leave":
            task.leave(clock, now, ticket, block, logged)
        elif ticket % 2:
            task.enter(clock, now, ticket, key, block, logged)
        else:
            task.enter_at(clock, now, ticket, slice_key(key), block, logged)
    except Refused as refusal:
        why = str(refusal)
    return why, block.line if block.is_called else None


def check_block(task: Slicelet, logged: bool, tickets: range) -> None:
    """A block is entered and left as by its parts, by clocks of the same numbers."""
    clock, block = TaskClock(0, 1, 0, oldest=500), Block()
    parts = Parts(task, copy.copy(clock))
    for ticket, (do, now, key, end) in zip(tickets, BLOCK_STEPS):
        if do == "sample":
            clock.sample(now, now + 6, now)
            parts.clock.sample(now, now + 6, now)
            continue
        what = f"{do} at {now}{'' if logged else ' with no line'}"
        why, line = parts.play(do, now, ticket, key)
        holds((line or "").endswith(f'{end},"ticket":{ticket}}}') if end else line is None, f"{what} ends so: {line}")
        made = play_block(task, clock, block, do, now, ticket, key, logged)
        holds(made == (why, line if logged or line is None else ""), f"{what} is {why} {line}: {made}")
        holds(numbers_of(clock) == numbers_of(parts.clock), f"{what} leaves the clock as its parts do")
        holds(numbers_of(block.handle) == numbers_of(parts.handle), f"{what} has the handle")
        if block.is_called:
            holds((block.at, block.ticket) == (clock.given, ticket), f"{what} has its reading and its ticket")
        if block.is_called and do == "enter":
            holds(block.told.covering == task.covering(), f"{what} tells what covers the key")
            holds(why != "" or block.served() == task.served(), f"{what} tells the lease")


def check_blocks() -> None:
    with Slicelet("", 2) as task:
        task.start(1, 5)
        task.hear(GRANT.replace(b"9223372036854775808", b"4611686018427387904"), 6)
        for logged in (True, False):
            check_block(task, logged, range(20, 40))
            check_block(task, logged, range(U64 - 20, U64))
        task._line = ctypes.create_string_buffer(1)
        check_block(task, True, range(41, 60))
        check_refused_blocks(task)


def check_refused_blocks(task: Slicelet) -> None:
    """What is no call of a block leaves the clock and the block as they were."""
    clock, block = TaskClock(0, 1, 0, oldest=500), Block()
    clock.sample(0, 6, 0)
    task.enter(clock, 0, 1, b"hello", block)
    before = bytes(clock), block.at, bytes(block.handle)
    refuses("wrong-form", "an entry by no slice key", task.enter_at, clock, 1, 2, 1 << 63, block)
    holds(not block.is_called and block.line == "", "an entry by no slice key is no call")
    errors = (ValueError, TypeError, ctypes.ArgumentError)
    for number in (U64, -1, 1.0, None):
        raises(errors, f"an entry at {number!r}", task.enter, clock, number, 2, b"hello", block)
        raises(errors, f"an entry with the ticket {number!r}", task.enter, clock, 1, number, b"hello", block)
        raises(errors, f"an entry by slice key {number!r}", task.enter_at, clock, 1, 2, number, block)
        raises(errors, f"an end at {number!r}", task.leave, clock, number, 2, block)
    holds(not block.is_called and block.line == "", "what is refused has no line")
    holds((bytes(clock), block.at, bytes(block.handle)) == before, "what is refused changes nothing")
    with Slicelet("", 1) as other:
        refuses("stranger", "an end by another task", other.leave, clock, 1, 2, block)
        holds(block.line.endswith('"reply":"refused stranger","task":1,"ticket":2}'), f"a stranger: {block.line}")


def check_door(logged: bool, room: int) -> None:
    """Blocks through a door are those of Slicelet.enter and leave, by clocks of the same numbers."""
    clock, block = TaskClock(0, 1, 0, oldest=500), Block()
    with Slicelet("", 2) as task:
        task.start(1, 5)
        task.hear(GRANT.replace(b"9223372036854775808", b"4611686018427387904"), 6)
        own = copy.copy(clock)
        door = Door(task, own, 2, 1)
        door._make_room(room)
        for ticket, (do, now, key, _) in enumerate(BLOCK_STEPS, U64 - 20):
            if do == "sample":
                clock.sample(now, now + 6, now)
                own.sample(now, now + 6, now)
                continue
            wanted, line = play_block(task, clock, block, do, now, ticket | 1, key, logged)
            handle = block.handle
            code = (
                door.enter(now, ticket | 1, key, logged) if do == "enter"
                else door.leave(now, ticket | 1, handle.slice_key, handle.position, logged)
            )
            what = f"{do} at {now} through a door"
            holds((str(door.refusal(code)) if code else "") == wanted, f"{what} is {wanted}: {code}")
            holds(door.is_called == block.is_called, f"{what} is a call as it is alone")
            holds(door.line == (f"{line}\n".encode() if line else b""), f"{what} has the line {line}: {door.line!r}")
            holds(numbers_of(own) == numbers_of(clock), f"{what} leaves the clock as it does alone")
            entry = door.entry
            if code == 0 and do == "enter":
                holds((entry.slice_key, entry.position) == (handle.slice_key, handle.position), f"{what}: the handle")
                holds(bytes(entry.told()) == bytes(block.told), f"{what} tells the lease")
    holds(door.enter(2000, 7, b"hello", logged) == -18, "a door of a slicelet that is closed leads nowhere")
    holds(not door.is_called and door.line == b"", "a closed door is no call")


class Receiver:
    """A task that was started at 5, by a clock that is 6 ahead of the local one."""

    POLICY = Policy(1, 1, 10, 100, 200, 1000, 1000)

    def __init__(self, task: Slicelet) -> None:
        self.task, self.clock, self.receipt = task, TaskClock(0, 1, 0, oldest=500), Receipt()
        task.start(1, 5)
        self.clock.sample(0, 6, 0)

    def receive(self, now: int, ticket: int, grant: bytes, logged: bool) -> tuple[object, str | None]:
        """Returns the lease, None for evidence, or why the grant is refused, and the line if there is one."""
        given = (self.clock, now, ticket, self.POLICY, grant, self.receipt, logged)
        try:
            made: object = self.task.receive(*given)
        except Refused as refusal:
            made = str(refusal)
        return made, self.receipt.line if self.receipt.is_called else None

    def parts(self, now: int, ticket: int, grant: bytes, logged: bool) -> tuple[object, str | None]:
        """Returns what `receive` returns, by the calls that it is made of."""
        made: object
        kept = bytes(self.clock)
        try:
            at = self.clock.read(now)
            if clock_evidence("", grant, at, self.POLICY):
                return None, ""
        except Refused as refusal:
            if refusal.code < 0:  # no call was made
                ctypes.memmove(ctypes.byref(self.clock), kept, len(kept))
            return str(refusal), None
        call = LoggedCall(ticket, CALLS["hear"], task=2, at=at)
        try:
            made = self.task.hear(grant, at)
        except Refused as refusal:
            made, call.code = str(refusal), refusal.code
        call.told = self.task.told
        return made, log_line("", call, grant) if logged else ""


def check_receipts(logged: bool) -> None:
    """GRANT was made at 40 of the table, by a policy with a skew of 10."""
    old, late = GRANT, BRIDGE.replace(b'"ends":200', b'"ends":60')
    other_life = BRIDGE.replace(b'"life":1', b'"life":2')
    with Slicelet("", 2) as one, Slicelet("", 2) as other:
        receiver, parts = Receiver(one), Receiver(other)
        one._line = ctypes.create_string_buffer(1)
        for now, grant, told in [
            (23, GRANT, None), (24, GRANT, ("guard", 3, 7, 130, 0)), (25, old, "old 7"), (60, late, "too-late"),
            (61, other_life, "other-life"), (60, BRIDGE, "clock-back"), (62, b"{", "not-json"),
            (63, BRIDGE, ("bridge", 4, 8, 200, 0)), (900, BRIDGE, "too-old"),
        ]:
            what = f"a grant at {now}"
            made = receiver.receive(now, 70 + now, grant, logged)
            holds(made[0] == told, f"{what} is {told}: {made}")
            wanted = parts.parts(now, 70 + now, grant, logged)
            holds(made == wanted, f"{what} is received as by its parts, {wanted}: {made}")
            holds(numbers_of(receiver.clock) == numbers_of(parts.clock), f"{what} leaves the clock as its parts do")
            if receiver.receipt.is_called:
                holds(receiver.receipt.at == now + 6, f"{what} has its reading")
        holds(one.permitted(69) == other.permitted(69) == [(0, 1 << 63)], "what was received is held")
        receiver.clock = TaskClock(0, 1, 0, 9)
        holds(receiver.receive(64, 1, GRANT, logged) == ("no-sample", None), "a grant before a sample is no call")
        for number in (U64, -1, None):
            raises((ValueError, TypeError), f"a grant at {number!r}", one.receive, receiver.clock, number, 1,
                   parts.POLICY, GRANT, receiver.receipt)


def check_assignments() -> None:
    holds(new_assignment("shop", 1, [(0, [1])]) == FIRST, "the message of an assignment")
    holds(read_assignment("shop", FIRST) == (1, [(0, [1])]), "what an assignment says")
    slices = [(at << 50, [64, at % 63 + 1]) for at in range(100)]
    rising = [(start, sorted(owners)) for start, owners in slices]
    holds(read_assignment("", new_assignment("", 9, slices)) == (9, rising), "an assignment of a hundred slices")
    message, keys = new_assignment("", 9, slices), (0, (1 << 50) - 1, 1 << 50, (1 << 63) - 1)
    found = [slice_of("", message, key) for key in keys]
    holds(found == [rising[at] for at in (0, 0, 1, 99)], f"slices of keys: {found}")
    refuses("wrong-form", "a slice of no key", slice_of, "", FIRST, 1 << 63)
    for text, owners in [
        ("no-owner", []), ("too-many-owners", [1, 2, 3, 4, 5, 6]), ("owner-twice", [1, 1]), ("bad-task", [65]),
    ]:
        refuses(text, f"a slice of {owners}", new_assignment, "", 1, [(0, owners)])
    refuses("no-slices", "no slice", new_assignment, "", 1, [])
    refuses("first-not-zero", "a first slice at 1", new_assignment, "", 1, [(1, [1])])
    refuses("not-rising", "slices that do not rise", new_assignment, "", 1, [(0, [1]), (0, [1])])
    refuses("past-end", "a slice past the end", new_assignment, "", 1, [(0, [1]), (1 << 63, [1])])
    refuses("other-job", "an assignment of another job", read_assignment, "", FIRST)
    raises(ValueError, "a slice that starts at 2^64", new_assignment, "", 1, [(U64, [1])])


def numbers_of(clock: Any) -> list[int]:
    return [getattr(clock, name) for name, _ in clock._fields_]


def is_refused(text: str, what: str, call: Any, *given: Any) -> None:
    """The call is refused with this text, and leaves the clock as it was."""
    before = numbers_of(call.__self__)
    try:
        holds(False, f"{what} is refused: {call(*given)}")
    except Refused as refusal:
        holds(str(refusal) == text, f"{what} is refused as {text}: {refusal}")
    holds(numbers_of(call.__self__) == before, f"{what} changes nothing")


def check_task_clocks() -> None:
    clock = TaskClock(1, 3, 1, oldest=30)
    holds(numbers_of(clock) == [1, 3, 1, 30, 0, 0, 0, 0, 0, 0], "a new clock of a task")
    is_refused("no-sample", "a read before the first sample", clock.read, 5)
    clock.sample(10, 100, now=12)
    holds(clock.read(12) == 104 and clock.read(16) == 109, "100 and the drift of 2 and of 6 ticks, and a grain")
    holds(numbers_of(clock) == [1, 3, 1, 30, 1, 10, 100, 10, 16, 109], "a clock of a task after two reads")
    for copied in (copy.copy(clock), copy.deepcopy(clock), pickle.loads(pickle.dumps(clock))):
        holds(type(copied) is TaskClock and copied.read(19) == 113, "a copy of a clock is a clock")
    holds(clock.read(16) == 109, "a copy is a clock of its own")
    is_refused("clock-back", "a read at 15", clock.read, 15)
    is_refused("too-old", "a read at 41", clock.read, 41)
    is_refused("sent-ahead", "a sample that was sent at 18", clock.sample, 18, 100, 17)
    clock.sample(40, U64 - 1, now=40)
    holds(clock.sent == 10 and clock.newest == 40, "the better sample is kept")
    clock = TaskClock(0, 1, 2, U64 - 1)
    clock.sample(0, U64 - 2, 0)
    is_refused("too-large", "a value of 2^64", clock.read, 0)
    raises(Refused, "a drift in 0 ticks", TaskClock, 1, 0, 1, 30)
    raises(AttributeError, "a field of a clock is not set", setattr, clock, "given", 0)
    for value in (U64, -1, 1.0, None):
        raises((ValueError, ctypes.ArgumentError), f"a reading of {value!r}", clock.read, value)
        raises((ValueError, ctypes.ArgumentError), f"a sample of {value!r}", clock.sample, 0, value, 0)


def check_table_clocks() -> None:
    clock = TableClock(1000, 100, now=7)
    holds(numbers_of(clock) == [900, 7, 1000, 7], "a new clock of the table")
    is_refused("not-yet 1000", "a read below what was kept", clock.read, 106)
    holds(clock.read(107) == 1000 and clock.read(110) == 1003, "the table's clock goes on from what was kept")
    is_refused("clock-back", "a read at 109", clock.read, 109)
    copied = copy.copy(clock).read(111)
    holds(copied == 1004 and numbers_of(clock) == [900, 7, 1000, 110], "a copy of the table's clock")
    is_refused("too-large", "a reading of 2^64", TableClock(U64 - 1, 0, 0).read, 1)
    raises(AttributeError, "a field of the table's clock is not set", setattr, clock, "kept", 0)


def check_evidence() -> None:
    policy = Policy(1, 1, 10, 100, 200, 1000, 1000)
    holds(clock_evidence("", GRANT, 29, policy) is True, "a grant made at 40 is evidence at 29, with a skew of 10")
    holds(clock_evidence("", GRANT, 30, policy) is False, "a grant that was made at 40 is no evidence at 30")
    raises(Refused, "evidence of bytes that are no grant", clock_evidence, "", b"{", 30, policy)
    raises(Refused, "evidence by numbers that are no policy", clock_evidence, "", GRANT, 30, Policy())
    raises((ValueError, ctypes.ArgumentError), "evidence at -1", clock_evidence, "", GRANT, -1, policy)
    refuses("other-job", "evidence of a grant of another job", clock_evidence, "shop", GRANT, 30, policy)


def check_keeping() -> None:
    policy = Policy(1, 1, 10, 100, 200, 1000, 1000)
    with Table("shop", policy) as table:
        term = table.take(1, at=5)
        kept = table.kept()
        holds(table.save(kept, 10, 50) is None, "nothing is saved in place of what the table keeps")
        holds(table.save(b"", 0, 50) == kept, "where nothing was saved, all is saved that the table keeps")
        table.propose(term.number, FIRST, at=5)
        saved = json.loads(table.save(kept, 10, 50) or b"{}").get("value", {})
        holds((saved.get("granted"), saved.get("last")) == ("10", "55"), f"10 grants and 50 ticks ahead: {saved}")
        refuses("not-json", "values saved in place of bytes that are none", table.save, b"{", 10, 50)
    with Table.restore("shop", policy, kept) as restored:
        holds(restored.kept() == kept, "a restored table keeps the values that it was restored from")
        holds(restored.renew(term.number, at=6).number == term.number, "a restored table renews the term")
    refuses("other-job", "kept values of another job", Table.restore, "store", policy, kept)
    other = Policy(1, 1, 9, 100, 200, 1000, 1000)
    refuses("other-policy", "kept values of another policy", Table.restore, "shop", other, kept)
    refuses("wrong-form", "a name of more than 64 bytes", Table, "j" * 65, policy)


def check_grants() -> None:
    read = read_grant("", GRANT)
    holds(read[:7] == (7, 2, 1, "guard", 3, 130, 140) and read.ranges == [(0, 1 << 63)], f"a grant: {read}")
    pairs = [[2 * at, 2 * at + 1] for at in range(100)]
    long = GRANT.replace(b"[[0,9223372036854775808]]", json.dumps(pairs).encode())
    holds(read_grant("", long).ranges == [tuple(pair) for pair in pairs], "a grant of 100 ranges")
    refuses("other-job", "a grant of another job", read_grant, "shop", GRANT)


def check_loads() -> None:
    """A hundred slices find no room at first, and the records are counted once all the same."""
    message = new_assignment("shop", 1, [(at << 50, [1]) for at in range(100)])
    with LoadBook("shop") as book:
        records = [((99 << 50) + 5, 7), (0, 1), ((1 << 50) - 1, 2), (1 << 50, 1 << 32)]
        loads = book.gather(message, 2, records)
        holds(loads == [3, 1 << 32, *[0] * 97, 7], f"the loads of a hundred slices: {loads}")
        holds(book.gather(FIRST, 2, iter([(5, 8)])) == [8], "the load of one slice")
        totals = [book.total(task) for task in (1, 2, 64)]
        holds(totals == [0, (1 << 32) + 18, 0], f"the total of each task: {totals}")
        refuses("weight-range", "a weight of 0", book.gather, FIRST, 2, [(5, 0)])
        refuses("total-range", "257 weights of 2^32", book.gather, FIRST, 2, [(5, 1 << 32)] * 257)
        refuses("wrong-form", "a record of no slice key", book.gather, FIRST, 2, [(1 << 63, 1)])
        refuses("wrong-form", "a record of task 65", book.gather, FIRST, 65, [])
        refuses("wrong-form", "the total of task 0", book.total, 0)
        raises(ValueError, "a weight of 2^64", book.gather, FIRST, 2, [(5, U64)])
        holds(book.total(2) == (1 << 32) + 18, "a gather that is refused counts nothing")
    refuses("wrong-form", "a name of more than 64 bytes", LoadBook, "j" * 65)


def check_ticks() -> None:
    before = time.clock_gettime(time.CLOCK_BOOTTIME)
    ticks = boottime_ticks()
    after = time.clock_gettime(time.CLOCK_BOOTTIME)
    holds(int(before * 1000) <= ticks <= after * 1000, f"{ticks} is the boot time in milliseconds: {before}, {after}")


check_numbers()
check_refusals()
check_replies()
check_places()
check_leases()
check_blocks()
for room in (1, 512):
    check_door(True, room)
check_door(False, 512)
check_receipts(True)
check_receipts(False)
check_assignments()
check_task_clocks()
check_table_clocks()
check_evidence()
check_keeping()
check_grants()
check_loads()
check_ticks()
for fault in faults:
    print(f"not so: {fault}")
sys.exit(1 if faults else 0)
