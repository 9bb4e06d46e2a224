"""Hourstable from Python, by the library of include/hourstable.h.

HOURSTABLE_LIBRARY names the shared object. If it is not set, libhourstable.so beside this file is
loaded, and if there is none, the one that the system finds.

A call that is not done raises Refused, with the name of its code and the numbers that it sets, or
MemoryError. An object takes one call at a time, on any thread: threads that share one hold a lock
around each call. close() or the end of a `with` destroys it. A clock is numbers: it may be copied
and pickled, and needs no close().
"""

from __future__ import annotations

import ctypes
import os
import time
from collections.abc import Callable, Iterable, Mapping
from functools import cache
from pathlib import Path
from typing import Any, NamedTuple, NoReturn, TypeVar

CODES = {
    **dict(enumerate((
        "DONE DOWN CLOCK_BACK ENDED NOT_OWNED NO_LEASE NOT_STARTED OLD_LIFE OTHER_TASK OTHER_LIFE"
        " OLD TOO_LATE NOTHING_HELD HISTORY_FULL BROKEN STRANGER READING_RANGE JOB_HELD NOT_HOLDER"
        " STALE_BASE PENDING NOTHING_PENDING TOO_MANY_OWNERS_FOR_JOB GRACE HELD NO_ROW"
        " NO_ASSIGNMENT NUMBERS_SPENT OLD_GENERATION UNKNOWN NOT_ADOPTED NO_TASKS LOADS_LENGTH"
        " LOAD_RANGE SENT_AHEAD NO_SAMPLE TOO_OLD TOO_LARGE NOT_YET OTHER_POLICY NO_TERM TERM_RANGE"
        " KEPT_GENERATION TOO_MANY_GRANTS DEADLINE_RANGE WEIGHT_RANGE TOTAL_RANGE MANY_OWNERS FENCED"
    ).split())),
    **{-number: name for number, name in enumerate((
        "NO_MEMORY NO_ROOM NOT_JSON VERSION OTHER_TYPE WRONG_FORM PAST_END UNSORTED EMPTY NO_SLICES"
        " FIRST_NOT_ZERO NOT_RISING NO_OWNER TOO_MANY_OWNERS OWNER_TWICE BAD_TASK TOO_MANY_SLICES"
        " OTHER_PLACE"
    ).split(), 1)},
    -20: "OTHER_JOB",
}  # no code is -19
TOKEN_LENGTH = 16
CARRIED = {
    "NOT_OWNED": ["generation"], "OLD": ["number"], "JOB_HELD": ["until"], "NOT_HOLDER": ["number"],
    "STALE_BASE": ["generation"], "GRACE": ["until"], "HELD": ["task", "kind", "number"],
    "OLD_GENERATION": ["generation"], "VERSION": ["number"], "NOT_YET": ["until"],
}
KINDS = {"guard": 1, "bridge": 2}
KIND_WORDS = {number: word for word, number in KINDS.items()}
SCRIPT_WORDS = {"OLD_GENERATION": "old"}  # if a script has another word than the header
ACTIONS = {1: "take", 2: "renew", 3: "commit", 4: "propose", 5: "rest"}
CALLS = {word: number for number, word in enumerate((
    "take renew propose commit grant free lose phase restore open start hear release serve hold check"
    " learn look forget sample"
).split(), 1)}  # the calls of which a line of a log may be
STORE_REPLIES = {"taken": 2, "refused": 3, "unknown": 4}  # 1 is taken, with a revision
TASK_ACTIONS = ("start", "ask guard", "ask bridge", "give up guard", "give up bridge", "rest")

CType = Any  # a type of ctypes, a parameter type, or an argument for one
Result = TypeVar("Result", bound="Standing")


def name_of(code: int) -> str:
    """Returns the name of a code in the header, without its HS_; of a code of a later version, CODE
    and its number."""
    return CODES.get(code, f"CODE {code}")


def carried_by(name: str, told: Told) -> dict[str, Any]:
    """Returns the numbers that a code sets, by their names in the header; a kind is its word."""
    carried = {member: getattr(told, member) for member in CARRIED.get(name, [])}
    if "kind" in carried:
        carried["kind"] = KIND_WORDS[carried["kind"]]
    return carried


class Refused(Exception):
    """A call that is not done: the name of its code, and the numbers that it sets. Its text is that
    of a script."""

    def __init__(self, code: int, carried: Mapping[str, Any] | None = None) -> None:
        self.code, self.name, self.carried = code, name_of(code), dict(carried or {})
        word = SCRIPT_WORDS.get(self.name, self.name.lower().replace("_", "-"))
        super().__init__(" ".join([word, *map(str, self.carried.values())]))

    def __reduce__(self) -> tuple[type[Refused], tuple[int, dict[str, Any]]]:
        return type(self), (self.code, self.carried)


def fitting(c_type: CType, value: Any) -> int:
    """Returns the value if it fits the C type, and raises ValueError otherwise; ctypes alone would
    truncate it."""
    limit = 1 << 8 * ctypes.sizeof(c_type)
    if not isinstance(value, int) or not 0 <= value < limit:
        raise ValueError(f"{value!r} is no whole number below {limit}")
    return value


def whole(c_type: CType) -> CType:
    """Returns a parameter type that accepts only numbers that fit the C type."""
    limit = 1 << 8 * ctypes.sizeof(c_type)

    def from_param(value: Any) -> CType:
        return c_type(value if type(value) is int and 0 <= value < limit else fitting(c_type, value))

    return type("Whole", (), {"from_param": staticmethod(from_param)})


def array_of(c_type: CType, values: Iterable[int]) -> CType:
    """Returns an array of the C type; each value must fit it."""
    values = [fitting(c_type, value) for value in values]
    return (c_type * len(values))(*values)


@cache
def types_of(kind: type[ctypes.Structure]) -> dict[str, CType]:
    """Returns the C types of the fields of a struct by their names."""
    return {field[0]: field[1] for field in kind._fields_}


class Numbers(ctypes.Structure):
    """A struct of numbers. Each value must fit its field."""

    def __setattr__(self, name: str, value: Any) -> None:
        c_type = types_of(type(self)).get(name)
        if c_type is None:
            raise AttributeError(f"{type(self).__name__} has no field {name}")
        super().__setattr__(name, fitting(c_type, value))


def fields(names: str, c_type: CType = ctypes.c_uint64) -> list[tuple[str, CType]]:
    return [(name, c_type) for name in names.split()]


class LibraryVersion(Numbers):
    _fields_ = fields("major minor patch", ctypes.c_uint32)
    major: int
    minor: int
    patch: int


class Place(ctypes.Structure):
    _fields_ = [("at", ctypes.c_void_p)]
    at: int | None


class Told(Numbers):
    _fields_ = fields("number generation kind task until covering")
    number: int
    generation: int
    kind: int
    task: int
    until: int
    covering: int


class KeyHandle(Numbers):
    _fields_ = fields("task slice_key position") + [("life", ctypes.c_uint32)]
    task: int
    slice_key: int
    position: int
    life: int


class Block(ctypes.Structure):
    """A block of work on a key. enter() and leave() of a slicelet write it, and it may be used again
    for the next block.

    `at` is the task's reading at which the last call was made, `handle` what enter() took and leave()
    checks, and `told` what enter() told. `is_called` is whether the last call was made: if not, the
    clock refused, and there is no line. `line` is the line of the last call, as log_line() returns
    it, and empty if none was wanted.
    """

    _fields_ = [*fields("ticket at"), ("handle", KeyHandle), ("told", Told)]
    ticket: int
    at: int
    handle: KeyHandle
    told: Told
    is_called = False
    line = ""

    def served(self) -> Served:
        """Returns the lease under which enter() allowed the key."""
        return lease_of(self.told)


class HeldLease(Numbers):
    _fields_ = fields("number generation until")
    number: int
    generation: int
    until: int


class Grant(Numbers):
    _fields_ = fields("number task life kind generation ends table_ends")
    number: int
    task: int
    life: int
    kind: int
    generation: int
    ends: int
    table_ends: int


class Slice(ctypes.Structure):
    _fields_ = fields("start count") + [("tasks", ctypes.c_uint64 * 5)]
    start: int
    count: int
    tasks: ctypes.Array[ctypes.c_uint64]


class Owners(ctypes.Structure):
    _fields_ = fields("generation count") + [("tasks", ctypes.c_uint64 * 5)]
    generation: int
    count: int
    tasks: ctypes.Array[ctypes.c_uint64]


class Policy(Numbers):
    _fields_ = fields("low high skew guard bridge job numbers")
    low: int
    high: int
    skew: int
    guard: int
    bridge: int
    job: int
    numbers: int


class JobTerm(Numbers):
    _fields_ = fields("number assigner until")
    number: int
    assigner: int
    until: int


class Phase(Numbers):
    _fields_ = fields("committed proposed")
    committed: int
    proposed: int


class Row(Numbers):
    _fields_ = fields("number task life kind generation table_ends")
    number: int
    task: int
    life: int
    kind: int
    generation: int
    table_ends: int


class LoggedCall(ctypes.Structure):
    """A call for log_line: what was passed, its code, and what it wrote, as the header says."""

    _fields_ = [
        ("ticket", ctypes.c_uint64), ("call", ctypes.c_uint32), ("code", ctypes.c_int32),
        *fields("task clerk assigner term at slice_key"), *fields("life kind", ctypes.c_uint32),
        ("count", ctypes.c_uint64), ("told", Told), ("job_term", JobTerm), ("phase", Phase),
        ("handle", KeyHandle), ("owners", Owners), *fields("sent reading"),
    ]
    ticket: int
    call: int
    code: int
    task: int
    clerk: int
    assigner: int
    term: int
    at: int
    slice_key: int
    life: int
    kind: int
    count: int
    told: Told
    job_term: JobTerm
    phase: Phase
    handle: KeyHandle
    owners: Owners
    sent: int
    reading: int


class Receipt(ctypes.Structure):
    """A grant that a task received. receive() of a slicelet writes it, and it may be used again.

    `at` is the task's reading at which the last call was made, `told` what it told of the lease, and
    `evidence` 1 if the grant shows that clocks are not timely, and was not heard. `is_called` and
    `line` are those of a Block.
    """

    _fields_ = [*fields("ticket at"), ("told", Told), ("evidence", ctypes.c_uint32)]
    ticket: int
    at: int
    told: Told
    evidence: int
    is_called = False
    line = ""


class Token(ctypes.Structure):
    """A fencing token: the epoch, the generation and the life, in 4, 8 and 4 bytes, each with the high
    byte first."""

    _fields_ = [("bytes", ctypes.c_uint8 * 16)]

    @classmethod
    def of(cls, token: bytes) -> Token:
        if len(token) != TOKEN_LENGTH:
            raise ValueError(f"a token of {len(token)} bytes is none of {TOKEN_LENGTH}")
        return cls.from_buffer_copy(token)


class LoggedWrite(ctypes.Structure):
    """A write to a store for log_write, as the header says."""

    _fields_ = [*fields("ticket slice_key revision"), ("token", Token), ("reply", ctypes.c_uint32)]


class LoadRecord(Numbers):
    _fields_ = fields("slice_key weight")
    slice_key: int
    weight: int


class PlanPolicy(Numbers):
    _fields_ = fields("low high churn cold hot most")
    low: int
    high: int
    churn: int
    cold: int
    hot: int
    most: int


class Clock(Numbers):
    """A clock: numbers that may be read, and that only its calls change."""

    def __setattr__(self, name: str, _: object) -> NoReturn:
        raise AttributeError(f"{name} of a {type(self).__name__} is changed by its calls alone")

    def do(self, name: str, *given: CType) -> None:
        done(getattr(library, f"hs_{name}")(ctypes.byref(self), *given))


class TaskClock(Clock):
    """A task's clock, whose values are never below an earlier reading of the table's clock.

    While the task's local clock gains `per` ticks, the table's gains at most `per` + `extra`, and
    `grain` ticks more. `oldest` is for how many ticks the task goes on without an answer of the
    table. The header says under `Clocks` what a caller must see to. boottime_ticks() reads a local
    clock that will do.
    """

    _fields_ = fields("extra per grain oldest sampled sent reading newest last given")
    extra: int
    per: int
    grain: int
    oldest: int
    sampled: int
    sent: int
    reading: int
    newest: int
    last: int
    given: int

    def __init__(self, extra: int, per: int, grain: int, oldest: int) -> None:
        super().__init__()
        self.do("task_clock_new", extra, per, grain, oldest)

    def sample(self, sent: int, reading: int, now: int) -> None:
        """Takes an answer of the table: the local reading before its request was sent, the reading
        that it carries, and the local reading now."""
        self.do("task_clock_sample", sent, reading, now)

    def read(self, now: int) -> int:
        """Returns the value at a local reading, which is the task's reading in calls of its
        slicelet."""
        value = ctypes.c_uint64()
        self.do("task_clock_read", now, ctypes.byref(value))
        return value.value


class TableClock(Clock):
    """The table's clock in one process. It goes on from `kept`, the last value that was kept, 0 at
    first.

    `ahead` is at least how many ticks above the reading values are kept, and the grain and 1 more.
    """

    _fields_ = fields("start opened kept last")
    start: int
    opened: int
    kept: int
    last: int

    def __init__(self, kept: int, ahead: int, now: int) -> None:
        super().__init__()
        self.do("table_clock_open", kept, ahead, now)

    def read(self, now: int) -> int:
        """Returns the table's reading at a local reading. Keep a value that is not below it before
        you use it. Raises Refused with `until`, what was kept, while the clock is below that."""
        reading = ctypes.c_uint64()
        code = library.hs_table_clock_read(ctypes.byref(self), now, ctypes.byref(reading))
        done(code, Told(until=self.kept))
        return reading.value


class Version(NamedTuple):
    major: int
    minor: int
    patch: int


class Found(NamedTuple):
    generation: int
    tasks: list[int]


class Served(NamedTuple):
    """The lease under which a key is served: its kind, its generation, the number of its grant, and
    the first reading of the task's clock at which it has ended.

    `covering` is the greatest generation of the held leases that cover the key, live or ended. It may
    be above `generation`. A lease that is heard is of no key, and `covering` is then 0.
    """

    kind: str
    generation: int
    number: int
    until: int
    covering: int


class Held(NamedTuple):
    number: int
    generation: int
    until: int


class AssignmentRead(NamedTuple):
    generation: int
    slices: list[tuple[int, list[int]]]


class GrantRead(NamedTuple):
    number: int
    task: int
    life: int
    kind: str
    generation: int
    ends: int
    table_ends: int
    ranges: list[tuple[int, int]]


def lease_of(told: Told) -> Served:
    """Returns the lease that a call told."""
    kind = KIND_WORDS[told.kind]
    return Served(kind, told.generation, told.number, told.until, told.covering)


U32, U64, SIZE = whole(ctypes.c_uint32), whole(ctypes.c_uint64), whole(ctypes.c_size_t)
OUT = [ctypes.c_void_p, SIZE, ctypes.POINTER(ctypes.c_size_t)]
BYTES = [ctypes.c_char_p, SIZE]
P = ctypes.POINTER
DECLARED: dict[str, list[CType]] = {
    "place_new": [P(Place)],
    "slicelet_close": [P(Place)], "clerk_close": [P(Place)], "table_close": [P(Place)],
    "load_book_close": [P(Place)], "assigner_close": [P(Place)],
    "slicelet_open": [P(Place), *BYTES, U64],
    "slicelet_resume": [P(Place), *BYTES, U64, U32],
    "ended_note": [*BYTES, U64, U32, U32, *OUT],
    "grant_read": [*BYTES, *BYTES, P(Grant), P(ctypes.c_uint64), SIZE, P(ctypes.c_size_t)],
    "slicelet_held": [P(Place), U32, P(HeldLease)],
    "slicelet_permitted": [P(Place), U64, P(ctypes.c_uint64), SIZE, P(ctypes.c_size_t)],
    "slicelet_next": [P(Place), P(Phase), U64, P(ctypes.c_uint32)],
    "slicelet_calls_left": [P(Place), P(ctypes.c_uint64)],
    "slicelet_start": [P(Place), U32, U64],
    "slicelet_hear": [P(Place), *BYTES, U64, P(Told)],
    "slicelet_receive": [P(Place), P(TaskClock), U64, P(Policy), *BYTES, P(Receipt), *OUT],
    "slicelet_release": [P(Place), U32, U64, *OUT],
    "slicelet_serve": [P(Place), *BYTES, U64, P(Told)],
    "slicelet_hold": [P(Place), *BYTES, U64, P(KeyHandle), P(Told)],
    "slicelet_serve_at": [P(Place), U64, U64, P(Told)],
    "slicelet_hold_at": [P(Place), U64, U64, P(KeyHandle), P(Told)],
    "slicelet_token": [P(Place), U64, U32, *BYTES, U64, P(Token)],
    "slicelet_token_at": [P(Place), U64, U32, U64, U64, P(Token)],
    "fence_accept": [P(Token), P(Token)],
    "slicelet_check": [P(Place), P(KeyHandle), U64],
    "slicelet_enter": [P(Place), P(TaskClock), U64, *BYTES, P(Block), *OUT],
    "slicelet_enter_at": [P(Place), P(TaskClock), U64, U64, P(Block), *OUT],
    "slicelet_leave": [P(Place), P(TaskClock), U64, P(Block), *OUT],
    "clerk_open": [P(Place), *BYTES],
    "clerk_learn": [P(Place), *BYTES, P(Told)],
    "clerk_look": [P(Place), *BYTES, P(Owners)],
    "clerk_look_at": [P(Place), U64, P(Owners)],
    "clerk_forget": [P(Place)],
    "table_open": [P(Place), *BYTES, P(Policy)],
    "table_kept": [P(Place), *OUT],
    "table_save": [P(Place), *BYTES, U64, U64, *OUT],
    "table_restore": [P(Place), *BYTES, P(Policy), *BYTES, P(Told)],
    "table_take": [P(Place), U64, U64, P(JobTerm), P(Told)],
    "table_renew": [P(Place), U64, U64, P(JobTerm), P(Told)],
    "table_propose": [P(Place), U64, *BYTES, U64, P(Told)],
    "table_commit": [P(Place), U64, U64, P(Told)],
    "table_grant": [P(Place), U64, U32, U64, *OUT],
    "table_free": [P(Place), *BYTES, U64, P(ctypes.c_uint64), P(Told)],
    "table_restart": [P(Place), P(ctypes.c_uint64)],
    "table_phase": [P(Place), P(Phase)],
    "table_rows": [P(Place), P(Row), SIZE, P(ctypes.c_size_t)],
    "table_committed": [P(Place), *OUT],
    "assignment_new": [*BYTES, U64, P(Slice), SIZE, *OUT],
    "assignment_read": [
        *BYTES, *BYTES, P(ctypes.c_uint64), P(Slice), SIZE, P(ctypes.c_size_t),
    ],
    "assignment_slice": [*BYTES, *BYTES, U64, P(Slice)],
    "load_book_open": [P(Place), *BYTES],
    "load_book_gather": [
        P(Place), *BYTES, U64, P(LoadRecord), SIZE, P(ctypes.c_uint64), SIZE, P(ctypes.c_size_t),
    ],
    "load_book_total": [P(Place), U64, P(ctypes.c_uint64)],
    "assigner_open": [P(Place), U64, U64],
    "assigner_adopt": [P(Place), P(JobTerm)],
    "assigner_drop_term": [P(Place)],
    "assigner_next": [P(Place), U64, P(Phase), U32, P(ctypes.c_uint32), P(ctypes.c_uint64)],
    "task_clock_new": [P(TaskClock), U64, U64, U64, U64],
    "task_clock_sample": [P(TaskClock), U64, U64, U64],
    "task_clock_read": [P(TaskClock), U64, P(ctypes.c_uint64)],
    "table_clock_open": [P(TableClock), U64, U64, U64],
    "table_clock_read": [P(TableClock), U64, P(ctypes.c_uint64)],
    "clock_evidence": [*BYTES, *BYTES, U64, P(Policy), P(ctypes.c_uint32)],
    "log_line": [*BYTES, P(LoggedCall), *BYTES, *OUT],
    "log_write": [P(LoggedWrite), *OUT],
    "plan": [
        *BYTES, *BYTES, ctypes.c_void_p, SIZE, ctypes.c_void_p, SIZE, P(PlanPolicy), *OUT,
    ],
}


def find() -> str:
    """Returns the path of the shared object, or its name for the system to find."""
    beside = Path(__file__).with_name("libhourstable.so")
    return os.environ.get("HOURSTABLE_LIBRARY") or str(beside if beside.exists() else beside.name)


def load(path: str) -> ctypes.CDLL:
    """Loads the library, and declares its functions as in the header."""
    loaded = ctypes.CDLL(path)
    for name, parameters in DECLARED.items():
        function = getattr(loaded, f"hs_{name}")
        function.argtypes, function.restype = parameters, ctypes.c_int32
    loaded.hs_library_version.argtypes = [P(LibraryVersion)]
    loaded.hs_library_version.restype = None
    loaded.hs_slice_key.argtypes, loaded.hs_slice_key.restype = BYTES, ctypes.c_uint64
    loaded.hs_place_free.argtypes, loaded.hs_place_free.restype = [P(Place)], None
    return loaded


library = load(find())


def unchecked(name: str) -> Callable[..., int]:
    """Returns a function whose caller sees that numbers fit, since U64 and SIZE take longer than the
    call."""
    plain = {U64: ctypes.c_uint64, SIZE: ctypes.c_size_t}
    function = library[f"hs_{name}"]  # not the one that `library` keeps
    function.argtypes = [plain.get(it, it) for it in DECLARED[name]]
    function.restype = ctypes.c_int32
    return function


def bare(name: str) -> Callable[..., int]:
    """Returns a function that takes values of ctypes alone, which cost no check, and that keeps the interpreter's
    lock: the call takes about as long as giving the lock away would."""
    function = held[f"hs_{name}"]
    function.restype = ctypes.c_int32
    return function


held = ctypes.PyDLL(library._name)
ENTER, ENTER_AT, LEAVE = map(unchecked, ("slicelet_enter", "slicelet_enter_at", "slicelet_leave"))
BARE_ENTER, BARE_LEAVE = map(bare, ("slicelet_enter", "slicelet_leave"))
LINE = 512  # bytes, in which a line of a block fits
NO_CALL = MOST = (1 << 64) - 1  # NO_CALL is how long a line is of a call that was not made


def done(code: int, told: Told | None = None) -> None:
    """Raises Refused or MemoryError if the code is not that of a call that is done."""
    if code == -1:
        raise MemoryError("hourstable")
    if code != 0:
        raise Refused(code, carried_by(name_of(code), told) if told else None)


def text_of(call: Callable[..., int], *given: CType, room: int = 1024) -> bytes:
    """Returns the text that a call writes. If it does not fit into `room` bytes, calls again with a longer buffer."""
    out, needed = ctypes.create_string_buffer(room), ctypes.c_size_t()
    code = call(*given, out, room, ctypes.byref(needed))
    if code == -2:
        out = ctypes.create_string_buffer(needed.value)
        code = call(*given, out, len(out), ctypes.byref(needed))
    done(code)
    return ctypes.string_at(out, needed.value)


def list_of(c_type: CType, call: Callable[..., int], *given: CType) -> list[Any]:
    """Returns the list that a call writes. If it does not fit, calls again with a longer buffer."""
    room, needed = (c_type * 64)(), ctypes.c_size_t()
    code = call(*given, room, len(room), ctypes.byref(needed))
    if code == -2:
        room = (c_type * needed.value)()
        code = call(*given, room, len(room), ctypes.byref(needed))
    done(code)
    return list(room[: needed.value])


def ranges_of(boundaries: list[int]) -> list[tuple[int, int]]:
    """Returns the ranges of these boundaries, each as its first slice key and the one after its
    last."""
    return list(zip(boundaries[::2], boundaries[1::2]))


def library_version() -> Version:
    """The version of the loaded library: major, minor and patch."""
    version = LibraryVersion()
    library.hs_library_version(ctypes.byref(version))
    return Version(version.major, version.minor, version.patch)


def slice_key(key: bytes) -> int:
    return int(library.hs_slice_key(key, len(key)))


def named(job: str) -> tuple[bytes, int]:
    """Returns the name of a job as the library takes it."""
    name = job.encode()
    return name, len(name)


def ended_note(job: str, task: int, life: int, kind: str) -> bytes:
    """Returns the note of a job that gives back all leases of a kind of a life that ended with its
    process."""
    return text_of(library.hs_ended_note, *named(job), task, life, KINDS[kind])


def read_grant(job: str, grant: bytes) -> GrantRead:
    """Returns what a grant of a job says. `ends` is a reading of the task's clock, `table_ends` one
    of the table's. A range is its first slice key and the one after its last; the ranges rise, and
    do not touch."""
    numbers = Grant()
    given = (*named(job), grant, len(grant), ctypes.byref(numbers))
    ranges = ranges_of(list_of(ctypes.c_uint64, library.hs_grant_read, *given))
    return GrantRead(
        numbers.number, numbers.task, numbers.life, KIND_WORDS[numbers.kind], numbers.generation,
        numbers.ends, numbers.table_ends, ranges,
    )


def new_assignment(job: str, generation: int, slices: Iterable[tuple[int, Iterable[int]]]) -> bytes:
    """Returns the message of the assignment of a generation of a job. A slice is its first slice key
    and its owners; the first one starts at 0, and each above the one before it."""
    listed = [(start, list(owners)) for start, owners in slices]
    numbers = (Slice * len(listed))()
    for at, (start, owners) in enumerate(listed):
        tasks = array_of(ctypes.c_uint64, [*owners, 0, 0, 0, 0, 0][:5])
        numbers[at] = Slice(fitting(ctypes.c_uint64, start), len(owners), tasks)
    return text_of(library.hs_assignment_new, *named(job), generation, numbers, len(numbers))


def read_assignment(job: str, assignment: bytes) -> AssignmentRead:
    """Returns what an assignment of a job says: its generation, and its slices by their starts, each
    with its owners in rising order."""
    generation = ctypes.c_uint64()
    given = (*named(job), assignment, len(assignment), ctypes.byref(generation))
    slices = list_of(Slice, library.hs_assignment_read, *given)
    return AssignmentRead(generation.value, [(s.start, list(s.tasks[: s.count])) for s in slices])


def slice_of(job: str, assignment: bytes, slice_key: int) -> tuple[int, list[int]]:
    """Returns the slice of an assignment of a job that has a slice key: its first slice key and its
    owners."""
    found = Slice()
    given = (*named(job), assignment, len(assignment), slice_key, ctypes.byref(found))
    done(library.hs_assignment_slice(*given))
    return found.start, list(found.tasks[: found.count])


def owners_of(found: Found) -> Owners:
    """Returns the owners that a clerk found, as numbers."""
    tasks = array_of(ctypes.c_uint64, [*found.tasks, 0, 0, 0, 0, 0][:5])
    return Owners(found.generation, len(found.tasks), tasks)


def log_line(job: str, call: LoggedCall, message: bytes = b"") -> str:
    """Returns the line of a call for `hourstable audit`, without its line feed. `message` is what a
    propose, free, restore, hear or learn passed, or what a grant or release that is done made."""
    given = (*named(job), ctypes.byref(call), message, len(message))
    line = text_of(library.hs_log_line, *given, room=LINE + len(message))  # in which each line of a call finds room
    return line.decode().removesuffix("\n")


def log_write(ticket: int, slice_key: int, token: bytes, reply: str, revision: int | None = None) -> str:
    """Returns the line of a write to a store for `hourstable audit`, without its line feed. `ticket` is that of the
    call with which the task got the token, or a later one; `reply` what the store said: "taken", "refused", or
    "unknown" if no answer came; `revision` the number that the store gave a write that it took, if it gives any.
    Raises ValueError if a value is none of these."""
    if reply not in STORE_REPLIES or (revision is not None and reply != "taken"):
        raise ValueError(f"a write that was {reply!r} with the revision {revision}")
    number = STORE_REPLIES[reply] if revision is None else 1
    numbers = (fitting(ctypes.c_uint64, it) for it in (ticket, slice_key, revision or 0))
    write = LoggedWrite(*numbers, Token.of(token), number)
    return text_of(library.hs_log_write, ctypes.byref(write), room=LINE).decode().removesuffix("\n")


def plan(
    job: str, assignment: bytes, loads: Iterable[int], tasks: Iterable[int], policy: PlanPolicy
) -> bytes:
    """Returns the message of the assignment of the next generation of a job."""
    weights, owners = array_of(ctypes.c_uint64, loads), array_of(ctypes.c_uint64, tasks)
    lists = (weights, len(weights), owners, len(owners))
    base = (*named(job), assignment, len(assignment))
    return text_of(library.hs_plan, *base, *lists, ctypes.byref(policy))


def boottime_ticks() -> int:
    """Returns CLOCK_BOOTTIME of Linux in ticks of a millisecond. It counts while the machine is
    suspended, as a task's local clock must; time.monotonic() does not."""
    return time.clock_gettime_ns(time.CLOCK_BOOTTIME) // 1_000_000


def clock_evidence(job: str, grant: bytes, at: int, policy: Policy) -> bool:
    """Whether a grant of a job shows at the reading `at` of its task that clocks are not timely.
    False shows nothing."""
    shown = ctypes.c_uint32()
    told = (ctypes.byref(policy), ctypes.byref(shown))
    done(library.hs_clock_evidence(*named(job), grant, len(grant), at, *told))
    return shown.value == 1


class Standing:
    """An object in a place of its own."""

    place: Place | None

    def __init__(self, kind: str, *given: CType) -> None:
        self.kind, self.told, self.place = kind, Told(), None
        place = Place()
        done(library.hs_place_new(ctypes.byref(place)))
        self.place = place
        try:
            self.do("open", *given)
        except BaseException:
            self.close()
            raise

    def standing(self) -> Place:
        if self.place is None:
            raise ValueError(f"the {self.kind} is closed")
        return self.place

    def function(self, name: str) -> Callable[..., int]:
        found: Callable[..., int] = getattr(library, f"hs_{self.kind}_{name}")
        return found

    def do(self, name: str, *given: CType) -> None:
        done(self.function(name)(ctypes.byref(self.standing()), *given), self.told)

    def text(self, name: str, *given: CType) -> bytes:
        return text_of(self.function(name), ctypes.byref(self.standing()), *given)

    def told_by(self) -> CType:
        return ctypes.byref(self.told)

    def close(self) -> None:
        place, self.place = self.place, None
        if place is not None:
            library.hs_place_free(ctypes.byref(place))

    def __enter__(self: Result) -> Result:
        return self

    def __exit__(self, *_: object) -> None:
        self.close()

    def __copy__(self) -> NoReturn:
        raise TypeError(f"a {self.kind} is not copied: the place that it stands in is freed once")

    def __deepcopy__(self, _: object) -> NoReturn:
        self.__copy__()

    def __reduce_ex__(self, _: object) -> NoReturn:
        self.__copy__()


class Slicelet(Standing):
    """A slicelet of a job: knows the leases of a server task and decides whether the task may serve
    a key.

    Readings are in ticks of the task's clock.
    """

    def __init__(self, job: str, task: int) -> None:
        super().__init__("slicelet", *named(job), task)
        self._line: CType = ctypes.create_string_buffer(LINE)
        self._needed = ctypes.c_size_t()

    @classmethod
    def resume(cls, job: str, task: int, life: int) -> Slicelet:
        """Returns the slicelet of the task's new process. `life` is the greatest life that the task
        ever started. Never call it beside a process of the task that may still run."""
        slicelet = cls(job, task)
        slicelet.do("resume", *named(job), task, life)
        return slicelet

    def start(self, life: int, at: int) -> None:
        self.do("start", life, at)

    def served(self) -> Served:
        """Returns the lease that the last call told, such as hold()."""
        return lease_of(self.told)

    def covering(self) -> int:
        """Returns the greatest generation of the held leases that cover the key of the last serve()
        or hold(), live or ended, also where it was denied; 0 if none does."""
        return self.told.covering

    def hear(self, grant: bytes, at: int) -> Served:
        """Hears a grant, and returns its lease, under which keys are served until `until`."""
        self.told.covering = 0
        self.do("hear", grant, len(grant), at, self.told_by())
        return self.served()

    def receive(
        self, clock: TaskClock, now: int, ticket: int, policy: Policy, grant: bytes, receipt: Receipt,
        logged: bool = True,
    ) -> Served | None:
        """Receives a grant, given as its message: reads the clock at the local reading `now`, hears the
        grant at its value as hear() does, unless it shows that clocks are not timely, and writes the
        line of that call, as log_line() does. The message is decoded once. `policy` is that of the
        table; `ticket` and `logged` are as in enter().

        Returns the lease, or None if the grant shows that clocks are not timely: then nothing is
        heard, and there is no line. Raises Refused if the clock refuses, if the message is no grant of
        the job, or if the grant is not heard: then there is a line. With any other code the clock is
        as it was."""
        room = len(grant) + LINE  # the line has what the grant says, and so the first call finds room
        if logged and len(self._line) < room:
            self._line = ctypes.create_string_buffer(room)
        given = (clock, now, ctypes.byref(policy), grant, len(grant))
        self._logged(self.function("receive"), receipt, ticket, logged, *given)
        return None if receipt.evidence else lease_of(receipt.told)

    def release(self, kind: str, at: int) -> bytes:
        return self.text("release", KINDS[kind], at)

    def serve(self, key: bytes, at: int) -> Served:
        """Returns the lease under which the task may serve a key."""
        self.do("serve", key, len(key), at, self.told_by())
        return self.served()

    def hold(self, key: bytes, at: int) -> KeyHandle:
        """Takes a handle on a key; served() then returns the lease under which the task may serve
        it."""
        handle = KeyHandle()
        self.do("hold", key, len(key), at, ctypes.byref(handle), self.told_by())
        return handle

    def serve_at(self, slice_key: int, at: int) -> Served:
        """Serves a key by its slice key, which need not be hashed again."""
        self.do("serve_at", slice_key, at, self.told_by())
        return self.served()

    def hold_at(self, slice_key: int, at: int) -> KeyHandle:
        """Takes a handle on a key by its slice key."""
        handle = KeyHandle()
        self.do("hold_at", slice_key, at, ctypes.byref(handle), self.told_by())
        return handle

    def token(self, most: int, epoch: int, key: bytes, at: int) -> bytes:
        """Returns the fencing token that the task has for a key: 16 bytes, which it sends to a store with
        each write of the key. `most` is the most owners of a slice by the policy, `epoch` the number of
        the job among those that wrote to the same store."""
        token = Token()
        self.do("token", most, epoch, key, len(key), at, ctypes.byref(token))
        return bytes(token)

    def token_at(self, most: int, epoch: int, slice_key: int, at: int) -> bytes:
        """Returns the fencing token for a key by its slice key."""
        token = Token()
        self.do("token_at", most, epoch, slice_key, at, ctypes.byref(token))
        return bytes(token)

    def check(self, handle: KeyHandle, at: int) -> None:
        self.do("check", ctypes.byref(handle), at)

    def enter(
        self, clock: TaskClock, now: int, ticket: int, key: bytes, block: Block, logged: bool = True
    ) -> None:
        """Enters a block of work on a key: reads the clock at the local reading `now`, takes a handle
        at its value as hold() does, and writes the line of that call, as log_line() does. `ticket` is
        its place among all calls of the job, and is drawn before. With `logged` false it writes no
        line.

        Raises Refused if the clock refuses, or if the key is denied: then there is a line. Any other
        error leaves the clock as it was."""
        self._logged(ENTER, block, ticket, logged, clock, now, key, len(key))

    def enter_at(
        self, clock: TaskClock, now: int, ticket: int, slice_key: int, block: Block, logged: bool = True
    ) -> None:
        """Enters a block of work on a key by its slice key."""
        fitting(ctypes.c_uint64, slice_key)
        self._logged(ENTER_AT, block, ticket, logged, clock, now, slice_key)

    def leave(
        self, clock: TaskClock, now: int, ticket: int, block: Block, logged: bool = True
    ) -> None:
        """Leaves a block of work: reads the clock, and checks the handle that enter() took as check()
        does. Raises Refused if the clock refuses, or if the task did not hold the key all along.
        Otherwise as enter()."""
        self._logged(LEAVE, block, ticket, logged, clock, now)

    def _logged(
        self, call: Callable[..., int], it: Block | Receipt, ticket: int, logged: bool, *given: CType
    ) -> None:
        """Makes a call that writes its line, whose clock and local reading are given first. If the line
        does not fit, makes the call again, which has changed nothing, with a longer buffer."""
        it.is_called, it.line = False, ""
        if not (0 <= ticket <= MOST and 0 <= given[1] <= MOST):
            raise ValueError(f"{ticket!r} or {given[1]!r} does not fit 64 bits")
        place, line, needed = self.place or self.standing(), self._line, self._needed
        it.ticket, needed.value = ticket, NO_CALL
        code = call(place, *given, it, line, len(line) if logged else 0, needed)
        if code == -2:
            line = self._line = ctypes.create_string_buffer(needed.value)
            code = call(place, *given, it, line, len(line), needed)
        length = needed.value
        if code >= 0 and length != NO_CALL:
            it.is_called = True
            if length:
                it.line = line[: length - 1].decode()
        if code != 0:
            done(code, it.told)

    def held(self, kind: str) -> Held:
        """Returns the lease of a kind that the task holds, which may have ended."""
        held = HeldLease()
        self.do("held", KINDS[kind], ctypes.byref(held))
        return Held(held.number, held.generation, held.until)

    def permitted(self, at: int) -> list[tuple[int, int]]:
        """Returns the ranges of the slice keys that the task may serve. A range is its first slice key
        and the one after its last; the ranges rise, and do not touch."""
        place = ctypes.byref(self.standing())
        return ranges_of(list_of(ctypes.c_uint64, self.function("permitted"), place, at))

    def next(self, phase: Phase, at: int) -> str:
        """Returns what the task does next about its leases, in a phase of the table: one of
        TASK_ACTIONS."""
        action = ctypes.c_uint32()
        self.do("next", ctypes.byref(phase), at, ctypes.byref(action))
        return TASK_ACTIONS[action.value - 1]

    def calls_left(self) -> int:
        """Returns how many more starts, hears and releases are accepted."""
        left = ctypes.c_uint64()
        self.do("calls_left", ctypes.byref(left))
        return left.value


class _Entry(ctypes.Structure):
    """A Block whose structs are laid out in it."""

    _fields_ = [
        *fields("ticket at task slice_key position"), ("life", ctypes.c_uint32),
        *fields("number generation kind other until covering"),
    ]
    ticket: int
    at: int
    task: int
    slice_key: int
    position: int
    life: int
    number: int
    generation: int
    kind: int
    other: int
    until: int
    covering: int

    def told(self) -> Told:
        return Told(self.number, self.generation, self.kind, self.other, self.until, self.covering)


class Door:
    """Blocks of work of a life that a slicelet started, by one clock, for a caller that has one for each request:
    what a call passes is made once and used again, and numbers are not checked to fit. A call returns its code, and
    holds the interpreter's lock.

    `entry` has what the last call wrote, and `line` its line for the log with its line feed, empty if there is none;
    `is_called` says whether it was made: if not, the clock refused.
    """

    def __init__(self, slicelet: Slicelet, clock: TaskClock, task: int, life: int) -> None:
        self._task, self._life = task, life
        self.entry, self.line, self.is_called = _Entry(), b"", False
        self._now, self._length = ctypes.c_uint64(), ctypes.c_size_t()
        self._needed, self._nothing = ctypes.c_size_t(), ctypes.c_size_t()
        self._place, self._clock = ctypes.pointer(slicelet.standing()), ctypes.pointer(clock)
        self._entry, self._at = ctypes.pointer(self.entry), ctypes.pointer(self._needed)
        self._make_room(LINE)

    def _make_room(self, length: int) -> None:
        self._text: CType = ctypes.create_string_buffer(length)
        self._size = ctypes.c_size_t(length)

    def enter(self, now: int, ticket: int, key: bytes, logged: bool) -> int:
        """Enters a block on a key, as `Slicelet.enter` does."""
        self._now.value, self._length.value, self.entry.ticket, self._needed.value = now, len(key), ticket, NO_CALL
        size = self._size if logged else self._nothing
        code = BARE_ENTER(
            self._place, self._clock, self._now, key, self._length, self._entry, self._text, size, self._at
        )
        return code if self._is_made(code) else self.enter(now, ticket, key, logged)

    def leave(self, now: int, ticket: int, slice_key: int, position: int, logged: bool) -> int:
        """Looks whether the key of a handle, which an entry took with this slice key and position, was held until
        now, as `Slicelet.leave` does."""
        entry = self.entry
        self._now.value, entry.ticket, self._needed.value = now, ticket, NO_CALL
        entry.task, entry.slice_key, entry.position, entry.life = self._task, slice_key, position, self._life
        size = self._size if logged else self._nothing
        code = BARE_LEAVE(self._place, self._clock, self._now, self._entry, self._text, size, self._at)
        return code if self._is_made(code) else self.leave(now, ticket, slice_key, position, logged)

    def _is_made(self, code: int) -> bool:
        """Takes the line of a call. If it found no room, the call changed nothing, and is made again with more."""
        length = self._needed.value
        if code == -2:
            self._make_room(length)
            return False
        self.is_called = code >= 0 and length != NO_CALL
        text: bytes = self._text[:length] if self.is_called and length else b""
        self.line = text
        return True

    def refusal(self, code: int) -> Refused:
        """Returns the exception of a code that an entry returned. Raises MemoryError."""
        if code == -1:
            raise MemoryError("hourstable")
        return Refused(code, carried_by(name_of(code), self.entry.told()))


class Fence:
    """What a store keeps for one key: the greatest fencing token with which it accepted a write, 16 bytes
    of zero before the first. It is kept with what was written, in one transaction."""

    def __init__(self, greatest: bytes = bytes(TOKEN_LENGTH)) -> None:
        self._greatest = Token.of(greatest)

    @property
    def greatest(self) -> bytes:
        """The greatest token with which a write was accepted."""
        return bytes(self._greatest)

    def accept(self, token: bytes) -> bool:
        """Offers a write with a token, and returns whether it is accepted: then the token is the greatest.
        A new owner offers its token before it reads: until then a late write of an earlier one may be
        accepted."""
        code = library.hs_fence_accept(ctypes.byref(self._greatest), ctypes.byref(Token.of(token)))
        if name_of(code) != "FENCED":
            done(code)
        return bool(code == 0)


class Clerk(Standing):
    """A clerk of a job: knows the newest assignment that a client was given."""

    def __init__(self, job: str) -> None:
        super().__init__("clerk", *named(job))

    def learn(self, assignment: bytes) -> None:
        self.do("learn", assignment, len(assignment), self.told_by())

    def look(self, key: bytes) -> Found:
        owners = Owners()
        self.do("look", key, len(key), ctypes.byref(owners))
        return Found(owners.generation, list(owners.tasks[: owners.count]))

    def look_at(self, slice_key: int) -> Found:
        """Looks up the owners of a key by its slice key."""
        owners = Owners()
        self.do("look_at", slice_key, ctypes.byref(owners))
        return Found(owners.generation, list(owners.tasks[: owners.count]))

    def forget(self) -> None:
        self.do("forget")


class Table(Standing):
    """The lease table of a job. Readings are in ticks of the table's clock."""

    def __init__(self, job: str, policy: Policy) -> None:
        super().__init__("table", *named(job), ctypes.byref(policy))

    @classmethod
    def restore(cls, job: str, policy: Policy, kept: bytes) -> Table:
        """Returns the table that kept these values, as a restart leaves it."""
        table = cls(job, policy)
        try:
            given = (*named(job), ctypes.byref(policy), kept, len(kept), table.told_by())
            table.do("restore", *given)
        except BaseException:
            table.close()
            raise
        return table

    def kept(self) -> bytes:
        """Returns the values to save before the reply to a call that changed the table leaves the
        process."""
        return self.text("kept")

    def save(self, saved: bytes, grants: int, ticks: int) -> bytes | None:
        """Returns the values to save in place of `saved`, ahead of the table by so many grants and
        ticks, or None if `saved` covers the table, so that nothing has to be saved. `saved` is what
        was saved last, b"" if nothing was."""
        return self.text("save", saved, len(saved), grants, ticks) or None

    def term(self, name: str, number: int, at: int) -> JobTerm:
        term = JobTerm()
        self.do(name, number, at, ctypes.byref(term), self.told_by())
        return term

    def take(self, assigner: int, at: int) -> JobTerm:
        return self.term("take", assigner, at)

    def renew(self, number: int, at: int) -> JobTerm:
        return self.term("renew", number, at)

    def propose(self, number: int, assignment: bytes, at: int) -> None:
        self.do("propose", number, assignment, len(assignment), at, self.told_by())

    def commit(self, number: int, at: int) -> int:
        self.do("commit", number, at, self.told_by())
        return self.told.generation

    def grant(self, task: int, life: int, at: int) -> bytes:
        return self.text("grant", task, life, at)

    def free(self, note: bytes, at: int) -> int:
        freed = ctypes.c_uint64()
        self.do("free", note, len(note), at, ctypes.byref(freed), self.told_by())
        return freed.value

    def restart(self) -> int:
        lost = ctypes.c_uint64()
        self.do("restart", ctypes.byref(lost))
        return lost.value

    def phase(self) -> Phase:
        phase = Phase()
        self.do("phase", ctypes.byref(phase))
        return phase

    def rows(self) -> list[Row]:
        return list_of(Row, self.function("rows"), ctypes.byref(self.standing()))

    def committed(self) -> bytes:
        return self.text("committed")


class LoadBook(Standing):
    """A load book of a job: counts the work that the tasks of the job did."""

    def __init__(self, job: str) -> None:
        super().__init__("load_book", *named(job))

    def gather(
        self, assignment: bytes, task: int, records: Iterable[tuple[int, int]]
    ) -> list[int]:
        """Adds records of a task to its total, and returns the load that they are of each slice of
        an assignment. A record is the slice key of a key and the weight of the work for it, 1 to
        2^32. Gather each record once. For plan(), add the loads of several tasks slice by slice."""
        listed = [LoadRecord(slice_key, weight) for slice_key, weight in records]
        numbers = (LoadRecord * len(listed))(*listed)
        place, message = ctypes.byref(self.standing()), (assignment, len(assignment))
        gather = self.function("gather")
        return list_of(ctypes.c_uint64, gather, place, *message, task, numbers, len(numbers))

    def total(self, task: int) -> int:
        """Returns the sum of the weights of all records of a task that were gathered."""
        total = ctypes.c_uint64()
        self.do("total", task, ctypes.byref(total))
        return total.value


class Assigner(Standing):
    """An assigner: keeps a term of the job lease."""

    def __init__(self, number: int, job: int) -> None:
        super().__init__("assigner", number, job)

    def adopt(self, term: JobTerm) -> None:
        self.do("adopt", ctypes.byref(term))

    def drop_term(self) -> None:
        self.do("drop_term")

    def next(self, at: int, phase: Phase, wanted: bool) -> tuple[str, int]:
        """Returns what to do next, and the number of the kept term, 0 for none."""
        action, number = ctypes.c_uint32(), ctypes.c_uint64()
        told = (ctypes.byref(action), ctypes.byref(number))
        self.do("next", at, ctypes.byref(phase), int(wanted), *told)
        return ACTIONS[action.value], number.value
