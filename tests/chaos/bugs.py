"""Bugs that are put in on purpose, which a run of chaos must find. Each changes what the package
does in one process, and leaves the package alone."""

import asyncio
import time
from collections.abc import Awaitable, Callable
from typing import Any

LATE = 0.5  # seconds after which a late store writes
STOOD = 3.5  # seconds, more than a lease, for which a task stands still
LET_IN_EARLY, RELEASED_LATE = "let-in-early", "released-late"
OF_SECONDS = (LET_IN_EARLY, RELEASED_LATE)  # bugs of which only second processes of tasks tell


def answer_before_the_store() -> None:
    """The control plane answers, and what the answer rests on is stored half a second later."""
    from hourstable import service, store

    real = store.open_store

    async def open_late(*given: Any) -> Any:
        return LateStore(await real(*given))

    setattr(service, "open_store", open_late)


class LateStore:
    """A store that answers before it has stored."""

    def __init__(self, store: Any) -> None:
        self._store = store
        self._versions: dict[tuple[str, Any], Any] = {}  # the real version of one that was told
        self._told: dict[str, Any] = {}  # the last one that was told of a job
        self._later: asyncio.Queue[tuple[Any, ...]] = asyncio.Queue()
        self._writing = asyncio.create_task(self._write())

    async def swap(self, job: str, version: Any, *row: Any) -> Any:
        told = ("told", time.monotonic_ns())
        self._later.put_nowait((time.monotonic() + LATE, job, version, row, told))
        self._told[job] = told
        return told

    async def version(self, job: str) -> Any:
        return self._told.get(job) or await self._store.version(job)

    async def _write(self) -> None:
        while True:
            at, job, version, row, told = await self._later.get()
            await asyncio.sleep(max(0.0, at - time.monotonic()))
            version = self._versions.pop((job, version), version)
            try:
                self._versions[job, told] = await self._store.swap(job, version, *row)
            except Exception:
                pass

    def __getattr__(self, name: str) -> Any:
        return getattr(self._store, name)


def use_a_life_twice() -> None:
    """The control plane gives a task that begins the life that it had before."""
    from hourstable import store

    def same_life(real: Callable[..., Awaitable[int]]) -> Callable[..., Awaitable[int]]:
        async def raise_life(self: Any, job: str, task: int) -> int:
            last = (await self.lives(job)).get(task)
            return await real(self, job, task) if last is None else int(last.life)

        return raise_life

    for kind in _with(store, "raise_life"):
        setattr(kind, "raise_life", same_life(getattr(kind, "raise_life")))


def let_in_while_a_row_is_open() -> None:
    """The control plane lets a higher life of a task in while another one may have leases."""
    from hourstable.rights import Asked, Rights

    real = Rights.judge

    def judge(self: Rights, asked: Asked, at: int, ends: int) -> None:
        real(self, asked, at, 0)

    setattr(Rights, "judge", judge)


def release_what_has_ended() -> None:
    """The task stands still while it gives up a lease, and gives it up although it has ended meanwhile."""
    from hourstable.leases import Leases
    from hourstable.task import Task

    leave = Task._leave

    async def leave_late(self: Any, *given: Any) -> None:
        await leave(self, *given)
        time.sleep(STOOD)

    setattr(Task, "_leave", leave_late)
    setattr(Leases, "give_up", Leases.release)


ENDED, BROKEN = 3, 14  # codes of the header


def commit_over_bridges() -> None:
    """The table commits although tasks hold bridge leases of an older generation."""
    from hourstable.library import Refused, Table, ended_note

    begin, commit = Table.__init__, Table.commit

    def begin_named(self: Any, job: str, policy: Any) -> None:
        self.job_name = job
        begin(self, job, policy)

    def commit_early(self: Any, number: int, at: int) -> int:
        for row in self.rows():
            if row.kind == 2:
                try:
                    self.free(ended_note(self.job_name, row.task, row.life, "bridge"), at)
                except Refused:
                    pass
        return commit(self, number, at)

    setattr(Table, "__init__", begin_named)
    setattr(Table, "commit", commit_early)


def use_a_lease_past_its_end() -> None:
    """The task answers although its lease has ended."""
    from hourstable.library import Door, Refused, slice_key

    begin, enter, leave = Door.__init__, Door.enter, Door.leave
    last: list[tuple[int, int]] = []  # the position of the last handle, and the generation of its lease

    def begin_over(self: Any, slicelet: Any, *given: Any) -> None:
        self.slicelet = slicelet
        begin(self, slicelet, *given)

    def enter_late(self: Any, now: int, ticket: int, key: bytes, logged: bool) -> int:
        code = enter(self, now, ticket, key, logged)
        if code == 0:
            last[:] = [(self.entry.position, self.entry.generation)]
        if code != ENDED or not last:
            return code
        self.entry.slice_key, (self.entry.position, self.entry.generation) = slice_key(key), last[0]
        told = b"handle life %d position %d" % (self._life, self.entry.position)
        self.line = self.line.replace(b"denied ended", told)
        return 0

    def leave_late(self: Any, now: int, ticket: int, slice_key: int, position: int, logged: bool) -> int:
        code = leave(self, now, ticket, slice_key, position, logged)
        if code != BROKEN:
            return code
        try:
            self.slicelet.serve_at(slice_key, self.entry.at)
        except Refused as why:
            if why.name == "ENDED":
                self.line = self.line.replace(b'"reply":"broken"', b'"reply":"continuous"')
                return 0
        return code

    for name, method in (("__init__", begin_over), ("enter", enter_late), ("leave", leave_late)):
        setattr(Door, name, method)


def _with(module: Any, name: str) -> list[type]:
    """Returns the classes of a module that have a method of their own of this name."""
    return [
        it for it in vars(module).values()
        if isinstance(it, type) and name in vars(it) and not getattr(it, "_is_protocol", False)
    ]


BUGS: dict[str, tuple[str, Callable[[], None]]] = {
    "answer-before-store": ("control", answer_before_the_store),
    "life-twice": ("control", use_a_life_twice),
    LET_IN_EARLY: ("control", let_in_while_a_row_is_open),
    "bridge-not-waited-for": ("control", commit_over_bridges),
    "past-end": ("task", use_a_lease_past_its_end),
    RELEASED_LATE: ("task", release_what_has_ended),
}


def put_in(name: str | None) -> None:
    """Puts a bug in."""
    if name is not None:
        BUGS[name][1]()
