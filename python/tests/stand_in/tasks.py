"""A task of the stand-in: its slicelet, and what the library does not tell of it."""

from __future__ import annotations

from collections.abc import Iterator
from typing import Any, NamedTuple

from hourstable.library import KeyHandle, Refused, Slicelet

JOB = "trace"
KINDS = ("guard", "bridge")
Members = dict[str, Any]


class Accepted(NamedTuple):
    """A call that a task accepted: its number among all calls, its word, and what it was given."""

    call: int
    do: str
    given: tuple[Any, ...]
    at: int


class HeldLease(NamedTuple):
    kind: str
    number: int
    generation: int
    ends: int


class Task:
    """A task. `last` is the last reading that it accepted, `process` how often it was opened."""

    def __init__(self, number: int) -> None:
        self.number, self.life, self.last, self.process = number, 0, 0, 0
        self.is_started = False
        self.slicelet = Slicelet(JOB, number)
        self.accepted: list[Accepted] = []
        self.heard: dict[int, int] = {}  # where the grant of each number was heard
        self.greatest: dict[str, int] = {}  # the greatest number of each kind that was heard in this life

    def start(self, call: int, life: int, at: int) -> None:
        self.slicelet.start(life, at)
        self.life, self.is_started, self.greatest = life, True, {}
        self._accept(Accepted(call, "start", (life,), at))

    def hear(self, call: int, grant: bytes, number: int, at: int) -> None:
        served = self.slicelet.hear(grant, at)
        self.heard[number], self.greatest[served.kind] = call, number
        self._accept(Accepted(call, "hear", (grant,), at))

    def release(self, call: int, kind: str, at: int) -> bytes:
        note = self.slicelet.release(kind, at)
        self._accept(Accepted(call, "release", (kind,), at))
        return note

    def open(self, call: int, life: int) -> None:
        """Begins another process, or raises ValueError if the life is below the current one."""
        if life < self.life:
            raise ValueError(f"life {life} is below {self.life}")
        self.slicelet.close()
        self.slicelet = Slicelet.resume(JOB, self.number, life)
        self.life, self.last, self.is_started, self.process = life, 0, False, self.process + 1
        self.greatest = {}
        self.accepted.append(Accepted(call, "open", (life,), 0))

    def _accept(self, made: Accepted) -> None:
        self.last = made.at
        self.accepted.append(made)

    def held(self) -> Iterator[HeldLease]:
        """Yields the leases that the task holds, the guard lease first."""
        for kind in KINDS:
            try:
                found = self.slicelet.held(kind)
            except Refused:
                continue
            yield HeldLease(kind, found.number, found.generation, found.until)

    def answer(self, slice_key: int, at: int) -> Members:
        """Returns what the written rule answers for a key at a reading."""
        try:
            served = self.slicelet.serve_at(slice_key, at)
        except Refused as why:
            generation = why.carried.get("generation")
            more = {} if generation is None else {"generation": str(generation)}
            return {"denied": why.name.lower().replace("_", "-"), **more}
        return {"reply": "served", "kind": served.kind, "generation": str(served.generation)}

    def served_until(self, slice_key: int, at: int) -> tuple[int, Members] | None:
        """Returns until when the task serves a key from a reading on, if no other call comes and under the lease that
        lets it then, with this lease; None if it does not."""
        try:
            served = self.slicelet.serve_at(slice_key, at)
        except Refused:
            return None
        return served.until, {
            "kind": served.kind, "number": str(served.number), "generation": str(served.generation),
        }

    def serving_end(self, slice_key: int, at: int) -> int:
        """Returns the first reading from `at` on at which the task does not serve a key, if no other call comes."""
        while found := self.served_until(slice_key, at):
            at = found[0]
        return at

    def keeps(self, handle: Members, at: int) -> bool | None:
        """Whether a check finds a handle continuous; None if it is a stranger."""
        try:
            self.slicelet.check(handle_of(handle), at)
        except Refused as why:
            return False if why.name == "BROKEN" else None
        return True


def handle_of(found: Members) -> KeyHandle:
    return KeyHandle(
        task=found["task"], slice_key=int(found["slice_key"]), position=int(found["position"]), life=found["life"]
    )


def again(task: int, accepted: list[Accepted]) -> Iterator[tuple[Accepted, Task]]:
    """Plays the accepted calls of a task again, and yields each with the task after it."""
    played = Task(task)
    for made in accepted:
        if made.do == "start":
            played.start(made.call, made.given[0], made.at)
        elif made.do == "hear":
            played.hear(made.call, made.given[0], 0, made.at)
        elif made.do == "release":
            played.release(made.call, made.given[0], made.at)
        else:
            played.open(made.call, made.given[0])
        yield made, played
    played.slicelet.close()


def taking(task: Task, handle: Members, at: int) -> tuple[int | None, int | None]:
    """Returns the calls that took the key of a handle away: the first one after which the task finds it broken at the
    reading of the call, and the last one just before or just after which the key was denied."""
    first = next((made.call for made, played in again(task.number, task.accepted)
                  if played.keeps(handle, played.last) is False), None)
    return first, last_taking(task, handle, at)


def last_taking(task: Task, handle: Members, at: int) -> int | None:
    """Returns the last call of the handle's process before which its key was lost: a handle taken just before it is
    broken, and one taken just after it is not."""
    if task.keeps(handle, at) is not False:
        return None
    own = own_calls(task)
    for position in range(int(handle["position"]), len(own)):
        if task.keeps({**handle, "position": position + 1}, at):
            return own[position].call
    return None


def own_calls(task: Task) -> list[Accepted]:
    """Returns the calls that the current process of a task accepted."""
    begun = [index for index, made in enumerate(task.accepted) if made.do == "open"]
    return task.accepted[begun[-1] + 1 if begun else 0:]
