"""Changes of the service's code and of its logs, by which bugs are put in. Each acts in the process
that it is put in."""

import json
import os
from collections.abc import Callable, Iterable
from types import MethodType, ModuleType
from typing import Any

from actors import Actor, Log, TableActor
from sockets import Message

Change = Callable[[str], None]  # given the name of the process


def instead(owner: type | ModuleType, method: str, new: Callable[..., Any]) -> Change:
    """Another method of a class, or function of a module, in place of one."""
    getattr(owner, method)
    return lambda name: setattr(owner, method, new)


def before(owner: type, method: str, act: Callable[..., Any]) -> Change:
    """Acts before a method does, with what the method is given."""
    real = getattr(owner, method)

    def both(self: Any, *given: Any, **named: Any) -> Any:
        act(self, *given, **named)
        return real(self, *given, **named)

    return instead(owner, method, both)


def after(owner: type, method: str, act: Callable[..., Any]) -> Change:
    """Acts after a method has: with what it returned, and returns something in its place."""
    real = getattr(owner, method)

    def both(self: Any, *given: Any, **named: Any) -> Any:
        return act(self, real(self, *given, **named))

    return instead(owner, method, both)


def during(owner: type, method: str, **rules: Callable[..., Any]) -> Change:
    """Other rules while a method runs."""
    real = getattr(owner, method)

    def run(self: Any, *given: Any, **named: Any) -> Any:
        for rule, new in rules.items():
            getattr(self, rule)
            setattr(self, rule, MethodType(new, self))
        try:
            return real(self, *given, **named)
        finally:
            for rule in rules:
                delattr(self, rule)

    return instead(owner, method, run)


def nothing(*_: Any, **__: Any) -> None:
    """Does nothing."""


def only_in(process: str, *changes: Change) -> Change:
    """Changes in one process alone."""

    def put_in(name: str) -> None:
        if name == process:
            for change in changes:
                change(name)

    return put_in


def text_of(line: Message) -> str:
    """Returns a line as a log has it."""
    return json.dumps(line) + "\n"


def in_log(process: str, do: str, place: int, alter: Callable[[Message], str]) -> Change:
    """Another text in place of a line: that of the call `do` with this place among those of a
    process."""
    seen = 0

    def write(log: Log, line: Message) -> int:
        nonlocal seen
        seen += line.get("do") == do
        is_it = line.get("do") == do and seen == place
        log.put(alter(line) if is_it else text_of(line))
        return os.lseek(log.file, 0, os.SEEK_CUR)

    return only_in(process, instead(Log, "write", write))


def lost(process: str, do: str, place: int) -> Change:
    """A line that no log has."""
    return in_log(process, do, place, lambda line: "")


def with_members(**members: Any) -> Callable[[Message], str]:
    """Returns the text of a line with other members; None removes one."""

    def alter(line: Message) -> str:
        return text_of({name: it for name, it in {**line, **members}.items() if it is not None})

    return alter


def moved_clock(process: str, read: Callable[[int], int]) -> Change:
    """A clock that shows something else than the time."""
    return only_in(process, in_actor("clock", lambda clock: setattr(clock, "read", read)))


def in_actor(member: str, change: Callable[[Any], None]) -> Change:
    """Changes a part of an actor, once it is made."""
    return after_making(Actor, lambda actor: change(getattr(actor, member)))


def after_making(owner: type, act: Callable[..., None]) -> Change:
    """Acts on each object of a class that is made."""
    real: Callable[..., None] = getattr(owner, "__init__")

    def make(self: Any, *given: Any, **named: Any) -> None:
        real(self, *given, **named)
        act(self)

    return instead(owner, "__init__", make)


def late_tickets(calls: Iterable[str]) -> Change:
    """The table answers these calls at once, and draws their tickets before its next call."""
    real_make, real_answer = Actor.make, TableActor.answer
    late: list[Callable[[], Any]] = []

    def make(self: TableActor, call: Message, ticket: int) -> Message:
        if call["do"] not in calls:
            return real_make(self, call, ticket)
        reply = self.play(call)
        late.append(
            lambda: self.log.write(self.line_of(call, self.tickets.draw(call["at"]), reply.words))
        )
        return self.told(reply, 0, 0)

    def answer(self: TableActor, asked: Message) -> Message:
        while late:
            late.pop()()
        return real_answer(self, asked)

    def put_in(name: str) -> None:
        instead(TableActor, "make", make)(name)
        instead(TableActor, "answer", answer)(name)

    return put_in
