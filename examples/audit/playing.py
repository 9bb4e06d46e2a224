"""Plays a story: carries all messages, and tells the processes the time."""

from dataclasses import dataclass, field

from machines import Slices
from processes import Service
from sockets import Message
from stories import HALF, QUARTER

STARTS = {"half": HALF, "quarter": QUARTER}


@dataclass
class Player:
    """Plays stories on a service. It keeps what was made, as the answers that have it, and where
    the marked lines end in their logs."""

    service: Service
    made: dict[str, list[Message]] = field(
        default_factory=lambda: {"grant": [], "note": [], "handle": []}
    )
    committed: dict[int, Message] = field(default_factory=dict)
    ends: dict[str, tuple[str, int]] = field(default_factory=dict)

    def play(self, text: str) -> None:
        for line in text.splitlines():
            call, _, mark = line.partition(" = ")
            if call.strip():
                now, name, do, *words = call.split()
                self.step(int(now), name, do, words, mark.strip())

    def step(self, now: int, name: str, do: str, words: list[str], mark: str) -> None:
        if do in ("kill", "leave"):
            getattr(self.service, do)(name)
            return
        message = None if self.is_gone(name) else self.message(do, words)
        if message is not None:
            answer = self.service.ask(name, {"do": do, "now": now, **message})
            self.take(do, answer)
            self.ends[mark] = f"{name.removeprefix('old-')}.jsonl", answer.get("end", 0)

    def is_gone(self, name: str) -> bool:
        return name.startswith("old-") and name not in self.service.running

    def message(self, do: str, words: list[str]) -> Message | None:
        """Returns what a call is given, or None if that is not there."""
        if do in ("free", "hear", "check"):
            kind = {"free": "note", "hear": "grant", "check": "handle"}[do]
            return delivered(kind, self.made[kind], int(words[0]))
        if do == "learn":
            answer = self.committed.get(int(words[0]))
            return answer and {**answer["made"], "seen": answer["ticket"]}
        if do in ("serve", "hold", "look"):
            key = words[0]
            return {"slice_key": int(key[1:])} if key.startswith("#") else {"key": key}
        if do == "release":
            return {"kind": words[0]}
        return numbers(do, words)

    def take(self, do: str, answer: Message) -> None:
        """Keeps what a call made."""
        kind = {"grant": "grant", "release": "note", "hold": "handle"}.get(do)
        if answer.get("made") is None:
            return
        if kind is not None:
            self.made[kind].append(answer)
        elif do in ("commit", "propose"):
            self.committed[answer["made"]["generation"]] = answer

    def places(self) -> dict[str, str]:
        """Returns where each marked line stands: its file and its number."""
        return {mark: self.place(*end) for mark, end in self.ends.items()}

    def place(self, name: str, end: int) -> str:
        before = (self.service.folder / name).read_bytes()[:end]
        return f"{name}:{before.count(10)}"


def delivered(kind: str, made: list[Message], place: int) -> Message | None:
    """Returns a message with one of the things that were made, and its ticket."""
    if not 1 <= place <= len(made):
        return None
    return {kind: made[place - 1]["made"], "seen": made[place - 1]["ticket"]}


def numbers(do: str, words: list[str]) -> Message:
    """Returns what a call is given that is given numbers and perhaps slices."""
    names = {
        "take": ["assigner"], "renew": ["term"], "commit": ["term"],
        "propose": ["term", "generation"], "grant": ["task", "life"], "start": ["life"],
    }.get(do, [])
    message: Message = {name: int(word) for name, word in zip(names, words)}
    rest = words[len(names) :]
    if do == "propose":
        message["slices"] = slices_of(rest)
    elif rest:
        message["times"] = int(rest[0].removeprefix("x"))
    return message


def slices_of(words: list[str]) -> Slices:
    """Returns slices, each written as its start, a colon and its owners."""
    pairs = [word.split(":") for word in words]
    return [
        (STARTS.get(start) or int(start), [int(it) for it in owners.split(",")])
        for start, owners in pairs
    ]
