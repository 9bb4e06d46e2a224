"""Logs of random calls, many of which are accepted. The machines of the stand-in make the replies; some lines are
wrong on purpose."""

from __future__ import annotations

import json
from pathlib import Path
from random import Random

import random_scripts
from hourstable.show.words import line_of, plain_line
from stand_in.entries import call_of, with_numbers
from stand_in.log_machines import LogMachines, one_word
from stand_in.tasks import Members

STEPS_ALONE = frozenset("next hash restart".split())  # that no log has
FORGED: dict[str, Members] = {
    "grant": {"number": "3", "task": 1, "life": 1, "kind": "guard", "generation": "1", "ends": "9", "until": "19"},
    "note": {"task": 1, "life": 9, "kind": "guard", "number": "7"},
    "handle": {"task": 1, "life": 1, "slice_key": "5", "position": "2"},
}
DELIVERS = {"hear": ("grant", "number"), "free": ("note", "note"), "check": ("handle", "handle")}
WRONG = 150  # of so many lines one is wrong


class LogMaker:
    """Makes the lines of logs, each with its log."""

    def __init__(self, seed: int, job: Members) -> None:
        self.random = Random(f"logs {seed}")
        self.machines = LogMachines(job)
        self.terms: dict[int, int] = {}
        self.lives: dict[int, int] = {}
        self.sampled = 0
        self.lines: list[tuple[str, Members]] = []

    def sent(self, kind: str, number: int) -> Members:
        """Returns what was sent with a number, or something that was not, or one with another member."""
        made = [it.members for it in self.machines.grants.values()] if kind == "grant" else (
            self.machines.notes if kind == "note" else self.machines.handles)
        found = made[number - 1] if 1 <= number <= len(made) else FORGED[kind]
        if self.random.random() < 0.02:
            name = self.random.choice(sorted(found))
            other = "bridge" if name == "kind" else str(int(found[name]) + 1)
            return {**found, name: other if isinstance(found[name], str) else int(other)}
        return found

    def of_step(self, step: Members) -> Members:
        """Returns the call that a step of a script makes."""
        call = dict(step)
        if call["do"] in ("renew", "propose", "commit"):
            call["term"] = self.terms.get(call.pop("assigner"), 1)
        if call["do"] in DELIVERS:
            kind, name = DELIVERS[call["do"]]
            call[kind] = self.sent(kind, call.pop(name))
        if call["do"] == "learn" and self.random.random() < 0.3:
            call["slices"] = [[0, [self.random.randint(1, 3)]]]
        return call

    def others(self) -> Members:
        """Returns a call that scripts do not have."""
        do, task = self.random.choice(("open", "open", "sample", "sample", "restore")), self.random.randint(1, 3)
        if do == "open":
            return {"do": do, "task": task, "life": self.lives.get(task, 0) + self.random.choice((0, 0, 0, 1, -1))}
        if do == "sample":
            self.sampled += self.random.randint(1, 30)
            reading = self.sampled + self.random.randint(0, 9) + self.random.choice((0,) * 9 + (400,))
            return {"do": do, "task": task, "sent": self.sampled, "reading": reading, "now": self.sampled + 5}
        kept = self.machines.kept_numbers()
        return {"do": do, **kept, "last": max(kept["last"] + self.random.choice((0, 0, 1, -1)), 0)}

    def make(self, call: Members) -> None:
        """Makes a call, and its line."""
        if call.get("life", 0) < 0:
            return
        number = len(self.lines) + 1
        read = call_of(json.loads(json.dumps(call), object_hook=with_numbers))
        reply = self.machines.tell(number, read)
        if reply.get("reply") == "term":
            self.terms[call["assigner"]] = int(reply["number"])
        if reply.get("reply") in ("started", "opened"):
            self.lives[call["task"]] = call["life"]
        words = self.random.choice((line_of, line_of, plain_line, plain_line, one_word))(reply)
        actor = next((it for it in ("task", "clerk") if it in call), "table") if call["do"] != "grant" else "table"
        log = actor if actor == "table" else f"{actor}-{call[actor]}"
        self.lines.append((f"{log}.jsonl", {"ticket": 3 * number, **call, "reply": words}))

    def spoil(self) -> None:
        """Makes some lines wrong: the words of a reply, or a ticket; or leaves them out."""
        for index in range(9, len(self.lines)):
            if self.random.randrange(WRONG) == 0:
                log, line = self.lines[index]
                way = self.random.choice(("words", "words", "ticket", "gone"))
                if way == "gone":
                    self.lines[index] = log, {}
                elif way == "ticket":
                    self.lines[index] = log, {**line, "ticket": line["ticket"] + self.random.choice((4, 7, 31))}
                else:
                    other = self.lines[self.random.randrange(index)][1]
                    self.lines[index] = log, {**line, "reply": other.get("reply", "broken")}


def write(folder: Path, seed: int, steps: int, is_spoilt: bool) -> list[str]:
    """Writes the logs of random calls, and returns their names."""
    job: Members = random_scripts.JOB
    maker = LogMaker(seed, job)
    for task in (1, 2, 3):
        maker.make({"do": "open", "task": task, "life": 0})
    for step in random_scripts.script(seed, steps)[1:]:
        if step["do"] not in STEPS_ALONE:
            maker.make(maker.of_step(step))
        if maker.random.random() < 0.03:
            maker.make(maker.others())
    maker.machines.close()
    if is_spoilt:
        maker.spoil()
    names = sorted({log for log, _ in maker.lines}, key=lambda it: (it != "table.jsonl", it))
    for name in names:
        lines = [line for log, line in maker.lines if log == name and line]
        written = [{"job": job}, *lines] if name == names[0] else lines
        (folder / name).write_text("".join(f"{json.dumps(it)}\n" for it in written), encoding="utf-8")
    return names
