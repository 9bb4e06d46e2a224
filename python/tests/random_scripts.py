"""Scripts of random steps, many of which are accepted."""

from __future__ import annotations

from random import Random
from typing import Any

KEYS = ("hello", "abc", "k", "a longer key than labels show")
HALF = 1 << 62
JOB = {"redundancy": [1, 2], "skew": 10, "guard": 60, "bridge": 40, "job": 200, "numbers": 200, "assigners": 2,
       "tasks": 3, "clerks": 2}
WEIGHTS = {
    "take": 2, "renew": 2, "propose": 5, "commit": 8, "grant": 14, "free": 7, "lose": 1, "start": 1, "hear": 20,
    "release": 3, "serve": 16, "hold": 8, "check": 10, "learn": 3, "look": 4, "forget": 1, "phase": 1, "rows": 1,
    "restart": 1, "hash": 1, "next": 1,
}


class Maker:
    """Makes steps. Its clocks mostly go on, and seldom back; it counts what may have been made."""

    def __init__(self, random: Random) -> None:
        self.random, self.now = random, 0
        self.generation = self.notes = self.handles = 1
        self.grants: list[int] = []  # the task of each that was asked for
        self.lives = {1: 0, 2: 0, 3: 0}

    def reading(self) -> int:
        self.now += self.random.choice((0, 0, 0, 1, 1, 2, 5))
        return max(self.now + self.random.choice((0,) * 40 + (-1, 2, -15, 4)), 0)

    def near(self, last: int) -> int:
        """Returns a number that is mostly one of the last."""
        return max(last - self.random.choice((0, 0, 0, 1, 1, 2, 5)), 0)

    def slices(self) -> list[Any]:
        first, second = self.random.sample((1, 2, 3), 2)
        owners = [[first], [second]] if self.random.random() < 0.7 else [[first, second], [first]]
        return [[0, owners[0]], [HALF, owners[1]]]

    def step(self) -> dict[str, Any]:
        do = self.random.choices(list(WEIGHTS), list(WEIGHTS.values()))[0]
        return {"do": do, **getattr(self, f"of_{do}", self.plain)()}

    def plain(self) -> dict[str, Any]:
        return {}

    def asked(self) -> dict[str, Any]:
        return {"task": self.random.randint(1, 3), "key": self.random.choice(KEYS), "at": self.reading()}

    of_serve = asked

    def of_hold(self) -> dict[str, Any]:
        self.handles += self.random.random() < 0.3
        return self.asked()

    def led(self) -> dict[str, Any]:
        return {"assigner": self.random.choice((1, 1, 1, 2)), "at": self.reading()}

    of_take = of_renew = led

    def of_commit(self) -> dict[str, Any]:
        return self.led()

    def of_propose(self) -> dict[str, Any]:
        made = {"generation": self.generation, "slices": self.slices(), **self.led()}
        self.generation += self.random.random() < 0.5
        return made

    def of_grant(self) -> dict[str, Any]:
        task = self.random.randint(1, 3)
        self.grants.append(task)
        life = self.lives[task] if self.random.random() < 0.9 else 1
        return {"task": task, "life": life, "at": self.reading()}

    def of_free(self) -> dict[str, Any]:
        return {"note": self.near(self.notes), "at": self.reading()}

    def of_start(self) -> dict[str, Any]:
        task = self.random.randint(1, 3)
        self.lives[task] += self.random.random() < 0.6
        return {"task": task, "life": self.lives[task], "at": self.reading()}

    def of_hear(self) -> dict[str, Any]:
        number = self.near(len(self.grants))
        task = self.grants[number - 1] if number and self.random.random() < 0.9 else self.random.randint(1, 3)
        return {"task": task, "number": number, "at": self.reading()}

    def of_release(self) -> dict[str, Any]:
        self.notes += self.random.random() < 0.6
        kind = self.random.choice(("guard", "bridge"))
        return {"task": self.random.randint(1, 3), "kind": kind, "at": self.reading()}

    def of_check(self) -> dict[str, Any]:
        return {"task": self.random.randint(1, 3), "handle": self.near(self.handles), "at": self.reading()}

    def of_learn(self) -> dict[str, Any]:
        return {"clerk": self.random.randint(1, 2), "generation": self.near(self.generation)}

    def of_look(self) -> dict[str, Any]:
        return {"clerk": self.random.randint(1, 2), "key": self.random.choice(KEYS)}

    def of_forget(self) -> dict[str, Any]:
        return {"clerk": self.random.randint(1, 2)}

    def of_restart(self) -> dict[str, Any]:
        return {"assigner": self.random.randint(1, 2)}

    def of_hash(self) -> dict[str, Any]:
        return {"key": self.random.choice(KEYS)}

    def of_next(self) -> dict[str, Any]:
        return {**self.led(), "wanted": True}


def script(seed: int, steps: int) -> list[Any]:
    """Returns the elements of a script."""
    maker = Maker(Random(seed))
    begun = [
        {"do": "take", "assigner": 1, "at": 0},
        {"do": "propose", "assigner": 1, "generation": 1, "slices": maker.slices(), "at": 0},
        {"do": "commit", "assigner": 1, "at": 0},
        *({"do": "start", "task": it, "life": 1, "at": 0} for it in (1, 2, 3)),
    ]
    maker.generation, maker.lives = 2, {1: 1, 2: 1, 3: 1}
    return [{"job": JOB}, *begun, *(maker.step() for _ in range(steps))]
