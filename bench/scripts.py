#!/usr/bin/env python3
"""Writes the scripts of the benchmark: the same bytes on every machine.

usage: bench/scripts.py FOLDER

Each case of `CASES` is a call at two sizes. At each size there are two scripts, `before` and `after`: `after` has
some calls more at its end, so that the difference between the two plays is what these calls cost.
"""
import json
import os
import sys

KEYS = 1 << 63
LONG = 1 << 32


class Script:
    """A job line and steps, with a reading that goes up by one at each step that has a reading."""

    def __init__(self, tasks=2, **limits):
        self.tasks = tasks
        self.job = {"redundancy": 1, "skew": 10, "guard": LONG, "bridge": LONG, "job": LONG, "numbers": LONG,
                    "assigners": 1, "tasks": tasks, "clerks": 1, **limits}
        self.steps = []
        self.at = 0
        self.generation = self.grants = self.notes = self.handles = 0

    def step(self, do, **members):
        self.steps.append({"do": do, **members})
        return self

    def timed(self, do, **members):
        self.at += 1
        return self.step(do, **members, at=self.at)

    def slices(self, count, owners=1):
        """Slices of equal width, which the tasks own in turn: a task has as many ranges as slices."""
        width = KEYS // count
        return [[i * width, [(i + k) % self.tasks + 1 for k in range(owners)]] for i in range(count)]

    def take(self):
        return self.timed("take", assigner=1)

    def propose(self, count):
        self.generation += 1
        return self.timed("propose", assigner=1, generation=self.generation, slices=self.slices(count))

    def commit(self):
        return self.timed("commit", assigner=1)

    def grant(self, task=1, life=1):
        self.grants += 1
        return self.timed("grant", task=task, life=life)

    def hear(self, number, task=1):
        return self.timed("hear", task=task, number=number)

    def release(self, kind="guard"):
        self.notes += 1
        return self.timed("release", task=1, kind=kind)

    def hold(self, number):
        self.handles += 1
        return self.timed("hold", task=1, key=owned_key(self, number))

    def text(self):
        return json.dumps([{"job": self.job}, *self.steps], separators=(",", ":"))


def committed(slices, **limits):
    """The first generation is committed."""
    return Script(**limits).take().propose(slices).commit()


def granted(slices, grants=1, **limits):
    """Task 1 has started and has grants, which it has not heard."""
    script = committed(slices, **limits).timed("start", task=1, life=1)
    return repeat(script, grants, lambda it, _: it.grant())


def heard(slices, grants=1):
    """It has heard the first of them."""
    return granted(slices, grants).hear(1)


def repeat(script, count, call):
    for number in range(count):
        call(script, number)
    return script


def key(number):
    """A key of eight letters."""
    return f"key{number:05}"


def owned_key(script, number):
    return key(number)


def after_terms(slices):
    """Terms end after 8 ticks, and one has ended."""
    return later(committed(slices, job=8))


def later(script):
    script.at += 100
    return script


def bridging(rows):
    """A second generation is proposed, and bridge leases of it are out."""
    return repeat(committed(2).propose(2), rows, lambda it, _: it.grant())


def released(rows):
    """Task 1 gave its guard lease up, and rows of a second task are out."""
    return repeat(heard(2), rows, lambda it, _: it.grant(task=2)).release()


def with_handles(script):
    return repeat(script, CALLS, lambda it, number: it.hold(number))


def renewed(calls):
    """Task 1 heard its lease as often as the size says, and took handles before that."""
    script = with_handles(heard(2, calls + 1))
    return repeat(script, calls, lambda it, number: it.hear(number + 2))


def draft(slices, tasks=2, **limits):
    script = Script(tasks, **limits)
    return script.step("assign", generation=1, slices=script.slices(slices))


def recorded(slices, records):
    return repeat(draft(slices), records, record)


def record(script, number):
    return script.step("load", task=1, key=key(number), weight=1)


def plan(script, slices):
    """Task 1 has all the load, which up to 256 moves bring to the others."""
    loads = [1000 + i % 7 if i % script.tasks == 0 else 1 for i in range(slices)]
    return script.step("plan", tasks=list(range(1, script.tasks + 1)), loads=loads, churn=KEYS, cold=0,
                       hot=1 << 40, most=1024)


def judge(script, ranges):
    width = KEYS // ranges
    pairs = [[i * width, i * width + width // 2] for i in range(ranges)]
    lease = {"kind": "guard", "generation": 1, "ranges": pairs, "ends": 100}
    return script.step("judge", up=True, last=1, leases=[lease], key="a", at=2)


# How many times a call is made where one script can make it more than once.
CALLS = 32

# The call, what its cost may grow with, the two sizes, the script before, the call, and how often it is made.
# The call gets the script, the number of the call from 0 on, and the size.
CASES = [
    ("hash", "bytes of the key", 16, 4096, lambda n: Script(), lambda s, i, n: s.step("hash", key="k" * n), CALLS),
    ("assign", "slices", 16, 1024, lambda n: Script(),
     lambda s, i, n: s.step("assign", generation=1, slices=s.slices(n)), 1),
    ("owners", "slices", 16, 1024, draft, lambda s, i, n: s.step("owners", key=key(i)), CALLS),
    ("judge", "ranges", 16, 1024, lambda n: Script(), lambda s, i, n: judge(s, n), 1),
    ("take", "slices", 16, 1024, after_terms, lambda s, i, n: later(s).take(), CALLS),
    ("renew", "slices", 16, 1024, committed, lambda s, i, n: s.timed("renew", assigner=1), CALLS),
    ("propose", "slices", 16, 1024, committed, lambda s, i, n: s.propose(n), 1),
    ("commit", "slices", 16, 1024, lambda n: committed(n).propose(n), lambda s, i, n: s.commit(), 1),
    ("commit", "rows", 16, 2048, bridging, lambda s, i, n: s.commit(), 1),
    ("grant, a task's first", "slices", 16, 1024, committed, lambda s, i, n: s.grant(), 1),
    ("grant, a task's first", "tasks asked before", 1, 63,
     lambda n: repeat(committed(64, tasks=64), n, lambda it, number: it.grant(task=number + 1)),
     lambda s, i, n: s.grant(task=64), 1),
    ("grant, a later one", "slices", 16, 1024, granted, lambda s, i, n: s.grant(), CALLS),
    ("grant, a later one", "rows", 16, 2048, lambda n: granted(2, n), lambda s, i, n: s.grant(), CALLS),
    ("free", "rows", 16, 2048, released, lambda s, i, n: s.timed("free", note=1), 1),
    ("rows", "rows", 16, 2048, lambda n: granted(2, n), lambda s, i, n: s.step("rows"), 1),
    ("phase", "slices", 16, 1024, committed, lambda s, i, n: s.step("phase"), CALLS),
    ("lose", "rows", 16, 2048, lambda n: granted(2, n), lambda s, i, n: s.step("lose"), 1),
    ("next", "slices", 16, 1024, committed,
     lambda s, i, n: s.timed("next", assigner=1, wanted=False), CALLS),
    ("start", "ranges", 8, 512, lambda n: heard(2 * n), lambda s, i, n: s.timed("start", task=1, life=i + 2), 1),
    ("hear, other keys", "ranges", 8, 512, lambda n: granted(2 * n), lambda s, i, n: s.hear(1), 1),
    ("hear, the same keys", "ranges", 8, 512, lambda n: heard(2 * n, CALLS + 1),
     lambda s, i, n: s.hear(i + 2), CALLS),
    ("release", "ranges", 8, 512, lambda n: heard(2 * n), lambda s, i, n: s.release(), 1),
    ("serve", "ranges", 8, 512, lambda n: heard(2 * n),
     lambda s, i, n: s.timed("serve", task=1, key=key(i)), CALLS),
    ("hold", "ranges", 8, 512, lambda n: heard(2 * n), lambda s, i, n: s.hold(i), CALLS),
    ("check", "ranges", 8, 512, lambda n: with_handles(heard(2 * n)),
     lambda s, i, n: s.timed("check", task=1, handle=i % 8 + 1), CALLS),
    ("check", "calls since the hold", 16, 1024, renewed,
     lambda s, i, n: s.timed("check", task=1, handle=i % 8 + 1), CALLS),
    ("learn", "slices", 16, 1024, committed, lambda s, i, n: s.step("learn", clerk=1, generation=1), 1),
    ("look", "slices", 16, 1024, lambda n: committed(n).step("learn", clerk=1, generation=1),
     lambda s, i, n: s.step("look", clerk=1, key=key(i)), CALLS),
    ("forget", "slices", 16, 1024, lambda n: committed(n).step("learn", clerk=1, generation=1),
     lambda s, i, n: s.step("forget", clerk=1), 1),
    ("load", "records since the last gather", 16, 2048, lambda n: recorded(2, n), record, CALLS),
    ("gather", "records since the last gather", 16, 2048, lambda n: recorded(2, n),
     lambda s, i, n: s.step("gather"), 1),
    ("gather", "slices", 16, 1024, lambda n: recorded(n, 64), lambda s, i, n: s.step("gather"), 1),
    ("plan", "slices", 16, 1024, lambda n: draft(n, tasks=8), lambda s, i, n: plan(s, n), 1),
    ("plan", "tasks", 4, 64, lambda n: draft(256, tasks=n), lambda s, i, n: plan(s, 256), 1),
    ("plan, one or two owners", "slices", 16, 1024, lambda n: draft(n, tasks=8, redundancy=[1, 2]),
     lambda s, i, n: plan(s, n), 1),
]


def texts_of(case, size):
    """The script before the calls, and the same with the calls."""
    _, _, _, _, before, call, count = case
    script = before(size)
    text = script.text()
    for number in range(count):
        call(script, number) if call is record else call(script, number, size)
    return text, script.text()


def main():
    if len(sys.argv) != 2:
        print(__doc__)
        return 2
    os.makedirs(sys.argv[1], exist_ok=True)
    for number, case in enumerate(CASES, 1):
        for size in case[2:4]:
            for name, text in zip(("before", "after"), texts_of(case, size)):
                with open(f"{sys.argv[1]}/{number:02}-{case[0].split(',')[0]}-{size}-{name}.json", "w") as file:
                    file.write(text + "\n")
    return 0


if __name__ == "__main__":
    sys.exit(main())
