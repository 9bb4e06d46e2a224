"""Plays random calls of a table, three tasks and two clerks through the library, writes each call's line by
hs_log_line, or by hs_slicelet_enter_at and _leave, and has an audit judge the log: it is one run. Then one reply of
each kind is changed, and the audit names its line.

Usage: logs.py PROGRAM FOLDER [--calls N] [--seed N]
PROGRAM is a built `hourstable`. Run at the top of the repository, with HOURSTABLE_LIBRARY set. The status is 0 if all
is as it should be.
"""

import argparse
import ctypes
import random
import re
import subprocess
import sys
from collections.abc import Callable
from pathlib import Path

sys.path.insert(0, "python")
from hourstable import library as hourstable  # noqa: E402
from hourstable.library import CALLS, KINDS, Block, LoggedCall, Place, Policy, TaskClock  # noqa: E402

JOB = b"shop"
NAME = (JOB, len(JOB))
POLICY = Policy(low=1, high=2, skew=10, guard=60, bridge=40, job=300, numbers=250)
JOB_LINE = (
    '{"job":{"redundancy":[1,2],"skew":10,"guard":60,"bridge":40,"job":300,"numbers":250,"assigners":2,"tasks":3,'
    '"clerks":2}}'
)
KEYS = [b"hello", b"abc", b"apples", b"pears"]
ref, library = ctypes.byref, hourstable.library


def number_in(member: str, message: bytes) -> int:
    """Returns the number of the first such member of a message, which may be written as a text."""
    found = re.search(rf'"{member}":"?(\d+)', message.decode())
    assert found is not None
    return int(found[1])


class Job:
    """A job, its log, and what was made."""

    def __init__(self, seed: int) -> None:
        self.draw = random.Random(seed)
        self.ticket, self.now, self.generation, self.term = 0, 1, 0, 0
        self.lines = [JOB_LINE + "\n"]
        self.seen: set[tuple[str, str]] = set()
        self.grants: list[bytes] = []
        self.notes: list[bytes] = []
        self.assignments: list[bytes] = []
        self.handles: list[bytes] = []
        self.lives = dict.fromkeys((1, 2, 3), 0)
        self.table = self.place("table_open", *NAME, ref(POLICY))
        self.tasks: dict[int, Place] = {}
        self.clerks: dict[int, Place] = {}
        for task in self.lives:
            self.tasks[task] = self.place("slicelet_open", *NAME, task)
            self.log("open", 0, task=task)
        for clerk in (1, 2):
            self.clerks[clerk] = self.place("clerk_open", *NAME)

    def place(self, opened: str, *given: object) -> Place:
        place = Place()
        assert library.hs_place_new(ref(place)) == 0
        assert getattr(library, f"hs_{opened}")(ref(place), *given) == 0
        return place

    def log(
        self, do: str, code: int, message: bytes = b"", call: LoggedCall | None = None, **members: object
    ) -> None:
        """Writes the line of a call, if its machine was asked."""
        call = call or LoggedCall()
        self.seen.add((do, hourstable.name_of(code)))
        if code < 0:
            return
        self.ticket += self.draw.randrange(1, 4)
        call.ticket, call.call, call.code = self.ticket, CALLS[do], code
        for name, value in members.items():
            setattr(call, name, value)
        self.lines.append(hourstable.log_line(JOB.decode(), call, message) + "\n")

    def at(self) -> int:
        """A reading: mostly later than the last one, and sometimes an earlier one."""
        if self.draw.randrange(40) == 0:
            return max(0, self.now - self.draw.randrange(1, 9))
        self.now += self.draw.choice((0, 0, 0, 0, 1, 2, 5))
        return self.now

    def table_at(self) -> int:
        """The same, and sometimes one that no table accepts."""
        return 1 << 62 if self.draw.randrange(100) == 0 else self.at()

    def text(self, call: Callable[..., int], *given: object) -> tuple[int, bytes]:
        room, needed = ctypes.create_string_buffer(4096), ctypes.c_size_t()
        code = call(*given, room, len(room), ref(needed))
        return code, room.raw[: needed.value] if code == 0 else b""

    # THE TABLE

    def take(self) -> None:
        call, at, assigner = LoggedCall(), self.table_at(), self.draw.randrange(1, 3)
        code = library.hs_table_take(ref(self.table), assigner, at, ref(call.job_term), ref(call.told))
        if code == 0:
            self.term = call.job_term.number
        self.log("take", code, call=call, at=at, assigner=assigner)

    def number(self) -> int:
        return self.term if self.draw.randrange(8) else self.term + 1

    def renew(self) -> None:
        call, at, number = LoggedCall(), self.table_at(), self.number()
        code = library.hs_table_renew(ref(self.table), number, at, ref(call.job_term), ref(call.told))
        self.log("renew", code, call=call, at=at, term=number)

    def propose(self) -> None:
        call, at, number = LoggedCall(), self.table_at(), self.number()
        generation = self.generation + 1 if self.draw.randrange(6) else self.generation + 2
        starts = [0, *sorted(self.draw.sample(range(1, 1 << 63), self.draw.randrange(4)))]
        most = 3 if self.draw.randrange(12) == 0 else 2
        slices = [(start, self.draw.sample((1, 2, 3), self.draw.randrange(1, most + 1))) for start in starts]
        message = hourstable.new_assignment(JOB.decode(), generation, slices)
        code = library.hs_table_propose(ref(self.table), number, message, len(message), at, ref(call.told))
        self.log("propose", code, message, call=call, at=at, term=number)
        if code == 0:
            self.assignments.append(message)

    def commit(self) -> None:
        call, at, number = LoggedCall(), self.table_at(), self.number()
        code = library.hs_table_commit(ref(self.table), number, at, ref(call.told))
        if code == 0:
            self.generation = call.told.generation
        self.log("commit", code, call=call, at=at, term=number)

    def grant(self) -> None:
        at, task = self.table_at(), self.draw.choice((1, 2, 3))
        life = max(1, self.lives[task])
        code, message = self.text(library.hs_table_grant, ref(self.table), task, life, at)
        if code == 0:
            self.grants.append(message)
        self.log("grant", code, message, at=at, task=task, life=life)

    def free(self) -> None:
        if not self.notes:
            return
        call, at, freed = LoggedCall(), self.table_at(), ctypes.c_uint64()
        note = self.draw.choice(self.notes[-4:])
        code = library.hs_table_free(ref(self.table), note, len(note), at, ref(freed), ref(call.told))
        self.log("free", code, note, call=call, at=at, count=freed.value)

    def lose(self) -> None:
        lost = ctypes.c_uint64()
        code = library.hs_table_restart(ref(self.table), ref(lost))
        self.log("lose", code, count=lost.value)

    def phase(self) -> None:
        call = LoggedCall()
        code = library.hs_table_phase(ref(self.table), ref(call.phase))
        self.log("phase", code, call=call)

    def restore(self) -> None:
        call = LoggedCall()
        code, kept = self.text(library.hs_table_kept, ref(self.table))
        assert code == 0
        code = library.hs_table_restore(ref(self.table), *NAME, ref(POLICY), kept, len(kept), ref(call.told))
        self.log("restore", code, kept, call=call)

    # TASKS

    def open(self) -> None:
        task = self.draw.choice((1, 2, 3))
        life = self.lives[task]
        code = library.hs_slicelet_resume(ref(self.tasks[task]), *NAME, task, life)
        self.log("open", code, task=task, life=life)
        for kind in KINDS.values():
            code, note = self.text(library.hs_ended_note, *NAME, task, life, kind)
            assert code == 0
            self.notes.append(note)

    def start(self) -> None:
        task, at = self.draw.choice((1, 2, 3)), self.at()
        life = self.lives[task] + (1 if self.draw.randrange(6) else 0)
        code = library.hs_slicelet_start(ref(self.tasks[task]), life, at)
        if code == 0:
            self.lives[task] = life
        self.log("start", code, task=task, at=at, life=life)

    def hear(self) -> None:
        if not self.grants:
            return
        call, at = LoggedCall(), self.at()
        grant = self.draw.choice(self.grants[-3:] if self.draw.randrange(5) else self.grants)
        of = number_in("task", grant)
        task = of if self.draw.randrange(10) else self.draw.choice((1, 2, 3))
        code = library.hs_slicelet_hear(ref(self.tasks[task]), grant, len(grant), at, ref(call.told))
        self.log("hear", code, grant, call=call, task=task, at=at)

    def release(self) -> None:
        task, at, kind = self.draw.choice((1, 2, 3)), self.at(), self.draw.choice((1, 2))
        code, note = self.text(library.hs_slicelet_release, ref(self.tasks[task]), kind, at)
        if code == 0:
            self.notes.append(note)
        self.log("release", code, note, task=task, at=at, kind=kind)

    def key(self) -> int:
        if self.draw.randrange(3):
            return hourstable.slice_key(self.draw.choice(KEYS))
        return self.draw.randrange(1 << 63)

    def serve(self) -> None:
        call, task, at, key = LoggedCall(), self.draw.choice((1, 2, 3)), self.at(), self.key()
        code = library.hs_slicelet_serve_at(ref(self.tasks[task]), key, at, ref(call.told))
        self.log("serve", code, call=call, task=task, at=at, slice_key=key)

    def hold(self) -> None:
        call, task, at, key = LoggedCall(), self.draw.choice((1, 2, 3)), self.at(), self.key()
        code = library.hs_slicelet_hold_at(ref(self.tasks[task]), key, at, ref(call.handle), ref(call.told))
        if code == 0:
            self.handles.append(bytes(call.handle))
        self.log("hold", code, call=call, task=task, at=at, slice_key=key)

    def check(self) -> None:
        if not self.handles:
            return
        call, at = LoggedCall(), self.at()
        kept = self.draw.choice(self.handles[-6:] if self.draw.randrange(4) else self.handles)
        ctypes.memmove(ref(call.handle), kept, len(kept))
        task = call.handle.task if self.draw.randrange(10) else self.draw.choice((1, 2, 3))
        code = library.hs_slicelet_check(ref(self.tasks[task]), ref(call.handle), at)
        self.log("check", code, call=call, task=task, at=at)

    def sample(self) -> None:
        """Lets a task's clock take an answer of the table, and logs it."""
        call, sent, late = LoggedCall(), self.draw.randrange(100), self.draw.randrange(5)
        call.sent, call.reading = sent, self.at()
        code = library.hs_task_clock_sample(ref(TaskClock(0, 1, 0, oldest=9)), sent, call.reading, sent + late)
        self.log("sample", code, call=call, task=self.draw.choice((1, 2, 3)), at=sent + late)

    def block(self, name: str, task: int, block: Block, *given: object) -> int:
        """Makes a call of a block, by a task's clock that shows a reading of this job."""
        clock, room, needed = TaskClock(0, 1, 0, oldest=0), ctypes.create_string_buffer(512), ctypes.c_size_t()
        clock.sample(0, self.at(), 0)
        self.ticket += self.draw.randrange(1, 4)
        block.ticket = self.ticket
        call, out = getattr(library, f"hs_slicelet_{name}"), (room, len(room), ref(needed))
        code: int = call(ref(self.tasks[task]), ref(clock), 0, *given, ref(block), *out)
        if code >= 0:
            self.lines.append(room.raw[: needed.value].decode())
        return code

    def enter(self) -> None:
        block = Block()
        code = self.block("enter_at", self.draw.choice((1, 2, 3)), block, self.key())
        if code == 0:
            self.handles.append(bytes(block.handle))
        self.seen.add(("enter", hourstable.name_of(code)))

    def leave(self) -> None:
        if not self.handles:
            return
        block, kept = Block(), self.draw.choice(self.handles[-6:])
        ctypes.memmove(ref(block, Block.handle.offset), kept, len(kept))
        code = self.block("leave", block.handle.task if self.draw.randrange(10) else 1, block)
        self.seen.add(("leave", hourstable.name_of(code)))

    # CLERKS

    def learn(self) -> None:
        committed = self.assignments[: self.generation]
        if not committed:
            return
        call, clerk, message = LoggedCall(), self.draw.choice((1, 2)), self.draw.choice(committed[-3:])
        generation = number_in("generation", message)
        if generation > self.generation:
            return
        code = library.hs_clerk_learn(ref(self.clerks[clerk]), message, len(message), ref(call.told))
        self.log("learn", code, message, call=call, clerk=clerk)

    def look(self) -> None:
        call, clerk, key = LoggedCall(), self.draw.choice((1, 2)), self.key()
        code = library.hs_clerk_look_at(ref(self.clerks[clerk]), key, ref(call.owners))
        self.log("look", code, call=call, clerk=clerk, slice_key=key)

    def forget(self) -> None:
        clerk = self.draw.choice((1, 2))
        self.log("forget", library.hs_clerk_forget(ref(self.clerks[clerk])), clerk=clerk)

    def play(self, calls: int) -> None:
        often = [self.serve, self.hear, self.grant, self.start, self.commit, self.propose, self.renew]
        some = [
            self.hold, self.check, self.enter, self.leave, self.sample, self.release, self.free, self.learn,
            self.look, self.take, self.phase,
        ]
        seldom = [self.lose, self.restore, self.open, self.forget]
        for _ in range(calls):
            self.draw.choice(often * 6 + some * 3 + seldom)()
        for place in (self.table, *self.tasks.values(), *self.clerks.values()):
            library.hs_place_free(ref(place))


def audit(program: str, log: Path) -> tuple[int, str]:
    done = subprocess.run([program, "audit", log.name], cwd=log.parent, capture_output=True, text=True, check=False)
    return done.returncode, done.stdout + done.stderr


def other(words: str) -> str:
    """Returns other words: another last number, or one letter more."""
    last = re.search(r"\d+$", words)
    return words[: last.start()] + str(int(last[0]) + 1) if last else words + "x"


def kind_of(line: str) -> tuple[str, str]:
    """Returns the call of a line, and the words of its reply without numbers."""
    do = re.search(r'"do":"(\w+)"', line)
    assert do is not None
    return do[1], re.sub(r"\d+", "N", reply_in(line)[1])


def reply_in(line: str) -> re.Match[str]:
    """Returns where a line has the words of its reply, as the first group."""
    found = re.search(r'"reply":"([^"]*)"', line)
    assert found is not None
    return found


def main() -> int:
    parser = argparse.ArgumentParser()
    parser.add_argument("program")
    parser.add_argument("folder", type=Path)
    parser.add_argument("--calls", type=int, default=4000)
    parser.add_argument("--seed", type=int, default=7)
    given = parser.parse_args()
    program = str(Path(given.program).resolve())
    given.folder.mkdir(parents=True, exist_ok=True)
    log, job = given.folder / "log.jsonl", Job(given.seed)
    job.play(given.calls)
    faults = [f"no {do} was played" for do in (*CALLS, "enter", "leave") if do not in {do for do, _ in job.seen}]
    log.write_text("".join(job.lines))
    status, said = audit(program, log)
    if status or not said.startswith("audit one\n"):
        faults.append(f"{log}: {said}")
    firsts: dict[tuple[str, str], int] = {}
    for place, line in enumerate(job.lines[1:], 1):
        firsts.setdefault(kind_of(line), place)
    changed = given.folder / "changed.jsonl"
    for (do, words), place in firsts.items():
        line = job.lines[place]
        reply = reply_in(line)
        told = line[: reply.start(1)] + other(reply[1]) + line[reply.end(1):]
        changed.write_text("".join([*job.lines[:place], told, *job.lines[place + 1:]]))
        status, said = audit(program, changed)
        if status != 1 or not said.startswith(f"changed.jsonl:{place + 1}: told "):
            faults.append(f"{do} {words}: not named: {said}")
    for fault in faults:
        print(fault)
    codes = sorted({name for _, name in job.seen})
    print(f"{len(job.lines) - 1} lines, {len(firsts)} kinds of replies, {len(codes)} codes")
    return 1 if faults else 0


sys.exit(main())
