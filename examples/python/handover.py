"""Hands a key over between two tasks and a control plane, each a process, and audits their logs.

    HOURSTABLE_LIBRARY=./libhourstable.so python3 handover.py DIRECTORY [--hourstable PROGRAM]

The control plane has the table and an assigner, and each task a slicelet. They talk over loopback sockets, and send the
messages of grants and notes as the library writes them. Each process writes a log of its calls (docs/AUDIT.md) to
DIRECTORY. All read the monotonic clock of the machine: the reading of a call is that clock in milliseconds, and its
ticket is the same clock in nanoseconds, made distinct by the number of the process.

`numbers` allows 1,000 grants for good, which is enough here. A job that renews its leases needs up to 2^32.
"""

import argparse
import json
import multiprocessing
import os
import selectors
import shutil
import socket
import subprocess
import sys
import time
from pathlib import Path

sys.path.insert(0, str(Path(__file__).resolve().parents[2] / "python"))
from hourstable.library import Assigner, Policy, Refused, Slicelet, Table

JOB = {"redundancy": 1, "skew": 50, "guard": 10000, "bridge": 10000, "job": 60000, "numbers": 1000,
       "assigners": 1, "tasks": 2, "clerks": 1}
NAME = "shop"  # the name of the job, in each message
TASKS = (1, 2)
HALF = 1 << 62
PLANS = [[[0, [1]], [HALF, [2]]], [[0, [2]]]]  # "hello" is in the lower half of the keys, "abc" in the upper half
KEYS = ["hello", "abc"]
ASKS = 5
NANOSECONDS = 1_000_000  # of a tick


class Log:
    """The log of a process: each call with its reply."""

    def __init__(self, path, process):
        self.file, self.process, self.last = open(path, "a", encoding="utf-8"), process, 0

    def read_clock(self):
        """Returns a reading in ticks. No two readings of a process have the same nanosecond."""
        now = time.monotonic_ns()
        while now <= self.last:
            now = time.monotonic_ns()
        self.last = now
        return now // NANOSECONDS

    def call(self, do, ask, given, tell, **members):
        """Makes a call, writes its line to the log, and returns its result, or None if it is refused.

        The reading is taken just before the call.
        """
        at, made = self.read_clock(), None
        if do != "phase":
            given, members["at"] = [*given, at], at
        try:
            made = ask(*given)
            reply = tell(made)
        except Refused as refusal:
            reply = tell_refusal(do, refusal)
        ticket = self.last * (len(TASKS) + 1) + self.process
        self.file.write(json.dumps({"ticket": ticket, "do": do, **members, "reply": reply}) + "\n")
        self.file.flush()
        return made

    def __enter__(self):
        return self

    def __exit__(self, *_):
        self.file.close()


def value_of(message):
    return json.loads(message)["value"]


def send(stream, line):
    stream.write(json.dumps(line).encode() + b"\n")
    stream.flush()


class Control:
    """The control plane: answers the tasks, and does what its assigner asks for."""

    def __init__(self, log, table, assigner):
        self.log, self.table, self.assigner = log, table, assigner
        self.settled = {generation: set() for generation in range(len(PLANS) + 1)}
        self.settled[0].update(TASKS)

    def act(self):
        """Does what the assigner asks for next. The next plan is wanted once all tasks have settled in this one."""
        phase, at = self.table.phase(), self.log.read_clock()
        wanted = phase.committed < len(PLANS) and self.settled[phase.committed].issuperset(TASKS)
        action, term = self.assigner.next(at, phase, wanted)
        if action == "take":
            made = self.log.call("take", self.table.take, [1], "term {0.number} until {0.until}".format, assigner=1)
            self.assigner.adopt(made)
        elif action == "renew":
            tell = "renewed {0.number} until {0.until}".format
            made = self.log.call("renew", self.table.renew, [term], tell, term=term)
            self.assigner.adopt(made)
        elif action == "propose":
            self.propose(term, phase.committed + 1)
        elif action == "commit":
            self.log.call("commit", self.table.commit, [term], "committed {}".format, term=term)

    def propose(self, term, generation):
        slices = PLANS[generation - 1]
        value = {"generation": str(generation), "slices": [[str(start), owners] for start, owners in slices]}
        message = json.dumps({"job": NAME, "type": "assignment", "value": value, "version": 2}).encode()
        members = {"term": term, "generation": generation, "slices": slices}
        self.log.call("propose", self.table.propose, [term, message], f"proposed {generation}".format, **members)

    def answer(self, do, task, asked):
        if do == "phase":
            phase = self.log.call("phase", self.table.phase, [], tell_phase)
            return {"committed": phase.committed, "proposed": phase.proposed}
        if do == "grant":
            life = asked["life"]
            message = self.log.call("grant", self.table.grant, [task, life], tell_grant, task=task, life=life)
            return {"grant": message.decode() if message else None}
        if do == "free":
            note = asked["note"].encode()
            return {"freed": self.log.call("free", self.table.free, [note], "freed {}".format, note=value_of(note))}
        self.settled[asked["generation"]].add(task)
        return {}

    def serve(self, server):
        """Answers one line at a time until each task has closed its connection."""
        streams = selectors.DefaultSelector()
        for _ in TASKS:
            connection, _ = server.accept()
            streams.register(connection, selectors.EVENT_READ, connection.makefile("rwb"))
        while streams.get_map():
            self.act()
            for key, _ in streams.select():
                line = key.data.readline()
                if line:
                    asked = json.loads(line)
                    send(key.data, self.answer(asked.pop("do"), asked.pop("task"), asked))
                else:
                    streams.unregister(key.fileobj)
                    key.data.close()
                    key.fileobj.close()


def tell_refusal(do, refusal):
    """Returns the reply of a script: a key is denied, a handle is broken, and any other call is refused."""
    if refusal.name == "BROKEN":
        return str(refusal)
    return f"{'denied' if do in ('serve', 'hold') else 'refused'} {refusal}"


def tell_phase(phase):
    return f"phase bridging {phase.committed} {phase.proposed}" if phase.proposed else f"phase steady {phase.committed}"


def tell_grant(message):
    grant = value_of(message)
    return "grant {number} {kind} {generation} until {until} {ends}".format(**grant)


def tell_note(message):
    return "released life {life} number {number}".format(**value_of(message))


class Task:
    """A task: follows the phase of the table, and asks its slicelet before each answer."""

    def __init__(self, number, log, slicelet, stream):
        self.number, self.log, self.slicelet, self.stream = number, log, slicelet, stream
        self.held, self.asks, self.handle = {}, 0, None

    def call(self, do, given, tell, **members):
        return self.log.call(do, getattr(self.slicelet, do), given, tell, task=self.number, **members)

    def ask_control(self, do, **members):
        send(self.stream, {"do": do, "task": self.number, **members})
        return json.loads(self.stream.readline())

    def follow(self, phase):
        """Hears the lease of this phase once, and then releases the lease of the other kind."""
        kind, generation = ("bridge", phase["proposed"]) if phase["proposed"] else ("guard", phase["committed"])
        if generation == 0 or self.held.get(kind) == generation:
            return
        message = self.ask_control("grant", life=1)["grant"]
        if message is None:
            return
        grant = value_of(message)
        self.call("hear", [message.encode()], f"heard {grant['number']}".format, grant=grant)
        self.held[grant["kind"]], self.asks = int(grant["generation"]), 0
        self.give_back("guard" if grant["kind"] == "bridge" else "bridge")

    def give_back(self, kind):
        if self.held.pop(kind, None) is None:
            return
        note = self.call("release", [kind], tell_note, kind=kind)
        self.ask_control("free", note=note.decode())

    def answer_keys(self):
        """Asks before it serves each key, as for a client, and takes a handle on the first that it may serve."""
        for key in KEYS:
            tell = "served {0.kind} {0.generation}".format
            served = self.call("serve", [key.encode()], tell, key=key)
            if served and self.handle is None:
                tell = "handle life {0.life} position {0.position}".format
                self.handle = self.call("hold", [key.encode()], tell, key=key)
        self.asks += 1

    def check_handle(self):
        members = {name: getattr(self.handle, name) for name, _ in self.handle._fields_}
        self.call("check", [self.handle], "continuous".format, handle=members)

    def run(self):
        self.call("start", [1], "started 1".format, life=1)
        settled = 0
        while settled < len(PLANS):
            self.follow(self.ask_control("phase"))
            self.answer_keys()
            guard = self.held.get("guard", 0)
            if self.asks >= ASKS and guard > settled:
                settled = guard
                self.ask_control("settled", generation=settled)
            time.sleep(0.002)
        self.check_handle()


def run_control(path, server):
    policy = Policy(1, 1, JOB["skew"], JOB["guard"], JOB["bridge"], JOB["job"], JOB["numbers"])
    with Log(path, 0) as log, Table(NAME, policy) as table, Assigner(1, JOB["job"]) as assigner, server:
        Control(log, table, assigner).serve(server)


def run_task(path, number, address):
    with Log(path, number) as log, Slicelet(NAME, number) as slicelet, socket.create_connection(address) as connection:
        with connection.makefile("rwb") as stream:
            Task(number, log, slicelet, stream).run()


def run_job(paths):
    """Runs the three processes until they end, and returns whether each ended with status 0."""
    context = multiprocessing.get_context("spawn")
    server = socket.create_server(("127.0.0.1", 0))
    processes = [context.Process(target=run_control, args=(paths[0], server))]
    for number in TASKS:
        processes.append(context.Process(target=run_task, args=(paths[number], number, server.getsockname())))
    for process in processes:
        process.start()
    server.close()
    for process in processes:
        process.join()
    return all(process.exitcode == 0 for process in processes)


def tell_job(paths):
    """Prints the tasks that served each key, in order, and the last check of each handle."""
    lines = []
    for path in paths:
        with open(path, encoding="utf-8") as log:
            lines += [line for line in map(json.loads, log) if "do" in line]
    lines.sort(key=lambda line: line["ticket"])
    for key in KEYS:
        served = [line["task"] for line in lines if line.get("key") == key and line["reply"].startswith("served")]
        turns = [task for task, before in zip(served, [None, *served]) if task != before]
        print(f"{key}: served by", ", then ".join(f"task {task}" for task in turns))
    checked = {line["task"]: line["reply"] for line in lines if line["do"] == "check"}
    for task in TASKS:
        print(f"the handle of task {task}: {checked.get(task)}")


def main():
    parser = argparse.ArgumentParser(description="Hands a key over between two tasks, and audits their logs.")
    parser.add_argument("directory")
    parser.add_argument("--hourstable", default=shutil.which("hourstable"), help="the program; else that in PATH")
    words = parser.parse_args()
    if words.hourstable is None:
        parser.error("there is no hourstable in PATH: say where by --hourstable")
    os.makedirs(words.directory, exist_ok=True)
    paths = [os.path.join(words.directory, name) for name in ("table.jsonl", "task-1.jsonl", "task-2.jsonl")]
    for path in paths:
        with open(path, "w", encoding="utf-8") as log:
            log.write(json.dumps({"job": JOB}) + "\n" if path == paths[0] else "")
    if not run_job(paths):
        sys.exit("a process did not end well")
    tell_job(paths)
    audited = subprocess.run([words.hourstable, "audit", *paths], stdout=subprocess.PIPE, text=True, check=False)
    found = [line for line in audited.stdout.splitlines() if not line.startswith(("steps ", "calls "))]
    print("\n".join(found))
    sys.exit(0 if found == ["audit one", "timely yes"] else 1)


if __name__ == "__main__":
    main()
