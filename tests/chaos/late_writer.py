"""A task that adds to counters, and stops itself between its last check and its write.

Each key has a counter in a store, with the id of the last write. The task reads a counter when it gets the key, keeps
it in memory while it holds the key, and writes each sum. A write is in a file of its own before the task stops, and
what became of it after: `taken`, `late`, or `lost` if the check failed. Nothing of the store's check is in it.
"""

import argparse
import asyncio
import json
import logging
import os
import random
import signal
import sys
from pathlib import Path
from typing import Any, Protocol

sys.path.insert(0, str(Path(__file__).resolve().parents[2] / "python"))
sys.path.append(str(Path(__file__).resolve().parents[2] / "examples/fencing"))

import postgresql_rows  # noqa: E402
import sqlite_rows  # noqa: E402
from late import Late  # noqa: E402

from hourstable.task import Denied, Hold, Lease, LeaseLost, Task  # noqa: E402

TRUSTING = {  # the comparison is taken out
    "sqlite": (sqlite_rows, " WHERE fence <= excluded.fence"),
    "postgresql": (postgresql_rows, " WHERE rows.fence <= excluded.fence"),
}


class Rows(Protocol):
    def take(self, key: str, token: bytes) -> bytes | None: ...

    def put(self, key: str, token: bytes, value: bytes | None) -> int: ...


def rows_of(url: str, is_trusting: bool) -> Rows:
    kind, _, rest = url.partition(":")
    if is_trusting:
        module, compared = TRUSTING[kind]
        for name in ("TAKE", "PUT"):
            text = getattr(module, name)
            assert compared in text
            setattr(module, name, text.replace(compared, ""))
    if kind == "sqlite":
        return sqlite_rows.Rows(Path(rest), wait=20.0)
    return postgresql_rows.Rows(url)


class Writer:
    """Writes sums, and notes what became of each."""

    def __init__(self, task: Task, rows: Rows, words: argparse.Namespace) -> None:
        self.task, self.rows, self.number, self.stops = task, rows, words.task, words.stops
        self.folder, self.keys = Path(words.folder), [f"counter-{at}" for at in range(words.keys)]
        self.notes = open(self.folder / f"writes-{words.task}.jsonl", "a", encoding="utf-8", buffering=1)
        self.memory: dict[str, tuple[Hold, int]] = {}
        self.written = 0

    async def run(self) -> None:
        rng = random.Random()
        while True:
            await asyncio.sleep(rng.expovariate(1 / 0.02))
            try:
                async with self.task.serving(rng.choice(self.keys)) as lease:
                    self.write(lease, rng.random() < self.stops)
            except (Denied, LeaseLost, Late):
                pass

    def write(self, lease: Lease, stops: bool) -> None:
        """Adds one to a counter."""
        key, token = lease.key, lease.token
        try:
            hold, count = self.counter(key)
            self.written += 1
            count, write = count + 1, f"{self.number}.{os.getpid()}.{self.written}"
            lease.check()
            if stops:
                self.note(write, key, token, count, "stopped")
                os.kill(os.getpid(), signal.SIGSTOP)  # between the check and the write
            revision = self.rows.put(key, token, json.dumps([count, write]).encode())
        except Late:
            lease.wrote("refused")
            self.memory.pop(key, None)
            self.note("", key, token, 0, "late" if is_lost(lease) else "refused")
            raise
        lease.wrote("taken", revision)
        self.memory[key] = hold, count
        self.note(write, key, token, count, "taken")

    def counter(self, key: str) -> tuple[Hold, int]:
        if key in self.memory and self.memory[key][0].continuous():
            return self.memory[key]
        hold = self.task.hold(key)
        found = self.rows.take(key, hold.token)
        count: int = json.loads(found)[0] if found is not None else 0
        return hold, count

    def note(self, write: str, key: str, token: bytes, count: int, what: str) -> None:
        self.notes.write(json.dumps([what, write, key, token.hex(), count]) + "\n")


def is_lost(lease: Lease) -> bool:
    """Whether the task does not hold the key any more."""
    try:
        lease.check()
        return False
    except LeaseLost:
        return True


async def run(words: argparse.Namespace) -> None:
    folder, policy = Path(words.folder), json.loads(words.policy)
    rows = rows_of(words.rows, words.trusting)
    given: dict[str, Any] = {"logs": folder / "logs", "policy": policy, "patience": 0.1, "report": 1.0}
    stop = asyncio.Event()
    asyncio.get_running_loop().add_signal_handler(signal.SIGTERM, stop.set)
    async with Task(words.control, words.job, words.task, **given) as task:
        writing = asyncio.create_task(Writer(task, rows, words).run())
        ends = [asyncio.create_task(stop.wait()), asyncio.create_task(task.wait()), writing]
        done, _ = await asyncio.wait(ends, return_when=asyncio.FIRST_COMPLETED)
        for one in done:
            one.result()
        writing.cancel()


def main() -> None:
    parser = argparse.ArgumentParser()
    for name in ("--control", "--job", "--folder", "--policy", "--rows"):
        parser.add_argument(name, required=True)
    parser.add_argument("--task", type=int, required=True)
    parser.add_argument("--keys", type=int, required=True)
    parser.add_argument("--stops", type=float, required=True, help="the part of writes before which it stops")
    parser.add_argument("--trusting", action="store_true", help="takes out the comparison of the store")
    logging.basicConfig(level=logging.INFO, format="%(asctime)s %(name)s %(message)s")
    asyncio.run(run(parser.parse_args()))


if __name__ == "__main__":
    main()
