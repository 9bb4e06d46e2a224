"""The tasks of a run, in one process, which asks for each key again and again and tells what was denied.

usage: asking.py JOB LOGS TASKS GUARD URL..

It prints a line in JSON each half second: the seconds of its clock, how often keys were asked for, for each denial of
this time its seconds, the key and the ground, and by how many seconds a thread that sleeps woke late at most: a
machine that lets it wait so long lets tasks and planes wait as well.
"""

import asyncio
import json
import logging
import signal
import sys
import time

from late import Waking

from hourstable.library import slice_key
from hourstable.ranges import holds
from hourstable.task import Denied, LeaseLost, Task

EVERY = 0.02  # seconds between two questions for a key
TOLD = 0.5  # seconds
KEYS = [f"key-{at}" for at in range(24)]


class Asking:
    """Asks the task that owned a key last, or another one that owns it."""

    def __init__(self, tasks: list[Task]) -> None:
        self.tasks = tasks
        self.owners: dict[str, Task] = {}
        self.asked = 0
        self.denied: list[tuple[float, str, str]] = []
        self.waking = Waking()

    async def run(self) -> None:
        while True:
            for key in KEYS:
                await self.ask(key)
            await asyncio.sleep(EVERY)

    async def ask(self, key: str) -> None:
        place = slice_key(key.encode())
        owner = next((it for it in self.tasks if holds(it.served(), place)), self.owners.get(key))
        if owner is None:
            return  # nobody had it yet
        self.owners[key], ground = owner, ""
        try:
            async with owner.serving(key):
                pass
        except Denied as why:
            ground = why.ground
        except LeaseLost:
            ground = "lost"
        self.asked += 1
        if ground:
            self.denied.append((time.monotonic(), key, ground))

    async def tell(self) -> None:
        while True:
            await asyncio.sleep(TOLD)
            told = {
                "at": time.monotonic(), "asked": self.asked, "known": len(self.owners), "denied": self.denied,
                "late": self.waking.latest(),
            }
            self.asked, self.denied = 0, []
            print(json.dumps(told), flush=True)


async def main(job: str, folder: str, numbers: int, guard: int, urls: list[str]) -> None:
    policy = {
        "redundancy": [1, 1], "skew": 0, "guard": guard, "bridge": guard, "job": 2 * guard, "numbers": 1 << 32,
    }
    ended = asyncio.Event()
    asyncio.get_running_loop().add_signal_handler(signal.SIGTERM, ended.set)
    tasks = []
    for number in range(1, numbers + 1):
        first = number % len(urls)  # their planes are in different orders
        ordered = urls[first:] + urls[:first]
        tasks.append(Task(ordered, job, number, logs=folder, sample=0.001, policy=policy))
    await asyncio.gather(*(task.start() for task in tasks))
    asking = Asking(tasks)
    loops = [asyncio.create_task(asking.run()), asyncio.create_task(asking.tell())]
    await ended.wait()
    for loop in loops:
        loop.cancel()
    await asyncio.gather(*(task.stop() for task in tasks))


if __name__ == "__main__":
    logging.basicConfig(level=logging.INFO, format="%(asctime)s %(message)s")
    asyncio.run(main(sys.argv[1], sys.argv[2], int(sys.argv[3]), int(sys.argv[4]), sys.argv[5:]))
