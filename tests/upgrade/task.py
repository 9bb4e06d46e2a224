"""A task for tests/upgrade/run, of any version: it asks for all keys again and again, and prints when it served one.

usage: task.py NUMBER LOGS GUARD KEY,KEY.. URL..
"""
import asyncio
import signal
import sys
import time

from hourstable.task import Denied, LeaseLost, Task

EVERY = 0.05  # seconds between two rounds over all keys


async def ask(task: Task, keys: list[str]) -> None:
    while True:
        for key in keys:
            try:
                async with task.serving(key):
                    pass
                print(f"{time.monotonic():.3f} {key}", flush=True)
            except (Denied, LeaseLost):
                pass
        await asyncio.sleep(EVERY)


async def main() -> None:
    number, logs, guard, keys, *urls = sys.argv[1:]
    policy = {
        "redundancy": [1, 1], "skew": 0, "guard": int(guard), "bridge": int(guard), "job": 30_000, "numbers": 1 << 32,
    }
    ended = asyncio.Event()
    for name in (signal.SIGTERM, signal.SIGINT):
        asyncio.get_running_loop().add_signal_handler(name, ended.set)
    async with Task(urls, "shop", int(number), logs=logs, policy=policy, sample=0.01) as task:
        asking = asyncio.create_task(ask(task, keys.split(",")))
        await ended.wait()
        asking.cancel()


asyncio.run(main())
