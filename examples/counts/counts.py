"""A task of a service that counts: POST /counts/KEY adds one to the count of a key, and answers it.

usage: counts.py TASK HOST:PORT
"""
import asyncio
import fcntl
import os
import signal
import sys
from pathlib import Path

from aiohttp import web

from hourstable.task import Denied, Hold, LeaseLost, Task

PLANES = ["http://127.0.0.1:8070"]
# skew, guard, bridge and job are in milliseconds
POLICY = {"redundancy": [1, 1], "skew": 0, "guard": 10_000, "bridge": 10_000, "job": 30_000, "numbers": 1 << 32}
STORE = Path("store")  # a file for each key: the greatest token with which it was written, and the count


class Late(Exception):
    """Another owner came since."""


def store(key: str, token: bytes, count: int | None = None) -> int:
    """Stores a count, or with none only the token; and returns what is stored then. Raises Late."""
    with open(os.open(STORE / key, os.O_RDWR | os.O_CREAT), "r+b", buffering=0) as file:
        fcntl.flock(file, fcntl.LOCK_EX)
        fence, stored = (file.read() or b"0 0").split()
        if fence > token.hex().encode():
            raise Late(key)
        count = int(stored) if count is None else count
        os.pwrite(file.fileno(), b"%s %020d" % (token.hex().encode(), count), 0)
        return count


class Counts:
    """Counts in memory. One counts as long as this task has held its key since it read the store."""

    def __init__(self, task: Task) -> None:
        self.task, self.memory = task, dict[str, tuple[Hold, int]]()

    async def add(self, request: web.Request) -> web.Response:
        key = request.match_info["key"]
        try:
            async with self.task.serving(key) as lease:
                if key not in self.memory or not self.memory[key][0].continuous():
                    hold = self.task.hold(key)  # first the handle, then the store
                    self.memory[key] = hold, store(key, lease.token)  # a new owner raises the fence, and reads
                hold, count = self.memory[key]
                lease.check()  # just before a write
                self.memory[key] = hold, store(key, lease.token, count + 1)
        except Denied as why:
            return web.Response(status=421, text=f"{why}\n")
        except (LeaseLost, Late) as why:
            self.memory.pop(key, None)
            return web.Response(status=503, text=f"{why}\n")
        return web.Response(text=f"{count + 1}\n")

    async def ready(self, _: web.Request) -> web.Response:
        return web.Response(status=200 if self.task.is_ready() else 503)


async def main(number: int, host: str, port: int) -> None:
    STORE.mkdir(exist_ok=True)
    async with Task(PLANES, "shop", number, logs="logs", policy=POLICY) as task:
        counts, app = Counts(task), web.Application()
        app.add_routes([web.post("/counts/{key}", counts.add), web.get("/readyz", counts.ready)])
        runner = web.AppRunner(app)
        await runner.setup()
        await web.TCPSite(runner, host, port).start()
        running = asyncio.ensure_future(task.wait())  # ends if the task cannot go on
        asyncio.get_running_loop().add_signal_handler(signal.SIGTERM, running.cancel)
        await asyncio.wait([running])
        await runner.cleanup()


asyncio.run(main(int(sys.argv[1]), sys.argv[2].partition(":")[0], int(sys.argv[2].partition(":")[2])))
