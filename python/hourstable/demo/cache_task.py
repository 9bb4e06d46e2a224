"""A task of the session cache: answers for the sessions that it owns, over HTTP.

    PUT /sessions/KEY   {"id": ID, "text": TEXT, "keep": true}  ->  {"version": N}
    GET /sessions/KEY   ->  {"version": N, "text": TEXT}
    GET /metrics, /healthz

421 says that the task may not answer for the key now, and why. 503 says that it lost the key while
it worked: a write may or may not have been made, and may be sent again with its id. What is kept is
on the shelf before it is answered, and outlives the task. What is not kept is in memory alone.
"""

import argparse
import asyncio
import json
import logging
import random
import signal
import sys
import time
from pathlib import Path
from typing import Any

from aiohttp import web

from hourstable.callers import secrets_in
from hourstable.demo.shelf import Late, Locked, Session, Shelf
from hourstable.library import slice_key
from hourstable.ranges import Ranges, holds
from hourstable.state import tickets_in
from hourstable.task import ClockBroken, Denied, Drift, Hold, Lease, LeaseLost, Overtaken, Task
from hourstable.tickets import Tickets, real_milliseconds


class Spans:
    """When this task worked for which key, by a clock that all processes of the machine share: from
    after it was told that it owns the key to before it asked again, and was told the same. One line
    for each read and write, also for one that came too late for the shelf. Nothing of Hourstable is
    in it."""

    def __init__(self, folder: Path, task: int, place: str) -> None:
        self.who: int | str = f"{task}-{place}" if place else task
        self.file = open(folder / f"spans-{self.who}.jsonl", "a", encoding="utf-8")

    def note(self, key: str, what: str, begun: int, ended: int) -> None:
        line = [self.who, key, what, begun, ended]
        self.file.write(json.dumps(line) + "\n")
        self.file.flush()


class Cache:
    """The sessions of a task. A session in memory counts as long as its handle is continuous."""

    def __init__(self, task: Task, shelf: Shelf, spans: Spans, work: float) -> None:
        self.task, self.shelf, self.spans, self.work = task, shelf, spans, work
        self.memory: dict[str, tuple[Hold, Session]] = {}
        self.turns: dict[str, asyncio.Lock] = {}

    def session(self, key: str) -> tuple[Hold, Session]:
        """Returns a session and the handle under which it counts: from memory if the task held its
        key all the time, or from the shelf."""
        if key in self.memory:
            hold, session = self.memory[key]
            if hold.continuous():
                return hold, session
        hold = self.task.hold(key)
        self.memory[key] = hold, self.shelf.take(key, hold.token)
        return self.memory[key]

    def keep(self, lease: Lease, session: Session) -> None:
        """Puts a session on the shelf, and logs the write. Raises Late, and forgets what memory has, if another task
        took the key meanwhile."""
        try:
            revision = self.shelf.put(lease.key, lease.token, session)
        except Late:
            lease.wrote("refused")
            self.memory.pop(lease.key, None)
            raise
        lease.wrote("taken", revision)

    def forget(self, lost: Ranges) -> None:
        """Forgets the sessions of keys that are lost, so that memory does not fill with them."""
        for key in [it for it in self.memory if holds(lost, slice_key(it.encode()))]:
            del self.memory[key]

    async def write(self, request: web.Request) -> web.Response:
        key, asked = request.match_info["key"], await request.json()
        late: Late | None = None
        async with self.turns.setdefault(key, asyncio.Lock()):
            async with self.task.serving(key) as lease:
                begun = time.monotonic_ns()
                hold, session = self.session(key)
                await self.think()
                if asked["id"] not in session.ids:
                    session = session.after(asked["id"], asked["text"])
                    lease.check()
                    try:
                        if asked["keep"]:
                            self.keep(lease, session)
                        self.memory[key] = hold, session
                    except Late as why:
                        late = why
                ended = time.monotonic_ns()
            self.spans.note(key, f"write {asked['id']}", begun, ended)
        if late is not None:
            raise late
        return web.json_response({"version": session.version})

    async def read(self, request: web.Request) -> web.Response:
        key = request.match_info["key"]
        async with self.task.serving(key):
            begun = time.monotonic_ns()
            _, session = self.session(key)
            await self.think()
            ended = time.monotonic_ns()
        self.spans.note(key, "read", begun, ended)
        if not session.version:
            return web.json_response({"version": 0}, status=404)
        return web.json_response({"version": session.version, "text": session.text})

    async def think(self) -> None:
        if self.work:
            await asyncio.sleep(self.work * random.random() / 500)

    async def metrics(self, _: web.Request) -> web.Response:
        return web.Response(body=self.task.metrics.text(), content_type="text/plain")


def lose(cache: Cache, ranges: Ranges, part: float) -> None:
    cache.forget(ranges)
    fail_at_times(part)


def fail_at_times(part: float) -> None:
    if random.random() < part:
        raise RuntimeError("a callback fails, as it was told to")


async def healthy(_: web.Request) -> web.Response:
    return web.Response(text="ok")


@web.middleware
async def denials(request: web.Request, handler: Any) -> web.StreamResponse:
    """Says why there is no answer."""
    try:
        answered: web.StreamResponse = await handler(request)
        return answered
    except Denied as denied:
        return web.json_response({"denied": denied.ground}, status=421)
    except (LeaseLost, Late, Locked) as lost:
        return web.json_response({"lost": type(lost).__name__}, status=503)


async def run(words: argparse.Namespace) -> None:
    folder = Path(words.folder)
    own = folder / words.place
    task = Task(
        words.control.split(","),
        words.job,
        words.task,
        logs=own / "logs",
        state=own / "state",
        policy=json.loads(words.policy),
        tickets=tickets_of(words, own),
        drift=Drift(words.drift),
        oldest=words.oldest,
        secret=secrets_in(words.secret_file)[0] if words.secret_file else None,
        patience=0.3,
        report=2.0,
        on_gain=lambda _: fail_at_times(words.fail),
        on_lose=lambda ranges, _: lose(cache, ranges, words.fail),
    )
    spans = Spans(folder, words.task, words.place)
    cache = Cache(task, Shelf(folder / "shelf"), spans, words.work)
    app = web.Application(middlewares=[denials])
    app.router.add_put("/sessions/{key}", cache.write)
    app.router.add_get("/sessions/{key}", cache.read)
    app.router.add_get("/metrics", cache.metrics)
    app.router.add_get("/healthz", healthy)
    runner = web.AppRunner(app, access_log=None)
    await runner.setup()
    stop = asyncio.Event()
    asyncio.get_running_loop().add_signal_handler(signal.SIGTERM, stop.set)
    try:
        async with task:
            await web.TCPSite(runner, "127.0.0.1", words.port).start()
            waits = [asyncio.create_task(stop.wait()), asyncio.create_task(task.wait())]
            done, _ = await asyncio.wait(waits, return_when=asyncio.FIRST_COMPLETED)
            for one in done:
                one.result()
    except (ClockBroken, Overtaken) as why:
        print(why, flush=True)
    finally:
        await runner.cleanup()
        print(f"clock_behind_total {task.clock_behind_total}", flush=True)


def tickets_of(words: argparse.Namespace, folder: Path) -> Tickets | None:
    """The tickets of the task: by the real time if all processes are known to have the same; else its own."""
    if words.tickets == "follow":
        return None
    path = tickets_in(folder / "state", None, words.job, f"task-{words.task}.ticket")
    return Tickets(63 + words.task, path, now=real_milliseconds)


def main() -> None:
    parser = argparse.ArgumentParser(description="A task of the session cache.")
    parser.add_argument("--control", required=True, help="URLs of control planes, with commas")
    parser.add_argument("--job", default="cache")
    parser.add_argument("--task", type=int, required=True)
    parser.add_argument("--port", type=int, required=True)
    parser.add_argument("--folder", required=True, help="has logs, state, the shelf and spans")
    parser.add_argument("--place", default="", help="the folder in it that has logs and state, as of another host")
    parser.add_argument("--policy", required=True)
    parser.add_argument("--drift", type=int, default=Drift().extra, help="in a million")
    parser.add_argument("--oldest", type=int, help="ticks")
    parser.add_argument("--tickets", choices=["follow", "time"], default="follow")
    parser.add_argument("--work", type=float, default=0.0, help="milliseconds of a request")
    parser.add_argument("--secret-file", help="the first line is the secret of the control planes")
    parser.add_argument("--fail", type=float, default=0.0, help="the part of callbacks that raise, for tests")
    words = parser.parse_args()
    logging.basicConfig(level=logging.INFO, format="%(asctime)s %(name)s %(message)s")
    try:
        asyncio.run(run(words))
    except BlockingIOError as why:
        sys.exit(f"task {words.task} ends: {why}")


if __name__ == "__main__":
    main()
