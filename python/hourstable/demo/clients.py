"""Clients of the session cache: write and read sessions, one after the other each, until they are
stopped. Prints a JSON line every so many seconds of what happened since the last one."""

import argparse
import asyncio
import json
import logging
import random
import signal
import time
from collections import Counter
from pathlib import Path
from typing import Any

import aiohttp

from hourstable.callers import secrets_in
from hourstable.calls import Unreachable
from hourstable.client import Again, NoOwner, Router
from hourstable.waiting import within


class Acks:
    """What was acknowledged: reads and kept writes, each with its key, the id of a write, the
    version, and when it was asked and answered by a clock that all processes share."""

    def __init__(self, path: Path) -> None:
        self.file = open(path, "a", encoding="utf-8")

    def note(self, what: str, key: str, write: str, version: int, asked: int) -> None:
        line = [what, key, write, version, asked, time.monotonic_ns()]
        self.file.write(json.dumps(line) + "\n")
        self.file.flush()


class Request:
    """A request of a client: for which key, since when, and how often it was denied."""

    def __init__(self, key: str) -> None:
        self.key, self.denials, self.begun = key, 0, time.monotonic()

    def waited(self) -> float:
        """Returns for how many seconds it has waited because it was denied, 0 if it was not."""
        return time.monotonic() - self.begun if self.denials else 0.0


class Clients:
    """Some clients that share a router."""

    def __init__(self, words: argparse.Namespace, router: Router) -> None:
        self.words, self.router = words, router
        self.tasks = dict(pair.split("=", 1) for pair in words.tasks.split(","))
        self.acks = Acks(Path(words.folder) / f"acks-{words.number}.jsonl")
        self.random = random.Random()
        self.told: Counter[str] = Counter()
        self.denied: Counter[str] = Counter()
        self.waited: dict[str, float] = {}  # for keys that were denied, the longest wait
        self.underway: set[Request] = set()
        self.session = aiohttp.ClientSession(timeout=aiohttp.ClientTimeout())

    async def client(self, number: int) -> None:
        for count in range(1 << 60):
            request = Request(f"session-{int(self.words.keys * self.random.random() ** 2)}")
            write = f"{self.words.number}-{number}-{count}-{time.monotonic_ns()}"
            is_write = self.random.random() < self.words.writes
            self.underway.add(request)
            try:
                await (self.write(request, write) if is_write else self.read(request))
                self.told["answered"] += 1
            except (Again, NoOwner, Unreachable) as why:
                self.told["given up"] += 1
                logging.info("%s: given up: %s", request.key, why)
            self.underway.discard(request)
            self.note_wait(request)
            await asyncio.sleep(self.words.pause * self.random.random() / 500)

    async def write(self, request: Request, write: str) -> None:
        asked, key = time.monotonic_ns(), request.key
        text = f"text of {write}"
        body = {"id": write, "text": text, "keep": True}
        answer = await self.router.send(key, lambda task: self.ask(task, "PUT", request, body))
        self.acks.note("write", key, write, answer["version"], asked)

    async def read(self, request: Request) -> None:
        asked = [0]

        async def attempt(task: int) -> dict[str, Any]:
            asked[0] = time.monotonic_ns()
            return await self.ask(task, "GET", request, None)

        answer = await self.router.send(request.key, attempt)
        self.acks.note("read", request.key, "", answer["version"], asked[0])

    async def ask(self, task: int, method: str, request: Request, body: Any) -> dict[str, Any]:
        """Asks a task once. Raises Again if it gives no answer."""
        self.told["requests"] += 1
        url = self.tasks.get(str(task))
        if url is None:
            raise Again(f"task {task} has no address")
        try:
            asked = self.fetch(method, f"{url}/sessions/{request.key}", body)
            status, answer = await within(self.words.timeout, asked)
        except (aiohttp.ClientError, TimeoutError, OSError, ValueError) as why:
            self.note_denial(request, "no answer")
            raise Again(f"task {task}: {type(why).__name__}") from why
        if status not in (200, 404):
            self.note_denial(request, answer.get("denied") or "lost")
            raise Again(f"task {task}: {status} {answer}")
        return answer

    def note_denial(self, request: Request, ground: str) -> None:
        self.denied[ground] += 1
        request.denials += 1

    def note_wait(self, request: Request) -> None:
        if request.denials:
            longest = self.waited.get(request.key, 0.0)
            self.waited[request.key] = max(longest, request.waited())

    async def fetch(self, method: str, url: str, body: Any) -> tuple[int, dict[str, Any]]:
        async with self.session.request(method, url, json=body) as response:
            return response.status, await response.json()

    async def tell(self) -> None:
        """Prints what happened: the counts of requests, denials by their ground, how long keys that
        were denied had to wait, and how many requests still wait."""
        while True:
            await asyncio.sleep(self.words.every)
            for request in self.underway:
                self.note_wait(request)
            told = {
                **self.told, "denied": self.denied, "waited": self.waited,
                "waiting": sum(1 for it in self.underway if it.denials),
                "generation": self.router.generation,
            }
            print(json.dumps(told), flush=True)
            self.told.clear()
            self.denied.clear()
            self.waited.clear()


async def run(words: argparse.Namespace) -> None:
    stop = asyncio.Event()
    asyncio.get_running_loop().add_signal_handler(signal.SIGTERM, stop.set)
    logs = Path(words.folder) / "logs" if words.logs else None
    secret = secrets_in(words.secret_file)[0] if words.secret_file else None
    async with Router(
        words.control.split(","), words.job, logs=logs, clerk=words.number, secret=secret
    ) as router:
        clients = Clients(words, router)
        running = [asyncio.create_task(clients.client(it)) for it in range(words.clients)]
        running.append(asyncio.create_task(clients.tell()))
        running.append(asyncio.create_task(stop.wait()))  # type: ignore[arg-type]
        done, rest = await asyncio.wait(running, return_when=asyncio.FIRST_COMPLETED)
        for one in rest:
            one.cancel()
        await asyncio.gather(*rest, return_exceptions=True)
        await clients.session.close()
        for one in done:
            one.result()


def main() -> None:
    parser = argparse.ArgumentParser(description="Clients of the session cache.")
    parser.add_argument("--control", required=True, help="URLs of control planes, with commas")
    parser.add_argument("--tasks", required=True, help="1=URL,2=URL")
    parser.add_argument("--job", default="cache")
    parser.add_argument("--folder", required=True)
    parser.add_argument("--number", type=int, default=1, help="of this process")
    parser.add_argument("--clients", type=int, default=8)
    parser.add_argument("--keys", type=int, default=60)
    parser.add_argument("--writes", type=float, default=0.4, help="share of requests that write")
    parser.add_argument("--pause", type=float, default=5.0, help="milliseconds between requests")
    parser.add_argument("--every", type=float, default=1.0, help="seconds between two lines")
    parser.add_argument("--timeout", type=float, default=1.0, help="seconds")
    parser.add_argument("--secret-file", help="the first line is the secret of the control planes")
    parser.add_argument("--logs", action="store_true", help="write the log of the clerk")
    words = parser.parse_args()
    logging.basicConfig(level=logging.INFO, format="%(asctime)s %(name)s %(message)s")
    asyncio.run(run(words))


if __name__ == "__main__":
    main()
