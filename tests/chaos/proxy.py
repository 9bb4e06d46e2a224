"""A proxy of HTTP that delays messages, loses them, repeats them and so reorders them.

It listens on a port for each link, and passes requests on. POST /settings at its own port changes
how a link behaves: {"PORT": {"lose": P, "repeat": P, "delay": SECONDS, "cut": true, "also": [URL]}, ..}.
An answer always belongs to its own request, as a transport gives it. With `also` each request goes to the
link's target or to one of these, by chance.

A stream is a link of bytes, to a server of another protocol. While it is cut, what is sent on it is on its way.
"""

import argparse
import asyncio
import json
import random
from typing import Any

import aiohttp
from aiohttp import web

PASSED = ("Authorization", "Content-Type", "Hourstable-Key", "Hourstable-Ticket", "Hourstable-Version")
BACK = ("Content-Type", "Hourstable-Ticket", "Hourstable-Reading", "Hourstable-Version", "Retry-After")


class Link:
    """Where a port leads, and how messages fare on it."""

    def __init__(self, target: str, session: aiohttp.ClientSession, random_: random.Random) -> None:
        self.target, self.session, self.random = target, session, random_
        self.settings: dict[str, Any] = {}
        self.others: set[asyncio.Task[None]] = set()

    def happens(self, name: str) -> bool:
        return self.random.random() < float(self.settings.get(name, 0))

    async def delay(self) -> None:
        most = float(self.settings.get("delay", 0))
        if most and self.random.random() < 0.3:
            await asyncio.sleep(most * self.random.random() ** 2)

    async def handle(self, request: web.Request) -> web.Response:
        body = await request.read()
        if self.settings.get("cut") or self.happens("lose"):
            return await self.vanish(request)
        await self.delay()
        if self.happens("repeat"):
            self.repeat_later(request, body)
        try:
            answer = await self.forward(request, body)
        except (aiohttp.ClientError, asyncio.TimeoutError, OSError):
            return await self.vanish(request)
        await self.delay()
        if self.settings.get("cut") or self.happens("lose"):
            return await self.vanish(request)
        return answer

    async def forward(self, request: web.Request, body: bytes) -> web.Response:
        headers = {name: request.headers[name] for name in PASSED if name in request.headers}
        target = self.random.choice([self.target, *self.settings.get("also", [])])
        async with self.session.request(
            request.method, target + request.path_qs, data=body, headers=headers
        ) as answer:
            found = await answer.read()
            kept = {name: answer.headers[name] for name in BACK if name in answer.headers}
            return web.Response(status=answer.status, body=found, headers=kept)

    def repeat_later(self, request: web.Request, body: bytes) -> None:
        """Sends the request once more after a while. Nobody hears the answer."""

        async def again() -> None:
            await asyncio.sleep(3 * self.random.random() ** 2)
            try:
                await self.forward(request, body)
            except (aiohttp.ClientError, asyncio.TimeoutError, OSError):
                pass

        other = asyncio.create_task(again())
        self.others.add(other)
        other.add_done_callback(self.others.discard)

    async def vanish(self, request: web.Request) -> web.Response:
        """The sender hears nothing for a while, and then that the connection is closed."""
        await asyncio.sleep(0.5 * self.random.random())
        if request.transport is not None:
            request.transport.abort()
        raise asyncio.CancelledError


class Stream:
    """Where a port leads whose bytes are passed on as they are."""

    def __init__(self, target: str) -> None:
        self.host, _, self.port = target.rpartition(":")
        self.settings: dict[str, Any] = {}

    async def connected(self, reader: asyncio.StreamReader, writer: asyncio.StreamWriter) -> None:
        """Serves a connection."""
        await self.whole()
        try:
            there, back = await asyncio.open_connection(self.host, int(self.port))
        except OSError:
            writer.transport.abort()
            return
        both = [asyncio.create_task(self.pass_on(*way)) for way in ((reader, back), (there, writer))]
        await asyncio.wait(both, return_when=asyncio.FIRST_COMPLETED)
        for one in both:
            one.cancel()
        await asyncio.gather(*both, return_exceptions=True)
        for end in (writer, back):
            end.transport.abort()

    async def pass_on(self, reader: asyncio.StreamReader, writer: asyncio.StreamWriter) -> None:
        while piece := await reader.read(1 << 16):
            await self.whole()
            writer.write(piece)
            await writer.drain()

    async def whole(self) -> None:
        """Returns when the stream is not cut."""
        while self.settings.get("cut"):
            await asyncio.sleep(0.02)


async def run(words: argparse.Namespace) -> None:
    random_ = random.Random(words.seed)
    limit = aiohttp.ClientTimeout(total=40)
    made: dict[str, Link | Stream] = {}

    async def change(request: web.Request) -> web.Response:
        for name, settings in (await request.json()).items():
            made[name].settings = settings
        return web.json_response({})

    async with aiohttp.ClientSession(timeout=limit) as session:
        for name, target in json.loads(words.links).items():
            link = made[name] = Link(target, session, random_)
            await listen(int(name), link.handle, "/{path:.*}")
        for name, target in json.loads(words.streams).items():
            stream = made[name] = Stream(target)
            await asyncio.start_server(stream.connected, "127.0.0.1", int(name))
        await listen(words.port, change, "/settings")
        print("listening", flush=True)
        await asyncio.Event().wait()


async def listen(port: int, handler: Any, path: str) -> None:
    app = web.Application(client_max_size=1 << 22)
    app.router.add_route("*", path, handler)
    runner = web.AppRunner(app, access_log=None, handle_signals=False)
    await runner.setup()
    await web.TCPSite(runner, "127.0.0.1", port).start()


def main() -> None:
    parser = argparse.ArgumentParser(description="A proxy that delays, loses and repeats.")
    parser.add_argument("--links", required=True, help='{"PORT": "http://..", ..}')
    parser.add_argument("--streams", default="{}", help='{"PORT": "HOST:PORT", ..}')
    parser.add_argument("--port", type=int, required=True, help="for settings")
    parser.add_argument("--seed", type=int, default=0)
    asyncio.run(run(parser.parse_args()))


if __name__ == "__main__":
    main()
