"""Requests that are brought to the handlers of a plane: their bodies may be as large as a plane reads."""

import asyncio
from asyncio import events
from types import SimpleNamespace
from typing import Any

from aiohttp import web

from hourstable.limits import Limits
from simulation.handlers import Asked, Handlers, Peer


async def length_of(request: web.Request) -> web.Response:
    return web.Response(body=str(len(await request.read())).encode())


async def lengths(sizes: list[int]) -> list[tuple[int, bytes]]:
    app = web.Application()
    app.add_routes([web.post("/length", length_of)])
    plane: Any = SimpleNamespace(application=lambda: app)
    handlers = Handlers(plane)
    answers = [await handlers.answer(Asked("POST", "/length", {}, b"x" * size, Peer())) for size in sizes]
    assert not handlers.failed
    return [(it.status, it.body) for it in answers]


def test_bodies_are_read_whole() -> None:
    events._set_running_loop(None)  # a world that ran before this leaves the loop of its last process
    sizes = [1, 1 << 16, 200_000, Limits().body]
    assert asyncio.run(lengths(sizes)) == [(200, str(size).encode()) for size in sizes]
