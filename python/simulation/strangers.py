"""What listens where a plane should, and answers something else."""

import asyncio
from typing import Any

from multidict import CIMultiDict

from hourstable.transport import Fetched

from .world import Process

BODIES = {
    "html": b"<html>It works!</html>", "list": b"[]", "empty": b"", "torn": b'{"phase":', "null": b"null",
}
STATUSES = {"503": 503, "502": 502}
REASONS = {200: b"OK", 502: b"Bad Gateway", 503: b"Unavailable"}
KINDS = (*BODIES, *STATUSES, "noise")


class Stranger(asyncio.Protocol):
    """A connection of a stranger: each piece of a request has its answer."""

    def __init__(self, kind: str) -> None:
        self._kind = kind

    def connection_made(self, transport: Any) -> None:
        self._transport = transport

    def data_received(self, data: bytes) -> None:
        if self._kind == "noise":
            self._transport.write(b"\x16\x03\x01 what?\r\n\r\n")
            return
        status, body = _answer_of(self._kind)
        self._transport.write(
            b"HTTP/1.1 %d %s\r\nContent-Length: %d\r\n\r\n%s" % (status, REASONS[status], len(body), body)
        )


def _answer_of(kind: str) -> tuple[int, bytes]:
    return STATUSES.get(kind, 200), BODIES.get(kind, b"no plane here")


async def listen(process: Process, at: tuple[str, int], kind: str) -> None:
    """Answers all requests as a stranger of a kind does, for ever."""
    async def answer(_: object) -> object:
        if kind == "noise":
            return None
        status, body = _answer_of(kind)
        return Fetched(status, CIMultiDict(), body)

    await process.loop.create_server(lambda: Stranger(kind), *at)
    process.world.network.serve(process, at, answer)
    await asyncio.Event().wait()
