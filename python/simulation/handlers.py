"""Requests of the package brought to the handlers of a plane, without sockets, parsers and writers."""

import asyncio
from collections.abc import Mapping
from functools import lru_cache, partial
from typing import Any, NamedTuple, cast
from urllib.parse import urlsplit

import aiohttp
from aiohttp import web
from aiohttp.http import HttpVersion11, RawRequestMessage
from aiohttp.streams import EMPTY_PAYLOAD, StreamReader
from multidict import CIMultiDict, CIMultiDictProxy
from yarl import URL

from hourstable import beats
from hourstable.control import Plane
from hourstable.transport import Fetched

from .exchanges import ask
from .world import Process


class Asked(NamedTuple):
    """A request."""

    method: str
    path: str
    headers: Mapping[str, str]
    body: bytes | None
    peer: "Peer"


class Direct:
    """A transport of the package for a process, over exchanges."""

    def __init__(self, process: Process) -> None:
        self._process = process

    async def fetch(
        self, method: str, url: str, headers: Mapping[str, str], body: bytes | None
    ) -> Fetched:
        at, path = _parts_of(url)
        others = {name: value for name, value in headers.items() if name != beats.HEADER}
        silence = 0.0
        if method == "GET" and beats.HEADER in headers:  # the exchange beats in place of the plane
            silence = beats.silence(self._process.world.beat)
        peer = Peer()
        try:
            made = await ask(self._process, at, Asked(method, path, others, body, peer), silence)
        finally:
            peer.transport = None  # the plane sees that its caller has left
        if not isinstance(made, Fetched):
            raise aiohttp.ServerDisconnectedError
        return made

    async def close(self) -> None:
        pass


class Peer(asyncio.Transport):
    """What a request asks of its transport and its protocol."""

    _reading_paused = False

    def __init__(self) -> None:
        self.transport: Peer | None = self

    def get_extra_info(self, name: str, default: Any = None) -> Any:
        return default

    def pause_reading(self) -> None:
        """Does nothing: all of a body is there."""


@lru_cache(4096)
def _parts_of(url: str) -> tuple[tuple[str, int], str]:
    """Returns the address of a URL, and its path with the query."""
    parts = urlsplit(url)
    path = f"{parts.path}?{parts.query}" if parts.query else parts.path
    return (str(parts.hostname), parts.port or 80), path


@lru_cache(4096)
def _url_of(path: str) -> URL:
    before, _, query = path.partition("?")
    return URL.build(path=before, query_string=query, encoded=True)


class Handlers:
    """Answers requests as a plane's server does."""

    def __init__(self, plane: Plane) -> None:
        self._app = plane.application()
        self._app.freeze()
        self._known: dict[tuple[str, str], tuple[dict[str, str], web.AbstractRoute]] = {}  # routes of paths
        self.failed: list[str] = []  # what was answered by a status of 500

    async def answer(self, asked: Asked) -> Fetched:
        try:
            made = await self._handle(self._request(asked))
        except asyncio.CancelledError:
            raise
        except Exception as error:  # as aiohttp's server
            self.failed.append(f"{asked.method} {asked.path}: {error!r}")
            return Fetched(500, CIMultiDict(), b"")
        body = made.body if isinstance(made, web.Response) else b""
        return Fetched(made.status, made.headers, cast(bytes, body or b""))

    async def _handle(self, request: web.Request) -> web.StreamResponse:
        """Does what an application of aiohttp does, which looks for the route of each request anew."""
        key = request.method, request.rel_url.raw_path
        if key in self._known:
            match = web.UrlMappingMatchInfo(*self._known[key])
        else:
            match = await self._app.router.resolve(request)
            if match.http_exception is None:
                self._known[key] = dict(match), match.route
        match.add_app(self._app)
        match.freeze()
        request._match_info = match
        handler: Any = match.handler
        for middleware in reversed(self._app.middlewares):
            handler = partial(middleware, handler=handler)
        made: web.StreamResponse = await handler(request)
        return made

    def _request(self, asked: Asked) -> web.Request:
        headers = CIMultiDict(asked.headers)
        if asked.body is not None:
            headers["Content-Length"] = str(len(asked.body))
        message = RawRequestMessage(
            asked.method, asked.path, HttpVersion11, CIMultiDictProxy(headers), (), False, None, False, False,
            _url_of(asked.path),
        )
        loop = asyncio.get_running_loop()
        protocol: Any = asked.peer
        content = EMPTY_PAYLOAD
        if asked.body:
            content = StreamReader(protocol, 1 << 16, loop=loop)
            content.feed_data(asked.body)
            content.feed_eof()
        task: Any = asyncio.current_task()
        has_left, asked.peer.transport = asked.peer.transport is None, asked.peer
        request = web.Request(
            message, content, protocol, protocol, task, loop, client_max_size=(1 << 20) + 1
        )
        if has_left:  # while the request was on its way
            asked.peer.transport = None
        return request
