"""How the requests of tasks, routers and assigners reach control planes."""

import ssl
from collections.abc import Mapping
from typing import NamedTuple, Protocol

import aiohttp
from multidict import CIMultiDict
from yarl import URL

from . import beats
from .tickets import HEADER
from .waiting import within


class Fetched(NamedTuple):
    """An answer: its status, its headers, which are found in any case, and its body."""

    status: int
    headers: Mapping[str, str]
    body: bytes


class Transport(Protocol):
    """Brings requests to the planes of URLs. Who makes one closes it."""

    async def fetch(
        self, method: str, url: str, headers: Mapping[str, str], body: bytes | None
    ) -> Fetched:
        """Returns the answer to a request. It waits as long as it takes: its caller cancels it.

        Raises aiohttp.ClientError, OSError or ValueError if there is no answer. Whether the request was done is then
        not known."""

    async def close(self) -> None:
        """Closes all connections."""


class Http:
    """Requests over HTTP, by a session of aiohttp of its own or by one that is given, which its owner closes.

    A call that waits ends with TimeoutError or ServerTimeoutError if the plane is silent for longer than its beats
    say; how often it beats is known from its first answer to such a call on.
    """

    def __init__(
        self, tls: ssl.SSLContext | None = None, session: aiohttp.ClientSession | None = None
    ) -> None:
        self._tls, self._given = tls, session
        self._session = session
        self._beats: dict[URL, float] = {}  # planes, and the seconds between two beats of theirs

    async def fetch(
        self, method: str, url: str, headers: Mapping[str, str], body: bytes | None
    ) -> Fetched:
        if self._session is None:
            forever = aiohttp.ClientTimeout()  # the caller limits each call
            self._session = aiohttp.ClientSession(timeout=forever)
        origin = URL(url).origin()
        beat = self._beats.get(origin) if method == "GET" and beats.HEADER in headers else None
        timeout = aiohttp.ClientTimeout(sock_read=beats.silence(beat) if beat else None)
        async with self._session.request(
            method, url, data=body, headers=headers, ssl=self._tls, timeout=timeout
        ) as response:
            says = beats.seconds_of(response.headers.get(beats.HEADER))
            if says is not None:
                self._beats[origin] = says
                if response.content_type == beats.KIND:
                    return await _beaten(response, beats.silence(says))
            return Fetched(response.status, response.headers, await response.read())

    async def close(self) -> None:
        session, self._session = self._session, self._given
        if session is not None and session is not self._given:
            await session.close()


async def _beaten(response: aiohttp.ClientResponse, silence: float) -> Fetched:
    """Returns an answer that comes after beats. Raises TimeoutError after so many seconds of silence, ClientError and
    ValueError."""
    text = b""
    while not response.content.at_eof():
        text = (text + await within(silence, response.content.readany())).lstrip(beats.BEAT)
    later = beats.Later.read(text)
    headers = CIMultiDict(response.headers)
    headers[HEADER] = later.ticket
    return Fetched(later.status, headers, later.body)
