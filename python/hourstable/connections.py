"""The connections of a control plane: each is counted from its acceptance on, turned away or handed to aiohttp."""

import asyncio
import json
import socket
import ssl
from collections import Counter
from collections.abc import Callable
from typing import Any, Protocol

from hourstable.limits import Limits

KNOWN_FOR = 3600.0  # seconds for which an address is known that authenticated
NOTED_AFTER = 60.0  # seconds after which that is noted anew
MOST_KNOWN = 4096  # addresses
MOST_TURNED = 64  # connections that are told why they are turned away; others are just closed
BACKLOG = 128


class Server(Protocol):
    """What makes the protocol of a connection that is let in, as aiohttp's server does."""

    def __call__(self) -> asyncio.Protocol: ...


class Connections:
    """All connections of a plane, and who is let in.

    A quarter of them is kept for addresses that authenticated in the last hour, and an address has at most
    `limits.of_peer`. A connection is closed that has made no whole request in `limits.first` seconds, or no handshake
    of TLS. `turned` counts those that are turned away, by the limit.
    """

    def __init__(
        self, limits: Limits, server: Server, now: Callable[[], float], turned: Callable[[str], object],
        tls: ssl.SSLContext | None = None,
    ) -> None:
        self.limits, self.server, self.turned, self.tls = limits, server, turned, tls
        self.shaking: set[asyncio.Task[None]] = set()  # handshakes of TLS
        self._now = now
        self._doors: set[Door] = set()
        self._turned: set[Door] = set()  # those of them that are turned away
        self._inside: dict[object, Door] = {}  # by aiohttp's protocol
        self._of_peer: Counter[str] = Counter()
        self._known: dict[str, float] = {}  # addresses, and when they authenticated

    def __len__(self) -> int:
        """Returns how many connections are open."""
        return len(self._doors)

    def door(self) -> asyncio.Protocol:
        """Returns the protocol of a new connection."""
        return Door(self)

    def enter(self, door: "Door") -> str | None:
        """Counts a connection, and returns the limit for which it is turned away, if it is."""
        kept = 0 if self.is_known(door.peer) else self.limits.connections // 4
        is_full = self._left() <= kept
        is_of_many = bool(door.peer) and self._of_peer[door.peer] >= self.limits.of_peer
        self._doors.add(door)
        if is_full or is_of_many:
            self._turned.add(door)
            return "connections" if is_full else "peer"
        self._of_peer[door.peer] += 1
        return None

    def _left(self) -> int:
        """Returns how many connections may still be let in."""
        return self.limits.connections - len(self._doors) + len(self._turned)

    def has_many_turned(self) -> bool:
        """Whether so many connections are turned away at once that others are just closed."""
        return len(self._turned) > MOST_TURNED

    def let_in(self, door: "Door", inner: object) -> None:
        """Notes the protocol of aiohttp to which a connection was handed."""
        self._inside[inner] = door

    def leave(self, door: "Door") -> None:
        """Forgets a connection, which is closed."""
        if door not in self._doors:
            return
        self._doors.discard(door)
        if door in self._turned:
            self._turned.discard(door)
            return
        self._inside.pop(door.inner, None)
        self._of_peer[door.peer] -= 1
        if not self._of_peer[door.peer]:
            del self._of_peer[door.peer]

    def heard(self, inner: object, is_authenticated: bool) -> None:
        """Takes a whole request of a connection; if its caller authenticated, its address is known from now on."""
        door = self._inside.get(inner)
        if door is not None:
            door.heard()
            if is_authenticated:
                self.know(door.peer)

    def know(self, peer: str) -> None:
        """Takes that an address authenticated."""
        now = self._now()
        if peer and now - self._known.get(peer, -KNOWN_FOR) >= NOTED_AFTER:
            self._known.pop(peer, None)
            self._known[peer] = now  # the newest one is the last
            while len(self._known) > MOST_KNOWN:
                del self._known[next(iter(self._known))]

    def is_known(self, peer: str) -> bool:
        """Returns whether an address authenticated in the last hour."""
        return self._now() - self._known.get(peer, -KNOWN_FOR) < KNOWN_FOR

    def crowding(self) -> int:
        """Returns 0 while there is room, 1 if an eighth of the connections is left, and 2 if a sixteenth is."""
        left, most = self._left(), self.limits.connections
        return 2 if left < most // 16 else 1 if left < most // 8 else 0

    def close(self) -> None:
        """Closes the connections that aiohttp does not have."""
        for handshake in self.shaking:
            handshake.cancel()
        for door in list(self._doors):
            if door.inner is None:
                door.abort()


class Door(asyncio.Protocol):
    """A connection. Once it is let in, all goes to aiohttp's protocol."""

    def __init__(self, connections: Connections) -> None:
        self._connections = connections
        self._loop = asyncio.get_running_loop()
        self._transport: asyncio.Transport | None = None
        self._timer: asyncio.TimerHandle | None = None
        self._early = b""  # what came before it was let in
        self._limit: str | None = None  # for which it is turned away
        self.inner: Any = None  # aiohttp's protocol
        self.peer = ""  # its address

    def connection_made(self, transport: asyncio.BaseTransport) -> None:
        assert isinstance(transport, asyncio.Transport)
        all_of, self._transport = self._connections, transport
        name = transport.get_extra_info("peername")
        self.peer = str(name[0]) if isinstance(name, tuple) and name else ""
        self._limit = all_of.enter(self)
        self._timer = self._loop.call_later(all_of.limits.first, self._is_late)
        if self._limit is not None:
            all_of.turned(self._limit)
            if all_of.tls is not None or all_of.has_many_turned():
                transport.abort()
        elif all_of.tls is not None:
            shaking = self._loop.create_task(self._shake_hands(transport, all_of.tls))
            all_of.shaking.add(shaking)
            shaking.add_done_callback(all_of.shaking.discard)
        else:
            self._let_in(transport)

    async def _shake_hands(self, transport: asyncio.Transport, tls: ssl.SSLContext) -> None:
        first = self._connections.limits.first
        try:
            secure = await self._loop.start_tls(
                transport, self, tls, server_side=True, ssl_handshake_timeout=first
            )
        except (Exception, asyncio.CancelledError):  # of TLS, of the connection, or of a transport that is closed
            secure = None
        if secure is None or secure.is_closing():  # asyncio does not tell the door of it
            transport.abort()
            self._connections.leave(self)
            return
        self._transport = secure
        if self._timer is not None:
            self._timer.cancel()
        self._timer = self._loop.call_later(first, self._is_late)
        if secure.get_extra_info("peercert"):
            self._connections.know(self.peer)
        self._let_in(secure)

    def _let_in(self, transport: asyncio.Transport) -> None:
        self.inner = self._connections.server()
        self._connections.let_in(self, self.inner)
        self.inner.connection_made(transport)
        if self._early:
            self.inner.data_received(self._early)
            self._early = b""

    def heard(self) -> None:
        """Takes the first whole request."""
        if self._timer is not None:
            self._timer.cancel()
            self._timer = None

    def _is_late(self) -> None:
        self._timer = None
        if self._limit is None:
            self._connections.turned("first-request")
        self.abort()

    def abort(self) -> None:
        """Closes the connection at once."""
        if self._transport is not None:
            self._transport.abort()

    def data_received(self, data: bytes) -> None:
        if self.inner is not None:
            self.inner.data_received(data)
        elif self._limit is None:
            self._early += data
        elif self._transport is not None and not self._transport.is_closing():
            self._transport.write(_turned(self._limit))
            self._transport.close()

    def eof_received(self) -> bool | None:
        made: bool | None = self.inner.eof_received() if self.inner is not None else None
        return made

    def pause_writing(self) -> None:
        if self.inner is not None:
            self.inner.pause_writing()

    def resume_writing(self) -> None:
        if self.inner is not None:
            self.inner.resume_writing()

    def connection_lost(self, error: Exception | None) -> None:
        self.heard()
        self._connections.leave(self)
        if self.inner is not None:
            self.inner.connection_lost(error)


def _turned(limit: str) -> bytes:
    """Returns the answer to a request of a connection that is turned away."""
    body = json.dumps({"error": f"limit of {limit}", "limit": limit}).encode()
    return (
        b"HTTP/1.1 429 Too Many Requests\r\nContent-Type: application/json\r\n"
        b"Retry-After: 1\r\nConnection: close\r\nContent-Length: %d\r\n\r\n%s" % (len(body), body)
    )


def end_if_unheard(transport: asyncio.BaseTransport | None, seconds: float) -> None:
    """Lets the kernel close a connection whose peer acknowledges nothing for these seconds, where it can."""
    held = transport.get_extra_info("socket") if transport is not None else None
    option = getattr(socket, "TCP_USER_TIMEOUT", None)
    if held is not None and option is not None:
        try:
            held.setsockopt(socket.IPPROTO_TCP, option, max(1, round(seconds * 1000)))
        except OSError:
            pass  # it is no TCP, or closed
