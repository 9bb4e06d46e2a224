"""Connections of a plane: silent ones, those of one address, TLS, and what is left out under overload."""

import asyncio
import ssl
import time
from collections.abc import AsyncIterator, Awaitable, Callable
from contextlib import asynccontextmanager
from pathlib import Path
from urllib.parse import urlsplit

import aiohttp
import pytest

import needed

needed.library()

from hourstable.connections import Connections, Door  # noqa: E402
from hourstable.limits import Limits  # noqa: E402
from hourstable.overload import Overload  # noqa: E402
from hourstable.service import ControlPlane  # noqa: E402
from hourstable.store import Store  # noqa: E402
from serving import Caller, running  # noqa: E402
from test_page import begun  # noqa: E402
from test_service import options  # noqa: E402

FIRST = 1.0  # seconds for the first request
LATE = 10.0  # by which a busy machine may be late
SECRET = "a secret of these tests"
KNOWN = {"Authorization": f"Bearer {SECRET}"}


class Silent:
    """A connection from an address of loopback that says nothing."""

    def __init__(self, reader: asyncio.StreamReader, writer: asyncio.StreamWriter) -> None:
        self.reader, self.writer = reader, writer

    @classmethod
    async def open(cls, url: str, address: str = "127.0.0.9") -> "Silent":
        at = urlsplit(url)
        return cls(*await asyncio.open_connection(at.hostname, at.port, local_addr=(address, 0)))

    async def says(self, data: bytes) -> None:
        self.writer.write(data)
        await self.writer.drain()

    async def end(self) -> bytes:
        """Returns what comes until the other side closes the connection."""
        try:
            return await asyncio.wait_for(self.reader.read(), FIRST + LATE)
        except ConnectionError:
            return b""

    def close(self) -> None:
        self.writer.close()


@asynccontextmanager
async def silent(url: str, addresses: list[str]) -> AsyncIterator[list[Silent]]:
    made = [await Silent.open(url, address) for address in addresses]
    try:
        yield made
    finally:
        for one in made:
            one.close()


async def open_connections(caller: Caller) -> float:
    text = (await caller.ask("GET", "/metrics", None, KNOWN)).body.decode()
    found = [line for line in text.splitlines() if line.startswith("hourstable_open_connections ")]
    return float(found[0].split()[1])


async def until(holds: Callable[[], Awaitable[object]]) -> None:
    end = time.monotonic() + 20
    while not await holds():
        assert time.monotonic() < end, "it does not come true"
        await asyncio.sleep(0.02)


async def new_caller_is_answered(caller: Caller) -> bool:
    async with aiohttp.ClientSession() as session:
        return (await Caller(caller.url, session).ask("GET", "/jobs", None, KNOWN)).status == 200


async def test_silent_connections_deny_no_caller_that_authenticated(file: Store, tmp_path: Path) -> None:
    """Strangers of many addresses open all that they get. A quarter is kept for the address of a task, from which
    a new connection is answered all the time; what the strangers opened is closed after the first seconds."""
    limits = Limits(connections=16, peer=16, first=FIRST)
    async with running(file, tmp_path / "logs", limits=limits, secrets=[SECRET]) as (plane, caller):
        assert await new_caller_is_answered(caller)
        strangers = [f"127.0.0.{2 + at}" for at in range(20)]
        async with silent(caller.url, strangers) as connections:

            async def are_there() -> bool:
                return plane.connections is not None and len(plane.connections) >= 12

            await until(are_there)
            assert await new_caller_is_answered(caller)
            assert await open_connections(caller) >= 12  # they are counted, though they say nothing
            for one in connections:
                assert b"200" not in await one.end()
        assert await new_caller_is_answered(caller)
        text = (await caller.ask("GET", "/metrics", None, KNOWN)).body.decode()
        assert 'hourstable_limited_total{limit="first-request"} 12.0' in text
        assert 'hourstable_limited_total{limit="connections"} 8.0' in text


@pytest.mark.parametrize("sent", [
    b"", b"GET /jobs", b"GET /jobs HTTP/1.1\r\nHost: 127.0.0.1\r\n",
    b"POST /jobs/shop/grant HTTP/1.1\r\nHost: 127.0.0.1\r\nContent-Length: 20\r\n\r\n{",
])
async def test_a_connection_has_some_seconds_for_its_first_whole_request(
    file: Store, tmp_path: Path, sent: bytes
) -> None:
    async with running(file, tmp_path / "logs", limits=Limits(first=FIRST)) as (_, caller):
        one = await Silent.open(caller.url)
        begins = time.monotonic()
        await one.says(sent)
        answer = await one.end()
        assert FIRST * 0.9 < time.monotonic() - begins
        assert answer == b"" or answer.startswith(b"HTTP/1.1 408")
        one.close()


async def test_a_later_request_may_come_late_but_not_its_body(file: Store, tmp_path: Path) -> None:
    async with running(file, tmp_path / "logs", limits=Limits(first=FIRST)) as (_, caller):
        one = await Silent.open(caller.url)
        for _ in range(2):
            await one.says(b"GET /healthz HTTP/1.1\r\nHost: 127.0.0.1\r\n\r\n")
            answer = await asyncio.wait_for(one.reader.readuntil(b"ok\n"), LATE)
            assert answer.startswith(b"HTTP/1.1 200")
            await asyncio.sleep(1.5 * FIRST)
        await one.says(b"PUT /jobs/shop HTTP/1.1\r\nHost: 127.0.0.1\r\nContent-Length: 9\r\n\r\n{")
        assert (await one.end()).startswith(b"HTTP/1.1 408")
        one.close()


async def test_an_address_has_a_limit(file: Store, tmp_path: Path) -> None:
    limits = Limits(connections=64, peer=3, first=60.0)
    async with running(file, tmp_path / "logs", limits=limits) as (_, caller):
        async with silent(caller.url, ["127.0.0.7"] * 3):
            async with silent(caller.url, ["127.0.0.7", "127.0.0.8"]) as (fourth, other):
                for one in (fourth, other):
                    await one.says(b"GET /healthz HTTP/1.1\r\nHost: 127.0.0.1\r\nConnection: close\r\n\r\n")
                told = await fourth.end()
                assert told.startswith(b"HTTP/1.1 429") and b'"limit": "peer"' in told
                assert (await other.end()).startswith(b"HTTP/1.1 200")
        assert await new_caller_is_answered(caller)
        text = (await caller.ask("GET", "/metrics")).body.decode()
        assert 'hourstable_limited_total{limit="peer"} 1.0' in text


async def test_connections_without_a_right_secret_are_closed(file: Store, tmp_path: Path) -> None:
    async with running(file, tmp_path / "logs", secrets=[SECRET]) as (plane, caller):
        one = await Silent.open(caller.url)
        await one.says(b"GET /jobs HTTP/1.1\r\nHost: 127.0.0.1\r\nAuthorization: Bearer wrong\r\n\r\n")
        assert (await one.end()).startswith(b"HTTP/1.1 401")
        one.close()
        assert plane.connections is not None and not plane.connections.is_known("127.0.0.9")


def test_an_address_is_known_for_an_hour() -> None:
    now = [0.0]
    connections = Connections(Limits(), lambda: asyncio.Protocol(), lambda: now[0], lambda _: None)
    assert not connections.is_known("10.0.0.1")
    connections.know("10.0.0.1")
    now[0] = 3599.0
    assert connections.is_known("10.0.0.1")
    now[0] = 3600.0
    assert not connections.is_known("10.0.0.1")


async def test_tls_that_does_not_come(tmp_path: Path, certificates: Path) -> None:
    """It is counted and closed; a caller with a certificate is answered, and its address is known."""
    plane_tls = ssl.SSLContext(ssl.PROTOCOL_TLS_SERVER)
    plane_tls.load_cert_chain(certificates / "plane.pem", certificates / "plane.key")
    plane_tls.load_verify_locations(certificates / "ca.pem")
    plane_tls.verify_mode = ssl.CERT_REQUIRED
    caller_tls = ssl.create_default_context(cafile=str(certificates / "ca.pem"))
    caller_tls.load_cert_chain(certificates / "caller.pem", certificates / "caller.key")
    given = options(tmp_path, tls=plane_tls, limits=Limits(first=FIRST))
    async with ControlPlane(given) as service:
        assert service.plane is not None and service.plane.connections is not None
        connections, url = service.plane.connections, f"https://127.0.0.1:{service.port}"
        for said in (b"", b"GET / HTTP/1.1\r\n\r\n"):
            one = await Silent.open(url)
            await one.says(said)

            async def is_open() -> bool:
                return len(connections) == 1  # noqa: B023

            if not said:
                await until(is_open)
            await one.end()
            one.close()
            assert not connections.is_known("127.0.0.9")
        connector = aiohttp.TCPConnector(ssl=caller_tls)
        async with aiohttp.ClientSession(connector=connector) as session:
            caller = Caller(url, session)
            for _ in range(2):
                assert (await caller.ask("GET", "/jobs")).json == {"jobs": []}
            assert connections.is_known("127.0.0.1") and len(connections) == 1


class Level(Overload):
    """A load that a test sets."""

    def __init__(self, level: int) -> None:
        super().__init__(time.monotonic)
        self._level = level

    def level(self) -> int:
        return self._level


@pytest.mark.parametrize("level", [0, 1, 2])
async def test_under_overload_pages_are_left_out_first(file: Store, tmp_path: Path, level: int) -> None:
    async with running(file, tmp_path / "logs") as (plane, caller):
        await begun(caller)
        plane.overload = Level(level)
        pages = ["/overview", "/jobs/shop/leases", "/jobs/shop/slices", "/jobs/shop/key?key=a", "/"]
        waiting = ["/jobs/shop/assignment?after=0", "/jobs/shop/phase?committed=0&pending=0"]
        told = [await caller.ask("GET", path) for path in (*pages, *waiting)]
        expected = [429 if level else 200] * len(pages) + [429 if level == 2 else 200] * len(waiting)
        assert [it.status for it in told] == expected
        assert {it.json["limit"] for it in told if it.status == 429} <= {"load"}
        assert all("Retry-After" in it.headers for it in told if it.status == 429)
        for served in (await caller.grant(1), await caller.get("/phase"), await caller.ask("GET", "/healthz")):
            assert served.status == 200


def test_a_loop_is_behind_if_several_timers_are_late() -> None:
    overload = Overload(lambda: 0.0)
    levels = []
    for late in (0.0, 5.0, 0.0, 0.3, 0.3, 0.3, 1.1, 1.1, 1.1, 0.0):
        overload.note(late)
        levels.append(overload.level())
    assert levels == [0, 0, 0, 0, 0, 1, 1, 1, 2, 0]


class Peer(asyncio.Transport):
    """A connection of an address."""

    def __init__(self, peer: str) -> None:
        self.peer = peer

    def get_extra_info(self, name: str, default: object = None) -> object:
        return (self.peer, 5) if name == "peername" else default

    def abort(self) -> None:
        pass

    def is_closing(self) -> bool:
        return False


async def test_how_crowded_a_plane_is() -> None:
    """An eighth of 64 connections is 8, and a sixteenth 4."""
    connections = Connections(Limits(connections=64, peer=64), asyncio.Protocol, time.monotonic, lambda _: None)
    connections.know("10.0.0.1")
    doors, levels = list[Door](), list[int]()
    for _ in range(64):
        doors.append(Door(connections))
        doors[-1].connection_made(Peer("10.0.0.1"))
        levels.append(connections.crowding())
    assert levels == [0] * 56 + [1] * 4 + [2] * 4
    for door in doors:
        door.connection_lost(None)
    assert len(connections) == 0 and connections.crowding() == 0
