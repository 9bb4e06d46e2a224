"""Calls that wait: a plane sends a byte each tenth of a guard term, and each side notices when the other is gone."""

import asyncio
import time
from collections.abc import AsyncIterator, Callable
from contextlib import asynccontextmanager
from pathlib import Path
from urllib.parse import urlsplit

import aiohttp
import pytest
from aiohttp import web

import needed

needed.library()

from hourstable.beats import Later, seconds_of, silence  # noqa: E402
from hourstable.calls import Control, Unreachable  # noqa: E402
from hourstable.store import Store  # noqa: E402
from hourstable.tickets import Tickets  # noqa: E402
from serving import Caller, lines_of, running  # noqa: E402
from test_page import begun  # noqa: E402

LATE = 10.0  # seconds by which a busy machine may be late; a call that nothing ends lasts 30
PHASE = "/phase?committed=1&pending=0"
NEXT = "/assignment?after=1"


class Relay:
    """A way to a plane, which may become a black hole: it takes what is sent, and brings nothing any more."""

    def __init__(self, url: str) -> None:
        self._at = urlsplit(url)
        self.is_black = False
        self._server: asyncio.Server | None = None
        self._tasks: set[asyncio.Task[None]] = set()
        self.url = ""

    async def start(self) -> None:
        self._server = await asyncio.start_server(self._took, "127.0.0.1", 0)
        self.url = f"http://127.0.0.1:{self._server.sockets[0].getsockname()[1]}"

    async def _took(self, reader: asyncio.StreamReader, writer: asyncio.StreamWriter) -> None:
        there = await asyncio.open_connection(self._at.hostname, self._at.port)
        for source, sink in ((reader, there[1]), (there[0], writer)):
            task = asyncio.create_task(self._bring(source, sink))
            self._tasks.add(task)
            task.add_done_callback(self._tasks.discard)

    async def _bring(self, source: asyncio.StreamReader, sink: asyncio.StreamWriter) -> None:
        try:
            while data := await source.read(65_536):
                if not self.is_black:
                    sink.write(data)
        except ConnectionError:
            pass
        finally:
            if not self.is_black:
                sink.close()

    async def stop(self) -> None:
        assert self._server is not None
        self._server.close()
        for task in list(self._tasks):
            task.cancel()
        await asyncio.gather(*self._tasks, return_exceptions=True)


@asynccontextmanager
async def relayed(url: str) -> AsyncIterator[Relay]:
    relay = Relay(url)
    await relay.start()
    try:
        yield relay
    finally:
        await relay.stop()


@asynccontextmanager
async def control(url: str) -> AsyncIterator[Control]:
    async with Control(url, "shop", Tickets(200, None), lambda: 0) as made:
        yield made


async def until(holds: Callable[[], object]) -> None:
    end = time.monotonic() + LATE
    while not holds():
        assert time.monotonic() < end, "it does not come true"
        await asyncio.sleep(0.01)


async def test_bytes_come_while_a_call_waits_and_then_its_answer(file: Store, tmp_path: Path) -> None:
    """The guard term is 5 s, so a byte comes each half second. The ticket is drawn after what the answer tells."""
    async with running(file, tmp_path / "logs") as (plane, caller):
        term = await begun(caller)
        at = urlsplit(caller.url)
        reader, writer = await asyncio.open_connection(at.hostname, at.port)
        head = "Host: 127.0.0.1\r\nHourstable-Beat: 1\r\nConnection: close\r\n"
        request = f"GET /jobs/shop{NEXT} HTTP/1.1\r\n{head}\r\n"
        writer.write(request.encode())
        begins = time.monotonic()
        head = (await asyncio.wait_for(reader.readuntil(b"\r\n\r\n"), LATE)).decode()
        assert head.startswith("HTTP/1.1 200 ") and "\r\nHourstable-Beat: 500\r\n" in head
        assert "\r\nHourstable-Ticket:" not in head
        for _ in range(5):
            assert await asyncio.wait_for(reader.readexactly(6), LATE) == b"1\r\n\n\r\n"  # a chunk of a byte
        assert time.monotonic() - begins > 1.9
        await caller.change(term, 2, [[0, [2]]])
        answered = plane.tickets.draw()
        rest = await asyncio.wait_for(reader.read(), LATE)
        chunk = [it for it in rest.split(b"\r\n") if it.startswith(b"200 ")][0]
        later = Later.read(b"\n\n" + chunk)
        whole = await caller.get("/assignment?after=0")
        assert (later.status, later.body) == (200, whole.body)
        assert plane.tickets.process == int(later.ticket) & 255
        assert answered - (60_000 << 16) < int(later.ticket) < plane.tickets.draw()
        writer.close()


async def test_callers_that_take_no_beats_are_answered_as_before(file: Store, tmp_path: Path) -> None:
    async with running(file, tmp_path / "logs") as (_, caller):
        term = await begun(caller)
        waiting = asyncio.create_task(caller.get(NEXT))
        await asyncio.sleep(0.5)
        assert not waiting.done()
        await caller.change(term, 2, [[0, [2]]])
        told = await asyncio.wait_for(waiting, LATE)
        assert told.status == 200 and told.json["value"]["generation"] == "2"
        assert int(told.headers["Hourstable-Ticket"]) > 0


@pytest.mark.parametrize("headers", [{}, {"Hourstable-Beat": "1"}])
async def test_calls_whose_callers_left_end(file: Store, tmp_path: Path, headers: dict[str, str]) -> None:
    async with running(file, tmp_path / "logs") as (plane, caller):
        await begun(caller)
        before = len(asyncio.all_tasks())
        async with aiohttp.ClientSession(connector=aiohttp.TCPConnector(limit=0)) as session:
            other = Caller(caller.url, session)
            path = "/jobs/shop" + NEXT
            calls = [asyncio.create_task(other.ask("GET", path, None, headers)) for _ in range(100)]
            await until(lambda: plane.waits.waiting == 100)
            for call in calls:
                call.cancel()
            await asyncio.gather(*calls, return_exceptions=True)
        await until(lambda: plane.waits.waiting == 0)
        await until(lambda: len(asyncio.all_tasks()) <= before + 2)
        assert (await caller.grant(1)).status == 200


async def test_a_client_hears_of_a_change_through_beats(file: Store, tmp_path: Path) -> None:
    """What it draws then is above the tickets of all calls that made the change."""
    async with running(file, tmp_path / "logs") as (plane, caller):
        term = await begun(caller)
        async with control(caller.url) as client:
            waiting = [asyncio.create_task(client.call("GET", it, timeout=32.0)) for it in (PHASE, NEXT)]
            await until(lambda: plane.waits.waiting == 2)
            await asyncio.sleep(0.8)
            await caller.change(term, 2, [[0, [2]]])
            phase, assignment = [await asyncio.wait_for(one, LATE) for one in waiting]
            assert phase.value()["committed"] in (1, 2)  # it is proposed, or committed already
            assert assignment.value()["value"]["generation"] == "2"
            assert client.tickets.draw() > max(line["ticket"] for line in lines_of(tmp_path / "logs"))


@pytest.mark.parametrize("when", ["before the call", "while it waits", "while the first call waits"])
async def test_two_missing_beats_end_a_call(file: Store, tmp_path: Path, when: str) -> None:
    async with running(file, tmp_path / "logs") as (plane, caller):
        await begun(caller)
        async with relayed(caller.url) as relay, control(relay.url) as client:
            if when != "while the first call waits":
                assert (await client.call("GET", "/phase")).value()["committed"] == 1
            relay.is_black = when == "before the call"
            waiting = asyncio.create_task(client.call("GET", PHASE, timeout=32.0))
            if not relay.is_black:
                await until(lambda: plane.waits.waiting == 1)
                await asyncio.sleep(0.8)
                assert not waiting.done()
                relay.is_black = True
            with pytest.raises(Unreachable):
                await asyncio.wait_for(waiting, LATE)


async def test_a_plane_of_an_older_version_may_be_silent(tmp_path: Path) -> None:
    """It says nothing of beats, and is waited for."""

    async def phase(_: web.Request) -> web.Response:
        await asyncio.sleep(2.0)
        return web.json_response({"phase": "idle", "committed": 1, "pending": None})

    application = web.Application()
    application.router.add_get("/jobs/shop/phase", phase)
    runner = web.AppRunner(application)
    await runner.setup()
    site = web.TCPSite(runner, "127.0.0.1", 0)
    await site.start()
    async with control(f"http://127.0.0.1:{runner.addresses[0][1]}") as client:
        for _ in range(2):
            assert (await client.call("GET", PHASE, timeout=32.0)).value()["committed"] == 1
    await runner.cleanup()


def test_an_answer_that_is_cut_off() -> None:
    for text in (b"", b"\n\n", b"\n200", b"\n200 17", b"x", b"200 -1\n{}"):
        with pytest.raises(ValueError, match="cut off"):
            Later.read(text)
    assert Later.read(b"\n\n204 17\n") == (204, "17", b"")
    assert Later.read(Later(200, "17", b"{\n}\n").packed()) == (200, "17", b"{\n}\n")


def test_how_long_silence_may_be() -> None:
    assert [seconds_of(it) for it in (None, "1000", "0", "x", "-1", "1" * 9)] == [None, 1.0, None, None, None, None]
    assert [silence(it) for it in (1.0, 0.01)] == [2.5, 0.5]
