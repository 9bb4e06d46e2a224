"""Calls that a plane hands on to the holder of a job: for whom, by which secret, and over TLS."""

import asyncio
import ssl
import subprocess
from collections.abc import AsyncIterator
from contextlib import AsyncExitStack, asynccontextmanager
from pathlib import Path
from typing import NamedTuple

import aiohttp
import pytest
from aiohttp import web

import needed

needed.library()

from hourstable.callers import Caller as Known  # noqa: E402
from hourstable.callers import Callers, Role  # noqa: E402
from hourstable.callers import Known as KnownBy  # noqa: E402
from hourstable.calls import HOLDER  # noqa: E402
from hourstable.peers import Beat  # noqa: E402
from hourstable.service import ControlPlane, Options  # noqa: E402
from hourstable.store import Store  # noqa: E402
from serving import HALF, POLICY, Caller, running  # noqa: E402
from test_lives import note_of  # noqa: E402
from waits import until  # noqa: E402

ADMIN, READER = "the-secret-of-an-admin", "the-secret-of-a-reader"
ONE, TWO = "the-secret-of-task-1", "the-secret-of-task-2"
LONG = {**POLICY, "guard": 10_000, "bridge": 10_000}
STANDBY = 1.0
CALLERS = Callers([
    KnownBy(Known("admin", Role.ADMIN), (ADMIN,)), KnownBy(Known("reader", Role.READ), (READER,)),
    KnownBy(Known("one", Role.TASK, frozenset({"shop"}), 1), (ONE,)),
    KnownBy(Known("two", Role.TASK, frozenset({"shop"}), 2), (TWO,)),
])


def by(secret: str) -> dict[str, str]:
    return {"Authorization": f"Bearer {secret}"}


async def begun(caller: Caller, headers: dict[str, str]) -> None:
    """Creates the job, and draws a life of each of two tasks."""
    async def post(call: str, body: object) -> object:
        made = await caller.ask("POST", f"/jobs/shop/{call}", body, headers)
        assert made.status == 200, made
        return made.json

    assert (await caller.ask("PUT", "/jobs/shop", LONG, headers)).status == 201
    term = (await post("take", {"assigner": 1}))["number"]  # type: ignore[index]
    value = {"generation": "1", "slices": [["0", [1]], [str(HALF), [2]]]}
    await post(f"propose?term={term}", {"job": "shop", "type": "assignment", "value": value, "version": 2})
    await post("commit", {"term": term})
    for task in (1, 2):
        await post(f"tasks/{task}/life", {})


async def test_calls_that_are_handed_on_keep_the_role_of_their_caller(file: Store, tmp_path: Path) -> None:
    logs = tmp_path / "logs"
    async with running(file, logs, 1, True, STANDBY, callers=CALLERS) as (holder, first):
        await begun(first, by(ADMIN))
        async with running(file, logs, 2, True, STANDBY, callers=CALLERS) as (other, second):
            await until(lambda: (holder.peers.others(), other.peers.others()) == ([2], [1]))
            asked = (ONE, 1, 200), (TWO, 2, 200), (ONE, 2, 403), (TWO, 1, 403), (READER, 1, 403)
            for secret, task, status in asked:
                body = {"task": task, "life": 1}
                told = await second.ask("POST", "/jobs/shop/grant", body, by(secret))
                assert told.status == status, (secret, task, told)
                assert (HOLDER in told.headers) == (status == 200)  # the holder did it
            for secret, status in ((ONE, 403), (READER, 403), (ADMIN, 409)):
                told = await second.ask("POST", "/jobs/shop/renew", {"term": 9}, by(secret))
                assert told.status == status, (secret, told)
            assert holder.jobs["shop"].job.is_held


async def test_what_a_call_has_that_is_handed_on(file: Store, tmp_path: Path) -> None:
    """The key of a life goes with it, and the reading and the ticket come back."""
    logs = tmp_path / "logs"
    async with running(file, logs, 1, True, STANDBY, callers=CALLERS) as (holder, first):
        await begun(first, by(ADMIN))
        async with running(file, logs, 2, True, STANDBY, poll=60, callers=CALLERS) as (other, second):
            await until(lambda: (holder.peers.others(), other.peers.others()) == ([2], [1]))
            drawn = (await second.ask("POST", "/jobs/shop/tasks/1/life", {}, by(ONE))).json
            ahead = holder.tickets.draw() + (3_600_000 << 16)  # an hour
            holder.tickets.observe(ahead)
            asked = {"task": 1, "life": drawn["life"], "key": drawn["key"]}
            granted = await second.ask("POST", "/jobs/shop/grant", asked, by(ONE))
            assert granted.status == 200 and HOLDER in granted.headers and granted.reading is not None
            assert other.tickets.draw() > ahead
            note = note_of(granted.json["value"])
            keyed = {**by(ONE), "Hourstable-Key": drawn["key"]}
            freed = await second.ask("POST", "/jobs/shop/free", note, keyed)
            assert HOLDER in freed.headers and freed.json == {"freed": 1}
            for secret, status in ((TWO, 204), (ONE, 403)):  # the holder looks whose task it is
                told = await second.ask("POST", "/jobs/shop/loads", {"task": 2, "loads": []}, by(secret))
                assert told.status == status and (HOLDER in told.headers) == (status == 204), told


class Listener(NamedTuple):
    """Something that listens in place of a plane, and what it was told by whom."""

    url: str
    secrets: list[str]


@asynccontextmanager
async def listening(tls: ssl.SSLContext | None = None) -> AsyncIterator[Listener]:
    secrets: list[str] = []

    async def answer(request: web.Request) -> web.Response:
        secrets.append(request.headers.get("Authorization", ""))
        return web.json_response({}, status=503)

    app = web.Application()
    app.router.add_route("*", "/{path:.*}", answer)
    runner = web.AppRunner(app)
    await runner.setup()
    site = web.TCPSite(runner, "127.0.0.1", 0, ssl_context=tls)
    await site.start()
    try:
        yield Listener(f"http{'s' if tls else ''}://127.0.0.1:{runner.addresses[0][1]}", secrets)
    finally:
        await runner.cleanup()


async def test_whoever_writes_a_beat_learns_the_secret_of_planes(file: Store, tmp_path: Path) -> None:
    """So only planes may write to their store."""
    async with listening() as listener:
        async with running(file, tmp_path / "logs", 1, True, STANDBY, callers=CALLERS):
            await file.beat(5, Beat("forged", listener.url, 1, {}, frozenset()).text())
            await until(lambda: f"Bearer {ADMIN}" in listener.secrets)


class Trust(NamedTuple):
    """The certificate by which a plane is known, and whom it knows as a plane."""

    own: ssl.SSLContext
    peers: ssl.SSLContext


def trust(certificates: Path, authority: Path | None) -> Trust:
    own = ssl.SSLContext(ssl.PROTOCOL_TLS_SERVER)
    own.load_cert_chain(certificates / "plane.pem", certificates / "plane.key")
    return Trust(own, ssl.create_default_context(cafile=str(authority) if authority else None))


@asynccontextmanager
async def over_tls(tmp_path: Path, number: int, given: Trust) -> AsyncIterator[tuple[ControlPlane, Caller]]:
    options = Options(
        f"sqlite:{tmp_path}/jobs.sqlite", tmp_path / "logs", process=number, shared=True, standby=STANDBY, assigner=0,
        callers=CALLERS, tls=given.own, peer_tls=given.peers,
    )
    connector = aiohttp.TCPConnector(ssl=ssl.create_default_context(cafile=str(tmp_path / "ca.pem")))
    async with ControlPlane(options) as plane, aiohttp.ClientSession(connector=connector) as session:
        yield plane, Caller(f"https://127.0.0.1:{plane.port}", session)


def strange(folder: Path) -> ssl.SSLContext:
    """A certificate that no authority of a plane has signed."""
    subprocess.run(
        ["openssl", "req", "-x509", "-newkey", "rsa:2048", "-nodes", "-keyout", "strange.key", "-out", "strange.pem",
         "-subj", "/CN=127.0.0.1", "-addext", "subjectAltName=IP:127.0.0.1", "-days", "2"],
        cwd=folder, check=True, capture_output=True,
    )
    made = ssl.SSLContext(ssl.PROTOCOL_TLS_SERVER)
    made.load_cert_chain(folder / "strange.pem", folder / "strange.key")
    return made


async def is_handed_on(caller: Caller) -> bool:
    """Whether the holder does a call; a busy machine gets some tries."""
    for _ in range(5):
        told = await caller.ask("POST", "/jobs/shop/grant", {"task": 1, "life": 1}, by(ONE))
        assert told.status in (200, 503), told
        if told.status == 200:
            return HOLDER in told.headers
        await asyncio.sleep(STANDBY / 5)
    return False


@pytest.mark.parametrize("knows", [True, False])
async def test_calls_that_are_handed_on_over_tls(tmp_path: Path, certificates: Path, knows: bool) -> None:
    """A plane hands a call on to who shows a certificate of its authority, and sends its secret to nobody else."""
    holds, stands = (trust(certificates, certificates / "ca.pem" if it else None) for it in (True, knows))
    async with AsyncExitStack() as stack:
        one, first = await stack.enter_async_context(over_tls(tmp_path, 1, holds))
        await begun(first, by(ADMIN))
        two, second = await stack.enter_async_context(over_tls(tmp_path, 2, stands))
        assert one.plane is not None and two.plane is not None
        holder, other = one.plane, two.plane
        await until(lambda: (holder.peers.others(), other.peers.others()) == ([2], [1]))
        assert await is_handed_on(second) == knows
        listener = await stack.enter_async_context(listening(strange(tmp_path)))
        beat = Beat("forged", listener.url, 1, {}, frozenset()).text()
        await other.store.beat(5, beat)
        await until(lambda: 5 in other.peers.others())
        await asyncio.sleep(2 * other.peers.interval)  # in which it asks whether that answers
        assert not listener.secrets
