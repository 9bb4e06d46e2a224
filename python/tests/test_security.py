"""What who has broken into a place can do, and what not: the cells of docs/SECURITY.md that no other test tries."""

import asyncio
import json
import re
import ssl
import subprocess
from collections.abc import AsyncIterator
from contextlib import asynccontextmanager, suppress
from pathlib import Path
from typing import Any

import aiohttp
import pytest

import needed

needed.library()

from hourstable.answers import KEY  # noqa: E402
from hourstable.callers import Caller as Known  # noqa: E402
from hourstable.callers import Callers, Role  # noqa: E402
from hourstable.callers import Known as KnownBy  # noqa: E402
from hourstable.library import Policy, Refused, Slicelet, Table  # noqa: E402
from hourstable.rights import Rights, Seat  # noqa: E402
from hourstable.service import ControlPlane, Options  # noqa: E402
from hourstable.store import Holding, Store  # noqa: E402
from hourstable.task import Task  # noqa: E402
from hourstable.waiting import within  # noqa: E402
from serving import HALF, POLICY, Answer, Caller, assignment, may_serve, running  # noqa: E402
from waits import until  # noqa: E402

ADMIN, ONE, ASSIGNER = "the-secret-of-an-admin", "the-secret-of-task-1", "the-secret-of-an-assigner"
CALLERS = Callers([
    KnownBy(Known("admin", Role.ADMIN), (ADMIN,)),
    KnownBy(Known("one", Role.TASK, frozenset({"shop"}), 1), (ONE,)),
    KnownBy(Known("assigner", Role.ASSIGNER, frozenset({"shop"})), (ASSIGNER,)),
])
LONG = {**POLICY, "guard": 60_000, "bridge": 60_000, "job": 60_000}


def by(secret: str) -> dict[str, str]:
    return {"Authorization": f"Bearer {secret}"}


# The network. ------------------------------------------------------------------------------------


class Between:
    """Somebody between a caller and a plane, who has all bytes, may change one of those to the plane, and may pass
    nothing on."""

    def __init__(self, port: int) -> None:
        self.port, self.seen, self.changes, self.drops = port, b"", False, False
        self._plane = port

    async def serve(self, reader: asyncio.StreamReader, writer: asyncio.StreamWriter) -> None:
        there, back = await asyncio.open_connection("127.0.0.1", self._plane)
        with suppress(OSError):
            await asyncio.gather(self._pass(reader, back, True), self._pass(there, writer, False))

    async def _pass(self, reader: asyncio.StreamReader, writer: asyncio.StreamWriter, to_plane: bool) -> None:
        try:
            while some := await reader.read(1 << 16):
                self.seen += some
                if self.drops:
                    continue
                if to_plane and self.changes:
                    some = some[:-1] + bytes([some[-1] ^ 1])
                writer.write(some)
                await writer.drain()
        finally:
            writer.close()


@asynccontextmanager
async def between(port: int) -> AsyncIterator[Between]:
    made = Between(port)
    server = await asyncio.start_server(made.serve, "127.0.0.1", 0)
    made.port = server.sockets[0].getsockname()[1]
    async with server:
        yield made


async def test_without_tls_whoever_is_between_uses_the_secrets(file: Store, tmp_path: Path) -> None:
    async with running(file, tmp_path / "logs", callers=CALLERS) as (_, caller):
        async with between(int(caller.url.rpartition(":")[2])) as middle:
            through = Caller(f"http://127.0.0.1:{middle.port}", caller.session)
            assert (await through.ask("GET", "/jobs", None, by(ADMIN))).status == 200
            found = re.search(rb"Authorization: Bearer ([^\r]+)", middle.seen)
            assert found is not None
            told = await caller.ask("PUT", "/jobs/shop", POLICY, by(found[1].decode()))
            assert told.status == 201


async def test_with_tls_whoever_is_between_reads_and_changes_nothing(tmp_path: Path, certificates: Path) -> None:
    """A call that is changed is not done, and its connection ends."""
    tls = ssl.SSLContext(ssl.PROTOCOL_TLS_SERVER)
    tls.load_cert_chain(certificates / "plane.pem", certificates / "plane.key")
    options = Options(f"sqlite:{tmp_path}/jobs.sqlite", tmp_path / "logs", assigner=0, callers=CALLERS, tls=tls)
    connector = aiohttp.TCPConnector(ssl=ssl.create_default_context(cafile=str(certificates / "ca.pem")))
    async with ControlPlane(options) as plane, aiohttp.ClientSession(connector=connector) as session:
        async with between(plane.port) as middle:
            caller = Caller(f"https://127.0.0.1:{middle.port}", session)
            assert (await caller.ask("PUT", "/jobs/shop", POLICY, by(ADMIN))).status == 201
            assert middle.seen and ADMIN.encode() not in middle.seen and b"guard" not in middle.seen
            middle.changes = True
            with pytest.raises((aiohttp.ClientError, OSError)):
                await caller.ask("PUT", "/jobs/cart", POLICY, by(ADMIN))
            middle.changes = False
            assert (await caller.ask("GET", "/jobs", None, by(ADMIN))).json == {"jobs": ["shop"]}


@asynccontextmanager
async def serving_all(folder: Path, callers: Callers, tls: ssl.SSLContext | None) -> AsyncIterator[int]:
    """The port of a plane at which task 1 owns all keys."""
    options = Options(f"sqlite:{folder}/jobs.sqlite", folder / "logs", assigner=0, callers=callers, tls=tls)
    trusting = aiohttp.TCPConnector(ssl=False)
    async with ControlPlane(options) as plane:
        async with aiohttp.ClientSession(headers=by(ADMIN), connector=trusting) as session:
            caller = Caller(f"http{'s' if tls else ''}://127.0.0.1:{plane.port}", session)
            assert (await caller.create()).status == 201
            await caller.change(await caller.take(), 1, [[0, [1]]])
            yield plane.port


def shows(folder: Path, name: str) -> ssl.SSLContext:
    """What a plane shows: a certificate of a folder."""
    made = ssl.SSLContext(ssl.PROTOCOL_TLS_SERVER)
    made.load_cert_chain(folder / f"{name}.pem", folder / f"{name}.key")
    return made


def knows(authority: Path) -> ssl.SSLContext:
    return ssl.create_default_context(cafile=str(authority))


async def test_with_tls_whoever_is_between_drops_calls_and_leases_end(tmp_path: Path, certificates: Path) -> None:
    """The task denies its keys then, and serves them again once its calls come through."""
    async with serving_all(tmp_path, CALLERS, shows(certificates, "plane")) as port, between(port) as middle:
        url, tls = f"https://127.0.0.1:{middle.port}", knows(certificates / "ca.pem")
        async with Task(url, "shop", 1, logs=None, secret=ONE, tls=tls, timeout=0.5) as task:
            await until(lambda: may_serve(task))
            middle.drops = True
            await until(lambda: not may_serve(task) and task.state.startswith("cut off"))
            middle.drops = False
            await until(lambda: may_serve(task))
        assert middle.seen and ONE.encode() not in middle.seen


async def test_without_tls_whoever_answers_for_a_plane_is_believed(tmp_path: Path) -> None:
    async with serving_all(tmp_path, Callers(), None) as port, between(port) as middle:
        url = f"http://127.0.0.1:{middle.port}"
        async with Task(url, "shop", 1, logs=None, secret=ONE, timeout=0.5) as task:
            await until(lambda: may_serve(task))
        assert ONE.encode() in middle.seen


async def test_with_tls_nobody_answers_for_a_plane(tmp_path: Path, certificates: Path) -> None:
    """Who has no certificate of the authority that a task knows is told nothing by it, and not heard."""
    words = ["-keyout", "own.key", "-out", "own.pem", "-subj", "/CN=plane", "-addext", "subjectAltName=IP:127.0.0.1"]
    made = ["openssl", "req", "-x509", "-newkey", "rsa:2048", "-nodes", "-days", "2", *words]
    subprocess.run(made, cwd=tmp_path, check=True, capture_output=True)
    async with serving_all(tmp_path, Callers(), shows(tmp_path, "own")) as port, between(port) as middle:
        url = f"https://127.0.0.1:{middle.port}"
        for tls, is_believed in ((knows(certificates / "ca.pem"), False), (knows(tmp_path / "own.pem"), True)):
            task = Task(url, "shop", 1, logs=None, secret=ONE, tls=tls, timeout=0.5)
            try:
                with suppress(TimeoutError):
                    await within(2.0, task.start())
                if is_believed:
                    await until(lambda: may_serve(task))  # noqa: B023
                assert may_serve(task) == is_believed and middle.seen
            finally:
                await task.stop()


async def test_who_is_turned_away_moves_no_ticket(file: Store, tmp_path: Path) -> None:
    """A caller with a secret does: a plane follows the tickets of the calls that it makes."""
    async with running(file, tmp_path / "logs", callers=CALLERS) as (_, caller):

        async def is_followed(path: str, secret: str, status: int) -> bool:
            """Whether the plane follows a ticket of two days ahead, with which a call is made."""
            now = int((await caller.ask("GET", "/healthz")).headers["Hourstable-Ticket"])
            ahead = now + (2 * 86_400_000 << 16)
            told = await caller.ask("GET", path, None, {**by(secret), "Hourstable-Ticket": str(ahead)})
            assert told.status == status
            return int((await caller.ask("GET", "/healthz")).headers["Hourstable-Ticket"]) > ahead

        assert not await is_followed("/jobs", "a-secret-of-nobody", 401)
        assert not await is_followed("/healthz", "a-secret-of-nobody", 200)
        assert not await is_followed("/readyz", ADMIN, 200)
        assert await is_followed("/jobs", ADMIN, 200)


# Hosts of callers. -------------------------------------------------------------------------------


class Shop:
    """The job, whose keys tasks 1 and 2 own, and callers of it."""

    def __init__(self, caller: Caller) -> None:
        self._caller = caller

    async def ask(self, secret: str, call: str, body: object, headers: dict[str, str] | None = None) -> Answer:
        return await self._caller.ask("POST", f"/jobs/shop/{call}", body, {**by(secret), **(headers or {})})

    async def begin(self) -> int:
        """Creates the job, and returns the term of the assigner."""
        assert (await self._caller.ask("PUT", "/jobs/shop", LONG, by(ADMIN))).status == 201
        term: int = (await self.ask(ASSIGNER, "take", {"assigner": 1})).json["number"]
        await self.change(term, 1, [[0, [1]], [HALF, [2]]])
        return term

    async def change(self, term: int, generation: int, slices: list[Any]) -> Answer:
        proposed = await self.ask(ASSIGNER, f"propose?term={term}", assignment(generation, slices))
        assert proposed.status == 200, proposed
        return await self.ask(ASSIGNER, "commit", {"term": term})

    async def loads(self) -> Any:
        return (await self._caller.ask("GET", "/jobs/shop/loads", None, by(ADMIN))).json["loads"]

    async def draw(self) -> dict[str, Any]:
        """Draws a life of task 1, and returns by what it asks."""
        told = (await self.ask(ONE, "tasks/1/life", {})).json
        return {"task": 1, "life": told["life"], "key": told["key"]}


@asynccontextmanager
async def shop(file: Store, folder: Path) -> AsyncIterator[Shop]:
    async with running(file, folder, callers=CALLERS) as (_, caller):
        yield Shop(caller)


def note_of(asked: dict[str, Any], number: str) -> bytes:
    value = {"kind": "guard", "life": asked["life"], "number": number, "task": asked["task"]}
    return json.dumps({"job": "shop", "type": "note", "value": value, "version": 2}).encode()


async def test_a_task_reports_loads_gives_back_its_leases_and_begins_a_life(file: Store, tmp_path: Path) -> None:
    """After that the process that it was is overtaken."""
    async with shop(file, tmp_path / "logs") as made:
        await made.begin()
        before = await made.draw()
        granted = await made.ask(ONE, "grant", before)
        assert granted.status == 200
        load = {**before, "loads": [[0, HALF, 7]]}
        assert (await made.ask(ONE, "loads", load)).status == 204 and await made.loads()
        later = await made.draw()
        waits = await made.ask(ONE, "grant", later)
        assert (waits.status, waits.json["refused"]) == (409, "waiting")
        note = note_of(before, granted.json["value"]["number"])
        assert (await made.ask(ONE, "free", note, {KEY: before["key"]})).json == {"freed": 1}
        assert (await made.ask(ONE, "grant", later)).status == 200
        over = await made.ask(ONE, "grant", before)
        assert (over.status, over.json["refused"]) == (409, "overtaken")


async def test_an_assigner_moves_keys_and_leases_protect_who_serves_them(file: Store, tmp_path: Path) -> None:
    async with shop(file, tmp_path / "logs") as made:
        term = await made.begin()
        asked = await made.draw()
        granted = await made.ask(ONE, "grant", asked)
        assert granted.status == 200
        held = await made.change(term, 2, [[0, [2]]])
        assert (held.status, held.json["refused"]) == (409, "held")
        note = note_of(asked, granted.json["value"]["number"])
        assert (await made.ask(ONE, "free", note, {KEY: asked["key"]})).json == {"freed": 1}
        assert (await made.ask(ASSIGNER, "commit", {"term": term})).json == {"generation": 2}


def test_a_task_serves_keys_that_are_not_its_own_by_messages_without_a_signature() -> None:
    """Who has a task's host forges a grant of all keys, which the library takes from whoever delivers it; a forged
    note frees the record of another task's lease, so the table lets a change pass that this lease holds up."""
    policy = Policy(1, 1, *(LONG[name] for name in ("skew", "guard", "bridge", "job", "numbers")))
    with Table("shop", policy) as table, Slicelet("shop", 1) as forger, Slicelet("shop", 2) as owner:
        term = table.take(1, 0).number
        table.propose(term, assignment(1, [[0, [2]]]), 0)
        table.commit(term, 0)
        granted = table.grant(2, 1, 0)
        owner.start(1, 0)
        owner.hear(granted, 0)
        forger.start(1, 0)
        grant = json.loads(granted)
        grant["value"]["task"] = 1
        forger.hear(json.dumps(grant).encode(), 0)
        assert forger.serve(b"hello", 1).generation == owner.serve(b"hello", 1).generation == 1
        table.propose(term, assignment(2, [[0, [3]]]), 1)
        with pytest.raises(Refused, match="held"):
            table.commit(term, 1)
        assert table.free(note_of({"task": 2, "life": 1}, grant["value"]["number"]), 1) == 1
        assert table.commit(term, 1) == 2 and owner.serve(b"hello", 1)


# The store. --------------------------------------------------------------------------------------


async def test_whoever_reads_the_store_has_the_keys_of_all_lives(file: Store, tmp_path: Path) -> None:
    async with shop(file, tmp_path / "logs") as made:
        await made.begin()
        asked = await made.draw()
        number = (await made.ask(ONE, "grant", asked)).json["value"]["number"]
        stored = await file.load("shop")
        assert stored is not None
        key = Rights.read("shop", stored.rights).key(1, asked["life"])
        assert key == asked["key"]
        assert (await made.ask(ADMIN, "free", note_of(asked, number), {KEY: key})).json == {"freed": 1}


async def test_a_plane_takes_from_its_store_who_may_act(file: Store, tmp_path: Path) -> None:
    """Whoever writes there lets in and overtakes whom they like."""
    async with shop(file, tmp_path / "logs") as made:
        await made.begin()
        asked = await made.draw()
        stored = await file.load("shop")
        assert stored is not None
        rights = Rights.read("shop", stored.rights)
        rights.seats[1] = Seat(asked["life"] + 7, 0, True)
        holding = Holding(stored.holder, stored.holder, rights.text(rights.ticket))
        await file.swap("shop", stored.version, stored.kept, stored.line, holding)
        for _ in range(2):  # the first write of the plane meets what was written
            told = await made.ask(ONE, "grant", asked)
        assert (told.json["refused"], told.json["admitted"]) == ("overtaken", asked["life"] + 7)


class Forgetful:
    """A store that says that it wrote a row, and has lost it."""

    def __init__(self, store: Store) -> None:
        self._store, self.is_losing = store, False

    async def swap(self, job: str, version: int, *row: Any) -> int:
        return version + 1 if self.is_losing else await self._store.swap(job, version, *row)

    def __getattr__(self, name: str) -> Any:
        return getattr(self._store, name)


@pytest.mark.parametrize("is_losing", [False, True])
async def test_a_plane_takes_from_its_store_that_no_write_is_lost(
    is_losing: bool, file: Store, tmp_path: Path
) -> None:
    """Else the next plane knows of no lease, and gives the keys to another task meanwhile."""
    store: Any = Forgetful(file)
    async with running(store, tmp_path / "one/logs", ahead=(0, 0)) as (_, caller):
        assert (await caller.create(LONG)).status == 201
        term = await caller.take()
        await caller.change(term, 1, [[0, [1]]])
        store.is_losing = is_losing
        assert (await caller.grant(1)).status == 200
        store.is_losing = True  # as after a crash, the plane stores nothing at its end
    async with running(file, tmp_path / "two/logs") as (_, caller):
        proposed = await caller.post(f"propose?term={term}", assignment(2, [[0, [2]]]))
        assert proposed.status == 200
        told = await caller.post("commit", {"term": term})
        assert (told.status, told.json.get("refused")) == ((200, None) if is_losing else (409, "grace"))
