"""A plane whose store does not answer at its start waits for it: probes are answered, all else is refused, and it
begins once the store answers. One whose store refuses it ends at once, and says why."""

import asyncio
import http.server
import os
import signal
import socket
import subprocess
import sys
import threading
import urllib.parse
from collections.abc import AsyncIterator, Iterator
from contextlib import asynccontextmanager, contextmanager
from pathlib import Path
from typing import Protocol

import aiohttp
import pytest

import needed

needed.library()
needed.engine("postgresql")

import psycopg  # noqa: E402

from hourstable.demo.engines import free_port  # noqa: E402
from serving import POLICY, Caller  # noqa: E402
from test_stopped_store import Locked, engine_of, until  # noqa: E402

SERVED = 60.0  # seconds in which a plane has begun, also beside much other work
TRIED = 3.0  # seconds in which a plane with this deadline of its store has tried several times
DEADLINE = "0.5"


class Stopped(Protocol):
    """What stands still, and goes on."""

    def stop(self) -> None: ...

    def go_on(self) -> None: ...


@contextmanager
def store_of(kind: str, folder: Path) -> Iterator[tuple[str, Stopped]]:
    """The URL of a store, and what lets it stand still."""
    if kind == "sqlite":
        with Locked(folder / "jobs.sqlite") as locked:
            yield f"sqlite:{folder}/jobs.sqlite", locked
    else:
        with engine_of(kind) as engine:
            yield engine.url, engine


def words_of(url: str, folder: Path, port: int) -> tuple[list[str], dict[str, str]]:
    """Returns the command of a plane, and its variables."""
    words = [sys.executable, "-m", "hourstable", "control", "--listen", f"127.0.0.1:{port}"]
    words += ["--store-deadline", DEADLINE, "--logs", str(folder / "logs")]
    return words, {**os.environ, "HOURSTABLE_STORE": url}


@asynccontextmanager
async def plane_over(url: str, folder: Path) -> AsyncIterator[tuple["subprocess.Popen[bytes]", Caller]]:
    """The process of a plane, and who calls it."""
    port = free_port()
    words, variables = words_of(url, folder, port)
    with (
        open(folder / "plane.log", "wb") as log,
        subprocess.Popen(words, stdout=log, stderr=log, env=variables) as plane,
    ):
        try:
            async with aiohttp.ClientSession() as session:
                yield plane, Caller(f"http://127.0.0.1:{port}", session)
        finally:
            plane.kill()


async def status_of(caller: Caller, path: str) -> int:
    """Returns the status of a page, 0 if nobody answers."""
    try:
        return (await caller.ask("GET", path)).status
    except aiohttp.ClientError:
        return 0


async def answers(caller: Caller, path: str, status: int) -> bool:
    return await status_of(caller, path) == status


@pytest.mark.parametrize("kind", ["sqlite", "postgresql", "etcd"])
async def test_a_plane_waits_for_a_store_that_stands_still(kind: str, tmp_path: Path) -> None:
    with store_of(kind, tmp_path) as (url, store):
        store.stop()
        async with plane_over(url, tmp_path) as (plane, caller):
            await until(lambda: answers(caller, "/healthz", 200), SERVED)
            ready = await caller.ask("GET", "/readyz")
            assert (ready.status, ready.json["ready"]) == (503, False)
            assert "the plane waits for it since its start" in ready.json["store"]
            refused = await caller.ask("GET", "/jobs")
            assert (refused.status, refused.json["refused"], refused.headers["Retry-After"]) == (503, "store", "1")
            await asyncio.sleep(TRIED)
            assert plane.poll() is None and not await answers(caller, "/readyz", 200)
            told = (tmp_path / "plane.log").read_text()
            assert told.count("the plane waits for it") == 1 and "listening" not in told
            store.go_on()
            await until(lambda: answers(caller, "/readyz", 200), SERVED)
            assert (await caller.create(POLICY)).status == 201
            assert "the store answers" in (tmp_path / "plane.log").read_text()
            plane.send_signal(signal.SIGTERM)
            assert await asyncio.to_thread(plane.wait, SERVED) == 0


async def test_a_plane_that_waits_is_told_to_end(tmp_path: Path) -> None:
    async with plane_over("postgresql://127.0.0.1:1/jobs", tmp_path) as (plane, caller):  # nobody listens there
        await until(lambda: answers(caller, "/healthz", 200), SERVED)
        plane.send_signal(signal.SIGTERM)
        assert await asyncio.to_thread(plane.wait, SERVED) == 0


def told_by(url: str, folder: Path) -> tuple[int, str]:
    """Returns the status of a plane that ends, and what it says."""
    words, variables = words_of(url, folder, free_port())
    ran = subprocess.run(words, env=variables, capture_output=True, text=True, timeout=SERVED, check=False)
    return ran.returncode, ran.stderr


def test_what_postgresql_refuses_ends_the_plane_at_once(tmp_path: Path) -> None:
    with engine_of("postgresql") as engine:
        with psycopg.connect(engine.url, autocommit=True) as admin:
            admin.execute("CREATE USER shopper PASSWORD 'right'")
            admin.execute("REVOKE CREATE ON SCHEMA public FROM PUBLIC")
            (path,), = admin.execute("SHOW hba_file").fetchall()
            rules = Path(path).read_text()
            wanted = "host all shopper 127.0.0.1/32 scram-sha-256\nhost all banned 127.0.0.1/32 reject\n"
            Path(path).write_text(wanted + rules)
            admin.execute("SELECT pg_reload_conf()")
        place = urllib.parse.urlsplit(engine.url).netloc.partition("@")[2]
        for url, why in {
            f"postgresql://shopper:wrong@{place}/postgres": "password authentication failed",
            f"postgresql://shopper@{place}/postgres": "no password",
            f"postgresql://shopper:right@{place}/postgres": "permission denied",
            f"postgresql://banned@{place}/postgres": "pg_hba.conf",
            f"postgresql://nobody@{place}/postgres": "does not exist",
            f"postgresql://hourstable@{place}/nothing": "does not exist",
            f"postgresql://hourstable@{place}/postgres?nonsense=1": "nonsense",
            "postgresql://127.0.0.1:99999/jobs": "99999",
        }.items():
            status, told = told_by(url, tmp_path)
            assert status == 3 and why in told and "wrong@" not in told, (url, status, told)


@pytest.mark.parametrize(("path", "why"), [("missing/jobs", "No such file"), ("text", "not a database")])
def test_a_file_that_is_none_of_sqlite_ends_the_plane_at_once(path: str, why: str, tmp_path: Path) -> None:
    (tmp_path / "text").write_bytes(b"no database" * 1000)
    status, told = told_by(f"sqlite:{tmp_path}/{path}", tmp_path)
    assert status == 3 and why in told


class NoEtcd(http.server.BaseHTTPRequestHandler):
    """Another server than etcd."""

    def do_POST(self) -> None:  # noqa: N802
        self.send_error(404)

    def log_message(self, *_: object) -> None:
        pass


def test_another_server_than_etcd_ends_the_plane_at_once(tmp_path: Path) -> None:
    with http.server.ThreadingHTTPServer(("127.0.0.1", 0), NoEtcd) as server:
        threading.Thread(target=server.serve_forever, daemon=True).start()
        status, told = told_by(f"etcd://127.0.0.1:{server.server_address[1]}", tmp_path)
        server.shutdown()
    assert status == 3 and "404" in told


def test_a_port_that_is_taken_ends_the_plane_at_once(tmp_path: Path) -> None:
    """Also while its store does not answer."""
    with socket.create_server(("127.0.0.1", 0)) as taken:
        words, variables = words_of("etcd://127.0.0.1:1", tmp_path, taken.getsockname()[1])
        ran = subprocess.run(words, env=variables, capture_output=True, text=True, timeout=SERVED, check=False)
    assert ran.returncode == 3 and "in use" in ran.stderr
