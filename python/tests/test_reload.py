"""Callers, secrets and certificates that are read again at SIGHUP, by a control plane in a process of its own."""

import asyncio
import os
import signal
import socket
import ssl
import subprocess
from collections.abc import AsyncIterator
from contextlib import asynccontextmanager
from pathlib import Path

import aiohttp
import pytest

import needed

needed.library()

from hourstable.command import main  # noqa: E402
from serving import Caller  # noqa: E402
from test_command import process  # noqa: E402

READER, ADMIN = "the-secret-of-a-reader", "the-secret-of-an-admin"
SECONDS = 30.0  # in which a busy machine has read the files


def table(name: str, role: str, *members: str) -> str:
    return "\n".join([f"[{name}]", f'role = "{role}"', *members, ""])


def write(path: Path, *tables: str) -> None:
    path.write_text("".join(tables))
    path.chmod(0o600)


async def status_of(url: str, secret: str | None, tls: ssl.SSLContext | None = None) -> int:
    """Returns the status of an answer over a connection of its own, 0 if there is none."""
    headers = {"Authorization": f"Bearer {secret}"} if secret else {}
    async with aiohttp.ClientSession(connector=aiohttp.TCPConnector(ssl=tls)) as session:
        try:
            return (await Caller(url, session).ask("GET", "/jobs", None, headers)).status
        except aiohttp.ClientError:
            return 0


@asynccontextmanager
async def reloaded(running: "subprocess.Popen[str]", url: str, secret: str, result: str) -> AsyncIterator[None]:
    """Sends SIGHUP at the end of the block, and waits until the plane says that it has read its files."""
    yield
    running.send_signal(signal.SIGHUP)
    said, headers = f'hourstable_reloads_total{{result="{result}"}}', {"Authorization": f"Bearer {secret}"}
    async with aiohttp.ClientSession() as session, asyncio.timeout(SECONDS):
        while said not in (await Caller(url, session).ask("GET", "/metrics", None, headers)).body.decode():
            await asyncio.sleep(0.05)


def words_of(folder: Path, *words: str) -> list[str]:
    return ["--store", f"sqlite:{folder}/jobs", "--logs", f"{folder}/logs", "--assigner", "0", *words]


async def test_callers_and_secrets_are_read_again(tmp_path: Path) -> None:
    """Who is no longer there is turned away, also over a connection that is open; a file that is wrong changes
    nothing."""
    file, secrets = tmp_path / "callers.toml", tmp_path / "secrets"
    write(file, table("reader", "read", f'secret = "{READER}"'))
    write(secrets, ADMIN)
    given = words_of(tmp_path, "--callers", str(file), "--secret-file", str(secrets))
    with process(*given) as (running, url):
        headers = {"Authorization": f"Bearer {READER}"}
        async with aiohttp.ClientSession(headers=headers) as session:
            reader = Caller(url, session)
            assert (await reader.ask("GET", "/jobs")).status == 200
            async with reloaded(running, url, ADMIN, "done"):
                write(file, table("reader", "read", 'secret = ["another-secret-of-his"]'))
            assert (await reader.ask("GET", "/jobs")).status == 401
            assert await status_of(url, "another-secret-of-his") == 200
            async with reloaded(running, url, ADMIN, "failed"):
                write(file, "[reader")
            assert await status_of(url, "another-secret-of-his") == 200
            assert running.poll() is None
            write(file, table("reader", "read", f'secret = "{READER}"'))
            write(secrets, "another-secret-of-admins")
            running.send_signal(signal.SIGHUP)
            async with asyncio.timeout(SECONDS):
                while await status_of(url, ADMIN) != 401:
                    await asyncio.sleep(0.05)
            assert (await reader.ask("GET", "/jobs")).status == 200
            assert await status_of(url, "another-secret-of-admins") == 200


async def test_no_secret_of_a_caller_is_stored(tmp_path: Path) -> None:
    """Neither in the store nor in a file that the plane writes."""
    file = tmp_path / "callers.toml"
    write(file, table("admin", "admin", f'secret = "{ADMIN}"'))
    with process(*words_of(tmp_path, "--callers", str(file))) as (_, url):
        async with aiohttp.ClientSession(headers={"Authorization": f"Bearer {ADMIN}"}) as session:
            admin = Caller(url, session)
            assert (await admin.create()).status == 201
            await admin.change(await admin.take(), 1, [[0, [1]]])
            assert (await admin.grant(1)).status == 200
            assert (await admin.post("drain", {"task": 1})).status == 204
        written = [path for path in tmp_path.rglob("*") if path.is_file() and path != file]
        assert {"jobs", "record-0.ndjson"} <= {path.name for path in written}
        assert not [path for path in written if ADMIN.encode() in path.read_bytes()]


def signed(folder: Path, name: str, common: str) -> None:
    """Makes a certificate of the authority of the folder."""
    def run(*words: str) -> None:
        subprocess.run(["openssl", *words], cwd=folder, check=True, capture_output=True)

    run("req", "-newkey", "rsa:2048", "-nodes", "-keyout", f"{name}.key", "-out", f"{name}.csr",
        "-subj", f"/CN={common}")
    run("x509", "-req", "-in", f"{name}.csr", "-CA", "ca.pem", "-CAkey", "ca.key", "-CAcreateserial",
        "-out", f"{name}.pem", "-days", "2", "-extfile", "names")


def shows(folder: Path, name: str | None) -> ssl.SSLContext:
    made = ssl.create_default_context(cafile=str(folder / "ca.pem"))
    if name is not None:
        made.load_cert_chain(folder / f"{name}.pem", folder / f"{name}.key")
    return made


async def test_callers_with_certificates_and_a_new_one_of_the_plane(certificates: Path) -> None:
    """Each certificate has the role of its name; those of --callers with a secret need none. The plane shows its new
    certificate after SIGHUP."""
    at, file = certificates, certificates / "callers.toml"
    signed(at, "other", "of-nobody")
    write(file, table("him", "read", 'certificate = "caller"'), table("her", "read", f'secret = "{READER}"'))
    tls = ["--tls-cert", f"{at}/plane.pem", "--tls-key", f"{at}/plane.key", "--tls-client-ca", f"{at}/ca.pem"]
    with process(*words_of(at, "--callers", str(file), *tls)) as (running, url):
        assert await status_of(url, None, shows(at, "caller")) == 200
        assert await status_of(url, None, shows(at, "other")) == 401
        assert await status_of(url, None, shows(at, None)) == 401
        assert await status_of(url, READER, shows(at, None)) == 200
        assert await status_of(url, READER, ssl.create_default_context()) == 0  # of no authority that is known
        assert await status_of(url, "x" * 16, shows(at, "caller")) == 401  # a header decides alone
        before = (at / "plane.pem").read_text()
        signed(at, "plane", "plane")
        write(file, table("him", "read", 'certificate = "of-nobody"'))
        running.send_signal(signal.SIGHUP)
        async with asyncio.timeout(SECONDS):
            while await status_of(url, None, shows(at, "other")) != 200:
                await asyncio.sleep(0.05)
        assert await status_of(url, None, shows(at, "caller")) == 401
        assert await status_of(url, None, shows(at, None)) == 0  # all callers have certificates: no handshake
        assert before != (at / "plane.pem").read_text()
        shown = await asyncio.to_thread(shown_by, url, shows(at, "other"))
        assert shown == ssl.PEM_cert_to_DER_cert((at / "plane.pem").read_text())


def shown_by(url: str, tls: ssl.SSLContext) -> bytes:
    """Returns the certificate that a plane shows."""
    with socket.create_connection(("127.0.0.1", int(url.rpartition(":")[2])), 10) as plain:
        with tls.wrap_socket(plain, server_hostname="127.0.0.1") as secure:
            shown = secure.getpeercert(binary_form=True)
            assert shown is not None
            return shown


def test_a_plane_does_not_start_with_a_file_that_others_can_read(
    tmp_path: Path, capsys: pytest.CaptureFixture[str]
) -> None:
    file = tmp_path / "callers.toml"
    write(file, table("reader", "read", f'secret = "{READER}"'))
    os.chmod(file, 0o644)
    given = ["control", "--listen", "127.0.0.1:0", *words_of(tmp_path, "--callers", str(file))]
    assert main(given) == 2
    assert "other users may read or write it" in capsys.readouterr().err
    os.chmod(file, 0o600)
    write(file, table("reader", "read", 'certificate = "caller"'))
    assert main(given) == 2
    assert "--tls-client-ca" in capsys.readouterr().err
