"""Servers of stores: each is started in a folder of its own, on loopback."""

import glob
import http.client
import importlib.util
import os
import pwd
import shutil
import signal
import socket
import ssl
import subprocess
import threading
import time
from collections.abc import Callable
from contextlib import suppress
from pathlib import Path

from hourstable.demo.processes import die_with_parent

POSTGRESQL = "/usr/lib/postgresql/*/bin/initdb"  # of each version that Debian installed
PATIENCE = 120.0  # a server that was killed replays its log, perhaps beside much other work
_KEPT: list[socket.socket] = []  # the sockets of free_port


def missing(kind: str) -> str | None:
    """Returns why an engine cannot be started here, and the package of Debian that brings what is
    missing; None if it can."""
    if kind == "etcd" and shutil.which("etcd") is None:
        return "there is no etcd: install it by `apt-get install etcd-server`"
    if kind == "postgresql":
        if _initdb() is None:
            return f"there is no {POSTGRESQL}: install it by `apt-get install postgresql`"
        for name in ("psycopg", "psycopg_pool"):
            if importlib.util.find_spec(name) is None:
                package = f"python3-{name.replace('_', '-')}"
                return f"there is no {name}: install it by `apt-get install {package}`"
        if os.geteuid() == 0 and _other_user() is None:
            return "PostgreSQL does not run as root, and there is no user postgres or nobody"
    return None


def _initdb() -> Path | None:
    """Returns the initdb of the newest PostgreSQL."""
    found = [path for path in glob.glob(POSTGRESQL) if path.split("/")[-3].isdigit()]
    return Path(max(found, key=lambda path: int(path.split("/")[-3]))) if found else None


def free_port() -> int:
    """Returns a port of 127.0.0.1 that is kept until this process ends. The kernel gives it to no
    connection and to no other server that asks for any port. A server that is started for it listens
    at it, since such servers set SO_REUSEADDR, as the socket does that keeps it."""
    kept = socket.socket()
    kept.setsockopt(socket.SOL_SOCKET, socket.SO_REUSEADDR, 1)
    kept.bind(("127.0.0.1", 0))
    _KEPT.append(kept)
    port: int = kept.getsockname()[1]
    return port


def _other_user() -> pwd.struct_passwd | None:
    for name in ("postgres", "nobody"):
        try:
            return pwd.getpwnam(name)
        except KeyError:
            pass
    return None


def _children_of(process: int) -> list[int]:
    children = []
    for status in Path("/proc").glob("[0-9]*/stat"):
        try:
            parent = int(status.read_text().rpartition(")")[2].split()[1])
        except OSError:
            continue
        if parent == process:
            children.append(int(status.parent.name))
    return children


def _runs(process: int) -> bool:
    try:
        return Path(f"/proc/{process}/stat").read_text().rpartition(")")[2].split()[0] != "Z"
    except OSError:
        return False


class Engine:
    """A process of an engine, which may be killed and started again over the same folder. It runs
    within a `with`."""

    def __init__(
        self, words: list[str], user: pwd.struct_passwd | None, folder: Path, url: str,
        is_ready: Callable[[], bool],
    ) -> None:
        self.words, self.user, self.folder, self.url = words, user, folder, url
        self.is_ready = is_ready
        self.process: subprocess.Popen[bytes] | None = None

    def __enter__(self) -> "Engine":
        try:
            self.start()
        except BaseException:
            self.kill()
            raise
        return self

    def __exit__(self, *_: object) -> None:
        self.kill()

    def start(self) -> None:
        """Starts it, and waits until it is ready. It gets no signals of the terminal. It dies with
        this process if the main thread starts it; with another one it would die with the thread."""
        uid = self.user.pw_uid if self.user else None
        is_main = threading.current_thread() is threading.main_thread()
        with open(self.folder / "engine.log", "ab") as log:
            self.process = subprocess.Popen(
                self.words, stdin=subprocess.DEVNULL, stdout=log, stderr=log, cwd=self.folder,
                user=uid, process_group=0, preexec_fn=die_with_parent if is_main else None,
            )
        end = time.monotonic() + PATIENCE
        while not self.is_ready():
            if self.process.poll() is not None or time.monotonic() > end:
                raise RuntimeError((self.folder / "engine.log").read_text()[-2000:])
            time.sleep(0.05)

    def stop(self) -> None:
        """Lets it stand still, its children too. Its kernel goes on: it takes connections, and
        acknowledges what they send."""
        assert self.process is not None
        self.process.send_signal(signal.SIGSTOP)  # it starts no more children
        for child in _children_of(self.process.pid):
            with suppress(ProcessLookupError):
                os.kill(child, signal.SIGSTOP)

    def go_on(self) -> None:
        """Lets it go on after it was stopped."""
        assert self.process is not None
        for process in (*_children_of(self.process.pid), self.process.pid):
            with suppress(ProcessLookupError):
                os.kill(process, signal.SIGCONT)

    def kill(self) -> None:
        """Kills the process and its children, which outlive it for a while in PostgreSQL, and waits
        for their end."""
        if self.process is not None:
            self.process.send_signal(signal.SIGSTOP)  # it starts no more children
            children = _children_of(self.process.pid)
            self.process.kill()
            self.process.wait()
            self.process = None
            for child in children:
                with suppress(ProcessLookupError):
                    os.kill(child, signal.SIGKILL)
            end = time.monotonic() + PATIENCE
            while any(map(_runs, children)) and time.monotonic() < end:
                time.sleep(0.01)


def postgresql(folder: Path) -> Engine:
    user, initdb = _other_user() if os.geteuid() == 0 else None, _initdb()
    assert initdb is not None, missing("postgresql")
    folder.mkdir(parents=True)
    if user:
        os.chown(folder, user.pw_uid, user.pw_gid)
    data, port = folder / "data", free_port()
    subprocess.run(
        [str(initdb), "-D", str(data), "-U", "hourstable", "-A", "trust"],
        check=True, stdout=subprocess.DEVNULL, cwd=folder, user=user.pw_uid if user else None,
    )
    words = [
        str(initdb.with_name("postgres")), "-D", str(data), "-p", str(port),
        "-k", "", "-c", "listen_addresses=127.0.0.1", "-c", "max_connections=50",
    ]
    url = f"postgresql://hourstable@127.0.0.1:{port}/postgres"
    return Engine(words, user, folder, url, lambda: _takes_postgresql(url))


def _takes_postgresql(url: str) -> bool:
    import psycopg

    try:
        psycopg.connect(url, connect_timeout=2).close()
        return True
    except psycopg.OperationalError:
        return False


def etcd(folder: Path) -> Engine:
    return etcd_members(folder, 1)[0]


def etcd_members(folder: Path, count: int) -> list[Engine]:
    """The members of a cluster. None of them is ready before most of them run."""
    ports, peers = ([free_port() for _ in range(count)] for _ in range(2))
    cluster = ",".join(f"member{at}=http://127.0.0.1:{peer}" for at, peer in enumerate(peers))
    return [
        _member(folder / f"member{at}", "http", port, [
            "--name", f"member{at}", "--initial-cluster", cluster,
            "--listen-peer-urls", f"http://127.0.0.1:{peer}",
            "--initial-advertise-peer-urls", f"http://127.0.0.1:{peer}",
        ])
        for at, (port, peer) in enumerate(zip(ports, peers))
    ]


def etcd_with_tls(folder: Path, ca: Path, certificate: Path, key: Path) -> Engine:
    """A member that wants a certificate of its callers."""
    peer = f"http://127.0.0.1:{free_port()}"
    words = [
        "--initial-cluster", f"default={peer}", "--listen-peer-urls", peer,
        "--initial-advertise-peer-urls", peer, "--client-cert-auth",
        "--trusted-ca-file", str(ca), "--cert-file", str(certificate), "--key-file", str(key),
    ]
    tls = ssl.create_default_context(cafile=str(ca))
    tls.load_cert_chain(certificate, key)
    return _member(folder, "https", free_port(), words, tls)


def _member(
    folder: Path, scheme: str, port: int, words: list[str], tls: ssl.SSLContext | None = None
) -> Engine:
    folder.mkdir(parents=True)
    url = f"{scheme}://127.0.0.1:{port}"
    words = [
        "etcd", "--data-dir", str(folder / "data"),
        "--listen-client-urls", url, "--advertise-client-urls", url, *words,
    ]
    store = url.replace("http", "etcd")
    return Engine(words, None, folder, store, lambda: _takes_etcd(port, tls))


def _takes_etcd(port: int, tls: ssl.SSLContext | None) -> bool:
    if tls is None:
        connection = http.client.HTTPConnection("127.0.0.1", port, timeout=2)
    else:
        connection = http.client.HTTPSConnection("127.0.0.1", port, timeout=2, context=tls)
    try:
        connection.request("GET", "/health")
        return b'"true"' in connection.getresponse().read()
    except (OSError, http.client.HTTPException):
        return False
    finally:
        connection.close()


STARTS = {"postgresql": postgresql, "etcd": etcd}
