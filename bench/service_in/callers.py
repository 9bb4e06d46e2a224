"""Control planes and callers for measurements."""

import json
import os
import selectors
import socket
import subprocess
import sys
import time
import urllib.request
from collections.abc import Iterator
from contextlib import contextmanager
from multiprocessing.queues import Queue
from pathlib import Path
from typing import Any, NamedTuple

PACKAGE = Path(__file__).resolve().parents[2] / "python"


def seconds_of(process: int) -> float:
    """Returns how many seconds of a processor a process has used."""
    fields = Path(f"/proc/{process}/stat").read_text().rpartition(")")[2].split()
    return (int(fields[11]) + int(fields[12])) / os.sysconf("SC_CLK_TCK")


class Plane:
    """A control plane."""

    def __init__(self, url: str, process: "subprocess.Popen[str]") -> None:
        self.url, self.process = url, process
        self.port = int(url.rpartition(":")[2])

    def ask(self, method: str, path: str, body: object) -> Any:
        headers = {"Content-Type": "application/json"}
        request = urllib.request.Request(self.url + path, json.dumps(body).encode(), headers, method=method)
        with urllib.request.urlopen(request, timeout=30) as answer:
            return json.loads(answer.read())

    def begin(self, job: str, policy: object, slices: int = 1, tasks: int = 1) -> None:
        """Creates a job, lets tasks own equal slices in turn, and draws a life of each task that there may be."""
        self.ask("PUT", f"/jobs/{job}", policy)
        term = self.ask("POST", f"/jobs/{job}/take", {"assigner": 1})["number"]
        starts = [((1 << 63) * at // slices, 1 + at % tasks) for at in range(slices)]
        value = {"generation": "1", "slices": [[str(start), [task]] for start, task in starts]}
        message = {"job": job, "type": "assignment", "value": value, "version": 2}
        self.ask("POST", f"/jobs/{job}/propose?term={term}", message)
        self.ask("POST", f"/jobs/{job}/commit", {"term": term})
        for task in range(1, 65):
            self.ask("POST", f"/jobs/{job}/tasks/{task}/life", {})

    def seconds(self) -> float:
        """Returns how many seconds of a processor the plane has used."""
        return seconds_of(self.process.pid)

    def megabytes(self) -> float:
        """Returns how much memory the plane has."""
        text = Path(f"/proc/{self.process.pid}/status").read_text()
        return int(text.partition("VmRSS:")[2].split()[0]) / 1024


@contextmanager
def running(store: str, folder: Path, shared: bool, assigner: int = 0) -> Iterator[Plane]:
    """A control plane as hourstable-service starts it, with no limit to the rate of grants."""
    words = [sys.executable, "-m", "hourstable.command", "control", "--store", store, "--listen", "127.0.0.1:0"]
    words += ["--logs", str(folder), "--assigner", str(assigner), "--grants", "1000000"]
    words += ["--most-connections", "4096", "--most-connections-of-peer", "4096"]
    words += ["--shared" if shared else "--alone"]
    environment = {**os.environ, "PYTHONPATH": str(PACKAGE)}
    with open(f"{folder}.out", "w", encoding="utf-8") as out:
        process = subprocess.Popen(words, stdout=subprocess.PIPE, stderr=out, text=True, env=environment)
    try:
        assert process.stdout is not None
        told = process.stdout.readline().split()
        if not told:
            raise RuntimeError(Path(f"{folder}.out").read_text())
        yield Plane(told[-1], process)
    finally:
        process.terminate()
        process.wait(30)


class Answers(NamedTuple):
    """How long each request took, and what the plane told of the first one."""

    times: list[float]
    first: bytes


class Connection:
    """A connection that sends one request again and again."""

    def __init__(self, port: int, request: bytes) -> None:
        self.socket = socket.create_connection(("127.0.0.1", port))
        self.socket.setsockopt(socket.IPPROTO_TCP, socket.TCP_NODELAY, 1)
        self.request, self.read, self.asked = request, b"", 0.0

    def ask(self) -> None:
        self.asked = time.monotonic()
        self.socket.sendall(self.request)

    def answer(self) -> bytes | None:
        """Reads what has come, and returns the body of the answer once it is whole."""
        self.read += self.socket.recv(1 << 20)
        head, end, body = self.read.partition(b"\r\n\r\n")
        if not end:
            return None
        length = int(head.lower().partition(b"content-length: ")[2].split(b"\r\n")[0])
        if len(body) < length:
            return None
        assert head.startswith(b"HTTP/1.1 200 "), self.read
        self.read = b""
        return body


def ask(port: int, requests: list[bytes], seconds: float, told: "Queue[Answers]") -> None:
    """Sends requests for some seconds, each on a connection of its own."""
    selector, times, first = selectors.DefaultSelector(), [], b""
    end = time.monotonic() + seconds
    for request in requests:
        connection = Connection(port, request)
        selector.register(connection.socket, selectors.EVENT_READ, connection)
        connection.ask()
    waiting = len(requests)
    while waiting:
        for key, _ in selector.select(20):
            body = key.data.answer()
            if body is None:
                continue
            now = time.monotonic()
            first = first or body
            if now < end:
                times.append(now - key.data.asked)
                key.data.ask()
            else:
                waiting -= 1
    told.put(Answers(times, first))


def request_of(method: str, path: str, body: object = None) -> bytes:
    """Returns the bytes of a request, on a connection that is kept."""
    data = b"" if body is None else json.dumps(body).encode()
    lines = [f"{method} {path} HTTP/1.1", "Host: 127.0.0.1", "Content-Type: application/json"]
    lines.append(f"Content-Length: {len(data)}")
    return "\r\n".join([*lines, "", ""]).encode() + data
