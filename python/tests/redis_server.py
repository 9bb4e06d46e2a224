"""A server of Redis for tests, and a client of it that runs scripts."""

import socket
from pathlib import Path

from hourstable.demo.engines import Engine, free_port


class Refused(Exception):
    """The server answered with an error."""


class Client:
    """A connection. It has of redis-py's client what the recipe of examples/fencing uses."""

    def __init__(self, port: int) -> None:
        self._socket = socket.create_connection(("127.0.0.1", port), timeout=10)
        self._lines = self._socket.makefile("rb")

    def eval(self, script: str, numkeys: int, *keys_and_args: str | bytes) -> bytes | int | None:
        return self.ask("EVAL", script, str(numkeys), *keys_and_args)

    def ask(self, *words: str | bytes) -> bytes | int | None:
        """Makes a call. Raises Refused."""
        parts = [word.encode() if isinstance(word, str) else word for word in words]
        body = b"".join(b"$%d\r\n%s\r\n" % (len(part), part) for part in parts)
        self._socket.sendall(b"*%d\r\n%s" % (len(parts), body))
        line = self._lines.readline().rstrip(b"\r\n")
        kind, rest = line[:1], line[1:]
        if kind == b"-":
            raise Refused(rest.decode())
        if kind == b":":
            return int(rest)
        if kind == b"+":
            return rest
        assert kind == b"$", line
        length = int(rest)
        return None if length < 0 else self._lines.read(length + 2)[:-2]

    def close(self) -> None:
        self._lines.close()
        self._socket.close()


def redis(folder: Path) -> Engine:
    """A server that answers after a write is on the disk."""
    folder.mkdir(parents=True)
    port = free_port()
    words = [
        "redis-server", "--port", str(port), "--bind", "127.0.0.1", "--dir", str(folder), "--save", "",
        "--appendonly", "yes", "--appendfsync", "always",
    ]
    return Engine(words, None, folder, f"redis://127.0.0.1:{port}", lambda: _answers(port))


def _answers(port: int) -> bool:
    try:
        client = Client(port)
    except OSError:
        return False
    try:
        return client.ask("PING") == b"PONG"
    except (OSError, Refused):
        return False
    finally:
        client.close()
