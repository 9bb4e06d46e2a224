"""Messages between the processes: a JSON text in a line, over TCP on loopback."""

import json
import socket
import threading
from collections.abc import Callable
from typing import Any

Message = dict[str, Any]

SECONDS = 60.0  # until a process is given up that does not answer


class Gone(Exception):
    """A process does not answer."""


def listen() -> socket.socket:
    """Returns a socket on a port of its own."""
    return socket.create_server(("127.0.0.1", 0))


def port_of(listening: socket.socket) -> int:
    return int(listening.getsockname()[1])


def serve(listening: socket.socket, answer: Callable[[Message], Message]) -> None:
    """Answers messages for ever, those of each connection in a thread of their own."""
    while True:
        connection, _ = listening.accept()
        threading.Thread(target=answer_all, args=(connection, answer), daemon=True).start()


def answer_all(connection: socket.socket, answer: Callable[[Message], Message]) -> None:
    """Answers the messages of a connection until its other end is closed."""
    connection.setsockopt(socket.IPPROTO_TCP, socket.TCP_NODELAY, 1)
    with connection, connection.makefile("rwb") as lines:
        try:
            for line in lines:
                lines.write(json.dumps(answer(json.loads(line))).encode() + b"\n")
                lines.flush()
        except (ConnectionError, Gone):
            return


class Connection:
    """A connection to a process, which is made when it is needed. One thread at a time asks."""

    def __init__(self, port: int) -> None:
        self.port = port
        self.lock = threading.Lock()
        self.lines: Any = None

    def ask(self, message: Message) -> Message:
        """Sends a message and returns its answer. Raises Gone if there is none, in which case the
        message may have acted."""
        with self.lock:
            try:
                if self.lines is None:
                    self.lines = self.connect()
                self.lines.write(json.dumps(message).encode() + b"\n")
                self.lines.flush()
                answer = self.lines.readline()
                if not answer.endswith(b"\n"):
                    raise ConnectionResetError
            except (OSError, ValueError) as why:
                self.lines = None
                raise Gone(f"no answer at port {self.port}") from why
            answered: Message = json.loads(answer)
            return answered

    def connect(self) -> Any:
        connection = socket.create_connection(("127.0.0.1", self.port), timeout=SECONDS)
        connection.setsockopt(socket.IPPROTO_TCP, socket.TCP_NODELAY, 1)
        return connection.makefile("rwb")

    def close(self) -> None:
        with self.lock:
            if self.lines is not None:
                self.lines.close()
