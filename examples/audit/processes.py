"""The processes of a service: started, asked and killed."""

import multiprocessing
import os
import threading
import time
from collections.abc import Callable
from dataclasses import replace
from pathlib import Path

from acting import act
from actors import Settings, actor_of
from sockets import Connection, Message, listen, port_of, serve
from tickets import COUNTER, Counter

PutIn = Callable[[str], None]  # puts a bug in the process with this name


def right(name: str) -> None:
    """Puts no bug in."""


class Service:
    """The processes of a service, which end with it: the counter of tickets, the lease table with
    its assigner, tasks, and clients. A folder has their stores and logs. With a seed they act by
    themselves, in real time."""

    def __init__(
        self, folder: Path, settings: Settings, put_in: PutIn = right, seed: int | None = None
    ) -> None:
        folder.mkdir(parents=True, exist_ok=True)
        names = [*(["counter"] if settings.tickets == COUNTER else []), *settings.names()]
        self.listening = {name: listen() for name in names}
        ports = {name: port_of(it) for name, it in self.listening.items()}
        self.settings = replace(settings, ports=ports)
        self.folder, self.put_in, self.seed = folder, put_in, seed
        for log in self.logs():
            (folder / log).touch()
        self.running: dict[str, multiprocessing.process.BaseProcess] = {}
        self.connections: dict[str, Connection] = {}

    def __enter__(self) -> "Service":
        for name in self.listening:
            self.begin(name)
        return self

    def __exit__(self, *_: object) -> None:
        for name in reversed(list(self.running)):
            self.kill(name)
        for listening in self.listening.values():
            listening.close()

    def begin(self, name: str) -> None:
        """Starts a process."""
        forked = multiprocessing.get_context("fork")
        process = forked.Process(target=run, args=(self, name), daemon=True)
        process.start()
        self.running[name] = process
        self.connections[name] = Connection(self.settings.ports[name])

    def kill(self, name: str) -> None:
        """Kills a process."""
        process = self.running.pop(name)
        process.kill()
        process.join()
        self.connections.pop(name).close()

    def leave(self, name: str) -> None:
        """Leaves a process alone, under the name old-NAME, as if it were dead. The next one of its
        name listens elsewhere."""
        old = f"old-{name}"
        self.running[old] = self.running.pop(name)
        self.connections[old] = self.connections.pop(name)
        self.listening[old] = self.listening.pop(name)
        self.listening[name] = listen()
        ports = {**self.settings.ports, name: port_of(self.listening[name])}
        self.settings = replace(self.settings, ports=ports)

    def ask(self, name: str, message: Message) -> Message:
        """Sends a message to a process, which is started if it does not run."""
        if name not in self.running:
            self.begin(name)
        return self.connections[name].ask(message)

    def logs(self) -> list[str]:
        """Returns the names of the logs, that with the job first."""
        return [f"{name}.jsonl" for name in self.settings.names()]


def run(service: Service, name: str) -> None:
    """What a process does: it answers messages, until it is killed or its parent ends."""
    errors = os.open(service.folder / "errors", os.O_WRONLY | os.O_APPEND | os.O_CREAT, 0o644)
    os.dup2(errors, 2)
    threading.Thread(target=end_with, args=(os.getppid(),), daemon=True).start()
    service.put_in(name)
    if name == "counter":
        serve(service.listening[name], Counter().answer)
    actor = actor_of(service.folder, name, service.settings)
    if service.seed is not None:
        act(actor, service.seed)
    serve(service.listening[name], actor.answer)


def end_with(parent: int) -> None:
    while os.getppid() == parent:
        time.sleep(0.2)
    os._exit(1)
