"""Connections in memory between simulated hosts, with what TCP does when a link, a host or a process
fails.

Bytes of a connection arrive in order. Those that meet a cut link wait for its mend and for the
retransmission after it; a connection may also turn into a black hole for one or both directions. A
killed process has its connections closed by its kernel; at the crash of its host nobody is told, and
who sends later gets a reset once the host runs again.
"""

import asyncio
from collections.abc import Callable
from functools import partial
from typing import TYPE_CHECKING, Any

from .world import Process

if TYPE_CHECKING:
    from .network import Link, Network

HIGH, LOW = 64 << 10, 16 << 10  # bytes under way at which a writer is paused, and goes on
Factory = Callable[[], asyncio.BaseProtocol]


class End(asyncio.Transport):
    """An end of a connection: the transport of its process, and the socket of its host."""

    def __init__(self, network: "Network", process: Process, name: tuple[str, int]) -> None:
        super().__init__()
        self.process, self.name, self._network = process, name, network
        self.peer: "End"
        self.is_gone = False  # the host has no such socket any more
        self.is_lost = False  # what it sends vanishes
        self.reads_after = 0  # the time until which its process reads nothing
        self._protocol: Any = None
        self._is_closing = self._is_paused = self._is_told = False
        self._arrived: list[tuple[str, bytes]] = []  # and not yet given to the protocol
        self._held: list[tuple[str, bytes]] = []  # sent, and kept up by a cut link
        self._last = 0  # when the newest segment arrives
        self._under_way = 0
        self._has_paused_writer = False

    def begin(self, protocol: Any) -> None:
        self._protocol = protocol
        protocol.connection_made(self)
        self._give()

    # What a process asks of its transport. -------------------------------------------------------

    def write(self, data: Any) -> None:
        if self._is_closing or not data:
            return
        data = bytes(data)
        self._under_way += len(data)
        self._send("data", data)
        if self._under_way > HIGH and not self._has_paused_writer:
            self._has_paused_writer = True
            self._protocol.pause_writing()

    def close(self) -> None:
        if not self._is_closing:
            self._end("end", None)

    def abort(self) -> None:
        if not self._is_told:
            self._end("reset", None)

    def _end(self, word: str, error: Exception | None) -> None:
        self._is_closing = self.is_gone = True
        self._send(word)
        self._lose(error)

    def is_closing(self) -> bool:
        return self._is_closing

    def pause_reading(self) -> None:
        self._is_paused = True

    def resume_reading(self) -> None:
        if self._is_paused:
            self._is_paused = False
            self.process.loop.call_soon(self._give)

    def is_reading(self) -> bool:
        return not self._is_paused

    def get_write_buffer_size(self) -> int:
        return self._under_way

    def set_write_buffer_limits(self, high: Any = None, low: Any = None) -> None:
        pass

    def set_protocol(self, protocol: asyncio.BaseProtocol) -> None:
        self._protocol = protocol

    def get_protocol(self) -> asyncio.BaseProtocol:
        protocol: asyncio.BaseProtocol = self._protocol
        return protocol

    def can_write_eof(self) -> bool:
        return False

    def get_extra_info(self, name: str, default: Any = None) -> Any:
        return {"peername": self.peer.name, "sockname": self.name}.get(name, default)

    # What hosts do. ------------------------------------------------------------------------------

    def link(self) -> "Link":
        return self.process.host.address, self.peer.process.host.address

    def links(self) -> "set[Link]":
        return {self.link()}

    def _send(self, word: str, data: bytes = b"") -> None:
        world = self._network.world
        self._last = max(world.now + self._network.delay(self.link(), len(data)), self._last + 1)
        world.at(self._last, partial(self._arrive, word, data))

    def _arrive(self, word: str, data: bytes) -> None:
        if self.is_lost:
            return
        if self._held or self.link() in self._network.cut:
            self._held.append((word, data))
        else:
            self.peer.receive(word, data)

    def flush(self) -> None:
        """Sends again what a cut link has kept up."""
        if self._held and self.link() not in self._network.cut and not self.is_lost:
            held, self._held = self._held, []
            for word, data in held:
                self.peer.receive(word, data)

    def receive(self, word: str, data: bytes) -> None:
        """Takes a segment as the kernel of the host does."""
        if self.process.host.is_down:
            return
        if self.is_gone:
            if word == "data":
                self._send("reset")
            return
        self._network.world.enter(self.process, partial(self._take, word, data))

    def _take(self, word: str, data: bytes) -> None:
        if self.is_gone:
            return
        if word == "reset":
            self._is_closing = self.is_gone = True
            self._lose(ConnectionResetError(104, "connection reset by peer"))
            return
        self._arrived.append((word, data))
        self._give()

    def _give(self) -> None:
        world = self._network.world
        if world.now < self.reads_after:  # a slow reader
            world.at(self.reads_after, self._give, self.process)
            return
        while self._arrived and self._protocol is not None:
            if self._is_paused or self._is_closing:
                return
            word, data = self._arrived.pop(0)
            try:
                if word == "data":
                    self.peer.taken(len(data))
                    self._protocol.data_received(data)
                elif not self._protocol.eof_received():
                    self.close()
            except Exception as error:
                loop = self.process.loop
                loop.call_exception_handler({"message": "protocol failed", "exception": error})
                self.abort()

    def taken(self, length: int) -> None:
        self._under_way -= length
        if self._has_paused_writer and self._under_way < LOW and not self.process.is_dead:
            self._has_paused_writer = False
            world = self._network.world
            world.at(world.now, self._resume, self.process)

    def _resume(self) -> None:
        self._protocol.resume_writing()

    def _lose(self, error: Exception | None) -> None:
        self._network.traffic.pop(self, None)
        if not self._is_told and self._protocol is not None:
            self._is_told = True
            self.process.loop.call_soon(self._protocol.connection_lost, error)

    # Faults. -------------------------------------------------------------------------------------

    def vanish(self, process: Process, silent: bool) -> None:
        """Takes the socket away from its process, if that is the one, which is no more."""
        if self.process is process:
            self.is_gone = self._is_closing = True
            self._network.traffic.pop(self, None)
            if not silent:
                self._send("reset" if self._arrived else "end")

    def break_off(self) -> None:
        """Resets the connection."""
        self._network.world.enter(self.process, self.abort)

    def lose(self, both: bool) -> None:
        """Turns the connection into a black hole."""
        self.is_lost = True
        self.peer.is_lost |= both
