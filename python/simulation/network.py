"""The network of a run: links between hosts with delay, cuts and slowness, and who listens where.

Two kinds of traffic go over it. Connections (`connections`) carry bytes between the server and the
client of aiohttp. Exchanges (`exchanges`) carry a whole request to a handler and its answer back.
Both meet the same faults.
"""

import asyncio
from collections.abc import Awaitable, Callable
from random import Random
from typing import Any, Protocol

from .connections import End, Factory
from .world import MILLISECOND, SECOND, Host, Process, World

Link = tuple[str, str]
At = tuple[str, int]
Answer = Callable[[Any], Awaitable[Any]]
SYN_PAUSES = (0, 1, 2, 4, 8, 16, 32)  # seconds, as the SYN is sent again


class Traffic(Protocol):
    """A connection's end or an exchange, as faults see it."""

    process: Process

    def links(self) -> set[Link]: ...
    def flush(self) -> None: ...
    def vanish(self, process: Process, silent: bool) -> None: ...
    def break_off(self) -> None: ...
    def lose(self, both: bool) -> None: ...


class Socket:
    """What `asyncio.Server.sockets` has."""

    def __init__(self, name: At) -> None:
        self._name = name

    def getsockname(self) -> At:
        return self._name


class Listener:
    """A server that accepts connections, and answers exchanges if it has an `answer`."""

    def __init__(self, network: "Network", process: Process, factory: Factory | None, at: At) -> None:
        self.process, self.factory, self.at = process, factory, at
        self.answer: Answer | None = None
        self.sockets = [Socket(at)]
        self._network = network

    def close(self) -> None:
        if self._network.listeners.get(self.at) is self:
            del self._network.listeners[self.at]

    def is_serving(self) -> bool:
        return self._network.listeners.get(self.at) is self

    async def wait_closed(self) -> None:
        pass


class Network:
    """All links, listeners, connections and exchanges."""

    def __init__(self, world: World) -> None:
        self.world, self.rng = world, Random(f"{world.seed} network")
        self.listeners: dict[At, Listener] = {}
        self.hosts: dict[str, Host] = {}
        self.traffic: dict[Traffic, None] = {}
        self.cut: set[Link] = set()
        self.slow: dict[Link, float] = {}  # how many times slower a link is
        self._port = 30_000

    def delay(self, link: Link, length: int) -> int:
        """Returns the ns that a segment takes: mostly less than a millisecond, at times much more."""
        rng = self.rng
        usual = 100_000 + int(rng.expovariate(1) * 200_000) + length * 8
        if rng.random() < 0.002:
            usual += int(rng.expovariate(1) * 50 * MILLISECOND)
        return int(usual * self.slow.get(link, 1.0)) if self.slow else usual

    def listen(self, process: Process, factory: Factory | None, at: At) -> Listener:
        if at in self.listeners:
            raise OSError(98, f"address already in use: {at}")
        self.listeners[at] = Listener(self, process, factory, at)
        return self.listeners[at]

    def serve(self, process: Process, at: At, answer: Answer) -> Listener:
        """Answers exchanges, by a listener that is there or by a new one."""
        listener = self.listeners.get(at) or self.listen(process, None, at)
        listener.answer = answer
        return listener

    def is_reached(self, link: Link) -> bool:
        """Whether a segment of a connection gets to a host that runs."""
        host = self.hosts.get(link[1])
        return link not in self.cut and host is not None and not host.is_down

    async def connect(
        self, process: Process, factory: Factory, host: str, port: int
    ) -> tuple[End, asyncio.BaseProtocol]:
        link = process.host.address, host
        for pause in SYN_PAUSES:
            await asyncio.sleep(pause + self.delay(link, 0) / SECOND)
            if self.is_reached(link) and link[::-1] not in self.cut:
                break
        else:
            raise TimeoutError(110, f"connection to {host} timed out")
        listener = self.listeners.get((host, port))
        back = self.delay(link[::-1], 0) / SECOND
        if listener is None or listener.factory is None:
            await asyncio.sleep(back)
            raise ConnectionRefusedError(111, f"connect call failed ({host!r}, {port})")
        mine = self._pair(process, listener, (host, port))
        try:
            await asyncio.sleep(back)
        except BaseException:
            mine.abort()
            raise
        protocol = factory()
        mine.begin(protocol)
        return mine, protocol

    def _pair(self, process: Process, listener: Listener, at: At) -> End:
        """Makes both ends of a connection, and returns that of who connects."""
        self._port += 1
        mine = End(self, process, (process.host.address, self._port))
        other = End(self, listener.process, at)
        mine.peer, other.peer = other, mine
        self.traffic[mine] = self.traffic[other] = None
        factory = listener.factory
        assert factory is not None
        self.world.at(self.world.now, lambda: other.begin(factory()), listener.process)
        return mine

    # Faults. -------------------------------------------------------------------------------------

    def forget(self, process: Process, silent: bool) -> None:
        """Takes listeners and traffic away from a process that is dead."""
        for at in [at for at, one in self.listeners.items() if one.process is process]:
            del self.listeners[at]
        for one in list(self.traffic):
            one.vanish(process, silent)

    def mend(self, links: set[Link]) -> None:
        """Mends cut links. What was kept up is sent again a while later."""
        self.cut -= links
        for one in list(self.traffic):
            if one.links() & links:
                self.world.after(self.rng.uniform(0.05, 1.5), one.flush)

    def between(self, address: str) -> list[Traffic]:
        """Returns the traffic of a host."""
        return [one for one in self.traffic if any(address in link for link in one.links())]

    def used_by(self, process: Process) -> int:
        """Returns how many connections and exchanges a process has."""
        return sum(one.process is process for one in self.traffic)
