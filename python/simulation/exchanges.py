"""Exchanges: a request as a whole, brought to who listens, and its answer, brought back."""

import asyncio
from functools import partial
from typing import TYPE_CHECKING, Any

from .world import Process

if TYPE_CHECKING:
    from .network import At, Link, Listener, Network

SIZE = 300  # bytes, for the delay


class Exchange:
    """A request of a process to an address. Its caller may leave; what was begun then goes on."""

    def __init__(
        self, network: "Network", process: Process, at: "At", asked: Any, silence: float = 0.0
    ) -> None:
        self._network, self._world = network, network.world
        self.process, self.at, self.asked = process, at, asked
        self._silence = silence  # seconds without a beat that end it; 0 for none
        self._heard = 0.0  # when its process heard the last beat
        self.server: Process | None = None  # once it has begun
        self.answer: "asyncio.Future[Any]" = process.loop.create_future()
        self._is_lost = False
        self._held: list[Any] = []  # what a cut link keeps up
        self._there = process.host.address, at[0]

    async def done(self) -> Any:
        """Returns the answer. Raises OSError, and TimeoutError if beats are missing."""
        self._network.traffic[self] = None
        self._go(self._there, self._arrive)
        try:
            if self._silence:
                self._hear()
                self._listen()
            return await self.answer
        finally:
            self._network.traffic.pop(self, None)

    def _listen(self) -> None:
        """Ends the exchange once beats are missing."""
        if self.answer.done():
            return
        loop = self.process.loop
        left = self._heard + self._silence - loop.time()
        if left > 0:
            loop.call_later(left, self._listen)
        else:
            self.answer.set_exception(TimeoutError("beats are missing"))

    def _go(self, link: "Link", action: Any) -> None:
        """Does something at the other end of a link, once it gets there."""
        delay = self._network.delay(link, SIZE)
        self._world.at(self._world.now + delay, partial(self._pass, link, action))

    def _pass(self, link: "Link", action: Any) -> None:
        if self._is_lost:
            return
        if link in self._network.cut:
            self._held.append((link, action))
        else:
            action()

    def _arrive(self) -> None:
        if not self._network.is_reached(self._there):
            return  # its host is down, and nobody says so
        listener = self._network.listeners.get(self.at)
        if listener is None or listener.answer is None or listener.process.is_dead:
            self._fail(ConnectionRefusedError(111, f"connect call failed {self.at}"))
        else:
            self.server = listener.process
            self._world.enter(listener.process, partial(self._begin, listener))

    def _begin(self, listener: "Listener") -> None:
        assert listener.answer is not None and self.server is not None
        task = self.server.loop.create_task(listener.answer(self.asked))
        task.add_done_callback(self._answered)
        if self._silence:
            self._beat(task)

    def _beat(self, task: "asyncio.Task[Any]") -> None:
        """Sends a beat as long as the answer is not there."""
        if not task.done() and self.server is not None:
            self._go(self._back(), partial(self._tell, self._hear))
            self.server.loop.call_later(self._world.beat, self._beat, task)

    def _hear(self) -> None:
        self._heard = self.process.loop.time()

    def _answered(self, task: "asyncio.Task[Any]") -> None:
        if task.cancelled():
            self._fail(ConnectionResetError(104, "connection reset by peer"))
            return
        error = task.exception()
        if isinstance(error, Exception):
            self._fail(error)
        else:
            self._go(self._back(), partial(self._tell, partial(_give, self.answer, task.result())))

    def _back(self) -> "Link":
        return self._there[::-1]

    def _fail(self, error: Exception) -> None:
        self._go(self._back(), partial(self._tell, partial(_raise, self.answer, error)))

    def _tell(self, action: Any) -> None:
        if not self.process.host.is_down:
            self._world.enter(self.process, action)

    # Faults. -------------------------------------------------------------------------------------

    def links(self) -> "set[Link]":
        return {self._there, self._back()}

    def flush(self) -> None:
        """Sends again what a cut link has kept up."""
        held, self._held = self._held, []
        for link, action in held:
            self._pass(link, action)

    def vanish(self, process: Process, silent: bool) -> None:
        """Tells the caller that a process is no more, if that was to answer."""
        if process is self.process:
            self._network.traffic.pop(self, None)
        elif process is self.server and not silent:
            self._fail(ConnectionResetError(104, "connection reset by peer"))

    def break_off(self) -> None:
        """Resets the connection: the caller is told, and the answer gets nowhere."""
        error = ConnectionResetError(104, "connection reset by peer")
        self._world.enter(self.process, partial(_raise, self.answer, error))

    def lose(self, both: bool) -> None:
        """Turns the connection into a black hole."""
        self._is_lost = True


def _give(answer: "asyncio.Future[Any]", made: Any) -> None:
    if not answer.done():
        answer.set_result(made)


def _raise(answer: "asyncio.Future[Any]", error: Exception) -> None:
    if not answer.done():
        answer.set_exception(error)


async def ask(process: Process, at: "At", asked: Any, silence: float = 0.0) -> Any:
    """Returns the answer of who listens at an address. Raises OSError, and what the handler raises, and TimeoutError
    if no beat comes for these seconds."""
    return await Exchange(process.world.network, process, at, asked, silence).done()
