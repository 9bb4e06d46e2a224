"""The event loop of a simulated process, and the threads of its executors."""

import asyncio
from collections import deque
from collections.abc import Callable
from concurrent.futures import Executor
from contextvars import Context, copy_context
from functools import partial
from typing import TYPE_CHECKING, Any
from weakref import ref

from .world import SECOND, STEP, Action, Timed

if TYPE_CHECKING:
    from .world import Process

THREADS = 8  # of an executor that does not say how many it has
FEW = 256  # tasks of asyncio that are remembered before those that are gone are forgotten


class NumberedTask(asyncio.Task[Any]):
    """A task whose place in sets does not depend on its address."""

    number: int

    def __hash__(self) -> int:
        return self.number


class NumberedFuture(asyncio.Future[Any]):
    """A future whose place in sets does not depend on its address."""

    number: int

    def __hash__(self) -> int:
        return self.number


def name_of(task: "asyncio.Task[Any]") -> str:
    """Returns the name of the coroutine of a task."""
    coroutine: Any = task.get_coro()
    return str(coroutine.__qualname__)


class Call:
    """A callback that a loop is to call, as `asyncio.Handle` without what is needed to debug."""

    __slots__ = ("callback", "args", "context", "is_cancelled")

    def __init__(self, callback: Callable[..., object], args: tuple[Any, ...], context: Context | None) -> None:
        self.callback, self.args, self.is_cancelled = callback, args, False
        self.context = copy_context() if context is None else context

    def cancel(self) -> None:
        self.is_cancelled = True

    def cancelled(self) -> bool:
        return self.is_cancelled


class Timer(Timed):
    """A callback that is due once CLOCK_MONOTONIC of its host is at so many ns."""

    __slots__ = ("due", "loop", "callback", "args", "context")

    def __init__(
        self, due: int, loop: "Loop", callback: Callable[..., object], args: tuple[Any, ...], context: Context | None
    ) -> None:
        self.due, self.loop, self.callback, self.args, self.is_cancelled = due, loop, callback, args, False
        self.context = copy_context() if context is None else context

    def cancel(self) -> None:
        self.is_cancelled = True

    def cancelled(self) -> bool:
        return self.is_cancelled

    def when(self) -> float:
        return self.due / SECOND

    def __call__(self) -> None:
        if self.is_cancelled:
            return
        if self.loop.process.host.monotonic() < self.due:  # the host slept
            self.loop.set_timer(self)
            return
        try:
            self.context.run(self.callback, *self.args)
        except (SystemExit, KeyboardInterrupt):
            raise
        except BaseException as error:
            self.loop.note_failed(self, error)


class Loop(asyncio.AbstractEventLoop):
    """The event loop of a process. What it is to call soon stands in a queue, of which one event of the world calls
    all that is there; timers stand in the heap of the world."""

    def __init__(self, process: "Process") -> None:
        self.process, self.world = process, process.world
        self._ready: deque[Call] = deque()
        self._is_due = False  # whether an event of the world calls what is ready
        self._tasks: list[ref[NumberedTask]] = []
        self._most = FEW  # tasks in the list
        self._workers: dict[Any, Workers] = {}
        self._made = 0

    def get_debug(self) -> bool:
        return False

    def is_running(self) -> bool:
        return True

    def is_closed(self) -> bool:
        return False

    def time(self) -> float:
        return self.process.host.monotonic() / SECOND

    def call_soon(self, callback: Any, *args: Any, context: Any = None) -> Any:
        made = Call(callback, args, context)
        self._ready.append(made)
        if not self._is_due:
            self._is_due = True
            self.world.at(self.world.now, self._call_ready, self.process)
        return made

    call_soon_threadsafe = call_soon

    def _call_ready(self) -> None:
        """Calls what is ready, until nothing is, something else happens, or the process stands still."""
        ready, world, process = self._ready, self.world, self.process
        while ready and not (process.stops or process.is_dead):
            for _ in range(len(ready)):
                world.now += STEP
                call = ready.popleft()
                try:
                    if not call.is_cancelled:
                        call.context.run(call.callback, *call.args)
                except (SystemExit, KeyboardInterrupt):
                    raise
                except BaseException as error:
                    self.note_failed(call, error)
                if process.stops or process.is_dead:
                    break
            if world.has_due():
                break
        self._is_due = bool(ready)
        if ready:
            world.at(world.now, self._call_ready, process)

    def note_failed(self, call: Call | Timer, error: BaseException) -> None:
        """Notes that a callback raised."""
        name = getattr(call.callback, "__qualname__", type(call.callback).__name__)
        self.call_exception_handler({"message": f"the callback {name}", "exception": error})

    def call_later(self, delay: float, callback: Any, *args: Any, context: Any = None) -> Any:
        host, ns = self.process.host, int(delay * SECOND)
        made = Timer(host.monotonic() + ns, self, callback, args, context)
        self.world.at(self.world.now + host.lasts(ns), made, self.process)
        return made

    def call_at(self, when: float, callback: Any, *args: Any, context: Any = None) -> Any:
        made = Timer(int(when * SECOND), self, callback, args, context)
        self.set_timer(made)
        return made

    def set_timer(self, timer: Timer) -> None:
        self.world.at(self.process.host.until(timer.due), timer, self.process)

    def create_future(self) -> "asyncio.Future[Any]":
        made = NumberedFuture(loop=self)
        self._made += 1
        made.number = self._made
        return made

    def create_task(self, coro: Any, *, name: Any = None, context: Any = None) -> Any:
        self._made = number = self._made + 1
        made = NumberedTask.__new__(NumberedTask)
        made.number = number  # before it is put into the set of all tasks
        made.__init__(  # type: ignore[misc]
            coro, loop=self, name=name or f"{number}", context=context)
        self._tasks.append(ref(made))
        if len(self._tasks) > self._most:
            self._tasks = [it for it in self._tasks if it() is not None]
            self._most = 2 * len(self._tasks) + FEW
        return made

    @property
    def tasks(self) -> list[NumberedTask]:
        """Returns the tasks that somebody has, in the order in which they were made."""
        return [task for it in self._tasks if (task := it()) is not None]

    def call_exception_handler(self, context: dict[str, Any]) -> None:
        error, task = context.get("exception"), context.get("task") or context.get("future")
        if error is None:
            return  # of what was not closed
        name = name_of(task) if isinstance(task, asyncio.Task) else str(context.get("message"))
        self.world.note_death(self.process, name, error)

    def note_dead_tasks(self) -> None:
        """Notes the tasks that ended by an exception which nobody has taken."""
        for task in self.tasks:
            if task.done() and not task.cancelled() and getattr(task, "_log_traceback"):
                error = task.exception()
                assert error is not None
                self.world.note_death(self.process, name_of(task), error)

    def add_signal_handler(self, sig: int, callback: Any, *args: Any) -> None:
        self.process.on_signal = callback

    def run_in_executor(self, executor: Any, func: Callable[..., Any], *args: Any) -> Any:
        workers = self._workers.get(executor)
        if workers is None:
            most = int(getattr(executor, "most", 0)) or int(getattr(executor, "_max_workers", THREADS))
            is_thread = isinstance(executor, Executor)
            workers = self._workers[executor] = Workers(self, most, is_thread)
        return workers.submit(partial(func, *args))

    async def create_server(  # type: ignore[override]
        self, factory: Any, host: Any = None, port: Any = None, **_: Any
    ) -> Any:
        return self.world.network.listen(self.process, factory, (host, port))

    async def create_connection(  # type: ignore[override]
        self, factory: Any, host: Any = None, port: Any = None, **_: Any
    ) -> Any:
        return await self.world.network.connect(self.process, factory, host, port)


class Held(Exception):
    """A call of an executor waits until a time, or a little less, before it is tried again."""

    def __init__(self, until: int) -> None:
        super().__init__(until)
        self.until = until


class Workers:
    """The threads of an executor. A call has its effect at one later moment, and its caller hears of
    it at another one. Of a process that is dead, half of the calls under way still have it."""

    def __init__(self, loop: Loop, most: int, is_thread: bool) -> None:
        self._loop, self._free, self._is_thread = loop, most, is_thread
        self._waiting: deque[tuple[Action, "asyncio.Future[Any]"]] = deque()

    def submit(self, call: Action) -> "asyncio.Future[Any]":
        future = self._loop.create_future()
        self._waiting.append((call, future))
        self._begin()
        return future

    def _begin(self) -> None:
        world, process = self._loop.world, self._loop.process
        while self._free and self._waiting:
            call, future = self._waiting.popleft()
            if not future.cancelled():
                self._free -= 1
                before, after = world.call_delay(process)
                world.at(world.now + before, partial(self._effect, call, future, after))

    def _effect(
        self, call: Action, future: "asyncio.Future[Any]", after: int, has_left: bool = False
    ) -> None:
        world, process = self._loop.world, self._loop.process
        if process.is_dead and not has_left and world.rng.random() < 0.5:
            return  # the request had not left
        made: object = None
        error: Exception | None = None
        with world.inside(process):
            try:
                made = world.call_through(call) if self._is_thread else call()
            except Held as why:
                soon = min(why.until, world.now + SECOND // 4)  # or it is freed before
                waits = partial(self._effect, call, future, after, not self._is_thread)  # in the engine
                world.at(soon, waits)
                return
            except Exception as why:
                error = why
        world.at(world.now + after, partial(self._done, future, made, error), process)

    def _done(self, future: "asyncio.Future[Any]", made: object, error: Exception | None) -> None:
        self._free += 1
        if not future.done():
            if error is not None:
                future.set_exception(error)
            else:
                future.set_result(made)
        self._begin()
