"""A control plane with all that it stands on: its store, its tickets, its clock and its assigner.

    async with ControlPlane(Options("sqlite:jobs", Path("logs"), port=7000)) as running:
        ...

It is what `hourstable-service control` runs. Several may run in one process, and each may be stopped and made anew.
"""

import asyncio
import logging
import ssl
from collections.abc import Awaitable, Callable
from contextlib import AsyncExitStack
from dataclasses import dataclass, field
from functools import partial
from pathlib import Path

from hourstable.assigner import AssignerOfJobs
from hourstable.callers import Callers
from hourstable.clock import local_clock as local_clock_of
from hourstable.control import Plane
from hourstable.desk import LocalDesk
from hourstable.jobs import Settings
from hourstable.limits import Limits
from hourstable.plans import Hysteresis
from hourstable.record import Record
from hourstable.state import kept_in, state_folder
from hourstable.store import DEADLINE, Store, store_of
from hourstable.system import SYSTEM, System, make_folder
from hourstable.tickets import CALLERS, Tickets
from hourstable.transport import Http, Transport
from hourstable.versions import ROWS

Access = tuple[Callers, ssl.SSLContext | None]
log = logging.getLogger("hourstable.service")


@dataclass
class Options:
    """What a control plane is started with. `docs/OPERATIONS.md` says what each word of the command does."""

    store: str = field(repr=False)  # the URL, which may have a password
    logs: Path | None  # the folder of logs; None: no log is kept, and `state` or $STATE_DIRECTORY is set
    host: str = "127.0.0.1"
    port: int = 0  # 0: any
    process: int = 0  # its number among all planes and assigners, 0 to 63
    shared: bool | None = None  # whether other planes use the store; None: if they may
    standby: float = 2.0  # seconds for which a plane is silent before another one takes its jobs
    address: str = ""  # the URL at which the other planes and its callers reach it; "": that of host and port
    peer_tls: ssl.SSLContext | None = None  # with which it reaches the other planes
    assigner: int = 1  # its number, 0 for none
    secrets: list[str] = field(default_factory=list, repr=False)  # of callers who may do everything
    callers: Callers = field(default_factory=Callers)  # and others, with their roles
    hosts: list[str] = field(default_factory=list)  # names by which callers reach it, besides its addresses
    tls: ssl.SSLContext | None = None
    limits: Limits = field(default_factory=Limits)
    rules: Hysteresis = field(default_factory=Hysteresis)
    poll: float = 1.0  # seconds between two looks at what other planes wrote
    store_deadline: float = DEADLINE  # seconds in which a call of the store returns or fails
    keep_logs: int | None = None  # days for which its logs are kept; None: for ever
    state: Path | None = None  # the folder of its tickets; None: $STATE_DIRECTORY, or the one beside `logs`
    needs_keys: bool = False  # whether lives get no lease that show no key, as those of versions up to 1.0
    row_form: int = ROWS  # the newest form of a row that it reads; a lower one stands for an older version


class ControlPlane:
    """A control plane that runs from `start`, or from the entry of an `async with`, to `stop`.

    `opens` makes the store of a URL with a deadline, by default `store_of`; the plane opens it if that was not done,
    and closes it at the end.
    `local_clock` is the clock that the tables' clocks go by, and `system` has the other clocks, chance and files.
    `transport` brings the calls that it hands on to other planes, in place of HTTP; the plane closes it.
    """

    def __init__(
        self,
        options: Options,
        *,
        opens: Callable[[str, float, System], Awaitable[Store]] | None = None,
        local_clock: Callable[[], int] | None = None,
        transport: Transport | None = None,
        system: System = SYSTEM,
    ) -> None:
        self.options = options
        self._transport = transport or Http(options.peer_tls)
        self.plane: Plane | None = None  # from the start on, until it has stopped
        self.port = 0  # on which it listens
        self._opens = opens or _made
        self._local_clock, self._system = local_clock, system
        self._ending = AsyncExitStack()

    async def start(self) -> int:
        """Listens, and returns the port once the store answers. Raises ValueError if an option is refused,
        BlockingIOError if another process draws its tickets or beats under its number, StoreRefused and OSError; then
        nothing is left open."""
        try:
            async with AsyncExitStack() as ending:
                self.port = await self._start(ending)
                self._ending = ending.pop_all()
            return self.port
        except BaseException:
            self.plane = None
            raise

    async def start_unless(self, ended: asyncio.Event) -> bool:
        """Starts, and returns whether it runs; not if the event is set while the store does not answer. Raises what
        `start` raises."""
        starting, ending = asyncio.create_task(self.start()), asyncio.create_task(ended.wait())
        try:
            await asyncio.wait({starting, ending}, return_when=asyncio.FIRST_COMPLETED)
            if not starting.done():
                return False
            starting.result()
            return True
        finally:
            for one in (starting, ending):
                one.cancel()
            await asyncio.gather(starting, ending, return_exceptions=True)

    async def _start(self, ending: AsyncExitStack) -> int:
        chosen, system = self.options, self._system
        process = process_number(chosen.process)
        store = await self._opens(chosen.store, chosen.store_deadline, system)
        ending.push_async_callback(store.close)
        state = state_folder(chosen.state, chosen.logs)
        folders = [state] if chosen.logs is None else [make_folder(chosen.logs), state]
        tickets = Tickets(process, kept_in(state, f"control-{process}.ticket", folders[0]), system=system)
        ending.callback(tickets.close)
        local = self._local_clock or local_clock_of(system=system)
        shared = store.several if chosen.shared is None else chosen.shared
        settings = Settings(
            chosen.logs, process, shared, chosen.standby, local=local, system=system, keep_logs=chosen.keep_logs,
            needs_keys=chosen.needs_keys, row_form=chosen.row_form,
        )
        callers = Callers.admins(chosen.secrets) + chosen.callers
        plane = self.plane = Plane(
            store, settings, tickets, chosen.limits, callers, chosen.hosts, self._transport
        )
        plane.readiness.folders = folders
        plane.record = Record(state / f"record-{process}.ndjson", system)
        ending.push_async_callback(plane.stop)
        port = await plane.start(chosen.host, chosen.port, chosen.tls, chosen.poll, chosen.address)
        if chosen.assigner:
            plane.supervisor.watch("assigner", lambda: _assigner(chosen, plane, local, system).run())
        return port

    def reload_at(self, again: asyncio.Event, read: Callable[[], Access]) -> None:
        """Whenever the event is set, takes the callers and certificates that `read` returns in a thread. If it raises
        OSError or ValueError, the plane keeps what it has, and says why. Connections that are open stay."""
        assert self.plane is not None
        self.plane.supervisor.watch("callers", partial(_reload, self.plane, again, read))

    async def stop(self) -> None:
        """Answers what was asked, and closes all."""
        await self._ending.aclose()
        self.plane = None

    async def __aenter__(self) -> "ControlPlane":
        await self.start()
        return self

    async def __aexit__(self, *_: object) -> None:
        await self.stop()


async def _made(url: str, deadline: float, system: System) -> Store:
    return store_of(url, deadline, system)


async def _reload(plane: Plane, again: asyncio.Event, read: Callable[[], Access]) -> None:
    while True:
        await again.wait()
        again.clear()
        try:
            callers, tls = await asyncio.to_thread(read)
        except (OSError, ValueError) as error:  # those of TLS are of the first kind
            log.error("callers and certificates stay as they are: %s", error)
            plane.metrics.reloads.labels("failed").inc()
        else:
            plane.admit(callers, tls)
            log.info("callers and certificates were read again: %d callers", len(callers.known))
            plane.metrics.reloads.labels("done").inc()


def _assigner(chosen: Options, plane: Plane, local: Callable[[], int], system: System) -> AssignerOfJobs:
    given = LocalDesk(plane), local, chosen.rules, plane.metrics.internal_error, system
    made = plane.readiness.assigner = AssignerOfJobs(chosen.assigner, *given)
    return made


def process_number(number: int) -> int:
    """Returns the number of a plane or an assigner, below those under which tasks and clients draw tickets. Raises
    ValueError if it is none."""
    if not 0 <= number < CALLERS.start:
        raise ValueError(f"process {number} is not 0 to {CALLERS.start - 1}: tasks and clients have those above")
    return number
