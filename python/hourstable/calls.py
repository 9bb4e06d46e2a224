"""Calls of the control planes of a job, by HTTP: each goes to one that answers."""

import asyncio
import json
import logging
import ssl
from collections.abc import Callable, Coroutine, Mapping, Sequence
from functools import partial
from types import TracebackType
from typing import Any, NamedTuple, TypeVar
from urllib.parse import quote

import aiohttp

from . import beats, versions
from .asked import Planes, Tries
from .library import Refused
from .system import SYSTEM, System
from .tickets import HEADER, Tickets
from .transport import Fetched, Http, Transport
from .waiting import unless, within

READING, KEY = "Hourstable-Reading", "Hourstable-Key"
HOLDER = "Hourstable-Holder"  # the address of the plane that holds the job, if another one handed the call on
TIMEOUT = 2.0  # seconds that a call may take
WAIT = 30.0  # seconds that a waiting GET takes if nothing happens
HEDGE = 1 / 3  # of its time, after which a call may be made at another plane as well
LIMITED = 1.0  # seconds that pass at least after a 429 before a call is made again
TOLD_EVERY = 60.0  # seconds between two lines of the log about one trouble of a plane
READINGS = 1 << 62  # those of a table are below it
DOWN = (404, 500, 502, 503, 504)  # statuses of a plane that cannot do the call now; the job may be created later
UNREADABLE, VERSION = "unreadable", "version"
MEND = {
    "400": "look whether it runs another version, or whether its or this host's real time is wrong",
    "401": "give it the secret of its callers (--secret-file), or this caller the secret of the planes (secret=)",
    "403": "give this caller a role that may do it (--callers of the plane), and call the plane by its address or a"
           " name of --host; or a proxy before it keeps the caller out",
    "429": "look at hourstable_limited_total of the plane; --grants and --most-connections raise its limits",
    "ticket": "see to the real time of its host, and of this one",
    VERSION: "upgrade this caller",
    UNREADABLE: "look what listens there: a proxy, or something that is no control plane",
}
OTHER = "other"  # any other status
T = TypeVar("T")


class Keyed(NamedTuple):
    """A message with the key of the life that sends it."""

    message: bytes
    key: str


Body = bytes | Mapping[str, object] | Keyed | None


class Unreachable(Exception):
    """No control plane did the call. A later one may be done: after `again` seconds if the caller has the time, and
    never before `least` seconds. `status` is that of the last answer, 0 if there was none."""

    def __init__(self, why: str, again: float = 0.0, status: int = 0) -> None:
        super().__init__(why)
        self.again, self.status = again, status
        self.least = LIMITED if status == 429 else 0.0


class Rejected(Exception):
    """What was asked for cannot be had, and no later call mends it: the job has another policy, or is not there."""

    def __init__(self, status: int, why: str) -> None:
        super().__init__(f"{status}: {why}")
        self.status = status


class Answer(NamedTuple):
    """An answer of a control plane. With a reading of the table, it is a sample of its clock."""

    status: int  # 200 to 204, or 409
    body: bytes
    reading: int | None  # of the table, at which the call was made
    sent: int  # the local reading before this request was sent

    def value(self) -> dict[str, Any]:
        """Returns the body, which is an object. Raises ValueError if it is none."""
        value = json.loads(self.body)
        if not isinstance(value, dict):
            raise ValueError("an answer is no object")
        return value


class Wrong(Unreachable):
    """A plane answered what a plane does not answer to a right call. `word` is the status, `unreadable`, `ticket` or
    `other`."""

    def __init__(self, why: str, word: str, again: float = 0.0, status: int = 0) -> None:
        super().__init__(why, again, status)
        self.word = word


class Troubles:
    """What planes answer wrongly: each is counted, and told with what to mend, once a minute for each plane."""

    def __init__(
        self, name: str, log: logging.Logger, count: Callable[[str], object], now: Callable[[], float]
    ) -> None:
        self._name, self._log, self._count, self._now = name, log, count, now
        self._told: dict[tuple[str, str], float] = {}

    def note(self, url: str, wrong: Wrong) -> None:
        self._count(wrong.word)
        key, now = (url, wrong.word), self._now()
        if now - self._told.get(key, -TOLD_EVERY) >= TOLD_EVERY:
            self._told[key] = now
            mend = MEND.get(wrong.word, MEND[UNREADABLE])
            self._log.warning("%s: %s: %s", self._name, wrong, mend)


class Control:
    """The control planes of a job, of which one answers at a time.

    A call goes to the one that answered last. At a failed connection, an answer that does not come in time or is none
    of a plane, a 401, 403, 429 or 503 it goes to the next one, each once, as far as the retry budget allows. A
    request that is sent again is another request, with a `sent` of its own. `transport` brings requests to planes in
    place of HTTP by `tls`; its owner closes it. `troubles` is told of wrong answers.
    """

    def __init__(
        self,
        urls: str | Sequence[str],
        job: str,
        tickets: Tickets,
        local_clock: Callable[[], int],
        *,
        secret: str | None = None,
        tls: ssl.SSLContext | None = None,
        timeout: float = TIMEOUT,
        transport: Transport | None = None,
        troubles: Troubles | None = None,
        system: System = SYSTEM,
    ) -> None:
        given = [urls] if isinstance(urls, str) else list(urls)
        self.urls = [url.rstrip("/") for url in given]
        self.planes = Planes(self.urls, system.monotonic, timeout)
        self.job, self.tickets, self.local_clock = job, tickets, local_clock
        self.timeout = timeout
        self._headers = {"Content-Type": "application/json", beats.HEADER: beats.TAKES, **versions.SAYS}
        if secret is not None:
            self._headers["Authorization"] = f"Bearer {secret}"
        self._own = Http(tls)
        self._transport = transport or self._own
        self._troubles = troubles
        self._late: set[asyncio.Task[Any]] = set()  # tries of calls that another plane has answered

    def limit(self, timeout: float) -> None:
        """Lets a call take no longer than these seconds from now on, or as long as before if that is less."""
        self.timeout = self.planes.rest = min(self.timeout, timeout)

    async def call(
        self, method: str, path: str = "", body: Body = None, *, timeout: float | None = None
    ) -> Answer:
        """Makes a call of the job. Raises Unreachable."""
        return await self.read(lambda answer: answer, method, path, body, timeout)

    async def read(
        self, reads: Callable[[Answer], T], method: str, path: str = "", body: Body = None,
        timeout: float | None = None,
    ) -> T:
        """Makes a call of the job, and returns what `reads` makes of the answer. With a timeout it is a call that
        waits, which is made at another plane once this one is silent to other calls. Raises Unreachable.

        An answer of which `reads` raises ValueError, KeyError, TypeError or Refused is none of a plane, and the call
        is made at the next one.
        """
        attempt = self._attempts(reads, method, path, body, timeout)
        failed, least = Unreachable("there is no control plane"), 0.0
        for at in self.planes.tries():
            try:
                return await attempt(at)
            except Unreachable as why:
                failed, least = why, max(least, why.least)
        failed.least = least
        raise failed

    async def first(
        self, reads: Callable[[Answer], T], late: Callable[[T], object], method: str, path: str, body: Body = None
    ) -> T:
        """Makes a call of the job as `read` does, and a hedge of it: once a try has waited for a third of its time,
        the next plane is asked as well, by a request of its own. Returns what `reads` makes of the first answer, and
        gives `late` what it makes of one that comes later. Raises Unreachable."""
        attempt, tries = self._attempts(reads, method, path, body, None), Tries(self.planes)
        failed, least = Unreachable("there is no control plane"), 0.0
        running: set[asyncio.Task[T]] = set()
        at, third = tries.next(), self.timeout * HEDGE
        try:
            while at is not None or running:
                if at is not None:
                    running.add(asyncio.create_task(attempt(at)))
                limit = third if len(running) == 1 else None
                done, _ = await asyncio.wait(running, timeout=limit, return_when=asyncio.FIRST_COMPLETED)
                if not done:
                    at, third = tries.hedge(), self.timeout
                    continue
                one = done.pop()
                running.remove(one)
                try:
                    return one.result()
                except Unreachable as why:
                    failed, least = why, max(least, why.least)
                at = None if running else tries.next()
        except asyncio.CancelledError:
            for one in running:
                one.cancel()
            raise
        finally:
            self._wait_for_late(running, late)
        failed.least = least
        raise failed

    def _wait_for_late(self, running: "set[asyncio.Task[T]]", late: Callable[[T], object]) -> None:
        for one in running:
            self._late.add(one)
            one.add_done_callback(partial(self._came_late, late))

    def _came_late(self, late: Callable[[T], object], one: "asyncio.Task[T]") -> None:
        self._late.discard(one)
        if one.cancelled():
            return
        if one.exception() is None:
            late(one.result())
        elif not isinstance(one.exception(), Unreachable):
            one.get_loop().call_exception_handler({"message": "a call that came late", "exception": one.exception()})

    def _attempts(
        self, reads: Callable[[Answer], T], method: str, path: str, body: Body, timeout: float | None
    ) -> Callable[[int], Coroutine[Any, Any, T]]:
        """Returns what makes a call at a plane, and notes how that ended."""
        data = _packed(body)

        async def attempt(at: int) -> T:
            url = f"{self.planes.urls[at]}/jobs/{quote(self.job, safe='')}{path}"
            try:
                made = _read(reads, await self._try(at, method, url, data, timeout), url)
            except Unreachable as why:
                self.planes.failed(at, is_silent=not why.status, is_wrong=isinstance(why, Wrong))
                self._note(url, why)
                raise
            self.planes.answered(at)
            return made

        return attempt

    def _note(self, url: str, why: Unreachable) -> None:
        if isinstance(why, Wrong) and self._troubles is not None:
            self._troubles.note(url.partition("/jobs/")[0], why)

    async def _try(
        self, at: int, method: str, url: str, body: bytes | Keyed | None, timeout: float | None
    ) -> Answer:
        sent, fetching = self.local_clock(), self._fetch(method, url, body)
        try:
            if timeout is None:
                status, headers, found = await within(self.timeout, fetching)
            else:  # a call that waits
                status, headers, found = await within(timeout, unless(self.planes.left(at), fetching))
        except (aiohttp.ClientError, TimeoutError, OSError, ValueError) as why:
            raise Unreachable(f"{url}: {type(why).__name__} {why}".rstrip()) from why
        try:
            self.tickets.observe_text(headers.get(HEADER))
        except ValueError as why:  # the answer counts all the same
            self._note(url, Wrong(f"{url}: {why}", "ticket"))
        made = _taken(url, status, headers, found, sent)
        self.planes.told(headers.get(HOLDER, ""))
        return made

    async def _fetch(self, method: str, url: str, body: bytes | Keyed | None) -> Fetched:
        headers = {**self._headers, HEADER: str(self.tickets.draw())}
        if isinstance(body, Keyed):
            body, headers[KEY] = body
        return await self._transport.fetch(method, url, headers, body)

    async def close(self) -> None:
        """Closes all connections."""
        late = list(self._late)
        for one in late:
            one.cancel()
        await asyncio.gather(*late, return_exceptions=True)
        await self._own.close()

    async def __aenter__(self) -> "Control":
        return self

    async def __aexit__(
        self,
        kind: type[BaseException] | None,
        value: BaseException | None,
        trace: TracebackType | None,
    ) -> None:
        await self.close()


def _packed(body: Body) -> bytes | Keyed | None:
    if body is None or isinstance(body, bytes | Keyed):
        return body
    return json.dumps(body).encode()


def _read(reads: Callable[[Answer], T], answer: Answer, url: str) -> T:
    """Returns what `reads` makes of an answer. Raises Wrong."""
    try:
        return reads(answer)
    except (ValueError, LookupError, TypeError, RecursionError, Refused) as why:
        text = f"{url}: an answer of {answer.status} that is none of a control plane: {type(why).__name__} {why}"
        raise Wrong(text, UNREADABLE, status=answer.status) from why


def _taken(url: str, status: int, headers: Mapping[str, str], body: bytes, sent: int) -> Answer:
    """Returns the answer of a response, or raises what it means."""
    text = f"{url}: {status} {body[:200].decode('utf-8', 'replace')}"
    again = seconds_in(headers.get("Retry-After"))
    newer = versions.why_not(headers, "the answer")
    if newer is not None:
        raise Wrong(f"{url}: {newer}", VERSION, status=status)
    if status in DOWN:
        raise Unreachable(text, again, status)
    if status != 409 and not 200 <= status <= 204:
        raise Wrong(text, str(status) if str(status) in MEND else OTHER, again, status)
    reading = headers.get(READING)
    if reading is not None and not is_reading(reading):
        raise Wrong(f"{url}: the reading {reading[:40]!r} is none of a table", UNREADABLE, status=status)
    return Answer(status, body, None if reading is None else int(reading), sent)


def is_reading(text: str) -> bool:
    """Whether a header is a reading of a table."""
    return text.isascii() and text.isdigit() and len(text) <= 19 and int(text) < READINGS


def seconds_in(text: str | None) -> float:
    """Returns the seconds of a header Retry-After, at most a minute, 0 if it has none."""
    try:
        seconds = float(text or "0")
    except ValueError:
        return 0.0
    return min(seconds, 60.0) if seconds > 0 else 0.0
