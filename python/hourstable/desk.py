"""What an assigner asks of a control plane, in the same process or over HTTP."""

import asyncio
import json
import logging
import ssl
from collections.abc import Callable, Sequence
from typing import Any, NamedTuple, Protocol, TypeVar
from urllib.parse import urlencode

import aiohttp

from hourstable import versions
from hourstable.asked import Planes
from hourstable.calls import HOLDER, READING, Troubles, Wrong, is_reading
from hourstable.calls import Unreachable as NoAnswer
from hourstable.control import Plane
from hourstable.jobs import Replaced
from hourstable.loads import Piece
from hourstable.metrics import word_of
from hourstable.store import Conflict, NoSuchJob, StoreFailed
from hourstable.system import SYSTEM, System
from hourstable.table_calls import Call, Commit, Malformed, Propose, Renew, Take, term_of
from hourstable.tickets import HEADER, Tickets
from hourstable.transport import Http, Transport
from hourstable.waiting import within

T = TypeVar("T")
log = logging.getLogger("hourstable.desk")


class Unreachable(Exception):
    """No control plane did the call. It may be made again, after `least` seconds at the earliest."""

    def __init__(self, why: str, least: float = 0.0) -> None:
        super().__init__(why)
        self.least = least


class Told(NamedTuple):
    """The answer to a call of a table: its value, or the word of a refusal with its numbers; and
    the table's reading, None if the answer has none."""

    value: dict[str, Any]
    refused: str | None
    reading: int | None


class Desk(Protocol):
    """The calls of an assigner. Each raises Unreachable."""

    async def jobs(self) -> list[str]: ...
    async def status(self, job: str) -> dict[str, Any]: ...
    async def loads(self, job: str) -> list[Piece]: ...
    async def assignment(self, job: str) -> bytes | None: ...
    async def take(self, job: str, assigner: int) -> Told: ...
    async def renew(self, job: str, term: int) -> Told: ...
    async def propose(self, job: str, term: int, assignment: bytes) -> Told: ...
    async def commit(self, job: str, term: int, generation: int) -> Told: ...


PATIENCE = 15.0  # seconds that a plane may take
FAILURES = (StoreFailed, NoSuchJob, Replaced, Malformed, Conflict, MemoryError)


class LocalDesk:
    """The desk of a plane in this process."""

    def __init__(self, plane: Plane) -> None:
        self._plane = plane

    async def jobs(self) -> list[str]:
        return sorted(self._plane.jobs)

    async def status(self, job: str) -> dict[str, Any]:
        """Returns the status, and as `own_term` the term that is to be gone on with."""
        try:
            return {**await self._plane.status(job), "own_term": self._plane.jobs[job].job.own_term}
        except FAILURES as error:
            raise Unreachable(str(error)) from error

    async def loads(self, job: str) -> list[Piece]:
        reports = self._plane.jobs[job].loads.counting(self._plane.settings.system.monotonic())
        return await asyncio.to_thread(reports.joined)

    async def assignment(self, job: str) -> bytes | None:
        return self._plane.jobs[job].job.view.assignment

    async def take(self, job: str, assigner: int) -> Told:
        return await self._call(job, Take(assigner))

    async def renew(self, job: str, term: int) -> Told:
        return await self._call(job, Renew(term))

    async def propose(self, job: str, term: int, assignment: bytes) -> Told:
        return await self._call(job, Propose(term, assignment))

    async def commit(self, job: str, term: int, generation: int) -> Told:
        return await self._call(job, Commit(term, generation))

    async def _call(self, job: str, call: Call[Any]) -> Told:
        try:
            made = await self._plane.call(self._plane.jobs[job].job, call)
        except FAILURES as error:
            raise Unreachable(str(error)) from error
        if made.refusal is not None:
            return Told(made.refusal.carried, word_of(made.refusal.name), made.at)
        result: Any = made.result
        if not isinstance(call, (Take, Renew)):
            return Told({"generation": result}, None, made.at)
        self._plane.jobs[job].job.own_term = result.number
        return Told(term_of(result), None, made.at)


class Reply(NamedTuple):
    """The answer of a plane to a request."""

    status: int
    body: bytes
    reading: int | None
    holder: str = ""  # the URL of the plane that did it, if that which was asked handed it on


class HttpDesk:
    """The desk of control planes elsewhere: of each job the one that holds it, as far as it is known. A plane that
    does not answer, or not as a plane does, is left for the next one. `transport` brings requests to them in place of
    HTTP by `tls`; its owner closes it."""

    def __init__(
        self, urls: Sequence[str], tickets: Tickets, secret: str | None = None,
        tls: ssl.SSLContext | None = None, transport: Transport | None = None, system: System = SYSTEM,
    ) -> None:
        self._urls, self._tickets = [url.rstrip("/") for url in urls], tickets
        self._headers = {"Content-Type": "application/json", **versions.SAYS}
        if secret:
            self._headers["Authorization"] = f"Bearer {secret}"
        self._own = Http(tls)
        self._transport = transport or self._own
        self._now = system.monotonic
        self._planes: dict[str, Planes] = {}  # by the job, and those that are asked for the names of jobs
        self._troubles = Troubles("assigner", log, lambda _: None, self._now)

    def _planes_of(self, job: str) -> Planes:
        if job not in self._planes:
            self._planes[job] = Planes(self._urls, self._now, PATIENCE)
        return self._planes[job]

    async def _read(
        self, reads: Callable[[Reply], T], method: str, job: str, path: str, body: bytes | None = None
    ) -> T:
        """Returns what `reads` makes of the answer of the first plane that does a call. `reads` raises ValueError,
        LookupError or TypeError at an answer that is none of a plane. Raises Unreachable."""
        failed, planes = NoAnswer("there is no control plane"), self._planes_of(job)
        for at in planes.tries():
            try:
                made = await self._read_at(planes, at, reads, method, path, body)
            except NoAnswer as why:
                planes.failed(at, is_silent=not why.status, is_wrong=isinstance(why, Wrong))
                failed = why
            else:
                planes.answered(at)
                return made
        raise Unreachable(str(failed), failed.least) from failed

    async def _read_at(
        self, planes: Planes, at: int, reads: Callable[[Reply], T], method: str, path: str, body: bytes | None = None
    ) -> T:
        """Returns what `reads` makes of the answer of one plane. Raises NoAnswer."""
        url = planes.urls[at]
        try:
            reply = await within(PATIENCE, self._fetch(method, url + path, body))
        except (aiohttp.ClientError, TimeoutError, OSError, ValueError) as error:
            raise NoAnswer(f"{url}{path}: {error!r}") from error
        text = f"{url}{path}: {reply.status} {reply.body[:200]!r}"
        try:
            if 200 <= reply.status < 300 or reply.status == 409:
                made = reads(reply)
                planes.told(reply.holder)
                return made
        except (ValueError, LookupError, TypeError, RecursionError) as error:
            wrong = Wrong(f"{text}: {error!r}", "unreadable", status=reply.status)
            self._troubles.note(url, wrong)
            raise wrong from error
        if reply.status in (401, 403, 429):
            wrong = Wrong(text, str(reply.status), status=reply.status)
            self._troubles.note(url, wrong)
            raise wrong
        raise NoAnswer(text, status=reply.status)

    async def _fetch(self, method: str, url: str, body: bytes | None) -> Reply:
        headers = {**self._headers, HEADER: str(self._tickets.draw())}
        status, told, text = await self._transport.fetch(method, url, headers, body)
        try:
            self._tickets.observe_text(told.get(HEADER))
        except ValueError as why:  # the answer counts all the same
            self._troubles.note(url, Wrong(f"{url}: {why}", "ticket"))
        reading = told.get(READING)
        if reading is not None and not is_reading(reading):
            raise ValueError(f"the reading {reading[:40]!r} is none of a table")
        return Reply(status, text, None if reading is None else int(reading), told.get(HOLDER, ""))

    async def jobs(self) -> list[str]:
        return await self._read(_names_in, "GET", "", "/jobs")

    async def status(self, job: str) -> dict[str, Any]:
        """Returns what is known of a job: by the plane that holds it, if one that answers does."""
        planes, found = self._planes_of(job), dict[str, Any]()
        failed = NoAnswer("there is no control plane")
        for at in planes.tries():
            try:
                told = await self._read_at(planes, at, _status_in, "GET", f"/jobs/{job}")
            except NoAnswer as why:
                planes.failed(at, is_silent=not why.status, is_wrong=isinstance(why, Wrong))
                failed = why
                continue
            if told["holder"]:
                planes.answered(at)
                return told
            planes.failed(at, is_silent=False)  # it stands by
            found = found or told
        if not found:
            raise Unreachable(str(failed), failed.least)
        return found

    async def loads(self, job: str) -> list[Piece]:
        return await self._read(_loads_in, "GET", job, f"/jobs/{job}/loads")

    async def assignment(self, job: str) -> bytes | None:
        status = await self.status(job)
        if not status["committed"]:
            return None
        path = f"/jobs/{job}/assignment?{urlencode({'after': status['committed'] - 1})}"
        return await self._read(_assignment_in, "GET", job, path)

    async def take(self, job: str, assigner: int) -> Told:
        return await self._told(job, "take", json.dumps({"assigner": assigner}).encode())

    async def renew(self, job: str, term: int) -> Told:
        return await self._told(job, "renew", json.dumps({"term": term}).encode())

    async def propose(self, job: str, term: int, assignment: bytes) -> Told:
        return await self._told(job, f"propose?{urlencode({'term': term})}", assignment)

    async def commit(self, job: str, term: int, generation: int) -> Told:
        body = json.dumps({"term": term, "generation": generation}).encode()
        return await self._told(job, "commit", body)

    async def _told(self, job: str, call: str, body: bytes) -> Told:
        return await self._read(_told_in, "POST", job, f"/jobs/{job}/{call}", body)

    async def drain(self, job: str, task: int) -> None:
        """Drains the current life of a task."""
        body = json.dumps({"task": task}).encode()
        await self._read(_nothing_in, "POST", job, f"/jobs/{job}/drain", body)

    async def evict(self, job: str, task: int, favour: int) -> int:
        """Gives the life of a task that is let in no more leases, and lets a favoured one in next, if it is not 0.
        Returns the life that was let in."""
        body = {"task": task, "favour": favour} if favour else {"task": task}
        return await self._read(_life_in, "POST", job, f"/jobs/{job}/evict", json.dumps(body).encode())

    async def end(self, job: str) -> tuple[str, float]:
        """Ends a job, and returns `ending` with the seconds that leases may last, or `ended`."""
        return await self._read(_ending_in, "DELETE", job, f"/jobs/{job}")

    async def close(self) -> None:
        """Closes all connections."""
        await self._own.close()


def _value_in(reply: Reply) -> dict[str, Any]:
    value = json.loads(reply.body)
    if not isinstance(value, dict) or reply.status == 409:
        raise ValueError("an answer is no object of a plane")
    return value


def _nothing_in(reply: Reply) -> None:
    if reply.status != 204:
        raise ValueError(f"{reply.status} in place of 204")


def _life_in(reply: Reply) -> int:
    return int(_value_in(reply)["life"])


def _ending_in(reply: Reply) -> tuple[str, float]:
    value = _value_in(reply)
    if value["state"] not in ("ending", "ended"):
        raise ValueError("state is of another form")
    return value["state"], float(value["after"])


def _names_in(reply: Reply) -> list[str]:
    names = _value_in(reply)["jobs"]
    if not isinstance(names, list) or not all(isinstance(name, str) for name in names):
        raise ValueError("jobs is no list of names")
    return names


def _status_in(reply: Reply) -> dict[str, Any]:
    value = _value_in(reply)
    forms: dict[str, Any] = {
        "holder": bool, "policy": dict, "committed": int, "rows": list, "alive": list, "draining": list,
        "pending": int | None, "term": dict | None, "since_commit": int | float,
    }
    for name, form in forms.items():
        if not isinstance(value[name], form):
            raise ValueError(f"{name} is of another form")
    return value


def _loads_in(reply: Reply) -> list[Piece]:
    loads = _value_in(reply)["loads"]
    if not isinstance(loads, list) or not all(isinstance(it, list) and len(it) == 3 for it in loads):
        raise ValueError("loads is no list of ranges")
    return [(int(low), int(high), int(load)) for low, high, load in loads]


def _assignment_in(reply: Reply) -> bytes | None:
    if reply.status == 204:
        return None
    _value_in(reply)
    return reply.body


def _told_in(reply: Reply) -> Told:
    value = json.loads(reply.body)
    if not isinstance(value, dict):
        raise ValueError("an answer is no object")
    if reply.status == 409:
        if not isinstance(value["told"], dict) or not isinstance(value["refused"], str):
            raise ValueError("a refusal is of another form")
        return Told(value["told"], value["refused"], reply.reading)
    return Told(value, None, reply.reading)
