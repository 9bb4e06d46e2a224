"""Calls that a control plane hands on to another one, and when it takes a job itself.

A plane that does not hold a job lets its holder do a call, and tells the holder's address, so that the caller may ask
there. One whose store fails asks the others. A call that was handed on is not handed on again.
"""

import asyncio
import json
import logging
from collections.abc import Callable, Coroutine, Mapping
from typing import Any, NamedTuple

import aiohttp
from aiohttp import web

from hourstable import tickets as ticketing
from hourstable import versions
from hourstable.access import FORWARDED as FOR_WHOM
from hourstable.access import caller_in
from hourstable.answers import HOLDER, KEY, READING
from hourstable.callers import EVERYBODY
from hourstable.failures import Failures
from hourstable.handed import Handed
from hourstable.jobs import Job
from hourstable.peers import Beat, Heard, Peers
from hourstable.request_ids import HEADER as REQUEST
from hourstable.tickets import Tickets
from hourstable.transport import Fetched, Transport
from hourstable.waiting import unless, within

HEADER = "Hourstable-Forwarded"  # the process of the plane that hands a call on
PASSED = ("Content-Type", KEY, REQUEST)  # headers of a request that go on with it
RETURNED = ("Content-Type", "Retry-After", READING)  # those of its answer that come back
MOST_HANDED = 1_000_000  # bytes of a table with its rows: less than a plane takes by default
AGAIN = 0.15  # of the time after which planes take over: tasks that are turned away for so long find no other plane
NOT_DONE = (401, 403, 500, 502, 503, 504)  # statuses of a plane that did not do a call

log = logging.getLogger("hourstable.forwarding")


class Carried(NamedTuple):
    """A call of a job that is handed on. `caller` is for whom, as planes tell each other."""

    caller: str
    authorization: str
    method: str
    path: str
    headers: Mapping[str, str]
    body: bytes
    is_of_task: bool  # whether a task asks for a grant by it

    @classmethod
    async def of(
        cls, request: web.Request, is_of_task: bool, path: str | None = None, body: bytes | None = None
    ) -> "Carried":
        """Returns the call of a request, or the one in it with a path and a body of its own."""
        passed = {name: request.headers[name] for name in PASSED if name in request.headers}
        passed[REQUEST] = request.get(REQUEST, "")
        body = await request.read() if body is None else body
        caller, authorization = caller_in(request).packed(), request.headers.get("Authorization", "")
        return cls(caller, authorization, request.method, path or request.raw_path, passed, body, is_of_task)

    def headers_by(self, secret: str | None) -> dict[str, str]:
        """Returns the headers of the call: as a plane makes it for the caller, if it has a secret for that."""
        if secret is not None:
            return {**self.headers, "Authorization": f"Bearer {secret}", FOR_WHOM: self.caller}
        if self.authorization:
            return {**self.headers, "Authorization": self.authorization}
        return {**self.headers, FOR_WHOM: self.caller}


class Forwarding:
    """What a plane knows of who else serves its jobs, and the calls that it hands on. `now` returns seconds that
    never fall, and `secret` that by which other planes know this one, None if they know it by its certificate."""

    def __init__(
        self, peers: Peers, tickets: Tickets, transport: Transport, failures: Failures, now: Callable[[], float],
        secret: Callable[[], str | None],
    ) -> None:
        self._peers, self._tickets, self._transport = peers, tickets, transport
        self._secret = secret
        self._failures, self._now = failures, now
        self._heard: dict[str, dict[int, float]] = {}  # by job, tasks that asked this plane itself, and when
        self._silent: dict[int, float] = {}  # planes that give no answer, and since when
        self._missed: dict[str, tuple[float, float]] = {}  # by job, when tasks were not handed on: first and last

    # Who is to hold a job. -----------------------------------------------------------------------

    def hear(self, job: str, task: int) -> None:
        """Notes that a task asked this plane."""
        self._heard.setdefault(job, {})[task] = self._now()

    def heard(self, job: Job) -> Heard:
        """Returns what the beat of this plane says of the tasks of a job."""
        assert job.policy is not None
        now, times = self._now(), self._heard.get(job.name, {}).values()
        lately = [at for at in times if now - at < job.policy.guard / 1000]
        return Heard(len(lately), round(now - max(lately), 3)) if lately else Heard(0, float(job.policy.guard))

    def may_take(self, job: Job) -> bool:
        """Whether this plane is to take a job that another one holds: that one gives it away, its beat stood still,
        it says that the job fails on it or that it does not read rows of this form, or tasks do not reach it. Not
        because nobody called the job."""
        peers, holder = self._peers, job.holder
        if job.is_given or not peers.is_known or holder is None:
            return False
        if job.given_by == holder or peers.is_gone(holder):
            return True
        beat = peers.of(holder)
        if beat is None:
            return job.stands_still()  # one of version 1.0, which does not beat
        cannot = job.name in beat.failed or beat.reads < job.rights.form()
        if cannot and job.name not in self._failures:
            return True
        return self._is_out_of_reach(job, beat)

    def _is_out_of_reach(self, job: Job, beat: Beat) -> bool:
        """Whether the holder is silent for so long, so that tasks were turned away again and again, and fewer tasks
        asked it than were turned away, or none since it is silent."""
        assert job.policy is not None and job.holder is not None
        now, standby = self._now(), self._peers.standby
        since = max(self._silent.get(job.holder, now), self._peers.steady_since)
        first, last = self._missed.get(job.name, (now, now - 2 * standby))
        is_found = now - last > standby or last - first < AGAIN * standby  # by tasks that were turned away
        if is_found or self._peers.is_cut_off() or now - since < standby:
            return False
        turned_away = sum(at >= since for at in self._heard.get(job.name, {}).values())
        theirs = beat.heard.get(job.name, Heard(0, job.policy.guard))
        silent = self._peers.told_at(job.holder) - since - standby / 2  # so old is its beat, and more
        return turned_away > 0 and (theirs.tasks < turned_away or theirs.ago >= max(standby, silent))

    # Calls that are handed on. -------------------------------------------------------------------

    async def ask(self, job: Job, asked: Carried) -> web.Response | None:
        """Returns the answer of the plane that holds a job; or, if this one cannot do the call, of one that took it.
        None if no other plane did the call."""
        assert job.policy is not None
        seconds = min(self._peers.standby, job.policy.guard / 10_000)  # half of what a task waits for an answer
        for process in self._targets(job):
            is_missing = asked.is_of_task and process == job.holder
            if is_missing:
                self._miss(job)
            if self._now() - self._silent.get(process, self._now()) >= seconds:
                continue  # the caller may reach it, and is not kept up
            until = self._until_own(job) if process == job.holder else None
            made = await self._fetch(process, asked, seconds, until)
            if made is not None and made.status not in NOT_DONE:
                self._missed.pop(job.name, None)
                beat = self._peers.of(process)
                return _answer(made, beat.address if beat is not None else "")
        return None

    def _miss(self, job: Job) -> None:
        """Notes that a call of a task is not handed on, or not yet."""
        now = self._now()
        first, last = self._missed.get(job.name, (now, now))
        self._missed[job.name] = (first if now - last <= self._peers.standby else now), now

    async def _until_own(self, job: Job) -> None:
        """Returns when this plane is to do the calls of a job itself."""
        while not (job.is_held or self.may_take(job)):
            await asyncio.sleep(self._peers.interval / 5)

    def _targets(self, job: Job) -> list[int]:
        others = self._peers.others()
        if job.holder == self._peers.process or job.is_held:
            return others
        return [it for it in others if it == job.holder]

    async def probe(self) -> None:
        """Asks the other planes whether they answer."""
        asked = Carried(EVERYBODY.packed(), "", "GET", "/healthz", {}, b"", False)
        await asyncio.gather(*(self._fetch(it, asked, self._peers.standby / 2) for it in self._peers.others()))

    async def give(self, job: Job, process: int, seconds: float, handed: Handed | None) -> bool:
        """Lets another plane take a job that this one gave away, with its rows if they are told. Returns whether it
        did."""
        told: dict[str, Any] = {"process": self._peers.process}
        body = json.dumps(told if handed is None else {**told, "table": handed.value()}).encode()
        if len(body) > MOST_HANDED:
            body = json.dumps(told).encode()
        path, headers = f"/jobs/{job.name}/hold", {"Content-Type": "application/json"}
        asked = Carried(EVERYBODY.packed(), "", "POST", path, headers, body, False)
        made = await self._fetch(process, asked, seconds)
        return made is not None and made.status == 204

    async def tell(self, job: Job) -> None:
        """Lets the other planes look at a job whose phase is another one now. Who does not hear it sees it later."""
        path, headers = f"/jobs/{job.name}/look", {"Content-Type": "application/json"}
        asked = Carried(EVERYBODY.packed(), "", "POST", path, headers, b"{}", False)
        await asyncio.gather(*(self._fetch(it, asked, self._peers.standby) for it in self._peers.others()))

    async def _fetch(
        self, process: int, asked: Carried, seconds: float, until: Coroutine[Any, Any, None] | None = None
    ) -> Fetched | None:
        """Returns the answer of a plane, None if there is none in these seconds, or before something is done."""
        beat, begun = self._peers.of(process), self._now()
        address = beat.address if beat is not None else ""
        headers = {**versions.SAYS, **asked.headers_by(self._secret()), HEADER: str(self._peers.process)}
        try:
            headers[ticketing.HEADER] = str(self._tickets.draw())
        except (OSError, OverflowError) as why:  # of this plane alone
            log.warning("no ticket can be drawn: %s", why)
            if until is not None:
                until.close()
            return None
        fetching = self._transport.fetch(asked.method, address + asked.path, headers, asked.body)
        try:
            made = await within(seconds, fetching if until is None else unless(until, fetching))
        except (aiohttp.ClientError, TimeoutError, OSError, ValueError) as why:
            log.info("%s%s was not handed on: %r", address, asked.path, why)
            self._silent.setdefault(process, begun)
            return None
        self._silent.pop(process, None)
        try:
            self._tickets.observe_text(made.headers.get(ticketing.HEADER))
        except ValueError as why:  # the answer counts all the same
            log.warning("%s: %s", address, why)
        return made

    async def close(self) -> None:
        """Closes all connections."""
        await self._transport.close()


def _answer(made: Fetched, address: str) -> web.Response:
    headers = {name: made.headers[name] for name in RETURNED if name in made.headers}
    return web.Response(body=made.body, status=made.status, headers={**headers, HOLDER: address})
