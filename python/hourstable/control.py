"""The control plane: many jobs in one process, over HTTP.

Bodies that are messages are those that the library writes and reads. Each decision about leases is
a call of the library; this module carries, stores, limits and counts.
"""

import asyncio
import json
import logging
import socket
import ssl
from collections.abc import Awaitable, Callable, Iterable, Sequence
from dataclasses import dataclass, field
from functools import partial
from typing import Any, TypeVar
from urllib.parse import urlsplit

from aiohttp import web

from hourstable import page, roles, versions
from hourstable import tickets as ticketing
from hourstable.access import Access, Turned, caller_in, look_at_task, route_of
from hourstable.answers import (
    KEY, LIVES, READING, TASKS, answer_of, asked_in, failure, job_in, json_of, member, message_of, name_in,
    not_admitted, number_in, refused, told, word_in,
)
from hourstable.callers import Callers, Role
from hourstable.connections import BACKLOG, Connections
from hourstable.context import note
from hourstable.failures import Failures
from hourstable.forwarding import HEADER as FORWARDED
from hourstable.forwarding import Carried, Forwarding
from hourstable.handed import Handed
from hourstable.jobs import Job, Made, Others, Replaced, Settings, policy_of
from hourstable.keys import KeyTold
from hourstable.lanes import Lanes
from hourstable.library import Refused, Table
from hourstable.limits import Bucket, Limited
from hourstable.limits import Limits as Limits
from hourstable.loads import Denials, Loads
from hourstable.metrics import CONTENT_TYPE, Metrics, Shown
from hourstable.overload import Overload
from hourstable.peers import Peers
from hourstable.readiness import Readiness
from hourstable.record import Record
from hourstable.request_ids import name_answer, traced
from hourstable.rights import SECRET, Asked, JobEnds, NotAdmitted, Rights, WrongKey
from hourstable.store import Conflict, Damaged, LivesSpent, NoSuchJob, Seen, Store, StoreFailed, StoreRefused
from hourstable.supervisor import Supervisor
from hourstable.table_calls import Call, Commit, Free, Grant, LetIn, Malformed, Propose, Renew, Take, term_of
from hourstable.tickets import Tickets
from hourstable.transport import Http, Transport
from hourstable.waiting import Backoff, Shared, within
from hourstable.waits import Waits

T = TypeVar("T")
Handler = Callable[[web.Request], Awaitable[web.StreamResponse]]
MOST_KEY = 4096  # characters of a key that is asked about
MOST_GRANTS = 1024  # of one request
LEAST_GUARD = 100  # milliseconds of a new job: who takes them for seconds is told
LINGERING = 1.0  # seconds for which what is left of a body is read after the answer
PAGES = {  # what people look at
    *page.FILES, "/overview", "/jobs/{job}/leases", "/jobs/{job}/slices", "/jobs/{job}/key",
}

log = logging.getLogger("hourstable.control")


REFUSED = (  # what says nothing against a job
    Malformed, NoSuchJob, Conflict, LivesSpent, Limited, Replaced, NotAdmitted, WrongKey, JobEnds,
)
EXPECTED = StoreFailed, OSError, MemoryError, Malformed, ValueError  # of a job that fails, or of its store
ANSWERED = (*REFUSED, Turned, StoreFailed, OSError, MemoryError, web.HTTPException)


@dataclass
class Followed:
    """A job of the plane, with what its tasks said."""

    job: Job
    loads: Loads
    buckets: dict[int, Bucket]
    seen: dict[int, float]  # tasks, and when they asked for a grant last
    lanes: Lanes = field(default_factory=Lanes)
    denials: dict[int, Denials] = field(default_factory=dict)  # as tasks reported them last

    def alive(self, now: float) -> list[int]:
        """Returns the tasks that asked for a grant in the last guard term. For one guard term after
        this plane took the job over, the owners of keys count too."""
        assert self.job.policy is not None
        since = now - self.job.policy.guard / 1000
        known = {task for task, at in self.seen.items() if at >= since}
        if self.job.is_held and self.job.held_since >= since:
            known |= self.job.owners()
        return sorted(known)

    def draining(self) -> list[int]:
        """Returns the tasks whose current life is drained."""
        return sorted(
            task for task, life in self.job.lives.items() if life.life and life.drained == life.life
        )


class OthersOf(Others):
    """What a job of a plane asks about the other planes."""

    def __init__(self, plane: "Plane") -> None:
        self._plane = plane

    def may_take(self, job: Job) -> bool:
        return self._plane.forwarding.may_take(job)

    def told(self, job: str) -> Iterable[Seen]:
        return self._plane.peers.told(job)

    def left_term(self, job: Job, incarnation: str) -> int:
        return 0 if job.holder is None else self._plane.peers.left_term(job.holder, incarnation, job.name)

    def reads(self, own: int) -> int:
        return self._plane.peers.reads()


class Plane:
    """A control plane over a store."""

    def __init__(
        self, store: Store, settings: Settings, tickets: Tickets, limits: Limits | None = None,
        callers: Callers | None = None, hosts: Sequence[str] = (), transport: Transport | None = None,
    ) -> None:
        self.store, self.settings, self.tickets = store, settings, tickets
        self.limits = limits or Limits()
        self.metrics = Metrics()
        self._now = settings.system.monotonic
        self.jobs: dict[str, Followed] = {}
        self.failures = Failures()
        told = settings.incarnation, settings.standby, self._now, settings.row_form
        self.peers = Peers(store, settings.process, *told)
        self.forwarding = Forwarding(
            self.peers, tickets, transport or Http(), self.failures, self._now,
            lambda: self.access.callers.secret_of_admin(),
        )
        self.readiness = Readiness(store, settings.system)
        self.record = Record(None, settings.system)
        self.waits = Waits(tickets, self._now, self.peers.is_cut_off)
        self.access = Access(callers or Callers(), hosts, self.metrics, self._now)
        self._runner: web.AppRunner | None = None
        self._server: asyncio.Server | None = None
        self.connections: Connections | None = None
        self.overload = Overload(self._now)
        self.supervisor = Supervisor(
            f"plane {settings.process}", log, self.metrics.internal_error, settings.system.random().random
        )
        self._opening = Shared[Followed]()
        self._looking: set[str] = set()  # jobs at which it looks now
        self._taking: set[str] = set()  # jobs that it takes now, or writes once more
        self._probing: asyncio.Task[None] | None = None  # whether other planes answer
        self.has_begun = False  # whether the store has answered
        self.is_ending = False  # whether it gives its jobs away

    # Starting and ending ---------------------------------------------------------------------

    async def start(
        self, host: str, port: int, tls: ssl.SSLContext | None = None, poll: float = 1.0, address: str = ""
    ) -> int:
        """Listens, and returns the port once the store answers. Until then probes are answered, and all else is
        refused. `address` is the URL at which the other planes of the store reach this one, by default that of the
        host and the port. Raises BlockingIOError if one of them has the number of this one, and StoreRefused."""
        backoff = Backoff(self.settings.system.random().random)
        made = None
        while not await self._has_store():
            made = made or await self._listen(host, port, tls, address)
            await asyncio.sleep(backoff.seconds())
        self.has_begun = True
        made = made or await self._listen(host, port, tls, address)
        self.supervisor.watch("poller", partial(self._poll, poll))
        if self.settings.shared:
            await self._beat_once()
            self.supervisor.watch("beats", self._beat)
        return made

    async def _has_store(self) -> bool:
        """Opens the store, and looks at its jobs. Returns whether it answered."""
        try:
            await self.store.open()
            if self.settings.shared:
                await self.peers.check()
            names = await self.store.jobs()
        except StoreRefused:
            raise
        except StoreFailed as error:
            if not self.readiness.lacks:
                log.warning("the store does not answer, and the plane waits for it: %s", error)
            self.readiness.lacks = str(error)
            return False
        if self.readiness.lacks:
            log.info("the store answers")
        self.readiness.lacks = ""
        await asyncio.gather(*map(self._look_at, names))
        return True

    async def _listen(self, host: str, port: int, tls: ssl.SSLContext | None, address: str) -> int:
        """Listens, and returns the port."""
        self._runner = web.AppRunner(self.application(), access_log=None, lingering_time=LINGERING)
        await self._runner.setup()
        server, turned = self._runner.server, self.metrics.turned
        assert server is not None
        self.connections = Connections(self.limits, server, self._now, turned, tls)
        self._server = await asyncio.get_running_loop().create_server(
            self.connections.door, host, port, backlog=BACKLOG, reuse_address=True
        )
        self.supervisor.watch("overload", self.overload.watch)
        made: int = self._server.sockets[0].getsockname()[1]
        if self.settings.shared:
            self.peers.address = address or url_of(host, made, tls is not None)
            self.access.reached_by(urlsplit(self.peers.address).hostname)
        return made

    async def stop(self) -> None:
        """Gives the jobs to other planes, answers what was asked, and closes all but the store."""
        self.is_ending = True
        await self._hand_over()
        self.waits.is_closing = True
        if self._server is not None:
            self._server.close()
        if self.connections is not None:
            self.connections.close()
        await self.supervisor.close()
        for followed in self.jobs.values():
            followed.job.wake()
        if self._runner is not None and self._runner.server is not None:
            await self._runner.shutdown()
            await self._runner.server.shutdown(self.limits.patience)
            await self._runner.cleanup()
        await self._opening.close()
        settling = [asyncio.create_task(self._settle(one.job)) for one in self.jobs.values()]
        if settling:
            _, late = await asyncio.wait(settling, timeout=self.limits.patience)
            for one in late:
                one.cancel()
        await self.peers.end()
        await self.forwarding.close()
        for followed in self.jobs.values():
            followed.job.close()

    def admit(self, callers: Callers, tls: ssl.SSLContext | None) -> None:
        """Takes other callers from now on, and certificates for new connections."""
        self.access.callers = callers
        if self.connections is not None:
            self.connections.tls = tls

    def idle(self) -> bool:
        """Whether no call of a job waits, and nothing of one is being read, made or stored."""
        return all(followed.job.idle() for followed in self.jobs.values())

    async def _settle(self, job: Job) -> None:
        """Makes the calls of a job that wait, and settles it."""
        try:
            await job.finish()
            await job.settle()
        except Exception as error:
            log.warning("%s was not settled: %r", job.name, error)

    async def _poll(self, every: float) -> None:
        """Looks what other planes wrote, where several share the store, and again at jobs that failed."""
        while True:
            self.readiness.beat()
            await asyncio.sleep(every)
            names = set(self.failures)
            if self.settings.shared:
                try:
                    names.update(await self.store.jobs())
                except StoreFailed as error:
                    log.warning("the store was not read: %s", error)
                    for followed in self.jobs.values():
                        followed.job.unsee()
                    continue
            for name in sorted(names - self._looking):  # a job whose row is locked keeps up no other
                self._looking.add(name)
                looking = self.supervisor.spawn("look_at", self._look_at(name))
                looking.add_done_callback(partial(self._looked, name))

    def _looked(self, name: str, _: "asyncio.Task[None]") -> None:
        self._looking.discard(name)

    # Other planes ----------------------------------------------------------------------------

    async def _beat(self) -> None:
        """Writes the beat of this plane again and again, and takes the jobs of planes that are gone."""
        while True:
            await asyncio.sleep(self.peers.interval)
            await self._beat_once()
            self._take_jobs()
            self._fit_jobs()
            if self._probing is None or self._probing.done():
                self._probing = self.supervisor.spawn("probe", self.forwarding.probe())

    async def _beat_once(self) -> None:
        heard = {name: self.forwarding.heard(followed.job) for name, followed in self.jobs.items()}
        rows = {name: followed.job.newest for name, followed in self.jobs.items()}
        terms = {name: term for name, followed in self.jobs.items() if (term := followed.job.term_of_own())}
        try:
            await self.peers.beat(heard, self.failures.of_plane(), rows=rows, terms=terms)
        except StoreFailed as error:
            log.info("the beat of this plane was not written: %s", error)

    def _take_jobs(self) -> None:
        for name, followed in self.jobs.items():
            job = followed.job
            is_others = not job.is_held and job.holder not in (None, self.settings.process)
            if is_others and name not in self._taking and self.forwarding.may_take(job):
                self._taking.add(name)
                taking = self.supervisor.spawn("take", self._take(job))
                taking.add_done_callback(partial(self._took, name))

    def _took(self, name: str, _: "asyncio.Task[None]") -> None:
        self._taking.discard(name)

    async def _take(self, job: Job) -> None:
        """Takes a job, if no other plane was first."""
        holder = job.holder
        try:
            await job.take()
        except (Replaced, Conflict, NoSuchJob):
            return
        except Exception as error:
            self._fail(job.name, "call", error)
        else:
            log.info("%s was taken from process %s", job.name, holder)
            self.failures.well(job.name, "call")

    def _fit_jobs(self) -> None:
        """Writes the rows of jobs once more that another plane does not read which beats."""
        for name, followed in self.jobs.items():
            if followed.job.is_too_new() and name not in self._taking:
                self._taking.add(name)
                fitting = self.supervisor.spawn("fit", self._fit(followed.job))
                fitting.add_done_callback(partial(self._took, name))

    async def _fit(self, job: Job) -> None:
        try:
            await job.fit()
        except (Replaced, NoSuchJob, StoreFailed) as error:  # it is done at the next beat
            log.info("%s was not written once more: %r", job.name, error)

    async def _hand_over(self) -> None:
        """Gives the jobs that this plane holds to others, so that no key is denied while it ends."""
        if not (self.settings.shared and self.peers.others()):
            return
        giving = [self.supervisor.spawn("give", self._give(it.job)) for it in self.jobs.values() if it.job.is_held]
        if giving:
            await asyncio.wait(giving, timeout=self.limits.patience)

    async def _give(self, job: Job) -> None:
        """Gives a job to another plane with its rows, after what is proposed is committed: where the rows do not
        count, the assigner of that one waits until the term of this one's has ended."""
        end = self._now() + self.limits.patience / 2
        while job.view.proposed and self._now() < end:
            await job.changed(0.1)
        try:
            handed = await job.give_away()
            for process in self.peers.others():
                if await self.forwarding.give(job, process, self.settings.standby, handed):
                    await job.refresh()
                    log.info("%s was given to process %d", job.name, process)
                    return
        except StoreFailed as error:
            log.warning("%s was not given away: %s", job.name, error)
        job.keep()

    def _carried(self, handler: Handler) -> Handler:
        """Returns a handler that lets another plane do a call of a job, if that holds it, or if this one cannot."""

        async def carried(request: web.Request) -> web.StreamResponse:
            if not self.settings.shared:
                return await handler(request)
            job = (await self.followed(job_in(request))).job
            asked = await self._carriage(request, job)
            if asked is None:
                return await handler(request)
            was_asked = job.is_elsewhere() or self.peers.is_cut_off()
            holder, made = job.holder, await self.forwarding.ask(job, asked) if was_asked else None
            if made is not None:
                return made
            try:
                return await handler(request)
            except (Replaced, StoreFailed):
                if not was_asked or job.holder != holder:
                    made = await self.forwarding.ask(job, asked)
                if made is None:
                    raise
                return made

        return carried

    async def _carriage(self, request: web.Request, job: Job, part: dict[str, Any] | None = None) -> Carried | None:
        """Returns a call that may be handed on, which is a part of the request if one is given; None if it was."""
        if FORWARDED in request.headers:
            return None
        if part is not None:
            self._hear(request, job, part)
            return await Carried.of(request, True, f"/jobs/{job.name}/grant", json.dumps(part).encode())
        is_of_task = request.path.endswith("/grant")
        if is_of_task:
            self._hear(request, job, await json_of(request))
        return await Carried.of(request, is_of_task)

    def _hear(self, request: web.Request, job: Job, given: dict[str, Any]) -> None:
        task = asked_in(given).task
        look_at_task(request, job.name, task)
        self.forwarding.hear(job.name, task)

    async def _look_at(self, name: str) -> None:
        """Reads what is stored of a job. One that fails keeps no other from being served."""
        try:
            job = (await self.followed(name)).job
        except NoSuchJob:
            self.failures.forget(name)
            return
        except Exception:
            return  # it is noted
        try:
            await job.refresh()
        except NoSuchJob:
            self.failures.forget(name)
        except Exception as error:
            self._fail(name, "read", error)
        else:
            self.failures.well(name, "read")
            if not job.is_held:  # its callers may have gone to another plane
                self.failures.lapse(name, "call", self._now() - self.limits.patience)

    def _fail(self, name: str, what: str, error: Exception) -> None:
        """Notes that a job failed: it is shown with why, and tried again."""
        failure = self.failures.failed(name, what, error, self._now())
        self.metrics.job_failed(name)
        if failure.tries > 1:
            return
        log.warning("%s failed: %s", name, failure.why)
        if not isinstance(error, EXPECTED):
            self.supervisor.caught(f"job {what}", error)

    def _job(self, name: str) -> Job:
        given = self.store, self.settings, self.tickets, self.metrics
        return Job(name, *given, OthersOf(self))

    async def followed(self, name: str) -> Followed:
        """Returns a job. Raises NoSuchJob, and what loading it raises, which is noted."""
        found = self.jobs.get(name)
        if found is not None:
            return found
        was_begun, opens = self._opening.is_begun(name), partial(self._open, name)
        try:
            return await self._opening.result(name, opens)
        except NoSuchJob:
            if not was_begun:
                raise
        return await self._opening.result(name, opens)  # the job may have been created after the row was looked for

    async def _open(self, name: str) -> Followed:
        """Loads a job. One at a time: a second one would have the log open while the first one writes it."""
        job = self._job(name)
        try:
            await job.load()
            await job.read_lives()
        except BaseException as error:
            job.close()
            if isinstance(error, Exception) and not isinstance(error, NoSuchJob):
                self._fail(name, "read", error)
            raise
        made = self.jobs[name] = Followed(job, Loads(), {}, {})
        return made

    # Calls of tables -------------------------------------------------------------------------

    async def call(self, job: Job, call: Call[T]) -> Made[T]:
        """Makes a call of a table. It goes on if its caller leaves or its time is over. A plane that ends takes no
        proposal: nobody may be left to commit it."""
        if self.is_ending and isinstance(call, Propose):
            raise Replaced(1)
        return await self._in_time(self._begin(job, call))

    def _begin(self, job: Job, call: Call[T]) -> "asyncio.Future[Made[T]]":
        """Begins a call of a table, and shows it to those who look once it is made."""
        answer = job.call(call)
        answer.add_done_callback(lambda done: self._saw(job, call, done))
        return answer

    def _saw(self, job: Job, call: Call[T], done: "asyncio.Future[Made[T]]") -> None:
        followed = self.jobs.get(job.name)
        if done.cancelled():
            return
        error = done.exception()
        if error is None:
            self.failures.well(job.name, "call")
            if followed is not None:
                followed.lanes.saw(job, call, done.result())
                if isinstance(call, Propose) and done.result().at is not None:
                    self.record.evicted(job, call, followed.alive(self._now()), followed.draining())
            if isinstance(call, Propose | Commit) and done.result().refusal is None and self.peers.others():
                self.supervisor.spawn("tell", self.forwarding.tell(job))
        elif isinstance(error, Exception) and not isinstance(error, REFUSED):
            self._fail(job.name, "call", error)

    async def _in_time(self, answer: "asyncio.Future[Made[T]]") -> Made[T]:
        loop = asyncio.get_running_loop()
        timer = loop.call_later(self.limits.patience, _give_up, answer)
        try:
            return await answer
        finally:
            timer.cancel()

    async def begin_grant(self, name: str, asked: Asked) -> "asyncio.Future[Made[bytes]]":
        """Asks the table for a grant, or only lets a life in. Raises NoSuchJob and Limited."""
        followed, now = await self.followed(name), self._now()
        bucket = followed.buckets.setdefault(
            asked.task, Bucket(self.limits.grants, self.limits.burst, now)
        )
        after = bucket.take(now)
        if after > 0:
            raise Limited("grants", after)
        followed.seen[asked.task] = now
        return self._begin(followed.job, LetIn(asked) if asked.let_in else Grant(asked))

    async def create(self, name: str, given: object) -> bool:
        """Creates a job, and returns whether it is new. Raises Malformed, Limited and Conflict, if
        it has another policy."""
        policy, members = policy_of(given)
        try:
            with Table(name, policy) as table:
                kept = table.kept()
        except Refused as refusal:
            raise Malformed("a number of the policy or the name is outside its limits") from refusal
        text = json.dumps(members, sort_keys=True)
        names = await self.store.jobs()
        if name not in names:
            if len(names) >= self.limits.jobs:
                raise Limited("jobs", 60)
            if policy.guard < LEAST_GUARD:
                raise Malformed(f"guard is {policy.guard}: terms are in milliseconds, and a guard term is at least"
                                f" {LEAST_GUARD} and usually 10000")
            self._job(name).try_log()  # a job whose log cannot be opened is not stored
            try:
                rights = Rights(self.settings.system.secret(SECRET), await self._job(name).draw_epoch())
                await self.store.create(name, text, kept, rights.text(None))
                self.record.add("create", name, policy=members)
                await self.followed(name)
                return True
            except Conflict:
                pass
        job = (await self.followed(name)).job
        if job.members != members:
            raise Conflict("the job has another policy")
        if job.rights.state:
            await job.begin_again()
            self.record.add("create", name, policy=members)
        return False

    async def status(self, name: str) -> dict[str, Any]:
        """Returns what GET /jobs/J answers."""
        followed = await self.followed(name)
        job, now = followed.job, self._now()
        committed, proposed, _ = job.view
        return {
            "job": name, "policy": job.members, "holder": job.is_held,
            "phase": "proposed" if proposed else "idle",
            "committed": committed, "pending": proposed or None, "term": job.term,
            "rows": [
                {field: getattr(row, field) for field, _ in row._fields_} for row in job.rows()
            ],
            "alive": followed.alive(now), "draining": followed.draining(),
            "since_commit": round(now - job.last_commit, 3), "admitted": job.admitted(),
            "grace": round(job.grace_left() / 1000, 3),
            "epoch": job.rights.epoch or None, "state": job.rights.state or None,
        }

    def shown(self) -> list[Shown]:
        """Returns what the gauges show."""
        now = self._now()
        made = [Shown(name, _numbers_of(one, now)) for name, one in self.jobs.items()]
        made += [Shown(name, {}) for name in self.failures if name not in self.jobs]
        for one in made:
            one.numbers["job_failed"] = 1 if one.job in self.failures else 0
        return made

    # HTTP ------------------------------------------------------------------------------------

    def application(self) -> web.Application:
        made = web.Application(
            client_max_size=self.limits.body + 1, middlewares=[traced, self._around]
        )
        made.on_response_prepare.extend((name_answer, say_version))
        made.add_routes([  # they are looked at in this order: the calls of tasks come first
            web.post("/jobs/{job}/grant", self._carried(self._post_grant)),
            web.get("/jobs/{job}/phase", self._get_phase),
            web.post("/jobs/{job}/free", self._carried(self._post_free)),
            web.post("/jobs/{job}/loads", self._carried(self._post_loads)),
            web.get("/jobs/{job}/loads", self._get_loads),
            web.get("/jobs/{job}/assignment", self._get_assignment),
            web.post("/jobs/{job}/tasks/{task}/life", self._post_life),
            web.post("/grants", self._post_grants),
            web.post("/jobs/{job}/take", self._carried(self._post_take)),
            web.post("/jobs/{job}/renew", self._carried(self._post_renew)),
            web.post("/jobs/{job}/propose", self._carried(self._post_propose)),
            web.post("/jobs/{job}/commit", self._carried(self._post_commit)),
            web.post("/jobs/{job}/drain", self._post_drain),
            web.post("/jobs/{job}/hold", self._post_hold),
            web.post("/jobs/{job}/look", self._post_look),
            web.post("/jobs/{job}/evict", self._post_evict),
            web.delete("/jobs/{job}", self._delete_job),
            web.get("/jobs/{job}", self._get_job),
            web.put("/jobs/{job}", self._put_job),
            web.get("/jobs", self._get_jobs),
            web.get("/healthz", self._healthz),
            web.get("/readyz", self._readyz),
            web.get("/record", self._get_record),
            web.get("/metrics", self._metrics),
            web.get("/overview", self._get_overview),
            web.get("/jobs/{job}/leases", self._get_leases),
            web.get("/jobs/{job}/slices", self._get_slices),
            web.get("/jobs/{job}/key", self._get_key),
            *page.routes(),
        ])
        return made

    @web.middleware
    async def _around(self, request: web.Request, handler: Handler) -> web.StreamResponse:
        """Finds out who calls, observes the ticket, and counts. What everybody may have observes no ticket, so that
        a stranger does not move those of the plane."""
        begun, is_public = self._now(), roles.is_public(route_of(request))
        try:
            self.access.know(request)
        except Turned as turned:
            answer = self._failure_of(request, turned)
            answer.force_close()
            return answer
        wrong = None if is_public else versions.why_not(request.headers, "the call")
        if wrong is not None:
            return failure(400, wrong, refused="version")
        try:
            if not is_public:
                self.tickets.observe_text(request.headers.get(ticketing.HEADER))
        except ValueError as error:
            return failure(400, str(error))
        made = self._with_ticket(await self._answered(request, handler), is_public)
        if request.method != "GET":
            route = request.match_info.route.resource
            call = route.canonical.rpartition("/")[2] if route else "none"
            self.metrics.request_seconds.labels(call).observe(self._now() - begun)
        return made

    async def _answered(self, request: web.Request, handler: Handler) -> web.StreamResponse:
        """Answers what a handler raises. What nobody expected is counted, and aiohttp answers 500."""
        try:
            await self._take_whole(request)
            self.access.admit(request)
            if not (self.has_begun or roles.is_public(route_of(request))):
                return failure(503, "the plane waits for its store", 1, refused="store")
            self._leave_out(request)
            return await handler(request)
        except ANSWERED as error:
            return self._failure_of(request, error)
        except Exception as error:
            self.supervisor.caught("request", error)
            raise

    async def _take_whole(self, request: web.Request) -> None:
        """Waits for the body, but not for long. Raises HTTPException."""
        if not request.content.is_eof():
            try:
                await within(self.limits.first, request.read())
            except TimeoutError:
                raise web.HTTPRequestTimeout from None
            except (web.RequestPayloadError, ConnectionError):
                raise web.HTTPBadRequest from None
        if self.connections is not None:
            self.connections.heard(request.protocol, not roles.is_public(route_of(request)))

    def _leave_out(self, request: web.Request) -> None:
        """Raises Limited for a request that is left out under overload: pages first, then calls that wait."""
        level = self.overload.level()
        if self.connections is not None:
            level = max(level, self.connections.crowding())
        if level and request.method == "GET":
            route = request.match_info.route.resource
            name = route.canonical if route is not None else ""
            if name in PAGES or (level > 1 and may_wait(request, name)):
                raise Limited("load", 1)

    def _with_ticket(self, answer: web.StreamResponse, is_public: bool) -> web.StreamResponse:
        """Returns an answer with its ticket. If none can be drawn, nothing is known of the call."""
        if answer.prepared:
            return answer  # it had a ticket of its own
        try:
            answer.headers[ticketing.HEADER] = str(self.tickets.draw())
        except (OSError, OverflowError) as error:
            if is_public:
                return answer
            log.warning("no ticket can be drawn: %s", error)
            return failure(503, f"no ticket can be drawn: {error}", 1, refused="disk")
        return answer

    def _failure_of(self, request: web.Request, error: Exception) -> web.Response:
        """Returns the answer to a request that raised one of ANSWERED."""
        match error:
            case Turned():
                self.access.turned(request, error)
                made = failure(error.status, str(error))
                if error.status == 401:
                    made.headers["WWW-Authenticate"] = "Bearer"
                return made
            case Malformed():
                return failure(400, str(error))
            case NoSuchJob():
                return failure(404, f"there is no job {error}: PUT /jobs/{error} with its policy creates it")
            case Conflict() | LivesSpent():
                return failure(409, str(error))
            case NotAdmitted():
                return not_admitted(error)
            case JobEnds():
                return failure(409, str(error), refused="ending")
            case WrongKey():
                return failure(403, str(error), refused="key")
            case Limited():
                self.metrics.limited.labels(error.limit).inc()
                made = failure(429, str(error), error.after, limit=error.limit)
                if error.limit == "load":
                    made.force_close()  # for those that are not left out
                return made
            case web.HTTPRequestEntityTooLarge():
                self.metrics.limited.labels("body").inc()
                return failure(413, f"a body has at most {self.limits.body} bytes", limit="body")
            case web.HTTPRequestTimeout() | web.HTTPBadRequest():
                made = failure(error.status, "the body did not come, or not as it was announced")
                made.force_close()
                return made
            case web.HTTPException():
                return failure(error.status, error.reason)
            case Replaced():
                return failure(503, str(error), error.after or None, refused="replaced")
        log.warning("%s %s: %s", request.method, request.path, error)
        match error:
            case Damaged():
                return failure(503, str(error), 5, refused="damaged")
            case OSError():
                return failure(503, f"the plane cannot write: {error.strerror}", 1, refused="disk")
        return failure(503, "the store failed", 1, refused="store")

    async def _healthz(self, _: web.Request) -> web.Response:
        return web.Response(text="ok\n")

    async def _readyz(self, request: web.Request) -> web.Response:
        is_ready, shown = await self.readiness.shown(self.access.reads_all(request))
        is_ready = shown["ready"] = is_ready and self.has_begun and not (self.is_ending or self.waits.is_closing)
        return answer_of(shown, 200 if is_ready else 503)

    async def _get_record(self, request: web.Request) -> web.Response:
        caller = caller_in(request)
        entries = self.record.newest(request.query.get("job"))
        return answer_of({"record": [entry for entry in entries if caller.has(entry["job"])]})

    async def _metrics(self, request: web.Request) -> web.Response:
        if self.connections is not None:
            self.metrics.connections.set(len(self.connections))
        text = self.metrics.text(self.shown(), self.tickets.left_out, caller_in(request).jobs)
        return web.Response(body=text, headers={"Content-Type": CONTENT_TYPE})

    async def _get_jobs(self, request: web.Request) -> web.Response:
        caller = caller_in(request)
        return answer_of({"jobs": [name for name in await self.store.jobs() if caller.has(name)]})

    async def _put_job(self, request: web.Request) -> web.Response:
        name, given = job_in(request), await json_of(request)
        if caller_in(request).role is Role.ADMIN:
            return answer_of({}, 201 if await self.create(name, given) else 200)
        await self._compare(name, given)
        return answer_of({})

    async def _compare(self, name: str, given: object) -> None:
        """Raises Conflict if a job has another policy, and Turned if there is none: who is no admin creates none."""
        _, members = policy_of(given)
        try:
            job = (await self.followed(name)).job
        except NoSuchJob:
            raise Turned(403, f"there is no job {name}, and only an admin creates one") from None
        if job.members != members:
            raise Conflict("the job has another policy")

    async def _get_job(self, request: web.Request) -> web.Response:
        return answer_of(await self.status(job_in(request)))

    async def _get_overview(self, request: web.Request) -> web.Response:
        now, failures, caller = self._now(), self.failures, caller_in(request)
        made = [page.overview_of(it, now, failures.of(it.job.name)) for it in self.jobs.values()]
        made += [page.overview_of_failed(it, now, failures.of(it)) for it in failures if it not in self.jobs]
        shown = [it for it in made if caller.has(it["job"])]
        return answer_of({"jobs": sorted(shown, key=lambda it: str(it["job"]))})

    async def _get_leases(self, request: web.Request) -> web.Response:
        followed = await self.followed(job_in(request))
        return answer_of(page.leases_of(followed, self._now()))

    async def _get_slices(self, request: web.Request) -> web.Response:
        followed = await self.followed(job_in(request))
        return answer_of(page.slices_of(followed, self._now()))

    async def _get_key(self, request: web.Request) -> web.Response:
        followed, key = await self.followed(job_in(request)), request.query.get("key")
        if key is None or len(key) > MOST_KEY:
            raise Malformed(f"key is missing or has more than {MOST_KEY} characters")
        alive = followed.alive(self._now())
        told = KeyTold(followed.job, followed.lanes, alive, followed.draining(), key)
        return answer_of(told.value())

    async def _get_assignment(self, request: web.Request) -> web.StreamResponse:
        job, after = (await self.followed(job_in(request))).job, number_in(request, "after", 0)

        def answer() -> web.Response:
            assignment = job.view.assignment if job.view.committed > after else None
            return web.Response(status=204) if assignment is None else message_of(assignment)

        return await self.waits.get(request, job, lambda: job.view.committed > after, answer)

    async def _get_phase(self, request: web.Request) -> web.StreamResponse:
        job = (await self.followed(job_in(request))).job
        is_waiting = may_wait(request, "/jobs/{job}/phase")
        known = number_in(request, "committed", 0), number_in(request, "pending", 0)

        def answer() -> web.Response:
            committed, proposed, _ = job.view
            phase = "proposed" if proposed else "idle"
            return answer_of({"phase": phase, "committed": committed, "pending": proposed or None})

        def is_due() -> bool:
            told = job.view[:2]
            is_news = told > known if self.peers.is_cut_off() else told != known
            return is_news or not is_waiting

        return await self.waits.get(request, job, is_due, answer)

    async def _get_loads(self, request: web.Request) -> web.Response:
        followed = await self.followed(job_in(request))
        return answer_of({"loads": followed.loads.newest(self._now())})

    async def _post_loads(self, request: web.Request) -> web.Response:
        followed, given = await self.followed(job_in(request)), await json_of(request)
        task = task_in(request, given)
        life = member(given, "life", LIVES) if "life" in given else 0
        key = word_in(given, "key")
        followed.job.need_key(task, life, key)
        followed.job.rights.check(task, life, key)
        try:
            denials = Denials.read(given)
            followed.loads.report(task, given.get("loads"), self._now())
            followed.denials[task] = denials
        except ValueError as error:
            raise Malformed(str(error)) from error
        return web.Response(status=204)

    async def _post_drain(self, request: web.Request) -> web.Response:
        followed, given = await self.followed(job_in(request)), await json_of(request)
        task = task_in(request, given)
        await followed.job.drain(task)
        self.record.add("drain", followed.job.name, task=task, life=followed.job.lives[task].life)
        return web.Response(status=204)

    async def _post_evict(self, request: web.Request) -> web.Response:
        followed, given = await self.followed(job_in(request)), await json_of(request)
        task = member(given, "task", TASKS)
        note(task=task)
        favoured = member(given, "favour", LIVES) if "favour" in given else 0
        life = await followed.job.evict(task, favoured)
        self.record.add("evict", followed.job.name, task=task, life=life)
        return answer_of({"life": life})

    async def _delete_job(self, request: web.Request) -> web.Response:
        followed = await self.followed(job_in(request))
        state, after = await followed.job.end()
        self.record.add("end", followed.job.name, state=state)
        return answer_of({"state": state, "after": after})

    async def _post_life(self, request: web.Request) -> web.Response:
        followed = await self.followed(job_in(request))
        text = request.match_info["task"]
        if not (text.isascii() and text.isdigit() and len(text) <= 2 and int(text) in TASKS):
            raise Malformed("a task is 1 to 64")
        look_at_task(request, followed.job.name, int(text))
        life, key = await followed.job.raise_life(int(text))
        self.record.add("begin", followed.job.name, task=int(text), life=life)
        made: dict[str, Any] = {"life": life, "last": life - 1}
        return answer_of({**made, "key": key} if key else made)

    async def _post_grant(self, request: web.Request) -> web.Response:
        name, asked = job_in(request), asked_in(await json_of(request))
        note(task=asked.task)
        look_at_task(request, name, asked.task)
        made = await self._in_time(await self.begin_grant(name, asked))
        return told(made, message_of)

    async def _post_grants(self, request: web.Request) -> web.Response:
        """Answers several grants, each as a call of its own would be answered."""
        asked = (await json_of(request)).get("grants")
        if not isinstance(asked, list) or not 1 <= len(asked) <= MOST_GRANTS:
            raise Malformed(f"grants is no list of 1 to {MOST_GRANTS}")
        begun = [await self._begun(request, one) for one in asked]
        waiting = [one for one in begun if isinstance(one, asyncio.Future)]
        if waiting:
            await asyncio.wait(waiting, timeout=self.limits.patience)
        answers = await asyncio.gather(*(self._part(request, *one) for one in zip(asked, begun)))
        return message_of(b'{"answers":[%s]}' % b",".join(answers))

    async def _part(
        self, request: web.Request, asked: object, begun: "asyncio.Future[Made[bytes]] | Exception"
    ) -> bytes:
        """Returns the answer of one of several grants; that of another plane, if this one cannot give it."""
        error = begun if isinstance(begun, Exception) else begun.exception() if begun.done() else None
        if isinstance(error, Replaced | StoreFailed) and isinstance(asked, dict):
            job = (await self.followed(name_in(asked.get("job")))).job
            one = await self._carriage(request, job, asked)
            made = await self.forwarding.ask(job, one) if one is not None else None
            if made is not None and isinstance(made.body, bytes):
                reading = made.headers.get(READING, "null")
                return b'{"status":%d,"reading":%s,"body":%s}' % (made.status, reading.encode(), made.body)
        return self._grant_part(request, begun)

    async def _begun(self, request: web.Request, asked: object) -> "asyncio.Future[Made[bytes]] | Exception":
        """Asks for one of several grants, or says why that is not done."""
        try:
            if not isinstance(asked, dict):
                raise Malformed("a grant is no object")
            name, part = name_in(asked.get("job")), asked_in(asked)
            look_at_task(request, name, part.task)
            return await self.begin_grant(name, part)
        except Exception as error:  # of this one alone
            return error

    def _grant_part(
        self, request: web.Request, begun: "asyncio.Future[Made[bytes]] | Exception"
    ) -> bytes:
        """Returns the answer of one of several grants: its status, its reading and its body."""
        try:
            if isinstance(begun, Exception):
                raise begun
            _give_up(begun)
            made = begun.result()
            status, body = (200, made.result) if made.refusal is None else (409, refused(made))
            reading = b"null" if made.at is None else b"%d" % made.at
            return b'{"status":%d,"reading":%s,"body":%s}' % (status, reading, body)
        except Exception as error:
            if isinstance(error, ANSWERED):
                failed = self._failure_of(request, error)
            else:
                self.supervisor.caught("request", error)
                failed = failure(500, "an internal error: see the log of the plane")
            return b'{"status":%d,"reading":null,"body":%s}' % (failed.status, failed.body)

    async def _post_free(self, request: web.Request) -> web.Response:
        job = (await self.followed(job_in(request))).job
        call = Free(await request.read(), request.headers.get(KEY, ""))
        look_at_task(request, job.name, call.task)
        made = await self.call(job, call)
        return told(made, lambda freed: answer_of({"freed": freed}))

    async def _post_hold(self, request: web.Request) -> web.Response:
        """Takes a job that another plane gives away."""
        job, given = (await self.followed(job_in(request))).job, await json_of(request)
        job.given_by, job.handed = member(given, "process", range(64)), Handed.read(given.get("table"))
        try:
            await job.take()
        except Conflict:
            raise Replaced(0) from None
        finally:
            job.given_by = job.handed = None
        return web.Response(status=204)

    async def _post_look(self, request: web.Request) -> web.Response:
        """Looks at a job at once, whose holder says that its phase is another one."""
        await (await self.followed(job_in(request))).job.refresh()
        return web.Response(status=204)

    async def _post_take(self, request: web.Request) -> web.Response:
        job, given = (await self.followed(job_in(request))).job, await json_of(request)
        made = await self.call(job, Take(member(given, "assigner", range(1, 1 << 64))))
        return told(made, lambda term: answer_of(term_of(term)))

    async def _post_renew(self, request: web.Request) -> web.Response:
        job, given = (await self.followed(job_in(request))).job, await json_of(request)
        made = await self.call(job, Renew(member(given, "term", range(1 << 64))))
        return told(made, lambda term: answer_of(term_of(term)))

    async def _post_propose(self, request: web.Request) -> web.Response:
        followed = await self.followed(job_in(request))
        if "term" not in request.query:
            raise Malformed("the term is missing")
        call = Propose(number_in(request, "term", 0), await request.read())
        made = await self.call(followed.job, call)
        return told(made, lambda generation: answer_of({"generation": generation}))

    async def _post_commit(self, request: web.Request) -> web.Response:
        job, given = (await self.followed(job_in(request))).job, await json_of(request)
        generation = None
        if "generation" in given:
            generation = member(given, "generation", range(1, 1 << 64))
        made = await self.call(job, Commit(member(given, "term", range(1 << 64)), generation))
        return told(made, lambda committed: answer_of({"generation": committed}))


async def say_version(_: web.Request, answer: web.StreamResponse) -> None:
    """Says of which version an answer is."""
    answer.headers.update(versions.SAYS)


def task_in(request: web.Request, given: dict[str, Any]) -> int:
    """Returns the task that a body names. Raises Malformed, and Turned if the caller may not act for it."""
    task = member(given, "task", TASKS)
    note(task=task)
    look_at_task(request, job_in(request), task)
    return task


def url_of(host: str, port: int, is_tls: bool) -> str:
    """Returns the URL of a server: by the name of this host, if it listens on all addresses."""
    name = socket.gethostname() if host in ("", "0.0.0.0", "::") else host
    return f"http{'s' if is_tls else ''}://{f'[{name}]' if ':' in name else name}:{port}"


def may_wait(request: web.Request, route: str) -> bool:
    """Returns whether a GET may wait."""
    asks_phase = route == "/jobs/{job}/phase" and {"committed", "pending"} <= set(request.query)
    return asks_phase or route == "/jobs/{job}/assignment"


def _give_up(answer: "asyncio.Future[Any]") -> None:
    if not answer.done():
        answer.set_exception(StoreFailed("the store did not answer in time"))


def _numbers_of(followed: Followed, now: float) -> dict[str, float]:
    job = followed.job
    assert job.policy is not None
    numbers: dict[str, float] = {
        "generation": job.view.committed,
        "proposed": 1 if job.view.proposed else 0,
        "proposed_seconds": now - job.since if job.view.proposed else 0,
        "held": 1 if job.is_held else 0,
        "grace_seconds": job.grace_left() / 1000,
        "tasks_alive": len(followed.alive(now)),
        "tasks_draining": len(followed.draining()),
        "rows": len(job.rows()),
    }
    if job.is_held:
        granted = int(job.kept()["granted"])
        numbers["grants_made"] = granted
        numbers["numbers_left_ratio"] = 1 - granted / job.policy.numbers
    return numbers
