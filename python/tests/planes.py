"""A control plane for tests: a table behind HTTP in the process of the test, whose faults the test
chooses. It is not the one of the package: it stores nothing and has no assigner."""

import asyncio
import json
from collections.abc import Awaitable, Callable, Iterable
from pathlib import Path
from typing import Any, TypeVar

from aiohttp import web

from hourstable.library import KIND_WORDS, Policy, Refused, Table, boottime_ticks
from hourstable.logs import Log, job_line, told_refusal
from hourstable.tickets import HEADER, Tickets
from lines import line_of, told_grant, value_of

T = TypeVar("T")
JOB, EPOCH = "shop", 7
POLICY: dict[str, Any] = {
    "redundancy": [1, 1], "skew": 0, "guard": 2000, "bridge": 2000, "job": 60_000,
    "numbers": 1000,
}
Fault = Callable[[web.Request], Awaitable[web.StreamResponse | None]]


def assignment(generation: int, slices: Iterable[tuple[int, int]]) -> bytes:
    """Returns the message of an assignment: for each slice its start and its owner."""
    value = {
        "generation": str(generation), "slices": [[str(start), [task]] for start, task in slices],
    }
    message = {"job": JOB, "type": "assignment", "value": value, "version": 2}
    return json.dumps(message, separators=(",", ":")).encode()


class Plane:
    """A table, behind HTTP. It logs its calls to a folder of logs."""

    def __init__(self, folder: Path, guard: int = POLICY["guard"]) -> None:
        self.policy: dict[str, Any] = {**POLICY, "guard": guard, "bridge": guard}
        names = ("skew", "guard", "bridge", "job", "numbers")
        given = Policy(*self.policy["redundancy"], *(self.policy[name] for name in names))
        self.table = Table(JOB, given)
        self.tickets = Tickets(0, None)
        self.log = Log(folder / JOB, "control", job_line(self.policy))
        told = "term {0.number} until {0.until}".format
        self.term = self.call("take", lambda at: self.table.take(1, at), told, assigner=1).number
        self.lives: dict[int, int] = {}
        self.asked: list[tuple[str, Any]] = []
        self.loads: list[Any] = []
        self.is_new = True  # a version up to 1.0 gives a lease to who asks to be let in
        self.fault: Fault | None = None
        self.changed = asyncio.Event()
        self.url = ""
        self._runner: web.AppRunner | None = None

    def reading(self) -> int:
        return boottime_ticks()

    # What a test does to the table. --------------------------------------------------------------

    def propose(self, generation: int, slices: Iterable[tuple[int, int]]) -> None:
        message = assignment(generation, slices)
        members = {"term": self.term, **value_of(message)}
        self.call(
            "propose", lambda at: self.table.propose(self.term, message, at),
            lambda _: f"proposed {generation}", **members,
        )
        self.turn()

    def commit(self) -> int:
        generation = self.call(
            "commit", lambda at: self.table.commit(self.term, at), "committed {}".format,
            term=self.term,
        )
        self.turn()
        return generation

    def call(
        self, do: str, ask: Callable[[int], T], told: Callable[[T], str], **members: Any
    ) -> T:
        """Makes a call of the table, and logs it."""
        at = self.reading()
        try:
            made = ask(at)
        except Refused as refused:
            reply = told_refusal(do, str(refused))
            self.log.append(line_of(self.tickets.draw(), do, reply, **members, at=at))
            raise
        self.log.append(line_of(self.tickets.draw(), do, told(made), **members, at=at))
        return made

    async def commit_soon(self) -> int:
        """Commits as soon as no lease is in the way, and returns how long that took, in ticks."""
        begun = self.reading()
        while True:
            try:
                self.commit()
                return self.reading() - begun
            except Refused as refused:
                assert refused.name == "HELD", refused
                await asyncio.sleep(0.005)

    def settle(self, generation: int, slices: Iterable[tuple[int, int]]) -> None:
        """Proposes and commits at once, as while no lease is out."""
        self.propose(generation, slices)
        self.commit()

    def turn(self) -> None:
        self.changed.set()
        self.changed = asyncio.Event()

    def held(self, task: int) -> list[str]:
        """Returns the kinds of the rows of a task."""
        return [KIND_WORDS[row.kind] for row in self.table.rows() if row.task == task]

    # HTTP. ---------------------------------------------------------------------------------------

    async def start(self) -> "Plane":
        app = web.Application(middlewares=[self.around])
        job = f"/jobs/{JOB}"
        app.router.add_put(job, self.create)
        app.router.add_get(job, self.told)
        app.router.add_get(job + "/phase", self.phase)
        app.router.add_get(job + "/assignment", self.assignment)
        app.router.add_post(job + "/tasks/{task}/life", self.life)
        app.router.add_post(job + "/grant", self.grant)
        app.router.add_post(job + "/free", self.free)
        app.router.add_post(job + "/loads", self.take_loads)
        self._runner = web.AppRunner(app)
        await self._runner.setup()
        site = web.TCPSite(self._runner, "127.0.0.1", 0, shutdown_timeout=0.1)
        await site.start()
        self.url = f"http://127.0.0.1:{self._runner.addresses[0][1]}"
        return self

    async def stop(self) -> None:
        if self._runner is not None:
            self.turn()
            await asyncio.sleep(0.01)  # those who wait get their answers
            await self._runner.cleanup()
            self._runner = None
        self.log.close()

    @web.middleware
    async def around(self, request: web.Request, handler: Any) -> web.StreamResponse:
        self.tickets.observe_text(request.headers.get(HEADER))
        if self.fault is not None:
            answer = await self.fault(request)
            if answer is not None:
                return answer
        answered: web.StreamResponse = await handler(request)
        answered.headers[HEADER] = str(self.tickets.draw())
        return answered

    async def create(self, request: web.Request) -> web.Response:
        is_same = await request.json() == self.policy
        return web.json_response({}, status=200 if is_same else 409)

    async def told(self, _: web.Request) -> web.Response:
        return web.json_response({"policy": self.policy})

    async def phase(self, request: web.Request) -> web.Response:
        phase, changed = self.table.phase(), self.changed
        if request.query.get("committed") == str(phase.committed):
            if request.query.get("pending") == str(phase.proposed):
                await _within(changed, 5.0)
                phase = self.table.phase()
        word = "proposed" if phase.proposed else "idle"
        value = {"phase": word, "committed": phase.committed, "pending": phase.proposed or None}
        return web.json_response(value)

    async def assignment(self, request: web.Request) -> web.Response:
        if self.table.phase().committed <= int(request.query["after"]):
            await _within(self.changed, 5.0)
        if self.table.phase().committed <= int(request.query["after"]):
            return web.Response(status=204)
        return web.Response(body=self.table.committed())

    async def life(self, request: web.Request) -> web.Response:
        task = int(request.match_info["task"])
        self.lives[task] = self.lives.get(task, 0) + 1
        return web.json_response({"life": self.lives[task], "last": self.lives[task] - 1})

    async def grant(self, request: web.Request) -> web.Response:
        asked = await request.json()
        task, life = asked["task"], asked["life"]
        phase = self.table.phase()
        if self.is_new and asked.get("let_in") and (phase.committed or phase.proposed):
            headers = {"Hourstable-Reading": str(self.reading())}
            return web.json_response({"let_in": life, "epoch": EPOCH}, headers=headers)
        self.asked.append(("grant", asked))

        def told(grant: bytes) -> str:
            return told_grant(value_of(grant))

        return self.answered(lambda: self.call(
            "grant", lambda at: self.table.grant(task, life, at), told, task=task, life=life
        ))

    async def free(self, request: web.Request) -> web.Response:
        note = await request.read()
        self.asked.append(("free", value_of(note)))

        def free() -> bytes:
            told = "freed {}".format
            freed = self.call(
                "free", lambda at: self.table.free(note, at), told, note=value_of(note)
            )
            return json.dumps({"freed": freed}).encode()

        return self.answered(free)

    async def take_loads(self, request: web.Request) -> web.Response:
        self.loads.append(await request.json())
        return web.Response(status=204)

    def answered(self, call: Callable[[], bytes]) -> web.Response:
        headers = {"Hourstable-Reading": str(self.reading())}
        try:
            return web.Response(body=call(), headers=headers)
        except Refused as refused:
            word = str(refused).split(" ")[0]
            return web.json_response({"refused": word}, status=409, headers=headers)


async def _within(event: asyncio.Event, seconds: float) -> None:
    try:
        async with asyncio.timeout(seconds):
            await event.wait()
    except TimeoutError:
        pass
