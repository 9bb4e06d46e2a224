"""Planes for tests, in this process and on loopback, and what a caller does."""

import asyncio
import json
from collections.abc import AsyncIterator, Sequence
from contextlib import asynccontextmanager
from pathlib import Path
from typing import Any, NamedTuple

import aiohttp

from hourstable import logs
from hourstable.callers import Callers
from hourstable.clock import local_clock
from hourstable.control import Limits, Plane
from hourstable.jobs import Settings
from hourstable.library import Phase, Refused, Slicelet
from hourstable.store import Store
from hourstable.system import SYSTEM, System, make_folder
from hourstable.task import Denied
from hourstable.task import Task as ServiceTask
from hourstable.tickets import Tickets
from hourstable.transport import Transport
from hourstable.versions import ROWS

POLICY: dict[str, Any] = {
    "redundancy": [1, 1], "skew": 0, "guard": 1000, "bridge": 1000, "job": 2000, "numbers": 1000
}
HALF = 1 << 62


class Answer(NamedTuple):
    status: int
    headers: Any
    body: bytes

    @property
    def json(self) -> Any:
        return json.loads(self.body)

    @property
    def reading(self) -> int | None:
        text = self.headers.get("Hourstable-Reading")
        return int(text) if text is not None else None


class Caller:
    """Calls a plane."""

    def __init__(self, url: str, session: aiohttp.ClientSession, job: str = "shop") -> None:
        self.url, self.session, self.job = url, session, job
        self.lives: dict[int, int] = {}  # that were drawn

    async def ask(
        self, method: str, path: str, body: object = None, headers: dict[str, str] | None = None,
    ) -> Answer:
        data = body if isinstance(body, bytes | None) else json.dumps(body).encode()
        given = {"Content-Type": "application/json", **(headers or {})}
        async with self.session.request(
            method, self.url + path, data=data, headers=given
        ) as answer:
            return Answer(answer.status, answer.headers, await answer.read())

    async def create(self, policy: object = POLICY) -> Answer:
        return await self.ask("PUT", f"/jobs/{self.job}", policy)

    async def post(self, call: str, body: object = None) -> Answer:
        return await self.ask("POST", f"/jobs/{self.job}/{call}", body)

    async def get(self, what: str = "") -> Answer:
        return await self.ask("GET", f"/jobs/{self.job}{what}")

    async def begin(self, task: int, life: int = 1) -> None:
        """Draws lives of a task up to one."""
        while self.lives.get(task, 0) < life:
            drawn = await self.post(f"tasks/{task}/life")
            if drawn.status != 200:
                break
            self.lives[task] = drawn.json["life"]

    async def grant(self, task: int, life: int = 1) -> Answer:
        """Asks for a grant of a life, which is drawn before if it was not."""
        await self.begin(task, life)
        return await self.post("grant", {"task": task, "life": life})

    async def take(self, assigner: int = 1) -> int:
        taken = await self.post("take", {"assigner": assigner})
        assert taken.status == 200, taken
        number: int = taken.json["number"]
        return number

    async def change(self, term: int, generation: int, slices: list[Any]) -> None:
        """Proposes and commits an assignment."""
        proposed = await self.post(f"propose?term={term}", assignment(generation, slices, self.job))
        assert (proposed.status, proposed.json) == (200, {"generation": generation})
        committed = await self.post("commit", {"term": term})
        assert (committed.status, committed.json) == (200, {"generation": generation})


def assignment(generation: int, slices: list[Any], job: str = "shop") -> bytes:
    value = {"generation": str(generation), "slices": [[str(at), some] for at, some in slices]}
    return json.dumps({"job": job, "type": "assignment", "value": value, "version": 2}).encode()


@asynccontextmanager
async def running(
    store: Store, folder: Path | None, process: int = 0, shared: bool = False, standby: float = 0.3,
    limits: Limits | None = None, secrets: list[str] | None = None, ahead: tuple[int, int] = (0, 0),
    system: System = SYSTEM, poll: float = 0.05, state: Path | None = None,
    callers: Callers | None = None, hosts: Sequence[str] = (), transport: Transport | None = None,
    row_form: int = ROWS,
) -> AsyncIterator[tuple[Plane, Caller]]:
    """A plane that listens, and a caller of it. With no folder of logs it has one for its state."""
    state = make_folder(state or folder.parent / "state")  # type: ignore[union-attr]
    tickets = Tickets(process, state / f"control-{process}.ticket", system=system)
    settings = Settings(
        folder, process, shared, standby, *ahead, local=local_clock(), system=system, row_form=row_form
    )
    generous = Limits(grants=1e6, burst=1e6)
    known = callers or Callers.admins(secrets or [])
    plane = Plane(store, settings, tickets, limits or generous, known, hosts, transport)
    port = await plane.start("127.0.0.1", 0, poll=poll)
    try:
        async with aiohttp.ClientSession() as session:
            yield plane, Caller(f"http://127.0.0.1:{port}", session)
    finally:
        await plane.stop()
        tickets.close()


def lines_of(folder: Path, job: str = "shop") -> list[dict[str, Any]]:
    """Returns the calls in the logs of a job, by their tickets."""
    return logs.merged(logs.folder_of(folder, job))


class Task:
    """A task that follows the phase of the table as the library says. It has no clock of its own:
    its reading is that of the table's last answer, which is above no later one."""

    def __init__(self, caller: Caller, number: int, pause: float = 0.05) -> None:
        self.caller, self.number, self.pause = caller, number, pause
        self.slicelet = Slicelet(caller.job, number)
        self.at = 0

    async def run(self) -> None:
        life = (await self.caller.post(f"tasks/{self.number}/life")).json["life"]
        self.slicelet.start(life, 0)
        while True:
            await asyncio.sleep(self.pause)
            found = await self.caller.get("/phase")
            if found.status == 200:
                phase = Phase(found.json["committed"], found.json["pending"] or 0)
                await self._follow(phase, life)

    async def _follow(self, phase: Phase, life: int) -> None:
        granted = await self.caller.grant(self.number, life)
        if granted.reading is not None:
            self.at = max(self.at, granted.reading)
        if granted.status == 200:
            self.slicelet.hear(granted.body, self.at)
        action = self.slicelet.next(phase, self.at)
        if action.startswith("give up"):
            note = self.slicelet.release(action.removeprefix("give up "), self.at)
            await self.caller.post("free", note)

    def serves(self, key: bytes) -> bool:
        try:
            self.slicelet.serve(key, self.at)
            return True
        except Refused:
            return False


def may_serve(task: ServiceTask) -> bool:
    """Whether a task may serve the key `key` now."""
    try:
        task.ask("key")
        return True
    except Denied:
        return False
