"""Answers that are none of a control plane: a trouble of that plane, and not of the task, the router or the assigner
that asked it."""

import asyncio
import logging
import time
from collections import Counter
from collections.abc import AsyncIterator, Awaitable, Callable
from contextlib import asynccontextmanager
from pathlib import Path
from typing import Any

import pytest
from aiohttp import web

from hourstable.calls import Control, Rejected, Unreachable
from hourstable.client import Router
from hourstable.logs import Log, job_line
from hourstable.task import Task
from hourstable.tickets import HEADER, Tickets
from hourstable.waiting import within
from planes import JOB, POLICY, Plane
from waits import HALF, LOWER, counted, ground, until

Answers = Callable[[web.Request], Awaitable[web.StreamResponse | None]]
TWO_DAYS_AHEAD = (time.time_ns() // 1_000_000 + 2 * 86_400_000) << 16


def says(status: int, body: bytes, **headers: str) -> Answers:
    async def answer(_: web.Request) -> web.StreamResponse:
        given = {name.replace("_", "-"): value for name, value in headers.items()}
        return web.Response(status=status, body=body, headers=given)

    return answer


WRONG = {  # what answers, and under which word it is counted
    "an old secret": (says(401, b"no right secret"), "401"),
    "a proxy that asks who calls": (says(403, b"<html>"), "403"),
    "a plane at its limit": (says(429, b"{}", Retry_After="0"), "429"),
    "a proxy that waits no longer": (says(408, b""), "other"),
    "a ticket that is refused": (says(400, b'{"error":"ticket 7 is more than a day ahead"}'), "400"),
    "a page": (says(200, b"<html>It works!</html>"), "unreadable"),
    "a redirection to nowhere": (says(302, b""), "other"),
    "null": (says(200, b"null"), "unreadable"),
    "a list": (says(200, b"[]"), "unreadable"),
    "a torn answer": (says(200, b'{"policy":{"gua'), "unreadable"),
    "another object": (says(200, b'{"phase":7,"life":"x","freed":-1}'), "unreadable"),
    "no number of a reading": (says(200, b"{}", Hourstable_Reading="soon"), "unreadable"),
    "a conflict of nothing": (says(409, b'{"why":"?"}'), "unreadable"),
}


@asynccontextmanager
async def stranger(answers: Answers) -> AsyncIterator[str]:
    """Something that answers all requests in one way."""
    app = web.Application()
    app.router.add_route("*", "/{path:.*}", answers)  # type: ignore[arg-type]
    runner = web.AppRunner(app)
    await runner.setup()
    await web.TCPSite(runner, "127.0.0.1", 0, shutdown_timeout=0.1).start()
    try:
        yield f"http://127.0.0.1:{runner.addresses[0][1]}"
    finally:
        await runner.cleanup()


@pytest.fixture
async def plane(tmp_path: Path) -> AsyncIterator[Plane]:
    made = await Plane(tmp_path).start()
    made.settle(1, [(0, 1), (HALF, 2)])
    yield made
    await made.stop()


def unless_created(answers: Answers) -> Answers:
    """Answers so, but for the call that creates the job: a conflict there says that it has another policy."""

    async def answer(request: web.Request) -> web.StreamResponse | None:
        return None if request.method == "PUT" else await answers(request)

    return answer


@pytest.mark.parametrize("what", ["an old secret", "a page", "no number of a reading"])
async def test_a_wrong_answer_ends_no_task(
    what: str, plane: Plane, tmp_path: Path, caplog: pytest.LogCaptureFixture
) -> None:
    """The only plane answers wrongly for a while, to a task that serves: also to its calls for a lease."""
    answers, word = WRONG[what]
    asked: Counter[str] = Counter()

    async def fault(request: web.Request) -> web.StreamResponse | None:
        asked[request.path.rpartition("/")[2]] += 1
        return await unless_created(answers)(request)

    async with Task(plane.url, JOB, 1, logs=tmp_path, policy=POLICY, timeout=2.0, report=0.3) as task:
        waiting = asyncio.create_task(task.wait())
        await until(lambda: task.served() == LOWER)
        plane.fault = fault
        await until(lambda: min(asked[call] for call in ("grant", "phase", "loads")) >= 2)
        name = "hourstable_control_wrong_answers_total"
        await until(lambda: counted(task.metrics.text(), name, answer=word) >= 3)
        assert task.is_ready() and not waiting.done()
        plane.fault = None
        before = task.renewed.times
        await until(lambda: task.renewed.times >= before + 2)
        assert await ground(task, "hello") == ""
        assert not waiting.done()
    assert counted(task.metrics.text(), "hourstable_internal_errors_total") == 0
    told = [it for it in caplog.records if it.levelno == logging.WARNING and plane.url in it.getMessage()]
    assert 1 <= len(told) <= 4  # once a minute for each trouble of a plane, and not at each answer
    await asyncio.wait_for(waiting, 20)  # it has ended with the task


async def test_all_wrong_answers_together_end_no_task(plane: Plane, tmp_path: Path) -> None:
    """Each call is answered by the next one of them, until each was the answer to two calls for a lease."""
    calls: dict[str, list[str]] = {}

    async def fault(request: web.Request) -> web.StreamResponse | None:
        call = request.path.rpartition("/")[2]
        if call not in ("grant", "phase", "loads"):
            return None
        known = calls.setdefault(call, [])
        known.append(list(WRONG)[len(known) % len(WRONG)])
        return await WRONG[known[-1]][0](request)

    async with Task(plane.url, JOB, 1, logs=tmp_path, policy=POLICY, timeout=2.0, report=0.1) as task:
        await until(lambda: task.served() == LOWER)
        plane.fault = fault
        await until(lambda: len(calls.get("grant", [])) >= 2 * len(WRONG), 60.0)
        plane.fault = None
        before = task.renewed.times
        await until(lambda: task.renewed.times >= before + 2)
        assert await ground(task, "hello") == ""
        text = task.metrics.text()
    assert counted(text, "hourstable_internal_errors_total") == 0
    for word in {word for _, word in WRONG.values()}:
        assert counted(text, "hourstable_control_wrong_answers_total", answer=word) >= 2, word


@pytest.mark.parametrize("what", ["an old secret", "a torn answer"])
async def test_another_plane_is_asked(what: str, tmp_path: Path) -> None:
    """A call has a fifth of the guard term. The one of other tests is 2 s, and a busy machine may take 0.4 s."""
    answers, word = WRONG[what]
    plane = await Plane(tmp_path, guard=6000).start()
    plane.settle(1, [(0, 1), (HALF, 2)])
    async with stranger(answers) as url:
        async with Task([url, plane.url], JOB, 1, logs=tmp_path, policy=plane.policy, timeout=2.0) as task:
            await until(lambda: task.served() == LOWER)
            await until(lambda: task.renewed.times >= 2)
            assert task.is_ready()
            assert counted(task.metrics.text(), "hourstable_control_wrong_answers_total", answer=word) >= 1
            assert counted(task.metrics.text(), "hourstable_control_unreachable_total") == 0
        async with Router([url, plane.url], JOB) as router:
            await until(lambda: router.generation == 1)
    await plane.stop()


async def test_another_plane_is_asked_for_a_lease(tmp_path: Path) -> None:
    """Each other request for a lease is answered by something else than a plane. The task knows the plane as two."""
    plane = await Plane(tmp_path, guard=6000).start()
    plane.settle(1, [(0, 1), (HALF, 2)])
    asked: list[str] = []

    async def fault(request: web.Request) -> web.StreamResponse | None:
        if not request.path.endswith("/grant"):
            return None
        asked.append(request.path)
        return await WRONG["an old secret"][0](request) if len(asked) % 2 else None

    urls = [plane.url, plane.url]
    async with Task(urls, JOB, 1, logs=tmp_path, policy=plane.policy, timeout=2.0) as task:
        await until(lambda: task.served() == LOWER)
        plane.fault = fault
        before = task.renewed.times
        await until(lambda: task.renewed.times >= before + 2)
        assert len(asked) >= 4
        assert counted(task.metrics.text(), "hourstable_control_unreachable_total") == 0
    await plane.stop()


async def test_the_log_says_what_to_mend(
    plane: Plane, tmp_path: Path, caplog: pytest.LogCaptureFixture
) -> None:
    async with stranger(WRONG["an old secret"][0]) as url:
        async with Task([url, plane.url], JOB, 1, logs=tmp_path, policy=POLICY, timeout=2.0) as task:
            await until(lambda: task.served() == LOWER)
    told = [it.getMessage() for it in caplog.records if "401" in it.getMessage()]
    assert len(told) == 1 and url in told[0] and "--secret-file" in told[0]


@pytest.mark.parametrize("what", ["an old secret", "another object"])
async def test_a_wrong_answer_ends_no_router(what: str, plane: Plane, tmp_path: Path) -> None:
    answers, word = WRONG[what]
    plane.fault = answers
    async with Router(plane.url, JOB, logs=tmp_path, clerk=3) as router:
        name = "hourstable_control_wrong_answers_total"
        await until(lambda: counted(router.metrics.text(), name, answer=word) >= 2)
        plane.fault = None
        await until(lambda: router.generation == 1)
        plane.settle(2, [(0, 2)])
        await until(lambda: router.generation == 2 and router.pick("hello") == 2)


async def test_after_a_429_a_second_passes(plane: Plane, tmp_path: Path) -> None:
    """A fifth of the lease is 0.4 s, which is what other failures wait for at most."""
    asked: list[float] = []

    async def fault(request: web.Request) -> web.StreamResponse | None:
        if not request.path.endswith("/grant"):
            return None
        asked.append(time.monotonic())
        return web.Response(status=429, headers={"Retry-After": "0"})

    async with Task(plane.url, JOB, 1, logs=tmp_path, policy=POLICY, timeout=2.0) as task:
        await until(lambda: task.served() == LOWER)
        plane.fault = fault
        await until(lambda: len(asked) >= 2)
        plane.propose(2, [(0, 1)])  # which else a task hears at once
        await until(lambda: len(asked) >= 4)
        plane.fault = None
        await until(lambda: task.served() != [])
    for sooner, later in zip(asked, asked[1:]):
        assert later - sooner > 0.95


async def test_a_lease_that_is_held_is_renewed_before_its_end(plane: Plane, tmp_path: Path) -> None:
    """A plane that wants a minute gets a fifth of the guard term while a lease is held."""
    asked: list[str] = []

    async def fault(request: web.Request) -> web.StreamResponse | None:
        if not request.path.endswith("/grant") or len(asked) >= 2:
            return None
        asked.append(request.path)
        return web.Response(status=503, headers={"Retry-After": "60"})

    async with Task(plane.url, JOB, 1, logs=tmp_path, policy=POLICY, timeout=2.0) as task:
        await until(lambda: task.served() == LOWER)
        plane.fault = fault
        await until(lambda: len(asked) == 2)
        before = task.renewed.times
        await until(lambda: task.renewed.times > before)


async def test_an_answer_counts_whatever_its_ticket(plane: Plane, tmp_path: Path) -> None:
    """The real time of a plane is two days ahead, or its header is none of a ticket."""
    for ticket in (str(TWO_DAYS_AHEAD), "none"):

        async def fault(request: web.Request, ticket: str = ticket) -> web.StreamResponse | None:
            if not request.path.endswith("/phase") or request.query:
                return None
            answered = await plane.phase(request)
            answered.headers[HEADER] = ticket
            return answered

        async with Control(plane.url, JOB, Tickets(9, None), lambda: 0) as control:
            plane.fault = fault
            assert (await control.call("GET", "/phase")).value()["committed"] == 1
            plane.fault = None


async def test_a_policy_that_is_none_is_refused_at_once(plane: Plane, tmp_path: Path) -> None:
    none: list[dict[str, Any]] = [{**POLICY, "guard": 0}, {"guard": 10}, {**POLICY, "redundancy": [2, 1]}]
    for policy in none:
        task = Task(plane.url, JOB, 1, logs=tmp_path, policy=policy)
        with pytest.raises(ValueError, match="no policy"):
            await within(20.0, task.start())
        await task.stop()


async def test_a_job_that_is_not_there_is_an_error(plane: Plane, tmp_path: Path) -> None:
    """A task without a policy does not wait for ever for somebody to create the job."""
    plane.fault = says(404, b'{"error":"there is no job shop"}')
    task = Task(plane.url, JOB, 1, logs=tmp_path)
    with pytest.raises(Rejected, match="PUT it"):
        await within(20.0, task.start())
    await task.stop()


async def test_a_call_says_what_answered(plane: Plane) -> None:
    def number(answer: Any) -> int:
        return int(answer.value()["number"])

    async with Control(plane.url, JOB, Tickets(7, None), lambda: 0) as control:
        plane.fault = says(200, b"[]")
        with pytest.raises(Unreachable, match="none of a control plane") as raised:
            await control.read(number, "GET")
        assert (raised.value.status, raised.value.least) == (200, 0.0)
        plane.fault = says(429, b"slowly", Retry_After="3")
        with pytest.raises(Unreachable, match="slowly") as raised:
            await control.read(number, "GET")
        assert (raised.value.status, raised.value.again, raised.value.least) == (429, 3.0, 1.0)
        plane.fault = says(503, b"", Retry_After="nan")
        with pytest.raises(Unreachable) as raised:
            await control.read(number, "GET")
        assert raised.value.again == 0.0


async def test_a_log_of_another_job_ends_no_router(plane: Plane, tmp_path: Path) -> None:
    """A task says so at its start, and a router goes on without a log."""
    Log(tmp_path / JOB, "clerk-3", job_line({**POLICY, "guard": 7})).close()
    async with Router(plane.url, JOB, logs=tmp_path, clerk=3) as router:
        await until(lambda: router.generation == 1)
        assert router.pick("hello") == 1
        assert counted(router.metrics.text(), "hourstable_internal_errors_total") == 0
    Log(tmp_path / JOB, "task-1", job_line({**POLICY, "guard": 7})).close()
    task = Task(plane.url, JOB, 1, logs=tmp_path, policy=POLICY)
    with pytest.raises(ValueError, match="another job line"):
        await within(20.0, task.start())
    await task.stop()
