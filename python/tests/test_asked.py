"""Which of several planes is asked, and how often a call is made again."""

import asyncio
import time
from collections.abc import AsyncIterator, Awaitable, Callable
from contextlib import AsyncExitStack, asynccontextmanager
from pathlib import Path

import pytest
from aiohttp import web

from hourstable.asked import Planes, RetryBudget
from hourstable.calls import Answer, Control, Unreachable
from hourstable.client import Again, Router
from hourstable.library import Found
from hourstable.tickets import Tickets
from planes import JOB, Plane
from waits import until


class Server:
    """A plane that answers as the test says, and counts."""

    def __init__(self) -> None:
        self.asked = 0
        self.ends = asyncio.Event()
        self.answers: Callable[[], Awaitable[web.StreamResponse]] = fine
        self.url = ""

    async def answer(self, _: web.Request) -> web.StreamResponse:
        self.asked += 1
        if self.answers is never:
            await self.ends.wait()
        return await self.answers()


async def fine() -> web.StreamResponse:
    return web.json_response({})


async def never() -> web.StreamResponse:
    return web.Response(status=503)  # at the end of the test


async def stands_by() -> web.StreamResponse:
    return web.json_response({"refused": "replaced"}, status=503, headers={"Retry-After": "1"})


@asynccontextmanager
async def server() -> AsyncIterator[Server]:
    made, app = Server(), web.Application()
    app.router.add_route("*", "/{path:.*}", made.answer)
    runner = web.AppRunner(app)
    await runner.setup()
    await web.TCPSite(runner, "127.0.0.1", 0, shutdown_timeout=0.1).start()
    made.url = f"http://127.0.0.1:{runner.addresses[0][1]}"
    try:
        yield made
    finally:
        made.ends.set()
        await asyncio.sleep(0.01)
        await runner.cleanup()


@pytest.fixture
async def two() -> AsyncIterator[tuple[Server, Server]]:
    async with AsyncExitStack() as stack:
        yield await stack.enter_async_context(server()), await stack.enter_async_context(server())


def control_of(*servers: Server, timeout: float = 1.0) -> Control:
    return Control([it.url for it in servers], JOB, Tickets(7, None), lambda: 0, timeout=timeout)


async def test_calls_that_fail_together_do_not_come_back_to_the_dead_plane(two: tuple[Server, Server]) -> None:
    first, second = two
    first.answers = never
    async with control_of(first, second) as control:
        await asyncio.gather(*(control.call("GET") for _ in range(4)))
        assert (first.asked, second.asked) == (4, 4)
        for _ in range(5):
            await control.call("GET")
        assert (first.asked, second.asked) == (4, 9)


async def test_a_plane_that_stands_by_leads_nobody_back_to_the_dead_one(two: tuple[Server, Server]) -> None:
    first, second = two
    first.answers, second.answers = never, stands_by
    async with control_of(first, second, timeout=5.0) as control:
        for _ in range(4):
            with pytest.raises(Unreachable, match="503"):
                await control.call("GET")
        assert (first.asked, second.asked) == (1, 4)
        second.answers = fine
        await control.call("GET")
        assert first.asked == 1


async def test_a_plane_that_was_silent_is_asked_again_after_a_while(two: tuple[Server, Server]) -> None:
    first, second = two
    first.answers, second.answers = never, stands_by
    async with control_of(first, second, timeout=0.3) as control:
        with pytest.raises(Unreachable):
            await control.call("GET")
        first.answers = fine
        await asyncio.sleep(0.5)
        await control.call("GET")
        before = second.asked
        await control.call("GET")  # and it is asked first again
        assert second.asked == before


async def says_nothing_of_a_plane() -> web.StreamResponse:
    return web.Response(text="<html>It works!</html>")


async def test_what_is_no_plane_keeps_nobody_from_one_that_was_slow(two: tuple[Server, Server]) -> None:
    """The second plane misses one deadline; the first is none."""
    first, second = two
    first.answers = says_nothing_of_a_plane
    async with control_of(first, second, timeout=1.0) as control:
        await control.read(Answer.value, "GET")
        second.answers = never
        with pytest.raises(Unreachable):
            await control.read(Answer.value, "GET")
        second.answers = fine
        for _ in range(5):
            await control.read(Answer.value, "GET")
        assert first.asked <= 3


async def test_a_call_that_waits_follows_the_others_to_another_plane(two: tuple[Server, Server]) -> None:
    """Its own time is a minute."""
    first, second = two
    first.answers = never
    async with control_of(first, second) as control:
        waiting = asyncio.create_task(control.call("GET", "/phase", timeout=60.0))
        await until(lambda: first.asked == 1)
        await control.call("GET")
        await asyncio.wait_for(waiting, 20)
        assert (first.asked, second.asked) == (2, 2)


async def test_calls_that_are_made_again_at_once_are_a_tenth(two: tuple[Server, Server]) -> None:
    first, second = two
    first.answers = second.answers = stands_by
    async with control_of(first, second, timeout=20.0) as control:
        for _ in range(100):
            with pytest.raises(Unreachable):
                await control.call("GET")
    assert 100 < first.asked + second.asked <= 120  # a tenth, and ten at first
    assert min(first.asked, second.asked) > 30  # both are asked all the same


async def test_attempts_at_one_task_are_a_tenth(tmp_path: Path, monkeypatch: pytest.MonkeyPatch) -> None:
    plane = await Plane(tmp_path).start()
    attempts: list[int] = []

    async def attempt(task: int) -> None:
        attempts.append(task)
        raise Again("overloaded")

    async with Router(plane.url, JOB) as router:
        monkeypatch.setattr(router, "owners", lambda key: Found(1, [1]))
        begun = time.monotonic()
        sent = [router.send("hello", attempt, patience=1.0) for _ in range(200)]
        made = await asyncio.gather(*sent, return_exceptions=True)
        seconds = time.monotonic() - begun
    assert all(isinstance(it, Again) for it in made)
    assert 200 < len(attempts) <= 200 + 20 + 10 + 10 * seconds  # a tenth, ten at first, and ten a second
    await plane.stop()


async def test_a_task_that_goes_on_is_not_waited_for(tmp_path: Path, monkeypatch: pytest.MonkeyPatch) -> None:
    """Fifty calls wait for a task, and one attempt is left: those that succeed take nothing from the others."""
    plane = await Plane(tmp_path).start()
    is_well = [False]

    async def attempt(task: int) -> int:
        if not is_well[0]:
            raise Again("it does not answer")
        return task

    async with Router(plane.url, JOB) as router:
        monkeypatch.setattr(router, "owners", lambda key: Found(1, [1]))
        sent = asyncio.gather(*(router.send("hello", attempt, patience=60.0) for _ in range(50)))
        await asyncio.sleep(0.5)
        is_well[0] = True
        router._budget._left, router._budget._a_second = 1.0, 0.0
        assert await asyncio.wait_for(sent, 30) == [1] * 50
    await plane.stop()


async def test_another_owner_is_tried_at_no_cost(tmp_path: Path, monkeypatch: pytest.MonkeyPatch) -> None:
    plane = await Plane(tmp_path).start()
    found = [Found(1, [1])]

    async def attempt(task: int) -> int:
        if task == 1:
            raise Again("overloaded")
        return task

    async with Router(plane.url, JOB) as router:
        monkeypatch.setattr(router, "owners", lambda key: found[0])
        router._budget._left, router._budget._a_second = 0.0, 0.0
        sent = asyncio.gather(*(router.send("hello", attempt, patience=60.0) for _ in range(50)))
        await asyncio.sleep(0.1)
        found[0] = Found(2, [2])
        router._generation = 2
        assert await asyncio.wait_for(sent, 30) == [2] * 50
    await plane.stop()


def test_a_budget() -> None:
    now = [0.0]
    budget = RetryBudget(lambda: now[0], most=2.0, a_second=0.5)
    assert [budget.take() for _ in range(3)] == [True, True, False]
    for _ in range(9):
        budget.add()
    assert not budget.take()
    budget.add()
    budget.add()
    assert budget.take() and not budget.take()
    now[0] += 2
    assert budget.take() and not budget.take()


def test_the_order_of_planes() -> None:
    now = [0.0]
    planes = Planes(["a", "b", "c"], lambda: now[0], rest=5.0)

    def tried(*silent: int) -> list[int]:
        made = []
        for at in planes.tries():
            made.append(at)
            planes.failed(at, is_silent=at in silent)
        return made

    assert tried(0) == [0, 1, 2]  # the first is silent, the others cannot do it yet
    assert tried() == [1, 2]  # and it rests
    now[0] += 6
    assert sorted(tried()) == [0, 1, 2]
    with pytest.raises(ValueError, match="no control plane"):
        Planes([], lambda: 0.0, 1.0)


async def after(seconds: float, answer: Callable[[], Awaitable[web.StreamResponse]] = fine) -> web.StreamResponse:
    await asyncio.sleep(seconds)
    return await answer()


async def hedged(control: Control, late: list[Answer]) -> Answer:
    return await control.first(lambda answer: answer, late.append, "POST", "/grant")


async def test_a_hedged_call(two: tuple[Server, Server]) -> None:
    first, second = two
    readings = iter((10, 20))
    first.answers = lambda: after(2.0)
    late: list[Answer] = []
    control = control_of(first, second, timeout=3.0)
    control.local_clock = lambda: next(readings)
    async with control:
        begun = time.monotonic()
        made = await hedged(control, late)
        assert 0.9 < time.monotonic() - begun < 1.9
        assert (first.asked, second.asked, late) == (1, 1, [])
        await until(lambda: bool(late))
    assert (made.sent, late[0].sent) == (20, 10)  # each is a request of its own


async def test_a_call_that_is_answered_soon_has_no_hedge(two: tuple[Server, Server]) -> None:
    first, second = two
    first.answers = lambda: after(0.5)
    async with control_of(first, second, timeout=60.0) as control:
        await hedged(control, [])
        assert (first.asked, second.asked) == (1, 0)


async def test_a_hedged_call_goes_on_to_other_planes(two: tuple[Server, Server]) -> None:
    first, second = two
    first.answers, second.answers = never, stands_by
    async with control_of(first, second, timeout=0.9) as control:
        with pytest.raises(Unreachable):
            await hedged(control, [])
        assert (first.asked, second.asked) == (1, 1)
        second.answers = fine
        await hedged(control, [])
        assert (first.asked, second.asked) == (1, 2)  # it has moved on from the silent one


async def test_hedges_are_a_tenth_of_all_calls(two: tuple[Server, Server]) -> None:
    first, second = two
    first.answers = lambda: after(4.0)
    async with control_of(first, second, timeout=6.0) as control:
        for plain in (0, 55):
            await asyncio.gather(*(control.call("GET") for _ in range(plain)))
            await asyncio.gather(*(hedged(control, []) for _ in range(20)))
        await asyncio.sleep(0.2)
    assert first.asked == 95
    assert second.asked == 17  # ten at first, and a tenth of the 75 calls after them


async def test_a_hedged_call_that_is_cancelled_leaves_nothing(two: tuple[Server, Server]) -> None:
    first, second = two
    first.answers = second.answers = never
    async with control_of(first, second, timeout=1.5) as control:
        before = asyncio.all_tasks()
        asking = asyncio.create_task(hedged(control, []))
        await until(lambda: second.asked == 1)
        asking.cancel()
        await asyncio.gather(asking, return_exceptions=True)
        left = {it for it in asyncio.all_tasks() - before if "attempt" in repr(it.get_coro())}
        assert not left or (await asyncio.wait(left, timeout=0.5))[1] == set()


def test_what_is_no_plane_is_left_for_one_that_was_silent_a_moment_ago() -> None:
    planes, made = Planes(["proxy", "plane"], lambda: 0.0, rest=5.0), list[int]()
    planes.failed(0, is_silent=False, is_wrong=True)
    planes.failed(1, is_silent=True)
    for at in planes.tries():
        made.append(at)
        if at == 0:
            planes.failed(at, is_silent=False, is_wrong=True)
        else:
            planes.answered(at)
    assert made == [0, 1]
    assert next(planes.tries()) == 1
