"""Renewals that are asked of two planes, since the first one is late."""

import asyncio
import time
from collections.abc import AsyncIterator
from pathlib import Path

import pytest
from aiohttp import web

from hourstable.task import Task
from planes import JOB, Plane
from waits import until

GUARD = 8000  # so that an answer may take 1.6 s, and a hedge comes after a third of it


@pytest.fixture
async def plane(tmp_path: Path) -> AsyncIterator[Plane]:
    made = await Plane(tmp_path, GUARD).start()
    made.settle(1, [(0, 1)])
    yield made
    await made.stop()


def task_of(plane: Plane, folder: Path) -> Task:
    """A task that knows the plane as two."""
    return Task([plane.url, plane.url], JOB, 1, logs=folder, policy=plane.policy)


def one_is_late(plane: Plane, seconds: float, is_before: bool) -> list[float]:
    """Lets one request for a grant take so long from now on, before the grant is made or after it, and returns the
    list of when grants were asked for."""
    asked: list[float] = []

    async def fault(request: web.Request) -> web.StreamResponse | None:
        if not request.path.endswith("/grant"):
            return None
        asked.append(time.monotonic())
        if len(asked) > 1:
            return None
        answer = None if is_before else await plane.grant(request)
        await asyncio.sleep(seconds)
        return answer

    plane.fault = fault
    return asked


@pytest.mark.parametrize("is_before", [True, False], ids=["before", "after"])
async def test_a_grant_that_comes_late_is_heard(plane: Plane, tmp_path: Path, is_before: bool) -> None:
    """Else its row stays open, since a note closes the rows up to its number alone, and a commit waits until it
    ends."""
    async with task_of(plane, tmp_path) as task:
        await until(lambda: task.renewed.times == 1)
        asked = one_is_late(plane, 1.0, is_before)
        await until(lambda: task.renewed.times > 1)
        assert len(asked) == 2 and time.monotonic() - asked[0] < 0.9  # it did not wait for the late one
        await asyncio.sleep(0.8)
        plane.propose(2, [(0, 2)])
        assert await plane.commit_soon() < 3000


async def test_a_plane_that_falls_silent_denies_no_key(plane: Plane, tmp_path: Path) -> None:
    """From the moment of a renewal on the plane that is asked first gives no answer at all."""
    async with task_of(plane, tmp_path) as task:
        await until(lambda: task.renewed.times == 1)
        one_is_late(plane, 60.0, is_before=True)
        end = time.monotonic() + 1.3 * GUARD / 1000
        while time.monotonic() < end:
            async with task.serving("hello"):
                await asyncio.sleep(0.01)
        assert task.metrics.denials == {}
