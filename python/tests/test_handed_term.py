"""The term of the job lease goes with a table that is handed over: the assigner of the plane that takes the job goes
on with it, and moves keys at once. It counts for the version of the row of the store that it came with."""

import asyncio
import time
from collections.abc import AsyncIterator
from contextlib import AsyncExitStack
from pathlib import Path
from typing import Any

import aiohttp
import pytest

import needed

needed.library()

from hourstable.assigner import AssignerOfJobs  # noqa: E402
from hourstable.clock import local_clock  # noqa: E402
from hourstable.desk import LocalDesk, Unreachable  # noqa: E402
from hourstable.plans import Hysteresis  # noqa: E402
from hourstable.service import ControlPlane, Options  # noqa: E402
from serving import Caller, Task  # noqa: E402
from test_assigner import at_work, owned_by  # noqa: E402
from test_failover import LONG, STANDBY, Side, two  # noqa: E402, F401
from waits import until  # noqa: E402

QUICK = Hysteresis(settle=0.3, rest=1.0)
AT_ONCE = 10.0  # seconds, of a job term of 60 s


async def moved(caller: Caller, *tasks: int, seconds: float = 20.0) -> float:
    """Waits until these tasks own all keys, and returns for how many seconds."""
    begun, holds = time.monotonic(), owned_by(caller, *tasks)
    while not await holds():
        assert time.monotonic() - begun < seconds, f"{tasks} do not own all keys"
        await asyncio.sleep(0.05)
    return time.monotonic() - begun


@pytest.fixture
async def planes(tmp_path: Path) -> AsyncIterator[list[tuple[ControlPlane, Caller]]]:
    """Two planes with assigners, of which the first one holds the job, as its assigner does the job lease."""
    async with AsyncExitStack() as stack:
        session = await stack.enter_async_context(aiohttp.ClientSession())
        made = []
        for number in (1, 2):
            options = Options(
                f"sqlite:{tmp_path}/jobs", tmp_path / "logs", process=number, assigner=number, shared=True,
                standby=STANDBY, rules=QUICK, poll=0.05,
            )
            running = await stack.enter_async_context(ControlPlane(options))
            caller = Caller(f"http://127.0.0.1:{running.port}", session)
            if number == 1:
                assert (await caller.create({**LONG, "guard": 3000, "bridge": 3000})).status == 201
                assert (await caller.grant(3)).status == 409  # there is no assignment yet
            made.append((running, caller))
        yield made


async def test_keys_move_at_once_after_a_plane_with_an_assigner_has_ended(
    planes: list[tuple[ControlPlane, Caller]],
) -> None:
    (first, _), (second, caller) = planes
    tasks = [Task(caller, number) for number in (1, 2)]
    async with at_work(*(task.run() for task in tasks)):
        await moved(caller, 1, 2)
        before = (await caller.get()).json["term"]
        await first.stop()
        assert (await caller.post("drain", {"task": 1})).status == 204
        assert await moved(caller, 2) < AT_ONCE
        term = (await caller.get()).json["term"]
        assert (term["number"], term["assigner"]) == (before["number"], 1)
        assert term["until"] > before["until"]


# Which term is handed over, and when it counts. ---------------------------------------------------


async def renewed(side: Side) -> LocalDesk:
    """Lets the assigner of a plane have the term of the job lease. Returns its desk."""
    desk = LocalDesk(side.plane)
    assert (await desk.renew("shop", await term_of(desk))).refused is None
    return desk


async def term_of(desk: LocalDesk) -> int:
    term: dict[str, int] = (await desk.status("shop"))["term"]
    return term["number"]


async def acts(desk: LocalDesk) -> bool:
    """Whether the assigner of a plane can do a call with the last term."""
    try:
        return (await desk.renew("shop", 1)).refused is None
    except Unreachable:
        return False


def told_by(told: Any, **other: Any) -> dict[str, Any]:
    assert told is not None and told.term == 1
    return {"process": 1, "table": told._replace(**other).value()}


@pytest.mark.parametrize("change", ["", "version", "holder", "release"])
async def test_a_term_counts_for_the_version_that_it_came_with(
    change: str, two: tuple[Side, Side],  # noqa: F811
) -> None:
    """The plane of a release before tells none."""
    first, second = two
    await renewed(first)
    told = await first.job.give_away()
    other: dict[str, dict[str, Any]] = {
        "version": {"version": told.version + 1 if told else 0}, "holder": {"holder": "another"},
    }
    body = told_by(told, **other.get(change, {}))
    if change == "release":
        del body["table"]["term"]
    assert (await second.caller.post("hold", body)).status == 204
    assert second.job.is_held
    assert (await LocalDesk(second.plane).status("shop"))["own_term"] == (0 if change else 1)


@pytest.mark.parametrize("is_own", [True, False])
async def test_the_term_of_an_assigner_beside_the_planes_is_not_handed_over(
    is_own: bool, two: tuple[Side, Side],  # noqa: F811
) -> None:
    """Nor is one that the assigner of the plane had before: the assigner that has the last one goes on by itself."""
    first, second = two
    desk = LocalDesk(first.plane)
    if is_own:
        await renewed(first)
    first.job.term = {"number": 2, "assigner": 7, "until": 1}  # as after another one took the job lease
    told = await first.job.give_away()
    assert told is not None and told.term == 0
    first.job.keep()
    assert (await desk.status("shop"))["own_term"] == int(is_own)


async def test_one_assigner_acts_where_a_message_is_lost_or_late_or_comes_twice(
    two: tuple[Side, Side],  # noqa: F811
) -> None:
    first, second = two
    old, new = await renewed(first), LocalDesk(second.plane)
    await first.granted(1)
    lost = told_by(await first.job.give_away())
    assert (await acts(old), await acts(new)) == (False, False)  # on its way
    first.job.keep()
    assert (await acts(old), await acts(new)) == (True, False)  # it was lost, and the old plane goes on
    assert (await second.caller.post("hold", lost)).status == 204  # late
    assert (await acts(old), second.job.is_held, second.job.own_term) == (False, True, 0)
    assert (await second.caller.post("hold", lost)).status == 204  # once more
    assert (await acts(old), second.job.own_term) == (False, 0)


async def test_one_assigner_acts_where_the_answer_is_lost(two: tuple[Side, Side]) -> None:  # noqa: F811
    first, second = two
    old, new = await renewed(first), LocalDesk(second.plane)
    body = told_by(await first.job.give_away())
    for _ in range(2):
        assert (await second.caller.post("hold", body)).status == 204
    first.job.keep()  # it takes it that nobody took the job
    assert (await acts(old), await acts(new), second.job.own_term) == (False, True, 1)


async def test_an_assigner_goes_on_with_its_own_number_after_the_term_of_another_one(
    two: tuple[Side, Side],  # noqa: F811
) -> None:
    first, second = two
    await renewed(first)
    assert (await second.caller.post("hold", told_by(await first.job.give_away()))).status == 204
    async with at_work(AssignerOfJobs(2, LocalDesk(second.plane), local_clock(), QUICK).run()):
        until_of = second.job.term["until"] if second.job.term else 0
        await until(lambda: second.job.term is not None and second.job.term["until"] > until_of)
        assert second.job.term is not None and second.job.term["assigner"] == 1
