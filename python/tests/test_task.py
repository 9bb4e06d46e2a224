"""Tests of hourstable.task, over a control plane in the process of the test.

A guard lease lasts 2 s there, long beside what a loaded machine takes for a message. The key
"hello" is in the lower half of the slice keys, and "abc" in the upper half.
"""

import asyncio
import subprocess
import time
from collections.abc import AsyncIterator, Callable
from pathlib import Path
from typing import Any

import pytest
from aiohttp import web

import needed
from hourstable import logs
from hourstable.calls import Rejected, Unreachable
from hourstable.library import boottime_ticks
from hourstable.ranges import KEYS
from hourstable.task import ClockBroken, Denied, Drift, LeaseLost, Task
from hourstable.system import System
from hourstable.tickets import Tickets, milliseconds_of, real_milliseconds
from hourstable.waiting import Backoff, within
from planes import JOB, Plane

HALF = 1 << 62
LOWER, UPPER = [(0, HALF)], [(HALF, KEYS)]
TO_ONE_AND_TWO = [(0, 1), (HALF, 2)]


@pytest.fixture
async def plane(tmp_path: Path) -> AsyncIterator[Plane]:
    made = await Plane(tmp_path).start()
    made.settle(1, TO_ONE_AND_TWO)
    yield made
    await made.stop()


@pytest.fixture
def task_of(plane: Plane, tmp_path: Path) -> Callable[..., Task]:
    def made(number: int = 1, **given: Any) -> Task:
        given = {"policy": plane.policy, "timeout": 2.0, **given}
        return Task(plane.url, JOB, number, logs=tmp_path, **given)

    return made


@pytest.mark.parametrize("given", [{"process": 63}, {"process": 256}, {"number": 0}, {"number": 65}])
async def test_numbers_that_are_those_of_others(given: dict[str, int], task_of: Callable[..., Task]) -> None:
    """Control planes and assigners draw tickets as 0 to 63, and the clerks as 128 on."""
    with pytest.raises(ValueError, match="is not"):
        task_of(**given)
    task = task_of(process=64)
    await task.stop()


async def test_tickets_stand_apart_from_logs(plane: Plane, tmp_path: Path) -> None:
    """Those that older versions kept among the logs are gone on from."""
    (tmp_path / "logs" / JOB).mkdir(parents=True)
    old = Tickets(64, tmp_path / "logs" / JOB / "task-1.ticket", now=lambda: 9 << 40)
    last = old.draw()
    old.close()
    task = Task(plane.url, JOB, 1, logs=tmp_path / "logs", policy=plane.policy)
    assert task._tickets.draw() > last
    assert list(tmp_path.rglob("*.ticket")) == [tmp_path / "logs.state" / JOB / "task-1.ticket"]
    with pytest.raises(BlockingIOError):
        Task(plane.url, JOB, 1, logs=tmp_path / "logs", policy=plane.policy)
    await task.stop()
    task = Task(plane.url, JOB, 1, logs=None, state=tmp_path / "other")
    assert (tmp_path / "other" / JOB / "task-1.ticket").is_file()
    await task.stop()


class DayAhead(System):
    """A system whose real time is a day ahead."""

    def real_nanoseconds(self) -> int:
        return super().real_nanoseconds() + 86_400_000_000_000


async def test_the_real_time_of_a_task_moves_no_tickets(plane: Plane, task_of: Callable[..., Task]) -> None:
    """It follows those of planes, whose real time is seen to."""
    async with task_of(system=DayAhead()) as task:
        await until(lambda: task.served() == LOWER)
        hours = (milliseconds_of(plane.tickets.draw()) - real_milliseconds()) / 3_600_000
        assert -1 < hours < 1


async def test_a_table_whose_clock_stood_still_for_longer_than_a_lease(
    plane: Plane, task_of: Callable[..., Task]
) -> None:
    """No plane had the table for half a minute, in which the clock of a task went on that waits for long."""
    passed = [0]

    async def fault(request: web.Request) -> web.StreamResponse | None:
        return None if plane.fault is None else web.Response(status=503)

    async with task_of(oldest=60_000, local_clock=lambda: boottime_ticks() + passed[0]) as task:
        await until(lambda: task.served() == LOWER)
        plane.fault = fault
        passed[0] = 30_000
        await until(lambda: task.served() == [])
        plane.fault = None
        begun = time.monotonic()
        await until(lambda: task.served() == LOWER)
        assert await ground(task, "hello") == ""
    assert time.monotonic() - begun < 15


async def until(holds: Callable[[], object], seconds: float = 20.0) -> None:
    end = time.monotonic() + seconds
    while not holds():
        assert time.monotonic() < end, "it does not come true"
        await asyncio.sleep(0.002)


async def ground(task: Task, key: str) -> str:
    """Returns the ground on which a key is denied, or nothing if it is served."""
    try:
        async with task.serving(key):
            return ""
    except Denied as denied:
        return denied.ground


def calls(folder: Path, *names: str) -> list[str]:
    """Returns the calls of the tasks in the log, with their replies."""
    found = [it for it in logs.merged(folder / JOB) if it["file"].startswith("task-")]
    found = [it for it in found if not names or it["do"] in names]
    return [f"{call['do']}: {call['reply']}" for call in found]


async def test_keys_are_served_and_denied(
    plane: Plane, task_of: Callable[..., Task], tmp_path: Path
) -> None:
    async with task_of() as task:
        assert await ground(task, "hello") == "down"
        await until(lambda: task.served() == LOWER)
        assert await ground(task, "hello") == ""
        assert await ground(task, "abc") == "not-owned"
    log = calls(tmp_path)
    assert log[:8] == [
        "open: opened 0", "sample: sampled", "start: started 1", "sample: sampled", "hear: heard 1",
        "hold: handle life 1 position 2", "check: continuous", "hold: denied not-owned 1",
    ]
    assert log[-1].startswith("release: released life 1 number ")
    assert plane.held(1) == []


async def test_a_lease_is_renewed_at_half_of_it(plane: Plane, task_of: Callable[..., Task]) -> None:
    async with task_of() as task:
        await until(lambda: task.served() == LOWER)
        before = len(plane.asked)
        async with task.serving("hello"):  # a block is no hindrance, and lasts over the renewals
            await asyncio.sleep(3.5)
        # Half of a lease is 1 s, a tenth earlier or later, and later by what messages take.
        assert 2 <= len(plane.asked) - before <= 4


async def test_a_change_waits_for_messages_and_not_for_leases(
    plane: Plane, task_of: Callable[..., Task]
) -> None:
    lost: list[Any] = []
    async with task_of(on_lose=lambda ranges, deadline: lost.append(ranges)) as task:
        await until(lambda: task.served() == LOWER)
        plane.propose(2, [(0, 2)])
        assert await plane.commit_soon() < 1000
        assert lost == [LOWER]
        assert await ground(task, "hello") in ("ended", "not-owned", "no-lease")


async def test_keys_that_stay_are_served_throughout(
    plane: Plane, task_of: Callable[..., Task]
) -> None:
    gained: list[Any] = []
    async with task_of(on_gain=gained.append) as task:
        await until(lambda: task.served() == LOWER)
        plane.propose(2, [(0, 1)])
        committing = asyncio.create_task(plane.commit_soon())
        while not committing.done():
            assert await ground(task, "hello") == ""
            await asyncio.sleep(0.001)
        await until(lambda: len(gained) == 2)
        assert gained == [LOWER, UPPER]
        assert await ground(task, "hello") == ""
        assert await ground(task, "abc") == ""
        await until(lambda: plane.held(1) == ["guard"])


async def test_an_open_block_ends_before_its_key_is_given_up(
    plane: Plane, task_of: Callable[..., Task]
) -> None:
    async with task_of(patience=2.0) as task:
        await until(lambda: task.served() == LOWER)
        async with task.serving("hello") as lease:
            plane.propose(2, [(0, 2)])
            await until(lambda: task.served() == [])
            assert await ground(task, "hello") == "moving"
            await asyncio.sleep(0.1)
            assert "guard" in plane.held(1)
            lease.check()
        assert await plane.commit_soon() < 1000


async def test_a_block_that_does_not_end_loses_its_key(
    plane: Plane, task_of: Callable[..., Task], tmp_path: Path
) -> None:
    async with task_of(patience=0.05) as task:
        await until(lambda: task.served() == LOWER)
        with pytest.raises(LeaseLost):
            async with task.serving("hello"):
                plane.propose(2, [(0, 2)])
                assert await plane.commit_soon() < 1000
    assert "check: broken" in calls(tmp_path, "check")


def silent(plane: Plane) -> None:
    """Lets the plane answer nobody."""

    async def fault(_: web.Request) -> web.StreamResponse:
        await asyncio.sleep(0.3)
        return web.Response(status=503)

    plane.fault = fault


async def test_a_task_that_hears_nothing_stops_when_its_lease_ends(
    plane: Plane, task_of: Callable[..., Task]
) -> None:
    lost: list[Any] = []
    async with task_of(oldest=10_000, on_lose=lambda ranges, _: lost.append(ranges)) as task:
        await until(lambda: task.served() == LOWER)
        silent(plane)
        assert await ground(task, "hello") == ""
        await asyncio.sleep(2.5)
        assert await ground(task, "hello") == "ended"
        await until(lambda: lost == [LOWER])
        plane.fault = None
        await until(lambda: task.served() == LOWER)
        assert await ground(task, "hello") == ""
        assert task.clock_behind_total == 0


async def test_an_answer_after_the_end_of_the_lease_is_none(
    plane: Plane, task_of: Callable[..., Task], tmp_path: Path
) -> None:
    async with task_of(oldest=10_000) as task:
        await until(lambda: task.served() == LOWER)
        silent(plane)
        with pytest.raises(LeaseLost):
            async with task.serving("hello"):
                await asyncio.sleep(2.6)
    assert calls(tmp_path, "check") == []  # another process may have been let in, and logs its own


async def test_a_block_that_raises_is_not_asked_again(
    plane: Plane, task_of: Callable[..., Task], tmp_path: Path
) -> None:
    async with task_of() as task:
        await until(lambda: task.served() == LOWER)
        with pytest.raises(KeyError):
            async with task.serving("hello"):
                raise KeyError
    assert calls(tmp_path, "check") == []


async def test_a_process_that_was_suspended_finds_its_lease_ended(
    plane: Plane, task_of: Callable[..., Task]
) -> None:
    """The local clock counts while the process is suspended."""
    slept = [0]
    async with task_of(local_clock=lambda: boottime_ticks() + slept[0], oldest=99_999) as task:
        await until(lambda: task.served() == LOWER)
        hold = task.hold("hello")
        assert hold.continuous()
        with pytest.raises(LeaseLost):
            async with task.serving("hello"):
                slept[0] = 5000
        assert not hold.continuous()
        assert await ground(task, "hello") == "ended"


async def test_a_clock_that_is_too_old_stops_the_task(
    plane: Plane, task_of: Callable[..., Task]
) -> None:
    # The newest sample may be 1,400 ms old; renewals come after 1,100 ms and a message.
    async with task_of(oldest=1400) as task:
        await until(lambda: task.served() == LOWER)
        silent(plane)
        await asyncio.sleep(1.6)  # the lease may not have ended, the clock is too old
        assert await ground(task, "hello") == "clock-behind"
        await until(lambda: task.clock_behind_total == 1)
        plane.fault = None
        await until(lambda: task.served() == LOWER)
        assert b'hourstable_clock_behind_total{job="shop",task="1"} 1.0' in task.metrics.text()


async def test_a_task_serves_until_its_lease_ends(plane: Plane, task_of: Callable[..., Task]) -> None:
    """Its clock is not too old before."""
    stands: list[int] = []  # where the local clock stands still, once it does
    async with task_of(local_clock=lambda: stands[-1] if stands else boottime_ticks()) as task:
        await until(lambda: task.served() == LOWER)
        silent(plane)
        assert task._leases is not None
        clock, guard = task._leases.clock, plane.policy["guard"]
        stands.append(clock.newest + guard - 50)
        assert await ground(task, "hello") == ""
        stands.append(clock.newest + guard + 1)
        assert await ground(task, "hello") in ("ended", "clock-behind")


async def test_a_task_with_a_lease_asks_again_soon(plane: Plane, task_of: Callable[..., Task]) -> None:
    """It waits for a twentieth of a guard term at most: a plane that takes the job over has it late as it is."""
    why, backoff = Unreachable("503", 60.0), Backoff(lambda: 1.0, most=2.0)
    async with task_of() as task:
        await until(lambda: task.served() == LOWER)
        waits = [task._wait_after(why, backoff) for _ in range(8)]
        assert waits == [plane.policy["guard"] / 20_000] * 8
    assert task._wait_after(why, backoff) == plane.policy["guard"] / 1000  # it has none any more


async def test_a_clock_that_breaks_its_drift_ends_the_task(
    plane: Plane, task_of: Callable[..., Task], tmp_path: Path
) -> None:
    """Once it has a lease, the local clock goes at half its rate, and the drift that is given is 1 in 1,000."""
    begun: list[int] = []

    def slow() -> int:
        at = boottime_ticks()
        return (at + begun[0]) // 2 if begun else at

    task = task_of(local_clock=slow, drift=Drift(1, 1000), oldest=10_000)
    await task.start()
    await until(lambda: task.served() == LOWER)
    begun.append(boottime_ticks())
    with pytest.raises(ClockBroken):
        await within(20.0, task.wait())
    assert task.clock_behind_total == 1
    assert await ground(task, "hello") == "down"
    await task.stop()
    assert any(it.startswith("release: released life 1") for it in calls(tmp_path, "release"))


async def test_a_grant_that_comes_too_late_is_not_heard(
    plane: Plane, task_of: Callable[..., Task], tmp_path: Path
) -> None:
    """The process is suspended for 2,050 ms while its first grant, of 2 s, is on its way. The value
    of its clock is then 2,050 ms ahead of the table and does not fall, so that further grants may
    come too late, for 50 ms."""
    slept = [0]

    async def fault(request: web.Request) -> web.StreamResponse | None:
        if not request.path.endswith("/grant") or slept[0] or (await request.json()).get("let_in"):
            return None
        answer = await plane.grant(request)
        slept[0] = 2050
        return answer

    plane.fault = fault
    async with task_of(local_clock=lambda: boottime_ticks() + slept[0], oldest=10_000) as task:
        await until(lambda: task.served() == LOWER)
    heard = calls(tmp_path, "start", "hear")
    assert heard[0].startswith("start: started ") and heard[1] == "hear: refused too-late"
    assert set(heard[2:-1]) <= {"hear: refused too-late"}
    assert heard[-1].startswith("hear: heard ")


async def test_the_next_process_of_a_task(
    plane: Plane, task_of: Callable[..., Task], tmp_path: Path
) -> None:
    async with task_of() as task:
        await until(lambda: task.served() == LOWER)
        hold = task.hold("hello")
    assert not hold.continuous()
    async with task_of() as task:
        await until(lambda: task.served() == LOWER)
        assert await ground(task, "hello") == ""
    begun = calls(tmp_path, "open", "start")
    assert begun == ["open: opened 0", "start: started 1", "open: opened 1", "start: started 2"]
    tickets = [call["ticket"] for call in logs.merged(tmp_path / JOB)]
    assert len(set(tickets)) == len(tickets)


async def test_no_two_processes_of_a_task(plane: Plane, task_of: Callable[..., Task]) -> None:
    async with task_of():
        with pytest.raises(BlockingIOError):
            task_of()


async def test_a_slicelet_that_is_nearly_full_is_replaced(
    plane: Plane, task_of: Callable[..., Task], monkeypatch: pytest.MonkeyPatch, tmp_path: Path
) -> None:
    # It accepts 65,536 calls: start, three times hear; then fewer than 65,533 are left.
    monkeypatch.setattr("hourstable.task.LAST_CALLS", 65_533)
    async with task_of() as task:
        await until(lambda: len(calls(tmp_path, "open")) == 2)
        await until(lambda: task.served() == LOWER)
    assert calls(tmp_path, "open", "start", "hear", "release")[:6] == [
        "open: opened 0", "start: started 1", "hear: heard 1", "hear: heard 2", "hear: heard 3",
        "release: released life 1 number 3",
    ]


async def test_a_task_without_an_assignment_goes_on_asking(
    task_of: Callable[..., Task], tmp_path: Path
) -> None:
    plane = await Plane(tmp_path / "other").start()
    async with Task(plane.url, JOB, 1, logs=tmp_path / "other", timeout=0.5) as task:
        await until(lambda: len(plane.asked) > 1)
        assert await ground(task, "hello") == "down"
        plane.settle(1, TO_ONE_AND_TWO)
        await until(lambda: task.served() == LOWER)
    await plane.stop()


async def test_loads_are_reported(plane: Plane, task_of: Callable[..., Task]) -> None:
    async with task_of(report=0.1) as task:
        await until(lambda: task.served() == LOWER)
        for _ in range(3):
            await ground(task, "hello")
        await until(lambda: any(told["loads"] for told in plane.loads))
        reports = len(plane.loads)
        await until(lambda: len(plane.loads) >= reports + 2)  # which have none of them
    told = [it for it in plane.loads if it["loads"]]
    # The slice key of "hello" is 0x1679286... (63 bits); 1,024 parts of the keys are 2^53 wide.
    hello = 1_619_368_272_448_737_671
    part = hello >> 53 << 53
    assert [it["loads"] for it in told] == [[[str(part), str(part + (1 << 53)), 3]]]
    assert (told[0]["task"], told[0]["clock_behind"]) == (1, 0)
    assert set(told[0]["denied"]) <= {"down", "no-lease"}  # before the first lease was heard


async def test_another_policy_is_rejected(plane: Plane, task_of: Callable[..., Task]) -> None:
    task = task_of(policy={**plane.policy, "guard": 401})
    with pytest.raises(Rejected, match="another policy"):
        await task.start()
    await task.stop()


async def test_a_note_that_is_lost_is_sent_again(
    plane: Plane, task_of: Callable[..., Task]
) -> None:
    lost = [2]

    async def fault(request: web.Request) -> web.StreamResponse | None:
        if request.path.endswith("/free") and lost[0]:
            lost[0] -= 1
            return web.Response(status=503)
        return None

    async with task_of() as task:
        await until(lambda: task.served() == LOWER)
        plane.fault = fault
        plane.propose(2, [(0, 2)])
        assert await plane.commit_soon() < 1800
        assert lost == [0]


async def test_a_client_that_does_not_read_holds_up_nothing(
    plane: Plane, task_of: Callable[..., Task]
) -> None:
    """The answer is longer than what sockets buffer, so it is underway during the change."""
    async with task_of() as task:
        await until(lambda: task.served() == LOWER)
        sent = asyncio.Event()

        async def handler(_: web.Request) -> web.Response:
            async with task.serving("hello"):
                body = bytes(1 << 26)
            sent.set()
            return web.Response(body=body)

        app = web.Application()
        app.router.add_get("/", handler)
        runner = web.AppRunner(app)
        await runner.setup()
        await web.TCPSite(runner, "127.0.0.1", 0, shutdown_timeout=0.1).start()
        _, writer = await asyncio.open_connection(*runner.addresses[0])
        writer.write(b"GET / HTTP/1.1\r\nHost: task\r\n\r\n")
        await sent.wait()
        plane.propose(2, [(0, 2)])
        assert await plane.commit_soon() < 1000
        writer.transport.abort()
        await runner.cleanup()


async def test_the_log_is_one_run(
    plane: Plane, task_of: Callable[..., Task], tmp_path: Path
) -> None:
    """The proved audit judges the calls of the plane and two tasks over two changes."""
    program = needed.program()
    async with task_of(1) as one, task_of(2) as two:
        await until(lambda: one.served() == LOWER and two.served() == UPPER)
        for generation, slices in ((2, [(0, 2)]), (3, TO_ONE_AND_TWO)):
            plane.propose(generation, slices)
            await plane.commit_soon()
            for key in ("hello", "abc"):
                await ground(one, key)
                await ground(two, key)
        await until(lambda: one.served() == LOWER and two.served() == UPPER)
    paths = logs.lay_out(tmp_path / JOB, tmp_path / "laid")
    ran = subprocess.run([program, "audit", *paths], capture_output=True, text=True, check=False)
    assert ran.stdout.startswith("audit one\n") and ran.stdout.endswith("timely yes\n"), ran
    assert ran.returncode == 0
