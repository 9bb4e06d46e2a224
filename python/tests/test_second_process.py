"""Two processes of one task: one is let in, whatever the other one does, and a process that is started again does not
wait for the leases of the one before."""

import asyncio
import os
import signal
import subprocess
import sys
import time
from collections.abc import AsyncIterator, Callable, Iterator
from contextlib import asynccontextmanager
from pathlib import Path
from typing import Any

import pytest

import needed

needed.library()

from hourstable import logs  # noqa: E402
from hourstable.control import Plane  # noqa: E402
from hourstable.store import Store  # noqa: E402
from hourstable.task import Lease, LeaseLost, Overtaken, Task  # noqa: E402
from serving import HALF, POLICY, Caller, assignment, may_serve, running  # noqa: E402
from test_handed import audited  # noqa: E402
from waits import until  # noqa: E402

LATER = 60_000  # ticks that a clock goes on without an answer, also past the end of a lease
LONG: dict[str, Any] = {**POLICY, "guard": 3000, "bridge": 3000}
SCRIPT = """
import asyncio, sys
from hourstable.task import Overtaken, Task
async def main():
    task = Task(sys.argv[1], "shop", 1, logs=sys.argv[2], timeout=1.0)
    await task.start()
    waiting = asyncio.create_task(task.wait())
    while not waiting.done():
        state = "serves" if task.served() else task.state
        print(state, flush=True)
        await asyncio.wait({waiting}, timeout=0.02)
    try:
        waiting.result()
    except Overtaken as why:
        sys.exit(f"overtaken: {why}")
asyncio.run(main())
"""


@asynccontextmanager
async def owned(store: Store, folder: Path, policy: object = LONG) -> AsyncIterator[tuple[Plane, Caller]]:
    """A plane, at which task 1 owns all keys."""
    async with running(store, folder / "plane") as (plane, caller):
        assert (await caller.create(policy)).status == 201
        await caller.change(await caller.take(), 1, [[0, [1]]])
        yield plane, caller


class Unit:
    """A process of task 1, as a supervisor starts it."""

    def __init__(self, url: str, folder: Path) -> None:
        words = [sys.executable, "-c", SCRIPT, url, str(folder)]
        self.process = subprocess.Popen(words, stdout=subprocess.PIPE, stderr=subprocess.PIPE, text=True)
        self.said: list[str] = []
        self._reading = asyncio.create_task(asyncio.to_thread(self._read))

    def _read(self) -> None:
        assert self.process.stdout is not None
        for line in self.process.stdout:
            self.said.append(line.strip())

    async def says(self, word: str, seconds: float = 15.0) -> float:
        """Waits until its last word is this one, and returns for how long."""
        begun = time.monotonic()
        await until(lambda: self.said[-1:] == [word], seconds)
        return time.monotonic() - begun

    def end(self) -> str:
        """Kills the process, and returns what it said of its end."""
        self.process.kill()
        _, told = self.process.communicate()
        return told


@pytest.fixture
def unit_of(tmp_path: Path) -> Iterator[Callable[[str, str], Unit]]:
    made = []

    def unit(url: str, host: str) -> Unit:
        made.append(Unit(url, tmp_path / host / "logs"))
        return made[-1]

    yield unit
    for one in made:
        one.end()


def task_of(url: str, folder: Path, oldest: int | None = None) -> Task:
    return Task(url, "shop", 1, logs=folder / "logs", timeout=1.0, oldest=oldest)


def is_continuous(lease: Lease) -> bool:
    try:
        lease.check()
        return True
    except LeaseLost:
        return False


async def test_a_second_process_elsewhere_waits_and_logs_nothing(file: Store, tmp_path: Path) -> None:
    async with owned(file, tmp_path, POLICY) as (_, caller):
        async with task_of(caller.url, tmp_path / "a") as first:
            await until(lambda: bool(first.served()))
            async with task_of(caller.url, tmp_path / "b") as second:
                await until(lambda: second.state == "waiting")
                end = time.monotonic() + 2.5 * POLICY["guard"] / 1000
                while time.monotonic() < end:
                    assert may_serve(first) and not may_serve(second)
                    assert not second.is_ready()
                    await asyncio.sleep(0.01)
                assert logs.merged(tmp_path / "b/logs/shop") == []
                await first.stop()
                assert not may_serve(first)
                await until(lambda: may_serve(second))
                assert second.state == "serving"


async def test_a_second_process_with_one_folder_ends_with_why(file: Store, tmp_path: Path) -> None:
    async with owned(file, tmp_path) as (_, caller):
        async with task_of(caller.url, tmp_path):
            with pytest.raises(BlockingIOError, match=r"another process of task 1 .*logs\.state/shop/task-1\.lock"):
                task_of(caller.url, tmp_path)
        async with task_of(caller.url, tmp_path) as again:
            await until(lambda: bool(again.served()))


async def test_a_process_that_is_started_again_is_let_in_at_once(
    file: Store, tmp_path: Path, unit_of: Callable[[str, str], Unit]
) -> None:
    async with owned(file, tmp_path, {**LONG, "guard": 20_000, "bridge": 20_000}) as (_, caller):
        for _ in range(3):
            unit = unit_of(caller.url, "a")
            assert await unit.says("serves") < 10
            unit.end()
        elsewhere = unit_of(caller.url, "b")
        await elsewhere.says("waiting")


async def test_a_process_that_was_frozen_ends_once_another_one_is_let_in(
    file: Store, tmp_path: Path, unit_of: Callable[[str, str], Unit]
) -> None:
    async with owned(file, tmp_path) as (_, caller):
        first = unit_of(caller.url, "a")
        await first.says("serves")
        second = unit_of(caller.url, "b")
        await second.says("waiting")
        first.process.send_signal(signal.SIGSTOP)
        await second.says("serves")
        first.process.send_signal(signal.SIGCONT)
        await until(lambda: first.process.poll() is not None)
        assert "overtaken: task 1: life 2 of another process is let in, after 1" in first.end()
        await asyncio.sleep(0.5)
        assert second.said[-1] == "serves"


async def test_what_has_ended_is_not_given_up(
    file: Store, tmp_path: Path, monkeypatch: pytest.MonkeyPatch
) -> None:
    """A process stands still while it gives up its leases, until another one is let in: the log of that one tells
    what the task does from then on."""
    async with owned(file, tmp_path, POLICY) as (_, caller):
        first, notes = task_of(caller.url, tmp_path / "a", LATER), list[bytes]()
        await first.start()
        await until(lambda: bool(first.served()))
        async with task_of(caller.url, tmp_path / "b") as second:
            await until(lambda: second.state == "waiting")

            async def stand_still(*_: object) -> None:
                await until(lambda: may_serve(second))

            async def free(note: bytes, _: str) -> None:
                notes.append(note)

            monkeypatch.setattr(first, "_leave", stand_still)
            monkeypatch.setattr(first, "_free", free)
            await first.stop()
            assert may_serve(second) and not may_serve(first) and first.state == "stopped"
    assert not notes
    assert [it["do"] for it in logs.merged(tmp_path / "a/logs/shop") if it["do"] == "release"] == []
    for path in (tmp_path / "a/logs/shop").glob("task-1.*"):
        path.rename(tmp_path / "b/logs/shop" / path.name.replace("task-1", "task-1-elsewhere"))
    for path in (tmp_path / "plane/shop").glob("control-*"):
        path.rename(tmp_path / "b/logs/shop" / path.name)
    assert audited(tmp_path / "b/logs/shop").startswith("audit one\n")


async def test_a_life_that_gives_up_too_late_is_followed(
    file: Store, tmp_path: Path, monkeypatch: pytest.MonkeyPatch
) -> None:
    """A process stands still while it gives up keys that move, until its lease has ended: its next life goes on."""
    async with owned(file, tmp_path, POLICY) as (_, caller):
        async with task_of(caller.url, tmp_path, LATER) as task:
            await until(lambda: bool(task.served()))
            leases = task._leases

            async def stand_still(*_: object) -> None:
                await asyncio.sleep(1.2 * POLICY["guard"] / 1000)

            monkeypatch.setattr(task, "_leave", stand_still)
            term = (await caller.get()).json["term"]["number"]
            assert (await caller.post(f"propose?term={term}", assignment(2, [[0, [2]], [HALF, [1]]]))).status == 200
            await until(lambda: task._leases not in (leases, None))
            monkeypatch.undo()
            await until(lambda: bool(task.served()))
            assert "release" not in [it["do"] for it in logs.merged(tmp_path / "logs/shop")]


async def test_the_lock_outlasts_what_it_serves_by(
    file: Store, tmp_path: Path, monkeypatch: pytest.MonkeyPatch
) -> None:
    """With planes out of reach a lease cannot be freed: serving ends all the same before the lock does."""
    async with owned(file, tmp_path) as (plane, caller):
        task = task_of(caller.url, tmp_path)
        await task.start()
        await until(lambda: bool(task.served()))
        lease = task.ask("key")
        await plane.stop()
        serves = []
        freed = task._lives.close

        def close() -> None:
            serves.append(may_serve(task))
            freed()

        monkeypatch.setattr(task._lives, "close", close)
        await task.stop()
        assert serves == [False]
        assert not may_serve(task)
        with pytest.raises(LeaseLost):
            lease.check()


async def test_the_lock_outlasts_a_lease_that_cannot_be_released(
    file: Store, tmp_path: Path, monkeypatch: pytest.MonkeyPatch
) -> None:
    """As where memory lacks for the note."""
    async with owned(file, tmp_path) as (_, caller):
        task = task_of(caller.url, tmp_path)
        await task.start()
        await until(lambda: bool(task.served()))
        serves, freed = list[bool](), task._lives.close

        def release(_: str) -> bytes:
            raise MemoryError("hourstable")

        def close() -> None:
            serves.append(may_serve(task))
            freed()

        monkeypatch.setattr(task._leases, "give_up", release)
        monkeypatch.setattr(task._lives, "close", close)
        await task.stop()
        assert serves == [False] and not may_serve(task)


async def test_a_forked_child_serves_nothing(file: Store, tmp_path: Path) -> None:
    async with owned(file, tmp_path) as (_, caller):
        async with task_of(caller.url, tmp_path) as task:
            await until(lambda: bool(task.served()))
            lease = task.ask("key")
            reading, writing = os.pipe()
            child = os.fork()
            if not child:
                try:
                    told = f"{may_serve(task)} {is_continuous(lease)} {task.state}"
                except BaseException as why:  # else it goes on with the tests of its parent
                    told = repr(why)
                os.write(writing, told.encode())
                time.sleep(60)
                os._exit(0)
            try:
                assert os.read(reading, 100).decode() == "False False stopped"
                assert may_serve(task)
                lease.check()
                await task.stop()
                async with task_of(caller.url, tmp_path) as again:  # the child keeps no lock
                    await until(lambda: bool(again.served()))
            finally:
                os.kill(child, signal.SIGKILL)
                os.waitpid(child, 0)


async def test_a_life_that_is_dropped_is_followed_at_once(file: Store, tmp_path: Path) -> None:
    """The next life of the process shows the key of the one before, whose leases are freed then, and not at their
    ends."""
    async with owned(file, tmp_path, {**LONG, "guard": 60_000, "bridge": 60_000}) as (plane, caller):
        async with task_of(caller.url, tmp_path) as task:
            await until(lambda: bool(task.served()))
            task._drop_life()
            assert not may_serve(task)
            task._phases.changed.set()
            await until(lambda: bool(task.served()))
            await until(lambda: {row.life for row in plane.jobs["shop"].job.rows()} == {2})
            assert (await caller.get()).json["admitted"] == {"1": 2}


@asynccontextmanager
async def dropped_after_a_lost_life(file: Store, folder: Path, guard: int) -> AsyncIterator[tuple[Plane, Task]]:
    """A task that has just dropped its life, after a call for another one whose answer is lost."""
    async with running(file, folder / "logs") as (plane, caller):
        assert (await caller.create({**LONG, "guard": guard, "bridge": guard})).status == 201
        await caller.change(await caller.take(), 1, [[0, [1]]])
        async with task_of(caller.url, folder) as task:
            await until(lambda: bool(task.served()))
            assert (await caller.post("tasks/1/life")).json["last"] == 1
            task._drop_life()
            task._phases.changed.set()
            yield plane, task
            await until(lambda: bool(task.served()))


async def test_a_life_is_freed_although_the_next_one_was_lost(file: Store, tmp_path: Path) -> None:
    """The lease of the dropped life lasts, so the lost one was not let in. The log tells that the dropped one has
    ended, and an audit knows its notes."""
    async with dropped_after_a_lost_life(file, tmp_path, 60_000) as (plane, _):
        await until(lambda: {row.life for row in plane.jobs["shop"].job.rows()} == {3})
    opened = [it["life"] for it in logs.merged(tmp_path / "logs/shop") if it["do"] == "open"]
    assert opened == [0, 1]
    assert audited(tmp_path / "logs/shop").startswith("audit one\n")


async def test_no_note_is_sent_of_a_life_after_which_another_one_may_have_begun(
    file: Store, tmp_path: Path
) -> None:
    """Once the leases of the dropped life have ended, another process may have been let in with the lost one."""
    async with dropped_after_a_lost_life(file, tmp_path, 3000):
        time.sleep(3.1)  # neither the plane nor the task does anything meanwhile
    calls = logs.merged(tmp_path / "logs/shop")
    assert [it["life"] for it in calls if it["do"] == "open"] == [0, 2]
    assert not [it for it in calls if it["do"] == "free" and it["note"]["life"] == 1]
    assert audited(tmp_path / "logs/shop").startswith("audit one\n")


async def test_a_task_with_no_folder_waits_for_the_one_before(file: Store, tmp_path: Path) -> None:
    async with owned(file, tmp_path, POLICY) as (_, caller):
        first = Task(caller.url, "shop", 1, logs=None, timeout=1.0)
        await first.start()
        await until(lambda: bool(first.served()))
        for loop in first._loops:  # as a kill: nothing is given back
            loop.cancel()
        async with Task(caller.url, "shop", 1, logs=None, timeout=1.0) as second:
            await until(lambda: second.state == "waiting")
            while not may_serve(second):
                await asyncio.sleep(0.005)
            assert not may_serve(first)
        await first.stop()


async def test_a_process_that_is_evicted_gives_its_leases_back_and_ends(file: Store, tmp_path: Path) -> None:
    async with owned(file, tmp_path, {**LONG, "guard": 20_000, "bridge": 20_000}) as (_, caller):
        first, second = task_of(caller.url, tmp_path / "a"), task_of(caller.url, tmp_path / "b")
        async with first, second:
            await until(lambda: bool(first.served()))
            await until(lambda: second.state == "waiting")
            assert (await caller.post("evict", {"task": 1, "favour": 2})).json == {"life": 1}
            first._renew_at = 0  # else it hears of it at half of its lease
            first._phases.changed.set()
            with pytest.raises(Overtaken, match="an operator"):
                await first.wait()
            assert not may_serve(first)
            second._phases.changed.set()
            await until(lambda: may_serve(second))
