"""`hourstable-service doctor URL`: what it finds, and what it says is to be done."""

import asyncio
import os
import signal
import socket
import subprocess
import sys
from collections.abc import AsyncIterator
from contextlib import asynccontextmanager
from pathlib import Path
from typing import Any

import aiohttp
import pytest
from aiohttp import web

import needed

needed.library()

from hourstable import callers, command, doctor, readiness  # noqa: E402
from hourstable.calls import Rejected  # noqa: E402
from hourstable.client import NoOwner, Router  # noqa: E402
from hourstable.command import main  # noqa: E402
from hourstable.plans import Hysteresis  # noqa: E402
from hourstable.service import ControlPlane, Options  # noqa: E402
from hourstable.store import StoreFailed  # noqa: E402
from hourstable.task import Task as ServiceTask  # noqa: E402
from hourstable.waiting import within  # noqa: E402
from serving import Caller, Task  # noqa: E402

SECRET = "a-secret-of-many-characters"
Said = pytest.CaptureFixture[str]


@asynccontextmanager
async def plane_of(folder: Path, **given: Any) -> AsyncIterator[tuple[ControlPlane, Caller]]:
    options = Options(f"sqlite:{folder}/jobs", folder / "logs", rules=Hysteresis(settle=0.1, rest=1.0), **given)
    headers = {"Authorization": f"Bearer {SECRET}"}
    async with ControlPlane(options) as running, aiohttp.ClientSession(headers=headers) as session:
        yield running, Caller(f"http://127.0.0.1:{running.port}", session)


async def examined(url: str, said: Said, *words: str) -> tuple[int, list[str]]:
    """Returns the status of the command and its lines."""
    said.readouterr()
    status = await asyncio.to_thread(main, ["doctor", *words, url])
    return status, said.readouterr().out.splitlines()


async def test_a_plane_that_is_well(tmp_path: Path, capfd: Said) -> None:
    async with plane_of(tmp_path) as (running, caller):
        status, lines = await examined(caller.url, capfd)
        assert (status, lines[-1]) == (0, "nothing to mend")
        assert "ok   jobs: none: each is created by PUT /jobs/NAME with its policy" in lines
        await caller.create()
        work = asyncio.create_task(Task(caller, 1).run())
        while running.plane is None or not running.plane.jobs["shop"].job.view.committed:
            await asyncio.sleep(0.05)
        status, lines = await examined(f"{caller.url}/", capfd)
        work.cancel()
        await asyncio.gather(work, return_exceptions=True)
    assert (status, lines) == (0, [
        "ok   plane: it answers", "ok   store: ok", "ok   poller: ok", "ok   assigner: ok", "ok   disk: ok",
        "ok   real time: within 5 s of this host's", "ok   jobs: 1",
        "ok   job shop: held by this plane, generation 1, 1 tasks", "nothing to mend",
    ])


async def test_a_secret_that_is_missing_or_wrong(tmp_path: Path, capfd: Said) -> None:
    right, wrong = tmp_path / "right", tmp_path / "wrong"
    right.write_text(SECRET)
    wrong.write_text("another-secret-of-others")
    async with plane_of(tmp_path, secrets=[SECRET]) as (_, caller):
        assert (await examined(caller.url, capfd, "--secret-file", str(right)))[0] == 0
        for words in (list[str](), ["--secret-file", str(wrong)]):
            status, lines = await examined(caller.url, capfd, *words)
            told = "MEND secret: 401 to /overview: name the file of a right secret: --secret-file"
            assert status == 1 and told in lines


async def test_a_role_that_is_too_small(tmp_path: Path, capfd: Said) -> None:
    file = tmp_path / "secret"
    file.write_text("the-secret-of-a-task")
    task = callers.Known(callers.Caller("a", callers.Role.TASK, frozenset({"shop"})), ("the-secret-of-a-task",))
    async with plane_of(tmp_path, callers=callers.Callers([task])) as (_, caller):
        status, lines = await examined(caller.url, capfd, "--secret-file", str(file))
        assert status == 1 and any(it.startswith("MEND secret: 403 to /overview: take the secret") for it in lines)


async def test_what_does_not_answer(tmp_path: Path, capfd: Said, monkeypatch: pytest.MonkeyPatch) -> None:
    monkeypatch.setattr(doctor, "PATIENCE", 0.5)
    with socket.socket() as free:
        free.bind(("127.0.0.1", 0))
        url = f"http://127.0.0.1:{free.getsockname()[1]}"
        status, lines = await examined(url, capfd)
        assert status == 1 and lines[0].startswith("MEND plane: ClientConnectorError")
        assert lines[0].endswith("nothing listens there: start the plane, or look for its port in its first line")
        free.listen()
        status, lines = await examined(url, capfd)
        assert (status, lines[0]) == (1, "MEND plane: TimeoutError: its process stands still, or packets are lost:"
                                         " look at its host, then start it again")
    assert main(["doctor", "127.0.0.1:8070"]) == 2


async def test_a_plane_that_stands_still(tmp_path: Path, capfd: Said, monkeypatch: pytest.MonkeyPatch) -> None:
    monkeypatch.setattr(doctor, "PATIENCE", 1.0)
    words = [sys.executable, "-m", "hourstable", "control", "--store", f"sqlite:{tmp_path}/jobs"]
    words += ["--logs", f"{tmp_path}/logs", "--listen", "127.0.0.1:0"]
    process = subprocess.Popen(words, stdout=subprocess.PIPE, stderr=subprocess.DEVNULL, text=True)
    try:
        assert process.stdout is not None
        url = process.stdout.readline().split()[-1]
        os.kill(process.pid, signal.SIGSTOP)
        status, lines = await examined(url, capfd)
        assert status == 1 and "its process stands still" in lines[0]
        os.kill(process.pid, signal.SIGCONT)
        monkeypatch.setattr(doctor, "PATIENCE", 30.0)
        assert (await examined(url, capfd))[0] == 0
    finally:
        os.kill(process.pid, signal.SIGCONT)
        process.terminate()
        process.wait(30)


async def test_what_is_no_control_plane(capfd: Said) -> None:
    async def page(request: web.Request) -> web.Response:
        is_health = request.path == "/healthz" and request.headers.get("Host") != "other"
        return web.Response(text="ok\n" if is_health and answers_ok else "<html>", content_type="text/html")

    answers_ok = False
    app = web.Application()
    app.router.add_get("/{path:.*}", page)
    runner = web.AppRunner(app)
    await runner.setup()
    site = web.TCPSite(runner, "127.0.0.1", 0)
    await site.start()
    url = f"http://127.0.0.1:{runner.addresses[0][1]}"
    status, lines = await examined(url, capfd)
    assert status == 1 and lines[0].endswith("look what listens there: it is no control plane")
    answers_ok = True
    status, lines = await examined(url, capfd)
    assert status == 1 and "an answer cannot be read" in lines[1]
    await runner.cleanup()


async def test_parts_that_fail(tmp_path: Path, capfd: Said, monkeypatch: pytest.MonkeyPatch) -> None:
    monkeypatch.setattr(readiness, "KEPT_FOR", 0.0)
    async with plane_of(tmp_path, assigner=0) as (running, caller):
        await caller.create()
        await caller.change(await caller.take(), 1, [[0, [1]]])
        assert running.plane is not None
        plane = running.plane

        async def fails() -> list[str]:
            raise StoreFailed("it is down")

        monkeypatch.setattr(plane.store, "jobs", fails)
        monkeypatch.setattr(readiness, "LEAST_FREE", 1 << 62)
        plane.jobs["shop"].job.held_since -= 60
        plane.metrics.stored("swap", 1.0, True)
        plane.metrics.unauthorized.inc(3)
        plane.tickets.observe((int(1e9) + 2_000_000_000_000) << 16)
        status, lines = await examined(caller.url, capfd)
        assert status == 1
        assert f"MEND store: it is down: {doctor.MEND['store']}" in lines
        assert any(line.startswith("MEND disk: ") for line in lines)
        assert any(line.startswith("MEND real time: its tickets are ") for line in lines)
        assert ("MEND job shop: held by this plane, generation 1, 0 tasks: no task asked for a lease in the last"
                " guard term: look at the tasks' logs") in lines
        assert any(line.startswith("MEND hourstable_store_failures_total: 1: ") for line in lines)
        assert any(line.startswith("MEND hourstable_unauthorized_total: 3: ") for line in lines)
        assert lines[-1] == f"{sum(line.startswith('MEND') for line in lines)} to mend"
        await asyncio.sleep(2.1)  # the term of the job lease is over
        status, lines = await examined(caller.url, capfd)
        assert ("MEND job shop: no assigner holds the job lease: run one (--assigner), or look at the log of that one"
                ) in lines


async def test_a_change_that_is_held_up(tmp_path: Path, capfd: Said) -> None:
    async with plane_of(tmp_path, assigner=0) as (running, caller):
        await caller.create()
        term = await caller.take()
        await caller.change(term, 1, [[0, [1]]])
        await caller.grant(1)
        value = '{"generation":"2","slices":[["0",[2]]]}'
        body = f'{{"job":"shop","type":"assignment","value":{value},"version":2}}'.encode()
        assert (await caller.post(f"propose?term={term}", body)).status == 200
        assert running.plane is not None
        running.plane.jobs["shop"].job.since -= 10
        status, lines = await examined(caller.url, capfd)
        assert status == 1
        assert any(line.startswith("MEND job shop: generation 2 is proposed since 1") for line in lines)


async def test_a_job_that_fails(tmp_path: Path, capfd: Said) -> None:
    async with plane_of(tmp_path) as (running, caller):
        await caller.create()
        assert running.plane is not None
        running.plane._fail("shop", "read", OSError(13, "Permission denied", "/logs/shop"))
        status, lines = await examined(caller.url, capfd)
        assert status == 1
        assert any(line.startswith("MEND job shop: it fails since 0 s: [Errno 13] Permission denied: '/logs/shop'")
                   for line in lines)


async def test_the_numbers_of_planes_are_below_those_of_tasks(tmp_path: Path) -> None:
    words = ["--store", f"sqlite:{tmp_path}/jobs", "--logs", f"{tmp_path}/logs", "--listen", "127.0.0.1:0"]
    assert command.options_of(command.parser().parse_args(["control", *words, "--process", "63"])).process == 63
    refused = "process 64 is not 0 to 63: tasks and clients have those above"
    with pytest.raises(ValueError, match=refused):
        command.options_of(command.parser().parse_args(["control", *words, "--process", "64"]))
    words = ["assigner", "--control", "http://127.0.0.1:1", "--assigner", "1", "--process", "64"]
    with pytest.raises(ValueError, match=refused):
        await within(20.0, command._run_assigner(command.parser().parse_args(words)))


def test_a_plane_with_certificates(certificates: Path, capfd: Said) -> None:
    words = [sys.executable, "-m", "hourstable", "control", "--store", f"sqlite:{certificates}/jobs"]
    words += ["--logs", f"{certificates}/logs", "--listen", "127.0.0.1:0", "--tls-cert", f"{certificates}/plane.pem"]
    words += ["--tls-key", f"{certificates}/plane.key"]
    process = subprocess.Popen(words, stdout=subprocess.PIPE, stderr=subprocess.DEVNULL, text=True)
    try:
        assert process.stdout is not None
        url = process.stdout.readline().split()[-1]
        assert main(["doctor", "--tls-ca", f"{certificates}/ca.pem", url]) == 0
        capfd.readouterr()
        assert main(["doctor", url]) == 1
        assert "(--tls-ca)" in capfd.readouterr().out
        assert main(["doctor", url.replace("https", "http")]) == 1
        assert "https://" in capfd.readouterr().out
    finally:
        process.terminate()
        process.wait(30)


async def test_a_drain_moves_no_tickets(tmp_path: Path, monkeypatch: pytest.MonkeyPatch) -> None:
    """The command has no number of its own: 255 is that of clerk 128."""
    async with plane_of(tmp_path) as (running, caller):
        await caller.create()
        assert running.plane is not None
        seen: list[str | None] = []
        real = running.plane.tickets.observe_text

        def observe(text: str | None) -> None:
            seen.append(text)
            real(text)

        monkeypatch.setattr(running.plane.tickets, "observe_text", observe)
        assert await asyncio.to_thread(main, ["drain", "--control", caller.url, "shop", "3"]) == 0
        assert [int(text or 0) for text in seen] == [0]
        assert (await caller.get()).json["draining"] in ([], [3])


async def test_a_job_that_is_not_there(tmp_path: Path, capfd: Said) -> None:
    """Who asks for it is told to PUT it, and nobody waits without end."""
    hint = "there is no job shop: PUT /jobs/shop with its policy creates it"
    async with plane_of(tmp_path) as (_, caller):
        for path in ("", "/phase", "/assignment?after=0", "/leases"):
            answer = await caller.get(path)
            assert (answer.status, answer.json) == (404, {"error": hint})
        with pytest.raises(Rejected, match="there is no job shop: PUT it"):
            await within(30, ServiceTask(caller.url, "shop", 1, logs=None).start())
        async with Router(caller.url, "shop") as router:
            with pytest.raises(NoOwner, match=hint):
                await within(30, router.send("hello", attempt, patience=1.0))
        status = await asyncio.to_thread(main, ["drain", "--control", caller.url, "shop", "3"])
        assert status == 3 and hint in capfd.readouterr().err


async def attempt(task: int) -> None:
    raise AssertionError(f"task {task} owns nothing")


async def test_terms_that_are_meant_in_seconds(tmp_path: Path, monkeypatch: pytest.MonkeyPatch) -> None:
    policy = {"redundancy": 1, "skew": 0, "guard": 10, "bridge": 10, "job": 30, "numbers": 1000}
    async with plane_of(tmp_path) as (running, caller):
        answer = await caller.create(policy)
        assert answer.status == 400
        assert answer.json["error"].startswith("guard is 10: terms are in milliseconds")
        assert (await caller.create({**policy, "guard": 99})).status == 400
        assert (await caller.ask("GET", "/jobs")).json == {"jobs": []}
        assert (await caller.create({**policy, "guard": 100})).status == 201
        # a job that an earlier version made goes on
        assert running.plane is not None
        monkeypatch.setattr("hourstable.control.LEAST_GUARD", 1000)
        assert (await caller.create({**policy, "guard": 100})).status == 200
