"""The demo: in a process of its own as a new user runs it, and the parts that it is made of."""

import io
import os
import re
import signal
import socket
import subprocess
import sys
import time
from collections.abc import Callable, Iterator
from pathlib import Path

import pytest

import needed

needed.library()

from hourstable import __main__ as entry  # noqa: E402
from hourstable import installed  # noqa: E402
from hourstable.command import main  # noqa: E402
from hourstable.demo import engines, run, story  # noqa: E402
from hourstable.demo.processes import Ended, Process, module, wait_for  # noqa: E402
from hourstable.demo.service import TASKS, Heard, Plane, Service  # noqa: E402
from hourstable.demo.view import (  # noqa: E402
    Lines, Part, Redrawn, Seen, TaskSeen, bar, plain, table,
)

TOP = Path(__file__).resolve().parents[1]
PATIENCE = 300.0  # seconds; a demo of 15 s takes about 25 s on a machine that has time


def started(*words: str, **variables: str) -> "subprocess.Popen[str]":
    """The demo, as a process whose children can be told from those of others by its session."""
    path = os.pathsep.join([str(TOP), os.environ.get("PYTHONPATH", "")])
    return subprocess.Popen(
        [sys.executable, "-m", "hourstable", "demo", *words],
        stdout=subprocess.PIPE, stderr=subprocess.STDOUT, text=True, start_new_session=True,
        env={**os.environ, "PYTHONPATH": path, **variables},
    )


def of_session(session: int) -> list[int]:
    """Returns the processes of a session that still run."""
    found = []
    for status in Path("/proc").glob("[0-9]*/stat"):
        try:
            state, _, _, its_session = status.read_text().rpartition(")")[2].split()[:4]
        except OSError:
            continue
        if int(its_session) == session and state != "Z":
            found.append(int(status.parent.name))
    return found


@pytest.fixture
def running() -> Iterator[Callable[..., "subprocess.Popen[str]"]]:
    """Starts demos, and lets none outlast the test."""
    made: list[subprocess.Popen[str]] = []

    def start(*words: str, **variables: str) -> "subprocess.Popen[str]":
        made.append(started(*words, **variables))
        return made[-1]

    yield start
    for one in made:
        for process in of_session(one.pid):
            os.kill(process, signal.SIGKILL)
        one.wait()
        assert one.stdout is not None
        one.stdout.close()


# A whole demo. ----------------------------------------------------------------------------------


def test_a_demo(running: Callable[..., "subprocess.Popen[str]"], tmp_path: Path) -> None:
    """It ends with 0 after the audit and the check of writes, and nothing is left of it. What the
    environment says to Python and Hourstable does not reach its processes."""
    needed.program()
    demo = running(
        "--plain", "--seconds", "15", HOURSTABLE_CLOCK="nonsense", TMPDIR=str(tmp_path)
    )
    said, _ = demo.communicate(timeout=PATIENCE)
    assert demo.returncode == 0, said
    assert "\naudit one\n" in said
    assert "\ntimely yes\n" in said
    last = said.splitlines()[-1]
    assert re.fullmatch(
        r"\d+ writes and \d+ reads: no two tasks worked for a key at once, no write was lost", last
    )
    rows = re.findall(
        r"^ *\d+ s: +\d+ requests, denied: .*; sessions by task .*; generation \d+$", said, re.M
    )
    assert len(rows) >= 8
    events = [
        "Task 2 is killed", "went to tasks 1 and 3 after", "Task 4 is started", "It owned",
        "Task 1 is drained", "It handed over its", "The control plane is killed", "It was gone for",
        "All have ended",
    ]
    places = [said.find(event) for event in events]
    assert -1 not in places and places == sorted(places), said
    assert len(re.findall(r"Clients were denied for \d+ of 60 sessions|No client was denied", said)) == 4
    assert of_session(demo.pid) == []
    assert list(tmp_path.iterdir()) == []


@pytest.mark.parametrize("number", [signal.SIGINT, signal.SIGTERM])
def test_a_signal_ends_all(
    running: Callable[..., "subprocess.Popen[str]"], tmp_path: Path, number: signal.Signals
) -> None:
    needed.program()
    demo = running("--plain", TMPDIR=str(tmp_path))
    assert demo.stdout is not None
    for line in demo.stdout:
        if re.match(r" *[1-9]\d* s: ", line):
            break
    assert len(of_session(demo.pid)) == 6  # the demo, a plane, three tasks, and the clients
    demo.send_signal(number)
    said, _ = demo.communicate(timeout=30)
    assert demo.returncode == 128 + number
    assert said.endswith("Stopped: all processes of the demo have ended.\n")
    assert "Traceback" not in said
    assert of_session(demo.pid) == []
    assert list(tmp_path.iterdir()) == []


def test_children_end_with_a_demo_that_is_killed(
    running: Callable[..., "subprocess.Popen[str]"], tmp_path: Path
) -> None:
    needed.program()
    demo = running("--plain", TMPDIR=str(tmp_path))
    assert demo.stdout is not None
    for line in demo.stdout:
        if re.match(r" *\d+ s: ", line):
            break
    demo.kill()
    end = time.monotonic() + 10
    while of_session(demo.pid):
        assert time.monotonic() < end
        time.sleep(0.05)


# What is missing. -------------------------------------------------------------------------------


def test_a_module_that_is_missing(
    monkeypatch: pytest.MonkeyPatch, capsys: pytest.CaptureFixture[str]
) -> None:
    """Without site-packages there is no aiohttp."""
    ran = subprocess.run(
        [sys.executable, "-S", "-m", "hourstable", "demo"], capture_output=True, text=True,
        env={**os.environ, "PYTHONPATH": str(TOP)}, check=False,
    )
    assert (ran.returncode, ran.stdout) == (2, "")
    assert ran.stderr == (
        "hourstable-service: there is no aiohttp and no prometheus_client: install them by"
        " `apt-get install python3-aiohttp python3-prometheus-client` or"
        " `pip install 'hourstable[service]'`\n"
    )
    monkeypatch.setitem(installed.MODULES, "no_such_module", "python3-no-such-module")
    assert entry.main(["demo"]) == 2
    assert capsys.readouterr().err.startswith(
        "hourstable-service: there is no no_such_module: install them by `apt-get install "
    )


def test_a_library_that_is_missing() -> None:
    ran = subprocess.run(
        [sys.executable, "-m", "hourstable", "demo"], capture_output=True, text=True, check=False,
        env={**os.environ, "PYTHONPATH": str(TOP), "HOURSTABLE_LIBRARY": "/nonexistent/it.so"},
    )
    assert (ran.returncode, ran.stdout) == (2, "")
    assert ran.stderr.startswith("hourstable-service: the library cannot be loaded (/nonexistent/it.so: ")
    assert ran.stderr.endswith(
        "install the wheel, which has it, or set HOURSTABLE_LIBRARY to a libhourstable.so\n"
    )
    assert ran.stderr.count("\n") == 1


def test_a_program_that_is_missing(
    monkeypatch: pytest.MonkeyPatch, capsys: pytest.CaptureFixture[str], tmp_path: Path
) -> None:
    monkeypatch.delenv("HOURSTABLE_PROGRAM", raising=False)
    monkeypatch.setenv("PATH", "/nonexistent")
    monkeypatch.setattr(sys, "executable", str(tmp_path / "python3"))
    monkeypatch.setattr(sys, "argv", ["-c"])
    assert main(["demo"]) == 2
    assert capsys.readouterr().err == (
        "hourstable-service: there is no program hourstable to audit with: install the wheel, which"
        " has it, or set HOURSTABLE_PROGRAM\n"
    )


def test_where_the_program_is_looked_for(
    monkeypatch: pytest.MonkeyPatch, tmp_path: Path
) -> None:
    """What is given comes first, then the variable, then what is beside Python, then PATH."""

    def made(folder: str) -> str:
        (tmp_path / folder).mkdir()
        path = tmp_path / folder / "hourstable"
        path.write_text("#!/bin/sh\n")
        path.chmod(0o755)
        return str(path)

    beside, in_path = made("venv"), made("path")
    monkeypatch.setenv("PATH", str(tmp_path / "path"))
    monkeypatch.setattr(sys, "argv", ["-c"])
    monkeypatch.setenv("HOURSTABLE_PROGRAM", "/named")
    monkeypatch.setattr(sys, "executable", str(tmp_path / "venv/python3"))
    assert installed.program("/given") == "/given"
    assert installed.program() == "/named"
    monkeypatch.delenv("HOURSTABLE_PROGRAM")
    assert installed.program() == beside
    monkeypatch.setattr(sys, "executable", str(tmp_path / "elsewhere/python3"))
    assert installed.program() == in_path


def test_a_store_that_is_missing(
    monkeypatch: pytest.MonkeyPatch, capsys: pytest.CaptureFixture[str]
) -> None:
    monkeypatch.setenv("HOURSTABLE_PROGRAM", "/bin/true")
    monkeypatch.setenv("PATH", "/nonexistent")
    assert main(["demo", "--store", "etcd"]) == 2
    assert capsys.readouterr().err == (
        "hourstable-service: there is no etcd: install it by `apt-get install etcd-server`\n"
    )
    monkeypatch.setattr(engines, "POSTGRESQL", "/nonexistent/*/bin/initdb")
    assert main(["demo", "--store", "postgresql"]) == 2
    assert capsys.readouterr().err == (
        "hourstable-service: there is no /nonexistent/*/bin/initdb: install it by"
        " `apt-get install postgresql`\n"
    )


def test_too_few_seconds(capsys: pytest.CaptureFixture[str]) -> None:
    for seconds in ("9", "nan"):
        assert main(["demo", "--seconds", seconds]) == 2
        assert "the demo needs at least 10 seconds" in capsys.readouterr().err


# What goes wrong. -------------------------------------------------------------------------------


def test_a_task_that_ends_at_once(
    monkeypatch: pytest.MonkeyPatch, capsys: pytest.CaptureFixture[str]
) -> None:
    """It is named, with the last lines that it wrote, well before anything is waited for in vain."""
    monkeypatch.setenv("HOURSTABLE_PROGRAM", "/bin/true")
    monkeypatch.setattr(
        "hourstable.demo.service.module",
        lambda name, *words: ["-c", "print('what a pity'); raise SystemExit(7)"]
        if "--task" in words and words[words.index("--task") + 1] == "3"
        else module(name, *words),
    )
    begun = time.monotonic()
    assert main(["demo", "--plain"]) == 3
    assert time.monotonic() - begun < 60
    assert capsys.readouterr().err == (
        "hourstable-service: task-3 has ended with status 7. The last lines that it wrote:\n"
        "  what a pity\n"
    )


def test_a_free_port_is_given_to_nobody_else() -> None:
    """A task is started seconds after its port was chosen: no connection has it then."""
    port = engines.free_port()
    with socket.socket() as other, pytest.raises(OSError, match="in use"):
        other.bind(("127.0.0.1", port))
    for _ in range(2):  # the server of a task that is started again
        with socket.create_server(("127.0.0.1", port)) as server, socket.create_connection(("127.0.0.1", port), 5):
            server.accept()[0].close()
    with pytest.raises(ConnectionRefusedError):
        socket.create_connection(("127.0.0.1", port), 5)


def test_a_process_that_does_not_answer(tmp_path: Path) -> None:
    silent = Process("silent", ["-c", "import time; time.sleep(60)"], tmp_path)
    silent.start()
    try:
        url = f"http://127.0.0.1:{engines.free_port()}/"
        with pytest.raises(Ended, match=r"^silent did not answer within 1 s\. .*\n  \(nothing\)$"):
            wait_for(url, silent, 1.0)
    finally:
        silent.kill()
    assert not silent.is_alive()


def test_what_does_not_happen_in_time(tmp_path: Path) -> None:
    """A wait of the story has an end."""
    service = Service(tmp_path, "sqlite:none", None)
    told = story.Story(service, Lines(io.StringIO()), 15)
    with pytest.raises(Ended, match="^nothing came within 1 s$"):
        told.wait(lambda: False, "nothing came", 1.0)


def test_what_children_are_told(tmp_path: Path, monkeypatch: pytest.MonkeyPatch) -> None:
    """They find the package without a path, and get only the variables of Hourstable that they are
    given."""
    for name in ("PYTHONPATH", "PYTHONHOME", "HOURSTABLE_CLOCK", "HOURSTABLE_PROGRAM"):
        monkeypatch.setenv(name, "/nonexistent")
    (tmp_path / "hourstable").mkdir()  # what is in the folder of a child is not taken
    (tmp_path / "hourstable" / "__init__.py").write_text("raise SystemExit(9)\n")
    shows = tmp_path / "shows.py"
    shows.write_text(
        "import os\nprint(sorted(it for it in os.environ if it.startswith(('PYTHON', 'HOURS'))))\n"
    )
    one = Process("one", [str(shows)], tmp_path, {"HOURSTABLE_LIBRARY": "here"})
    one.start()
    assert one.running is not None and one.running.wait(30) == 0
    assert one.out.read_text() == "['HOURSTABLE_LIBRARY']\n"
    other = Process("other", module("hourstable.demo.cache_task", "--help"), tmp_path, {
        "HOURSTABLE_LIBRARY": run.library() or ""
    })
    other.start()
    assert other.running is not None and other.running.wait(60) == 0
    assert "A task of the session cache." in other.out.read_text()


# What is shown. ---------------------------------------------------------------------------------

PARTS = [Part(0.0, 0.25, 1, False), Part(0.25, 0.5, 2, True), Part(0.5, 1.0, 3, False)]
SEEN = Seen(
    12.4, 34.0, "http://127.0.0.1:8070", True, 2,
    [
        TaskSeen(1, "answers", 31, 0.25), TaskSeen(2, "killed", 9, 0.25),
        TaskSeen(3, "answers", 20, 0.5), TaskSeen(4, "not there", 0, 0.0),
    ],
    PARTS, 512, {"no answer": 3, "not-owned": 8, "down": 1, "not-started": 1, "new": 1},
)
DENIED = "2 just started, 1 new, 3 no answer, 8 not its key"


def test_the_line_of_a_second() -> None:
    assert plain(SEEN) == (
        f" 12 s:  512 requests, denied: {DENIED}; sessions by task 1:31 2:9 3:20; generation 2"
    )
    calm = SEEN._replace(denied={}, tasks=[])
    assert plain(calm) == (
        " 12 s:  512 requests, denied: none; sessions by task none; generation 2"
    )


def test_the_bar_of_keys() -> None:
    assert bar(PARTS, 8, False) == "11xx3333"
    assert bar(PARTS, 0, False) == ""
    assert bar([], 3, False) == "   "
    assert bar(PARTS, 2, True) == "\x1b[30;43mx\x1b[0m\x1b[30;42m3\x1b[0m"


def test_the_table() -> None:
    assert table(SEEN, 60, False) == [
        " 12 s of 34   control plane at http://127.0.0.1:8070",
        "",
        "task  state        sessions  of all keys",
        " 1    answers            31         25 %",
        " 2    killed              9         25 %",
        " 3    answers            20         50 %",
        " 4    not there           0          0 %",
        "",
        "keys  " + "1" * 13 + "x" * 14 + "3" * 27,
        "      by the task that owns them (x: it is gone); generation",
        "",
        "512 requests in the last second, denied: 2 just started, 1 n",
    ]
    assert "GONE" in table(SEEN._replace(is_plane_there=False), 60, False)[0]
    for width in (1, 7, 20):
        assert all(len(line) <= max(width, 3) for line in table(SEEN, width, False))


def test_a_table_is_drawn_over_the_last_one(monkeypatch: pytest.MonkeyPatch) -> None:
    """What is said scrolls by above it, and it is no higher than the terminal."""
    monkeypatch.setenv("COLUMNS", "40")
    monkeypatch.setenv("LINES", "4")
    monkeypatch.setenv("NO_COLOR", "1")
    out = io.StringIO()
    shown = Redrawn(out)
    shown.show(SEEN)
    three = "".join(f"{line}\x1b[K\n" for line in table(SEEN, 39, False)[:3])
    assert out.getvalue() == f"\x1b[?25l{three}\x1b[J"
    out.truncate(out.seek(0))
    shown.say("word " * 10, 7.2)
    said = "  7 s  word word word word word word\n       word word word word\n\n"
    assert out.getvalue() == f"\x1b[?25l\x1b[3F\x1b[J{said}{three}\x1b[J"
    out.truncate(out.seek(0))
    shown.close()
    assert out.getvalue() == "\x1b[?25h"


def test_what_clients_tell() -> None:
    heard = Heard()
    heard.hear('{"requests":5,"answered":3,"denied":{"ended":2},"waited":{"a":0.5},"waiting":1}\n')
    heard.hear("torn {\n")
    heard.hear('{"requests":2,"answered":2,"denied":{"ended":1,"lost":1},"waited":{"a":0.25,"b":1},"waiting":0}')
    assert (heard.lines, heard.answered, heard.waiting) == (2, 5, 0)
    assert heard.last_second() == (7, {"ended": 3, "lost": 1})
    assert heard.waits() == (2, 1)
    heard.forget_waits()
    assert heard.waits() == (0, 0.0)


def test_what_a_plane_tells() -> None:
    plane = Plane("http://127.0.0.1:1")
    assert plane.owner("session-1") is None
    plane.take({
        "generation": 7,
        "slices": [
            {"from": 0.0, "to": 0.25, "owners": [1]}, {"from": 0.25, "to": 0.75, "owners": [2]},
            {"from": 0.75, "to": 1.0, "owners": [1]},
        ],
    })
    assert plane.generation == 7
    assert [plane.share(task) for task in TASKS] == [0.5, 0.5, 0.0, 0.0]
    assert {plane.owner(f"session-{number}") for number in range(60)} == {1, 2}
