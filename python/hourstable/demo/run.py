"""The demo: it needs nothing but what is installed, and leaves nothing behind."""

import os
import shutil
import signal
import subprocess
import sys
import tempfile
import webbrowser
from collections.abc import Iterator
from contextlib import ExitStack, contextmanager
from pathlib import Path
from typing import Any

from hourstable import installed
from hourstable.demo import engines, judge
from hourstable.demo.processes import Ended, audit
from hourstable.demo.service import JOB, LEASE, SESSIONS, Service
from hourstable.demo.story import FIRST, Story, listed
from hourstable.demo.view import Screen, screen
from hourstable.library import find

FEWEST_SECONDS = 10
NAMES = {"sqlite": "SQLite", "postgresql": "PostgreSQL", "etcd": "etcd"}
SIGNALS = (signal.SIGINT, signal.SIGTERM, signal.SIGHUP)
AUDIT_SECONDS = 120.0


class Stopped(BaseException):
    """A signal asked the demo to end."""

    def __init__(self, number: int) -> None:
        self.number = number


def main(store: str, seconds: float, *, plain: bool = False, page: bool = False) -> int:
    """Runs the demo and returns its status: 0 if the audit and the check of writes found no fault,
    1 if one did, 3 if a process failed, 128 and the number of a signal that ended it. Raises
    ValueError if something is missing or the seconds are too few."""
    if not seconds >= FEWEST_SECONDS:
        raise ValueError(f"the demo needs at least {FEWEST_SECONDS} seconds")
    program = installed.program()
    if program is None:
        raise ValueError(
            "there is no program hourstable to audit with: install the wheel, which has it, or set"
            f" {installed.PROGRAM}"
        )
    why = engines.missing(store)
    if why is not None:
        raise ValueError(why)
    shown = screen(sys.stdout, plain)
    try:
        with stopped_by_signals(), folder() as made:
            play(store, seconds, made, shown, page)
            shown.close()
            return conclude(Path(program).absolute(), made)
    except Ended as ended:
        shown.close()
        print(f"hourstable-service: {ended}", file=sys.stderr)
        return 3
    except Stopped as stopped:
        shown.close()
        print("\nStopped: all processes of the demo have ended.")
        return 128 + stopped.number


@contextmanager
def stopped_by_signals() -> Iterator[None]:
    """While this lasts, a signal raises Stopped, once: what is done then is not disturbed."""

    def stop(number: int, _: Any) -> None:
        for one in SIGNALS:
            signal.signal(one, signal.SIG_IGN)
        raise Stopped(number)

    before = {number: signal.signal(number, stop) for number in SIGNALS}
    try:
        yield
    finally:
        for number, handler in before.items():
            signal.signal(number, handler)


@contextmanager
def folder() -> Iterator[Path]:
    """A folder that is removed at the end."""
    made = Path(tempfile.mkdtemp(prefix="hourstable-demo."))
    made.chmod(0o755)  # PostgreSQL may run as another user
    try:
        yield made
    finally:
        shutil.rmtree(made, ignore_errors=True)


def library() -> str | None:
    """Returns the path of the library, None if the system finds it by its name."""
    found = find()
    return os.path.abspath(found) if os.path.exists(found) else None


def play(store: str, seconds: float, made: Path, shown: Screen, page: bool) -> None:
    """Runs the service, and ends it."""
    shown.say(
        f"Starting a control plane over {NAMES[store]}, {listed(FIRST)}, and clients on this"
        " machine..."
    )
    with ExitStack() as stack:
        url = f"sqlite:{made}/jobs.sqlite"
        if store != "sqlite":
            url = stack.enter_context(engines.STARTS[store](made / "engine")).url
        service = Service(made, url, library())
        stack.callback(service.kill)
        service.start(FIRST)
        shown.say(
            f"Tasks keep {SESSIONS} sessions in memory, each task those of its own keys. To answer"
            f" for them it needs a lease from the control plane, which lasts {LEASE:.0f} s and is"
            " renewed all the time. Clients read and write sessions."
        )
        if page:
            open_page(f"{service.plane.url}/#job={JOB}", shown)
        Story(service, shown, seconds).play()
        service.end()


def open_page(url: str, shown: Screen) -> None:
    """Says where the page of the control plane is, and opens it if there is a browser with
    windows."""
    shown.say(f"The page of the control plane: {url}")
    if os.environ.get("DISPLAY") or os.environ.get("WAYLAND_DISPLAY"):
        try:
            webbrowser.open(url)
        except (webbrowser.Error, OSError) as why:
            shown.say(f"no browser opens it: {why}")


def conclude(program: Path, made: Path) -> int:
    """Judges what happened, and returns the status."""
    print("\nAll have ended. `hourstable audit` reads what they wrote down of each call:\n", flush=True)
    try:
        status, found = audit(program, made / "logs" / JOB, AUDIT_SECONDS)
    except subprocess.TimeoutExpired:
        raise Ended(f"the audit did not end within {AUDIT_SECONDS:.0f} s") from None
    except OSError as why:
        raise Ended(f"the audit cannot be run: {why}") from why
    print(found, end="")
    is_one = status == 0 and found.startswith("audit one\n")
    is_timely = "\ntimely yes\n" in found
    is_fenced = found.endswith("\nfenced yes\n")
    if is_one and is_timely and is_fenced:
        print("\naudit one: together these calls are one run of the proved rules. timely yes: no clock")
        print("was so far behind that a lease could have been used after its end. fenced yes: the shelf took no")
        print("write of an earlier owner after one of a later owner.")
    verdict = judge.judge(made)
    faults = verdict.faults or ([] if verdict.writes and verdict.reads else ["nothing was done"])
    print("\nA second check knows nothing of Hourstable, and looks at what the tasks and clients did:")
    print(f"{verdict.writes} writes and {verdict.reads} reads: ", end="")
    print("WRONG" if faults else "no two tasks worked for a key at once, no write was lost")
    for fault in faults[:20]:
        print(f"  {fault}")
    return 0 if is_one and is_timely and is_fenced and not faults else 1
