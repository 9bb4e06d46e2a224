"""Processes of the demo: started, killed, stopped and continued."""

import ctypes
import os
import signal
import subprocess
import sys
import tempfile
import threading
import time
import urllib.request
from collections.abc import Callable, Iterable, Mapping
from pathlib import Path

from hourstable import logs

CHILD = Path(__file__).with_name("child.py")
PYTHON = [sys.executable, "-E", "-P"]  # nothing of the environment or the folder changes what runs
UNSET = ("HOURSTABLE_", "PYTHON")  # variables that begin so are not handed on
LAST_LINES = 12
PR_SET_PDEATHSIG = 1
LIBC = ctypes.CDLL(None)


class Ended(Exception):
    """A process that ended by itself, or did not do in time what it should."""


def module(name: str, *words: str) -> list[str]:
    """Returns the words that run a module of this package."""
    return [str(CHILD), name, *words]


def die_with_parent() -> None:
    """Lets a process end with the one that started it."""
    LIBC.prctl(PR_SET_PDEATHSIG, signal.SIGKILL)


def environment() -> dict[str, str]:
    """Returns the variables of this process, without those that change what Python or Hourstable
    do."""
    return {name: value for name, value in os.environ.items() if not name.startswith(UNSET)}


class Process:
    """A Python process that may be killed and started again with the same words.

    What it writes goes to NAME.out of a folder, or its lines to `heard`. It gets no signals of the
    terminal. The thread that starts it must live as long as it.
    """

    def __init__(
        self,
        name: str,
        words: list[str],
        folder: Path,
        variables: Mapping[str, str] | None = None,
        heard: Callable[[str], None] | None = None,
    ) -> None:
        self.name, self.words, self.folder, self.heard = name, words, folder, heard
        self.variables = dict(variables or {})
        self.running: subprocess.Popen[str] | None = None
        self.is_stopped = self.is_asked = False

    @property
    def out(self) -> Path:
        """The file of what it writes."""
        return self.folder / f"{self.name}.out"

    def start(self) -> None:
        """Starts it, if it does not run."""
        if self.is_alive():
            return
        with open(self.out, "a", encoding="utf-8") as out:
            self.running = subprocess.Popen(
                [*PYTHON, *self.words],
                stdin=subprocess.DEVNULL,
                stdout=subprocess.PIPE if self.heard else out,
                stderr=out,
                text=True,
                cwd=self.folder,
                env={**environment(), **self.variables},
                process_group=0,
                preexec_fn=die_with_parent,
            )
        self.is_stopped = self.is_asked = False
        if self.heard:
            threading.Thread(target=self._listen, args=(self.running,), daemon=True).start()

    def _listen(self, running: "subprocess.Popen[str]") -> None:
        assert running.stdout is not None and self.heard is not None
        with running.stdout as lines:
            for line in lines:
                self.heard(line)

    def is_alive(self) -> bool:
        return self.running is not None and self.running.poll() is None

    def has_ended(self) -> bool:
        """Whether it was started, and ended by itself."""
        return self.running is not None and self.running.poll() is not None

    def kill(self) -> None:
        """Kills it by SIGKILL."""
        if self.running is not None:
            self.running.kill()
            self.running.wait()
            self.running = None

    def stop(self) -> None:
        """Suspends it."""
        if self.running is not None and self.is_alive():
            self.running.send_signal(signal.SIGSTOP)
            self.is_stopped = True

    def go_on(self) -> None:
        """Lets it go on."""
        if self.running is not None and self.is_stopped:
            self.running.send_signal(signal.SIGCONT)
        self.is_stopped = False

    def ask_to_end(self) -> None:
        """Sends it SIGTERM, once: a second one could come when it no longer handles it."""
        if self.running is not None and not self.is_asked:
            self.is_asked = True
            self.go_on()
            self.running.terminate()

    def end(self, seconds: float = 10.0) -> int | None:
        """Asks it to end, waits, and returns its status; None if it did not run or was killed."""
        if self.running is None:
            return None
        self.ask_to_end()
        try:
            status = self.running.wait(seconds)
        except subprocess.TimeoutExpired:
            self.kill()
            return None
        self.running = None
        return status

    def failed(self, what: str) -> Ended:
        """Returns what to raise if it did not do what it should, with the last lines it wrote."""
        try:
            lines = self.out.read_text(errors="replace").splitlines()[-LAST_LINES:]
        except OSError:
            lines = []
        said = "\n".join(f"  {line}" for line in lines) or "  (nothing)"
        return Ended(f"{self.name} {what}. The last lines that it wrote:\n{said}")

    def check(self) -> None:
        """Raises Ended if it was started and has ended by itself."""
        if self.running is not None and self.has_ended():
            raise self.failed(f"has ended with status {self.running.returncode}")


def wait_for(
    url: str, process: Process, seconds: float = 120.0, others: Iterable[Process] = ()
) -> None:
    """Waits until a process answers. Raises Ended if it or one of the others ends, or if it does
    not answer in time."""
    end = time.monotonic() + seconds
    while time.monotonic() < end:
        try:
            with urllib.request.urlopen(url, timeout=1.0):
                return
        except OSError:
            for one in (process, *others):
                one.check()
            time.sleep(0.05)
    raise process.failed(f"did not answer within {seconds:.0f} s")


def audit(program: Path, folder: Path, seconds: float | None = None) -> tuple[int, str]:
    """Audits the logs of a job, and returns the status and what was found. Raises
    subprocess.TimeoutExpired."""
    with tempfile.TemporaryDirectory(prefix="hourstable-audit.") as into:
        names = [path.name for path in logs.lay_out(folder, into)]
        ran = subprocess.run(
            [str(program), "audit", *names], cwd=into, capture_output=True, text=True,
            check=False, timeout=seconds,
        )
    return ran.returncode, ran.stdout + ran.stderr
