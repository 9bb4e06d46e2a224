"""Many runs side by side, each in a process of its own, so that nothing is left of other runs."""

import gc
import os
import pickle
import selectors
import shutil
import signal
import time
import traceback
from collections.abc import Callable, Iterable, Iterator
from dataclasses import dataclass
from pathlib import Path

from .run import Found, Wanted, run

LONGEST = 900.0  # seconds of the wall that a run may take
SHARED = Path("/dev/shm")


def folder_of(wanted: Wanted) -> Path:
    """Returns the folder of a run, on a disk in memory where there is one."""
    top = SHARED if SHARED.is_dir() else Path("/tmp")
    return top / f"hourstable-simulation-{os.getuid()}" / f"{os.getppid()}-{os.getpid()}"


@dataclass
class Child:
    """A run that goes on in another process."""

    wanted: Wanted
    process: int
    reading: int
    began: float
    text: bytes = b""


def begin(wanted: Wanted) -> Child:
    reading, writing = os.pipe()
    process = os.fork()
    if process:
        os.close(writing)
        return Child(wanted, process, reading, time.monotonic())
    os.close(reading)
    signal.signal(signal.SIGINT, signal.SIG_DFL)
    gc.disable()  # a run is short
    try:
        made = run(wanted, folder_of(wanted))
    except BaseException:
        made = broken(wanted, traceback.format_exc())
    with os.fdopen(writing, "wb") as out:
        pickle.dump(made, out)
    os._exit(0)


def broken(wanted: Wanted, why: str) -> Found:
    return Found(wanted.seed, wanted.world or "", wrong={"broken": [why]})


def ended(child: Child) -> Found:
    os.close(child.reading)
    os.waitpid(child.process, 0)
    try:
        made: Found = pickle.loads(child.text)
    except Exception:
        made = broken(child.wanted, "the run has ended without a word")
    return made


def all_of(wanted: Iterable[Wanted], jobs: int) -> Iterator[Found]:
    """Does runs, so many at once, and returns what each found as soon as it has ended."""
    gc.collect()
    gc.freeze()
    left, running = iter(wanted), selectors.DefaultSelector()
    children: dict[int, Child] = {}

    def fill() -> None:
        while len(children) < jobs:
            following = next(left, None)
            if following is None:
                return
            child = begin(following)
            children[child.reading] = child
            running.register(child.reading, selectors.EVENT_READ)

    try:
        fill()
        while children:
            for key, _ in running.select(timeout=5.0):
                child = children[key.fd]
                piece = os.read(key.fd, 1 << 20)
                child.text += piece
                if not piece:
                    running.unregister(key.fd)
                    del children[key.fd]
                    yield ended(child)
            for child in list(children.values()):
                if time.monotonic() - child.began > LONGEST:
                    os.kill(child.process, signal.SIGKILL)
            fill()
    finally:
        for child in children.values():
            os.kill(child.process, signal.SIGKILL)
            os.waitpid(child.process, 0)
        tops = (SHARED if SHARED.is_dir() else Path("/tmp")) / f"hourstable-simulation-{os.getuid()}"
        for folder in tops.glob(f"{os.getpid()}-*"):
            shutil.rmtree(folder, ignore_errors=True)


def one(wanted: Wanted) -> Found:
    """Does a run in a process of its own."""
    return next(all_of([wanted], 1))


Told = Callable[[str], None]
