"""The lives that a process draws for its task: their keys, the lock of the task, and where the process runs.

With a folder of state the process has the lock of its task there, by `flock`, from its start until its slicelet is
closed. Who has the lock reads and writes the keys: so a process that is started again shows the key of the one
before, whose end the lock tells. With no folder a process has the keys that it was given, and nothing outlasts it.
"""

import errno
import fcntl
import json
import os
from contextlib import suppress
from pathlib import Path
from typing import Any, NamedTuple

from .system import SYSTEM, System, make_folder

MOST_KEPT = 4  # keys in the file
WAITING, OVERTAKEN, EVICTED = "waiting", "overtaken", "evicted"  # words for why a life gets no lease


class Life(NamedTuple):
    """A life, the one that was given out before it, and its key, empty if a version up to 1.0 gave it out."""

    life: int
    last: int
    key: str = ""


class OwnLives:
    """The lives of a process, and the keys that it may show.

    Raises BlockingIOError if another process has the lock, and OSError.
    """

    def __init__(self, folder: Path | None, task: int, system: System = SYSTEM) -> None:
        self.drawn: dict[int, Life] = {}
        self.place = {"process": system.secret(16).hex()}
        self._system = system
        self._keys: dict[int, str] = {}
        self._lock: int | None = None
        self._path: Path | None = None
        if folder is not None:
            self._lock = self._locked(make_folder(folder) / f"task-{task}.lock", task)
            self._path = folder / f"task-{task}.keys"
            self._keys = self._read()

    def _locked(self, path: Path, task: int) -> int:
        """Locks a file, and takes where it is."""
        system = self._system
        file = system.open(path, os.O_RDWR | os.O_CREAT | os.O_CLOEXEC, 0o600)
        try:
            fcntl.flock(file, fcntl.LOCK_EX | fcntl.LOCK_NB)
            (device, inode), boot = system.identity(file), system.boot().decode("ascii", "replace")
        except BlockingIOError:
            system.close(file)
            why = f"another process of task {task} runs here: it has locked the file"
            raise BlockingIOError(errno.EWOULDBLOCK, why, str(path)) from None
        except BaseException:
            system.close(file)
            raise
        self.place |= {"boot": boot, "device": str(device), "inode": str(inode)}
        return file

    def _read(self) -> dict[int, str]:
        """Returns the keys in the file. One that a crash left torn has none."""
        assert self._path is not None
        try:
            value = json.loads(self._path.read_bytes())
            return {int(life): str(key) for life, key in value.items()}
        except (OSError, ValueError, AttributeError):
            return {}

    def draw(self, life: Life) -> None:
        """Takes a life that was drawn. Its key is in the file before it is asked with. Raises OSError."""
        self.drawn[life.life] = life
        if life.key:
            self._keys[life.life] = life.key
            self._write()

    def heard(self, life: int) -> None:
        """Takes that a life is let in: the keys of lives before it are shown no more."""
        before = [it for it in self._keys if it < life]
        for it in before:
            del self._keys[it]
        for it in [it for it in self.drawn if it < life]:
            del self.drawn[it]
        if before:
            with suppress(OSError):  # more keys do no harm
                self._write()

    def _write(self) -> None:
        if self._path is None or self._lock is None:
            return
        kept = dict(sorted(self._keys.items())[-MOST_KEPT:])
        made, system = self._path.with_suffix(".keys.new"), self._system
        file = system.open(made, os.O_WRONLY | os.O_CREAT | os.O_TRUNC | os.O_CLOEXEC, 0o600)
        try:
            system.write(file, json.dumps(kept).encode())
        finally:
            system.close(file)
        os.replace(made, self._path)

    def greatest(self) -> int:
        """Returns the greatest life that this process drew."""
        return max(self.drawn, default=0)

    def key_of(self, life: int) -> str:
        return self._keys.get(life, "")

    def asking(self, life: int) -> dict[str, Any]:
        """Returns the members by which a life asks for a lease, or to be let in."""
        if not self.key_of(life):
            return {}
        shown = {str(it): key for it, key in sorted(self._keys.items())[-MOST_KEPT:] if it != life}
        made: dict[str, Any] = {"key": self.key_of(life), "place": self.place}
        return {**made, "shown": shown} if shown else made

    def close(self) -> None:
        """Gives the lock back. Nothing is served from then on."""
        lock, self._lock = self._lock, None
        if lock is not None:
            self._system.close(lock)

    def leave_to_parent(self) -> None:
        """Closes the lock of a child that was forked, which is that of its parent: it would outlast the parent."""
        lock, self._lock, self._keys, self.drawn = self._lock, None, {}, {}
        if lock is not None:
            os.close(lock)
