"""Rows in files that refuse late writers: a file for each key, which is locked while it is compared and written.

A process that is stopped while it has the lock keeps others from this key until it goes on or ends. Some file systems
of a network have no such locks.
"""

import fcntl
import json
import os
import time
import urllib.parse
from collections.abc import Callable, Iterator
from contextlib import contextmanager
from pathlib import Path

from late import Late


class Rows:
    """The rows of a folder."""

    def __init__(self, folder: Path, wait: float = 5.0) -> None:
        self._folder, self._wait = folder, wait
        folder.mkdir(parents=True, exist_ok=True)

    def take(self, key: str, token: bytes) -> bytes | None:
        """Raises the fence of a key, and returns its value then, under one lock: what a new owner does first. Raises
        Late, and TimeoutError if the file stays locked."""
        return self._change(key, token, lambda value: value)[0]

    def put(self, key: str, token: bytes, value: bytes | None) -> int:
        """Writes a value, and returns the revision of the write; None deletes it, and keeps the fence. Raises Late,
        and TimeoutError if the file stays locked."""
        return self._change(key, token, lambda _: value)[1]

    def _change(
        self, key: str, token: bytes, change: Callable[[bytes | None], bytes | None]
    ) -> tuple[bytes | None, int]:
        """Changes the value of a key, unless the token is below its fence, and returns it with its revision."""
        path = self._folder / urllib.parse.quote(key, safe="")
        with self._locked(path.with_name(path.name + ".lock")):
            fence, value, revision = self._read(path)
            if token < fence:
                raise Late(key)
            value = change(value)
            self._write(path, token, value, revision + 1)
            return value, revision + 1

    @contextmanager
    def _locked(self, path: Path) -> Iterator[None]:
        """Holds the lock, whose file is never removed: else two processes could lock two files of one name."""
        file, end = os.open(path, os.O_RDWR | os.O_CREAT | os.O_CLOEXEC), time.monotonic() + self._wait
        try:
            while True:
                try:
                    fcntl.flock(file, fcntl.LOCK_EX | fcntl.LOCK_NB)
                    break
                except BlockingIOError:
                    if time.monotonic() > end:
                        raise TimeoutError(f"{path} is locked") from None
                    time.sleep(0.005)
            yield
        finally:
            os.close(file)

    def _read(self, path: Path) -> tuple[bytes, bytes | None, int]:
        """Returns the fence, the value and the revision of a row."""
        try:
            fence, value, revision = json.loads(path.read_bytes())
        except FileNotFoundError:
            return b"", None, 0
        return bytes.fromhex(fence), None if value is None else bytes.fromhex(value), revision

    def _write(self, path: Path, fence: bytes, value: bytes | None, revision: int) -> None:
        """Writes a row whole or not at all, and on the disk."""
        made = path.with_name(path.name + ".new")
        with open(made, "wb") as file:
            file.write(json.dumps([fence.hex(), None if value is None else value.hex(), revision]).encode())
            file.flush()
            os.fsync(file.fileno())
        os.replace(made, path)
        folder = os.open(self._folder, os.O_RDONLY | os.O_DIRECTORY)
        try:
            os.fsync(folder)
        finally:
            os.close(folder)
