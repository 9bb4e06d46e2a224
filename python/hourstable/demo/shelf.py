"""The shelf of the cache: where sessions that the cache promised to keep stand, in a folder.

A session is a file of lines, each with a fencing token and the session as it stood then; the last line counts. Who
owns a key appends a line while it has a lock on the file, unless the last line has a greater token: then another task
owned the key since, and the writer is too late. A new owner takes the session first, by a line with its own token.
"""

import fcntl
import json
import os
import time
import urllib.parse
from collections.abc import Iterator
from contextlib import contextmanager
from pathlib import Path
from typing import NamedTuple

IDS = 32  # of the last writes of a session, so that a repeated one is known
WAIT = 0.1  # seconds for a file that another process has locked


class Session(NamedTuple):
    """A session: its version, its text, and the ids of the last writes, the newest first."""

    version: int
    text: str
    ids: tuple[str, ...]

    def after(self, write: str, text: str) -> "Session":
        """Returns the session after a write."""
        return Session(self.version + 1, text, (write, *self.ids)[:IDS])


NOTHING = Session(0, "", ())


class Late(Exception):
    """The shelf has a greater token for the key: another task owned it since. Nothing was changed."""


class Locked(Exception):
    """Another process has the file of the key, and may be stopped."""


class Shelf:
    """The sessions of a folder."""

    def __init__(self, folder: str | os.PathLike[str]) -> None:
        self.folder = Path(folder)
        self.folder.mkdir(parents=True, exist_ok=True)

    def take(self, key: str, token: bytes) -> Session:
        """Raises the fence of a key and returns its session then, of version 0 if it has none, in one step: what a
        task does first when it gets the key. Raises Late and Locked."""
        with self._locked(key) as file:
            fence, session, end = self._last(file)
            if token > fence:
                self._append(key, file, end, token, session)
            elif token < fence:
                raise Late(key)
            return session

    def put(self, key: str, token: bytes, session: Session) -> int:
        """Puts a session on the shelf, and returns the revision of the write: where its line begins, which rises.
        Raises Late and Locked."""
        with self._locked(key) as file:
            fence, _, end = self._last(file)
            if token < fence:
                raise Late(key)
            self._append(key, file, end, token, session)
            return end

    @contextmanager
    def _locked(self, key: str) -> Iterator[int]:
        """Opens the file of a key and locks it. The lock ends with the process, also if it is killed."""
        path = self.folder / ("key-" + urllib.parse.quote(key, safe=""))
        file = os.open(path, os.O_RDWR | os.O_CREAT | os.O_CLOEXEC, 0o644)
        try:
            end = time.monotonic() + WAIT
            while True:
                try:
                    fcntl.flock(file, fcntl.LOCK_EX | fcntl.LOCK_NB)
                    break
                except BlockingIOError:
                    if time.monotonic() > end:
                        raise Locked(key) from None
                    time.sleep(0.002)
            yield file
        finally:
            os.close(file)

    def _last(self, file: int) -> tuple[bytes, Session, int]:
        """Returns the last line's token and session, and where the line ends: a line without its line feed, which a
        killed process left, counts for nothing."""
        text = os.pread(file, os.fstat(file).st_size, 0)
        end = text.rfind(b"\n") + 1
        if end == 0:
            return b"", NOTHING, 0
        token, version, said, ids = json.loads(text[text.rfind(b"\n", 0, end - 1) + 1 : end])
        return bytes.fromhex(token), Session(version, said, tuple(ids)), end

    def _append(self, key: str, file: int, end: int, token: bytes, session: Session) -> None:
        os.ftruncate(file, end)
        line = (json.dumps([token.hex(), *session]) + "\n").encode()
        if os.pwrite(file, line, end) != len(line):
            raise OSError(f"the line of {key} was not written whole")
