"""Files that have room on a disk that is full: one that grows at its end, into space that is allocated ahead, and one
of a line that is written over.

The space is allocated beyond the end of the file, so its length is that of what was written, and
who reads it meets no zeros. A disk that is full refuses the next segment while the last one still
has room: so it tears no line, and there is room to say that lines are missing. Where nothing is allocated ahead, or a
process has just begun, the line that is written over has room.
"""

import errno
import os
from pathlib import Path

from hourstable.system import System

SEGMENT = 1 << 20  # bytes that are allocated at a time
SPARE = 4096  # bytes that stay free for what is written when no segment is to be had
ROOM = 256  # bytes of a line that is written over
NOT_DONE = (errno.EOPNOTSUPP, errno.ENOSYS, errno.EINVAL)  # by some filesystems, as NFS before version 4.2


class GrowingFile:
    """A file to which one process appends. Every method but `close` raises OSError."""

    def __init__(self, system: System, path: Path) -> None:
        self._system = system
        self._file = system.open(path, os.O_RDWR | os.O_CREAT | os.O_APPEND | os.O_CLOEXEC, 0o600)
        self.size = os.fstat(self._file).st_size
        self._allocated = self.size
        self._allocates = True

    def read(self, start: int, length: int) -> bytes:
        """Returns bytes of the file, fewer at its end."""
        return os.pread(self._file, length, start)

    def append(self, data: bytes) -> None:
        """Writes bytes at the end, or changes nothing: of what a failed write has left, the file is rid again."""
        if self.size + len(data) + SPARE > self._allocated:
            self.reserve(len(data) + SPARE)
        self.append_spare(data)

    def append_spare(self, data: bytes) -> None:
        """Writes bytes at the end as `append` does, also into the room that `append` leaves free."""
        try:
            written = self._system.write(self._file, data)
            while written < len(data):
                written += self._system.write(self._file, data[written:])
        except OSError:
            self.cut(self.size)
            raise
        self.size += len(data)

    def reserve(self, length: int) -> None:
        """Allocates another segment, unless so many bytes beyond the end are allocated."""
        if not self._allocates or self.size + length <= self._allocated:
            return
        end = self.size + length + SEGMENT
        try:
            self._system.allocate(self._file, self.size, end - self.size)
        except OSError as error:
            if error.errno not in NOT_DONE:
                raise
            self._allocates = False
        self._allocated = end

    def cut(self, size: int) -> None:
        """Leaves out what is beyond a size, and gives back what is allocated there."""
        os.ftruncate(self._file, size)
        self.size = self._allocated = size

    def close(self) -> None:
        """Closes the file, and gives back what is allocated beyond its end."""
        try:
            if self._allocated > self.size:
                os.ftruncate(self._file, self.size)
        except OSError:
            pass  # it stays allocated
        finally:
            self._system.close(self._file)


class SpareLine:
    """A file of one line that is written over, so that there is room for it once the file is there. Each method
    raises OSError."""

    def __init__(self, system: System, path: Path) -> None:
        self._system, self._path = system, path

    def clear(self) -> None:
        """Makes the file with no line, if it is not so."""
        if not self._path.exists() or self._path.read_bytes() != b"\n" * ROOM:
            self._over(os.O_CREAT, b"")

    def write(self, line: str) -> None:
        """Writes a line over the one before, or over none."""
        self._over(0, line.encode())

    def read(self) -> str:
        """Returns the line, empty if there is none."""
        try:
            return self._path.read_text(encoding="utf-8").strip()
        except FileNotFoundError:
            return ""

    def _over(self, flags: int, data: bytes) -> None:
        file = self._system.open(self._path, os.O_WRONLY | os.O_CLOEXEC | flags, 0o600)
        try:
            self._system.write_at(file, (data + b"\n").ljust(ROOM, b"\n"), 0)
        finally:
            self._system.close(file)
