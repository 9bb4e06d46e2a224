"""The disks of hosts: files of the real folder of a run, of which a power loss takes what was not yet
on the disk, and which may be full."""

import errno
import fcntl
import mmap
import os
from dataclasses import dataclass, field
from pathlib import Path
from random import Random
from typing import TYPE_CHECKING

if TYPE_CHECKING:
    from .world import Process

WRITE_BACK = 30_000_000_000  # ns after which the kernel has written what nobody synced
DEVICE = 1  # of each disk


@dataclass
class File:
    """What the disk knows of a file: its lengths as it grew, and its bytes as they were flushed."""

    inode: int
    grown: list[tuple[int, int]] = field(default_factory=list)  # the time, and the length from then on
    flushed: bytes | None = None
    allocated: int = 0  # bytes for which there is room, also once the disk is full


class Disk:
    """The disk of a host."""

    def __init__(self, folder: Path, may_lose: bool, allocates: bool) -> None:
        self.folder = folder
        self.may_lose = may_lose  # whether its host may lose its power
        self.allocates = allocates  # whether its filesystem gives room ahead, which a full disk then has left
        self.full_below: str = ""  # a part of the paths of files that cannot be written
        self.has_lost = False  # whether a power loss took something
        self._files: dict[str, File] = {}
        self._inodes = 0  # that were given
        self._open: dict[int, tuple["Process", str]] = {}

    def open(self, process: "Process", path: object, flags: int, mode: int) -> int:
        name = str(path)
        if self._is_full(name) and flags & os.O_CREAT:
            raise OSError(errno.ENOSPC, "no space left on device", name)
        is_known = name in self._files and os.path.exists(name)
        file = os.open(name, flags, mode)
        self._open[file] = process, name
        if not is_known:
            self._inodes += 1
            self._files[name] = File(self._inodes)
        return file

    def identity(self, file: int) -> tuple[int, int]:
        """Returns the device and the inode of an open file, as the run gave it: that of the real one has as many
        digits as there were files before, and so would a request that names it."""
        _, name = self._open[file]
        return DEVICE, self._files[name].inode

    def write(self, process: "Process", file: int, data: bytes) -> int:
        _, name = self._open[file]
        known = self._files[name]
        if self.full_below and self._is_full(name) and os.fstat(file).st_size + len(data) > known.allocated:
            raise OSError(errno.ENOSPC, "no space left on device", name)
        length = os.write(file, data)
        self._note_length(process, file)
        return length

    def _note_length(self, process: "Process", file: int) -> None:
        if self.may_lose:
            _, name = self._open[file]
            self._files[name].grown.append((process.world.now, os.fstat(file).st_size))

    def write_at(self, process: "Process", file: int, data: bytes, start: int) -> int:
        """Writes over bytes of a file, for which there is room also once the disk is full."""
        _, name = self._open[file]
        end = start + len(data)
        if self._is_full(name) and end > max(os.fstat(file).st_size, self._files[name].allocated):
            raise OSError(errno.ENOSPC, "no space left on device", name)
        length = os.pwrite(file, data, start)
        self._note_length(process, file)
        return length

    def allocate(self, file: int, end: int) -> None:
        """Notes that there is room for the bytes of a file up to this length."""
        _, name = self._open[file]
        if not self.allocates:
            raise OSError(errno.EOPNOTSUPP, "operation not supported", name)
        if self._is_full(name):
            raise OSError(errno.ENOSPC, "no space left on device", name)
        self._files[name].allocated = max(self._files[name].allocated, end)

    def close(self, file: int) -> None:
        self._open.pop(file, None)
        os.close(file)

    def flush(self, memory: mmap.mmap) -> None:
        """Notes that the bytes of a mapped file, which has its mark, are on the disk."""
        found = bytes(memory[:])
        for _, name in self._open.values():
            if name.endswith(".ticket") and Path(name).read_bytes() == found:
                self._files[name].flushed = found

    def _is_full(self, name: str) -> bool:
        return bool(self.full_below) and self.full_below in name

    def lose_lock(self, ending: str) -> None:
        """Takes the locks of files whose names end so from who has them, as a server of files may that gives them to
        another host."""
        for file, (_, name) in self._open.items():
            if name.endswith(ending):
                fcntl.flock(file, fcntl.LOCK_UN)

    def opened_by(self, process: "Process") -> int:
        """Returns how many files a process has open."""
        return sum(owner is process for owner, _ in self._open.values())

    def release(self, process: "Process") -> None:
        """Closes the files of a process that is dead, as its kernel does."""
        for file in [file for file, (owner, _) in self._open.items() if owner is process]:
            fcntl.flock(file, fcntl.LOCK_UN)  # also where a mapping still has the file open
            self.close(file)

    def lose_power(self, now: int, rng: Random, keeps_lines: bool) -> None:
        """Takes what is not on the disk: of mapped files alone, if lines are kept. All files are closed."""
        for name, file in self._files.items():
            path = Path(name)
            if name.endswith(".ticket"):
                if keeps_lines or rng.random() < 0.5:
                    self._lose_flushes(path, file)
            elif not keeps_lines:
                self._lose_lines(path, file, now, rng)

    def _lose_flushes(self, path: Path, file: File) -> None:
        """A page of a mapped file may have been written by the kernel at any time after its flush, or not."""
        if path.exists():
            path.write_bytes(file.flushed if file.flushed is not None else b"")

    def _lose_lines(self, path: Path, file: File, now: int, rng: Random) -> None:
        if not path.exists():
            return
        size = path.stat().st_size
        least = max([length for at, length in file.grown if at <= now - WRITE_BACK], default=0)
        kept = rng.randint(least, size) if least < size and rng.random() < 0.5 else size
        if kept < size:
            self.has_lost = True
            os.truncate(path, kept)
        file.grown = [(now, kept)]
