"""What a process asks of its operating system: clocks, chance and files.

Planes, tasks, routers, logs and tickets take a `System`, by default the one that they run on. A test or a simulator
passes one of its own, whose clocks run wrong, whose chance is seeded or whose disk is full.
"""

import ctypes
import mmap
import os
import random
import time
from collections.abc import Callable
from pathlib import Path

LIBC = ctypes.CDLL(None, use_errno=True)
KEEP_SIZE = 1  # of fallocate(2): what is allocated beyond the end of a file does not make it longer
BOOT_ID = Path("/proc/sys/kernel/random/boot_id")


def make_folder(path: str | os.PathLike[str]) -> Path:
    """Makes a folder and those above it, for the user of the process alone, where they are not there. Returns it.
    Raises OSError."""
    made = Path(path)
    missing = [it for it in (made, *made.parents) if not it.is_dir()]
    for folder in reversed(missing):
        folder.mkdir(mode=0o700, exist_ok=True)
    return made


def _steady() -> Callable[[], int]:
    """Returns the clock of `steady_ticks`, or CLOCK_BOOTTIME alone where the system lacks one of its clocks."""
    read, boottime = time.clock_gettime_ns, time.CLOCK_BOOTTIME
    try:
        monotonic, raw = time.CLOCK_MONOTONIC, time.CLOCK_MONOTONIC_RAW
        read(raw)
    except (AttributeError, OSError):
        return lambda: read(boottime) // 1_000_000
    # In this order, whatever happens in between, the value is one of the time from the first reading to the last.
    return lambda: (read(boottime) - read(monotonic) + read(raw)) // 1_000_000


steady_ticks = _steady()
"""Returns CLOCK_MONOTONIC_RAW and the time for which the machine was suspended, in ticks of a millisecond. No time
service slews the first, and CLOCK_BOOTTIME is ahead of CLOCK_MONOTONIC by the second."""


class System:
    """The operating system of this process."""

    def ticks(self) -> int:
        """Returns the local clock, `steady_ticks`. It counts while the machine is suspended."""
        return steady_ticks()

    def monotonic(self) -> float:
        """Returns seconds that never fall, from any start."""
        return time.monotonic()

    def real_nanoseconds(self) -> int:
        """Returns the nanoseconds of real time since 1970, which may jump."""
        return time.time_ns()

    def boot(self) -> bytes:
        """Returns the id of this boot of the machine, or nothing where the system tells none."""
        try:
            return BOOT_ID.read_bytes().strip()
        except OSError:
            return b""

    def open(self, path: str | os.PathLike[str], flags: int, mode: int = 0o777) -> int:
        """Opens a file as `os.open` does, and returns its number. Raises OSError."""
        return os.open(path, flags, mode)

    def write(self, file: int, data: bytes) -> int:
        """Writes bytes to an open file, and returns how many it took. Raises OSError."""
        return os.write(file, data)

    def write_at(self, file: int, data: bytes, start: int) -> int:
        """Writes bytes over those of an open file from a place on, and returns how many it took. Raises OSError."""
        return os.pwrite(file, data, start)

    def allocate(self, file: int, start: int, length: int) -> None:
        """Allocates space for bytes of an open file, whose length stays. Raises OSError, with EOPNOTSUPP if its
        filesystem does not do that."""
        if LIBC.fallocate(file, KEEP_SIZE, ctypes.c_int64(start), ctypes.c_int64(length)) != 0:
            code = ctypes.get_errno()
            raise OSError(code, os.strerror(code))

    def identity(self, file: int) -> tuple[int, int]:
        """Returns the device and the inode of an open file. Raises OSError."""
        status = os.fstat(file)
        return status.st_dev, status.st_ino

    def close(self, file: int) -> None:
        """Closes an open file, which ends its lock."""
        os.close(file)

    def flush(self, memory: mmap.mmap) -> None:
        """Returns when the bytes of a mapped file are on the disk. Raises OSError."""
        memory.flush()

    def secret(self, length: int) -> bytes:
        """Returns bytes that nobody can guess."""
        return os.urandom(length)

    def random(self) -> random.Random:
        """Returns a generator of random numbers with a seed of its own."""
        return random.Random()


SYSTEM = System()
