"""The operating system that the package sees in a simulated process."""

import mmap
from random import Random
from typing import Any

from hourstable.system import System

from .world import MILLISECOND, SECOND, Process


class Machine(System):
    """The clocks, the chance and the files of a process. At a reading of a clock and at a write of a
    file the process may stall."""

    def __init__(self, process: Process) -> None:
        self.process, self._host, self._world = process, process.host, process.world

    def ticks(self) -> int:
        if not self._world.stall_every:
            return self._host.boottime() // MILLISECOND
        self._world.may_stall()
        made = self._host.boottime() // MILLISECOND
        self._world.may_stall()
        return made

    def monotonic(self) -> float:
        return self._host.monotonic() / SECOND

    def real_nanoseconds(self) -> int:
        if self._world.stall_every:
            self._world.may_stall()
        return self._host.real_time()

    def boot(self) -> bytes:
        return self._host.boot_id()

    def secret(self, length: int) -> bytes:
        return self.process.rng.randbytes(length)

    def random(self) -> Random:
        return Random(self.process.rng.getrandbits(64))

    def flush(self, memory: mmap.mmap) -> None:
        self._host.disk.flush(memory)

    def open(self, path: Any, flags: int, mode: int = 0o777) -> int:
        return self._host.disk.open(self.process, path, flags, mode)

    def write(self, file: int, data: Any) -> int:
        if self._world.stall_every:
            self._world.may_stall()
        return self._host.disk.write(self.process, file, data)

    def write_at(self, file: int, data: Any, start: int) -> int:
        return self._host.disk.write_at(self.process, file, data, start)

    def allocate(self, file: int, start: int, length: int) -> None:
        self._host.disk.allocate(file, start + length)

    def identity(self, file: int) -> tuple[int, int]:
        return self._host.disk.identity(file)

    def close(self, file: int) -> None:
        self._host.disk.close(file)
