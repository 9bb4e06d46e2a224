"""What tests of tasks wait for and ask."""

import asyncio
import time
from collections.abc import Callable

from hourstable.ranges import KEYS
from hourstable.task import Denied, Task

HALF = 1 << 62
LOWER, UPPER = [(0, HALF)], [(HALF, KEYS)]  # the key "hello" is in the lower half, and "abc" in the upper


async def until(holds: Callable[[], object], seconds: float = 30.0) -> None:
    """Waits until something holds."""
    end = time.monotonic() + seconds
    while not holds():
        assert time.monotonic() < end, "it does not come true"
        await asyncio.sleep(0.002)


async def ground(task: Task, key: str) -> str:
    """Returns the ground on which a key is denied, or nothing if it is served."""
    try:
        async with task.serving(key):
            return ""
    except Denied as denied:
        return denied.ground


def counted(text: bytes, name: str, **labels: str) -> float:
    """Returns the value of a metric whose labels are among others, 0 if there is none."""
    for line in text.decode().splitlines():
        if line.startswith(name + "{") and all(f'{key}="{value}"' in line for key, value in labels.items()):
            return float(line.split()[-1])
    return 0.0
