"""Prints what calls for a held key cost, as serve.c does."""
import sys
import time
from collections.abc import Callable
from functools import partial

from hourstable.library import Block, Slicelet, TaskClock

GRANT = b"""{"job":"shop","type":"grant","value":{"ends":"1000","generation":"1","kind":"guard","life":1,"number":"1",
"ranges":[["0","9223372036854775808"]],"task":1,"until":"1010"},"version":2}"""


def serves(task: Slicelet, keys: list[bytes]) -> None:
    for key in keys:
        task.serve(key, 2)


def blocks(task: Slicelet, clock: TaskClock, block: Block, logged: bool, keys: list[bytes]) -> None:
    for call, key in enumerate(keys):
        task.enter(clock, 2, 2 * call, key, block, logged)
        task.leave(clock, 2, 2 * call + 1, block, logged)


def tell(calls: int, play: Callable[[list[bytes]], None]) -> None:
    keys = [b"a key of 20 bytes, %d" % (call % 10) for call in range(calls)]
    least = sys.maxsize
    for _ in range(100):
        begun = time.thread_time_ns()
        play(keys)
        least = min(least, time.thread_time_ns() - begun)
    print(least // calls)


def main() -> None:
    calls = int(sys.argv[1])
    clock, block = TaskClock(0, 1, 0, oldest=100), Block()
    clock.sample(0, 1, 0)
    with Slicelet("shop", 1) as task:
        task.start(1, 0)
        task.hear(GRANT, 1)
        tell(calls, partial(serves, task))
        for logged in (False, True):
            tell(calls, partial(blocks, task, clock, block, logged))


main()
