"""The judge: the time of the machine itself, which each process noted before and after each of its readings."""
from bisect import bisect_left
from collections.abc import Iterator, Sequence
from itertools import accumulate, pairwise

from logs import Read


def falls(who: str, reads: Sequence[Read]) -> Iterator[str]:
    for early, late in pairwise(reads):
        if late.value < early.value:
            yield f"{who} read {late.value} after {early.value}"


def judge(table: Sequence[Read], tasks: Sequence[Sequence[Read]]) -> Iterator[str]:
    """What is wrong: a task read a value below a reading of the table that was finished before its read began, or
    readings of the table fell, or values of one task did.

    The readings of the table are in order, also those of several processes, since one is gone before the next
    begins."""
    yield from falls("the table", table)
    finished = [reading.after for reading in table]
    values = [reading.value for reading in table]
    greatest = list(accumulate(values, lambda early, late: max(early, late)))
    for number, reads in enumerate(tasks, 1):
        yield from falls(f"task {number}", reads)
        for read in reads:
            earlier = bisect_left(finished, read.before)
            if earlier and read.value < greatest[earlier - 1]:
                since = read.before - finished[earlier - 1]
                yield f"task {number} read {read.value}, {since} ns after the table had read {greatest[earlier - 1]}"
