"""Sets of slice keys, as lists of pairs of a start and an end that rise and do not touch."""

from bisect import bisect_right
from collections.abc import Iterable, Sequence

Range = tuple[int, int]
Ranges = list[Range]
KEYS = 1 << 63  # how many slice keys there are


def ranges_of(pairs: Iterable[Sequence[int | str]]) -> Ranges:
    """Returns the set of the pairs of a message, in which numbers may be texts of digits."""
    return union([(int(start), int(end)) for start, end in pairs], [])


def union(some: Ranges, others: Ranges) -> Ranges:
    """Returns the keys that are in one of two sets, which may be unsorted and touch."""
    made: Ranges = []
    for start, end in sorted([*some, *others]):
        if made and start <= made[-1][1]:
            made[-1] = (made[-1][0], max(end, made[-1][1]))
        elif start < end:
            made.append((start, end))
    return made


def minus(some: Ranges, others: Ranges) -> Ranges:
    """Returns the keys of a set that are not in the other one."""
    if not others:
        return list(some)
    made: Ranges = []
    for start, end in some:
        for low, high in others:
            if high <= start or low >= end:
                continue
            if start < low:
                made.append((start, low))
            start = high
            if start >= end:
                break
        if start < end:
            made.append((start, end))
    return made


def holds(ranges: Ranges, slice_key: int) -> bool:
    """Whether a key is in a set."""
    at = bisect_right(ranges, (slice_key, KEYS + 1)) - 1
    return at >= 0 and ranges[at][0] <= slice_key < ranges[at][1]
