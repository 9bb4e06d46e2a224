"""Judges what tasks did and what clients were told. It knows nothing of Hourstable: it reads the
spans of the tasks, the acknowledgements of the clients and the shelf, whose times are of one clock.

It finds only what showed. A task that answers after the end of its lease shows if clients still
ask it while others ask the new owner: both the task and some clients are cut off from the control
planes. A commit that does not wait for a bridge lease shows if the task that holds it is cut off
just then, and a second change gives its keys away before that lease ends. Most runs have neither,
so the audit finds bugs that this check does not.
"""

import json
import urllib.parse
from collections import defaultdict
from collections.abc import Iterator
from pathlib import Path
from typing import Any, NamedTuple

IDS = 32  # how many ids of writes a line of the shelf has


class Span(NamedTuple):
    """A task worked for a key between two times. A process of it elsewhere has its place behind the number."""

    begun: int
    ended: int
    task: str
    what: str


class Verdict(NamedTuple):
    """What was found wrong, and how much was looked at."""

    faults: list[str]
    spans: int
    writes: int
    reads: int


def lines_of(folder: Path, names: str) -> Iterator[list[Any]]:
    """Returns the lines of files. A last line may be torn, as by a kill."""
    for path in sorted(folder.glob(names)):
        for line in path.read_bytes().split(b"\n"):
            try:
                found = json.loads(line)
            except ValueError:
                continue
            yield found


def overlaps(folder: Path) -> tuple[list[str], int]:
    """Finds keys for which two tasks worked at once."""
    spans: dict[str, list[Span]] = defaultdict(list)
    for task, key, what, begun, ended in lines_of(folder, "spans-*.jsonl"):
        spans[key].append(Span(begun, ended, str(task), what))
    faults = []
    for key, them in sorted(spans.items()):
        them.sort()
        latest: dict[str, Span] = {}  # of each task, the span that ends last
        for span in them:
            for task, before in latest.items():
                if task != span.task and before.ended > span.begun:
                    faults.append(
                        f"{key}: task {task} worked until {before.ended} ({before.what}), and task"
                        f" {span.task} from {span.begun} on ({span.what})"
                    )
            if span.task not in latest or latest[span.task].ended < span.ended:
                latest[span.task] = span
    return faults, sum(map(len, spans.values()))


Rows = dict[str, list[tuple[str, int, list[str]]]]


def rows_of(shelf: Path) -> Rows:
    """Returns what the shelf took of each session, in its order: tokens, versions, and the ids of the last writes."""
    made: Rows = {}
    for path in shelf.glob("key-*"):
        key = urllib.parse.unquote(path.name.removeprefix("key-"))
        lines = path.read_text().split("\n")[:-1]  # without a line that a killed process left torn
        made[key] = [(token, version, ids) for token, version, _, ids in map(json.loads, lines)]
    return made


def broken_rows(rows: Rows) -> Iterator[str]:
    """Finds sessions that a writer began anew although a write was there, and tokens that fall."""
    for key, row in sorted(rows.items()):
        fence, before = "", 0
        ids: list[str] = []
        for token, version, now in row:
            if token < fence:
                yield f"{key}: version {version} has the token {token} after {fence}"
            if (version, now) != (before, ids) and (version, now[1:]) != (before + 1, ids[: IDS - 1]):
                yield f"{key}: version {version} is not made of version {before}"
            fence, before, ids = token, version, now


def lost_writes(folder: Path, rows: Rows) -> tuple[list[str], int]:
    """Finds acknowledged writes that the shelf does not have."""
    faults, writes = [], 0
    there = {(key, version, write) for key, row in rows.items() for _, version, ids in row for write in ids}
    for what, key, write, version, _, _ in lines_of(folder, "acks-*.jsonl"):
        if what == "write":
            writes += 1
            if (key, version, write) not in there:
                faults.append(f"{key}: write {write} was acknowledged as version {version}")
    return faults, writes


def stale_reads(folder: Path) -> tuple[list[str], int]:
    """Finds reads that did not see a write which was acknowledged before they were asked."""
    events: dict[str, list[tuple[int, int, int]]] = defaultdict(list)
    for what, key, _, version, asked, answered in lines_of(folder, "acks-*.jsonl"):
        if what == "read":
            events[key].append((asked, 1, version))
        events[key].append((answered, 0, version))
    faults, reads = [], 0
    for key, them in sorted(events.items()):
        greatest = 0
        for at, is_read, version in sorted(them):
            if not is_read:
                greatest = max(greatest, version)
                continue
            reads += 1
            if version < greatest:
                faults.append(f"{key}: asked at {at}, version {version} was read after {greatest}")
    return faults, reads


def judge(folder: Path) -> Verdict:
    """Judges a run of the cache from what is in its folder."""
    faults, spans = overlaps(folder)
    rows = rows_of(folder / "shelf")
    faults += broken_rows(rows)
    lost, writes = lost_writes(folder, rows)
    stale, reads = stale_reads(folder)
    return Verdict(faults + lost + stale, spans, writes, reads)
