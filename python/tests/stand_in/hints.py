"""What logs may lack where their calls are not one run."""

from __future__ import annotations

import re
from collections.abc import Iterator

from .entries import Entry
from .log_machines import LogMachines, play
from .reasons import Refer
from .tasks import Members

GRANT = re.compile(r"grant (\d+) ")


def task_of(call: Members) -> int | None:
    """Returns the task that makes a call, or whose note the call frees."""
    if call["do"] == "free":
        return int(call["note"]["task"])
    return int(call["task"]) if call["do"] in ("start", "hear", "release", "open", "serve", "hold", "check") else None


def opened(job: Members, entries: list[Entry], task: int, index: int) -> Members | None:
    """Returns the `open` of a task before an index with which calls are one run, if they are."""
    begun = [it.call["life"] for it in entries[:index] if it.do in ("start", "open") and it.call["task"] == task]
    life = max(begun, default=0)
    line = Entry(0, 0, 0, {"do": "open", "task": task, "life": life}, f"opened {life}")
    machines = LogMachines(job)
    try:
        is_run = play(machines, [*entries[:index], line, *entries[index:]])
    finally:
        machines.close()
    return {"task": task, "life": life} if is_run else None


def open_hint(job: Members, entries: list[Entry], index: int, refer: Refer) -> Members | None:
    task = task_of(entries[index].call)
    if task is None:
        return None
    upto = entries[: index + 1]
    starts = [it for it, entry in enumerate(upto) if entry.do == "start" and entry.call["task"] == task]
    for place in [*starts[-1:], index]:
        found = opened(job, upto, task, place)
        if found:
            return {"open": {**found, "before": refer(place + 1)}}
    return None


def start_hint(call: Members, reply: Members) -> Members | None:
    if reply.get("denied") != "down" and reply.get("refused") != "not-started":
        return None
    task = task_of(call)
    return None if task is None else {"begin": {"task": task}}


def grants_hint(entries: list[Entry], words: str, reply: Members) -> Members | None:
    """Returns the grants that the logs lack: from the right one up to the one before that which was told."""
    told = GRANT.match(words)
    if told is None or reply.get("reply") != "grant":
        return None
    first, last = int(reply["number"]), int(told[1]) - 1
    found = (GRANT.match(it.words) for it in entries)
    if first > last or any(first <= int(it[1]) <= last for it in found if it):
        return None
    return {"grants": {"from": str(first), "to": str(last)}}


def hints(job: Members, entries: list[Entry], index: int, reply: Members, refer: Refer) -> Iterator[Members]:
    """Yields what logs may lack, if the call at an index should have got a reply."""
    call, words = entries[index].call, entries[index].words
    found = open_hint(job, entries, index, refer), start_hint(call, reply), grants_hint(entries, words, reply)
    yield from (it for it in found if it)
