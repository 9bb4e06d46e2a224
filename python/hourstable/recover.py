"""`hourstable-service recover`: what is done to a store that went back, as to a backup, before any plane runs.

What was answered after the backup was made is not known. So all that only rises is raised above it: the version of
the row, the readings, the numbers of grants, the generations, the lives and the epoch. A new secret voids the keys of
all lives that were given out. And no lease is given until those that may be out have ended.

One backup may be put back twice. So these numbers are raised to ones that follow from the real time, which rise
faster than what is counted between two recoveries. One that is above that already, as after a time in which the clock
of a host was wrong, is raised by a step.
"""

import asyncio
import json
from collections.abc import Iterable
from typing import Any, NamedTuple

from hourstable.jobs import Row, policy_of
from hourstable.library import Policy, Refused, Table
from hourstable.peers import Beat
from hourstable.rights import MOST_EPOCH, SECRET, TASKS, WENT_BACK, Rights
from hourstable.store import LAST_LIFE, Damaged, Holding, LivesSpent, NoSuchJob, Store, Stored, StoreFailed
from hourstable.system import SYSTEM, System
from hourstable.table_calls import Malformed, last_in

EPOCH = 1_577_836_800  # the beginning of 2020, in seconds of real time
READINGS, FIRST = 1 << 32, 1 << 40  # a step of the table's clock in ticks, and to which it is raised at least
NUMBERS = 1 << 24  # grants that count as made, at most half of those that are left: keys of lives tell them apart
GENERATIONS, OF_SECOND = 1 << 20, 1 << 10  # a step, and how many a second there may be
TERMS, LIVES = 1 << 16, 1 << 16


class StillRuns(Exception):
    """A control plane of the store runs."""


class Recovered(NamedTuple):
    """A job that was recovered, and for how many seconds its planes give no lease from their start on."""

    job: str
    seconds: float


async def recover(store: Store, jobs: Iterable[str], system: System = SYSTEM, watch: float = 2.0) -> list[Recovered]:
    """Recovers jobs of a store, all if none is named. It first waits `watch` seconds for the beats of planes.

    Raises StillRuns, NoSuchJob, Damaged, LivesSpent, StoreFailed, and Conflict if a plane wrote meanwhile.
    """
    await _expect_nobody(store, watch)
    return [await _recover(store, job, system) for job in sorted(jobs) or await store.jobs()]


async def _expect_nobody(store: Store, watch: float) -> None:
    before = await store.beats()
    await asyncio.sleep(watch)
    running = [process for process, text in (await store.beats()).items() if text != before.get(process)]
    for process in running:
        try:
            has_ended = Beat.read((await store.beats())[process]).has_ended
        except (ValueError, KeyError):
            has_ended = False
        if not has_ended:
            raise StillRuns(f"the control plane of process {process} runs: stop all planes of the store first")


async def _recover(store: Store, job: str, system: System) -> Recovered:
    stored = await store.load(job)
    if stored is None:
        raise NoSuchJob(job)
    policy, before = _policy_in(job, stored), Rights.read(job, stored.rights) if stored.rights else Rights(b"")
    seconds = max(0, system.real_nanoseconds() // 1_000_000_000 - EPOCH)
    kept = raised(job, policy, stored.kept, seconds)
    lives = await store.lives(job)
    floor = beyond(max([life.life for life in lives.values()], default=0), seconds, LIVES)
    if floor >= LAST_LIFE:
        raise LivesSpent(f"{job} has too few lives left")
    epoch = await store.draw_epoch()
    if epoch < seconds:
        epoch = await store.draw_epoch(seconds - epoch)
    if epoch > MOST_EPOCH:
        raise StoreFailed("no epoch is left")
    longest = longest_of(policy)
    made = Rights(system.secret(SECRET), epoch, "" if before.state == WENT_BACK else before.state)
    made.floor, made.quiet = floor, last_in(kept) + longest
    ticket = Row.read(stored.line).ticket() if stored.line is not None else None
    holder = f"recover-{system.random().getrandbits(64):016x}"  # no write of a plane that was frozen meets it
    holding = Holding(stored.holder, holder, made.text(ticket))
    text = json.dumps({str(task): [floor, 0] for task in TASKS})
    await store.recover(job, stored.version, kept, text, holding)
    return Recovered(job, longest / 1000)


def _policy_in(job: str, stored: Stored) -> Policy:
    try:
        return policy_of(json.loads(stored.policy))[0]
    except (ValueError, Malformed) as error:
        raise Damaged(f"the policy that is stored of {job} cannot be read: {error}") from error


def raised(job: str, policy: Policy, kept: bytes, seconds: int) -> bytes:
    """Returns kept values above all that a table can have had which went on from them for a while, at so many seconds
    of real time. Raises Damaged."""
    try:
        value = json.loads(kept)
        _raise(value["value"], policy, seconds)
        made = json.dumps(value, separators=(",", ":"), ensure_ascii=False).encode()
        with Table.restore(job, policy, made) as table:
            return table.kept()
    except (Refused, ValueError, LookupError, TypeError) as error:
        raise Damaged(f"what is stored of {job} cannot be read: {error!r}") from error


def _raise(value: dict[str, Any], policy: Policy, seconds: int) -> None:
    """Raises the numbers of kept values. A proposal stays one, and the term of the assigner has ended."""
    last = beyond(int(value["last"]), FIRST + 2000 * seconds, READINGS)  # the clock counts 1,000 a second
    granted = int(value["granted"])
    assignments = [value[name] for name in ("committed", "pending") if value[name] is not None]
    if assignments:
        before = int(assignments[0]["generation"])
        more = beyond(before, OF_SECOND * seconds, GENERATIONS) - before
        for assignment in assignments:
            assignment["generation"] = str(int(assignment["generation"]) + more)
        granted += min(NUMBERS, (policy.numbers - granted) // 2)
    if value["term"] is not None:
        number = beyond(int(value["term"]["number"]), seconds, TERMS)
        value["term"] |= {"number": str(number), "until": str(last)}
    deadline = last + longest_of(policy) if granted else 0
    value |= {"last": str(last), "granted": str(granted), "deadline": str(deadline)}


def beyond(value: int, least: int, step: int) -> int:
    """Returns a number that follows from the real time, or one a step above a value that is not below it."""
    return least if value < least else value + step


def longest_of(policy: Policy) -> int:
    """Returns the longest term of a lease of a task."""
    return int(max(policy.guard, policy.bridge))
