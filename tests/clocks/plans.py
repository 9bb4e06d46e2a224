"""What is drawn for a schedule, from its seed: clocks, the network, and what befalls the processes."""
import random
import time
from typing import NamedTuple

MILLION = 1_000_000
MICROSECOND, MILLISECOND = 1_000, 1_000_000  # in nanoseconds
U64 = (1 << 64) - 1
TASKS = 2
GRAIN = 2  # enough for clocks that are rounded down to ticks, with a drift of at most 1
TICKS = (1, MICROSECOND, 100 * MICROSECOND, MILLISECOND)
EPOCHS = (0, 1 << 20, 1 << 40, 1 << 56, 1 << 63)
PAUSE = 400 * MICROSECOND  # the longest between turns
TABLE = 0  # the number of the table's process; those of the tasks are above


class Host(NamedTuple):
    """A local clock: an epoch, and CLOCK_MONOTONIC of this machine at a rate, rounded down to ticks."""

    epoch: int  # in ticks
    phase: int  # in millionths of a nanosecond
    rate: int  # in millionths
    tick: int  # in nanoseconds

    def ticks(self) -> int:
        return self.epoch + (time.monotonic_ns() * self.rate + self.phase) // (MILLION * self.tick)


class Restart(NamedTuple):
    """The table's process is killed and a new one started, or it opens its clock anew on another host."""

    is_fresh: bool
    down: int  # for how many nanoseconds there is no table


class Suspension(NamedTuple):
    who: int
    length: int  # in nanoseconds


class Network(NamedTuple):
    """How often, in hundredths, a request or an answer is lost, and an answer is delayed or sent twice."""

    lost: int
    delayed: int
    twice: int
    delay: int  # the longest, in nanoseconds


class Plan(NamedTuple):
    seed: str
    extra: int
    per: int
    oldest: int
    kept: int
    saved: int  # for how many ticks above the reading values are kept
    hosts: list[Host]  # of the table, one for each process
    tasks: list[Host]
    network: Network
    turns: int  # of each task
    happens: list[tuple[int, Restart | Suspension]]  # at how many nanoseconds from the start

    @property
    def ahead(self) -> int:
        return self.saved + GRAIN + 1


class Rates(NamedTuple):
    """A drift, and the rates that are drawn, in millionths."""

    extra: int
    per: int
    tasks: tuple[int, int]
    table: tuple[int, int]


WITHIN = (
    Rates(200, MILLION, (MILLION, MILLION + 200), (MILLION, MILLION + 200)),
    Rates(1, 2, (MILLION, 1_500_000), (MILLION, 1_500_000)),
    Rates(60_000, 400_000, (MILLION, 1_150_000), (MILLION, 1_150_000)),
)
BEYOND = (
    Rates(200, MILLION, (MILLION, MILLION + 200), (1_050_000, 1_200_000)),
    Rates(1, 2, (MILLION, MILLION), (1_600_000, 2_000_000)),
)


def draw_host(draw: random.Random, rates: tuple[int, int], end: int, tick: int) -> Host:
    """A host whose rate is one end of the range in half of the draws: 0 is the slow end, and 1 the fast one."""
    rate = rates[end] if draw.random() < 0.5 else draw.randint(*rates)
    return Host(draw.randrange(draw.choice(EPOCHS) + 1), draw.randrange(MILLION * tick), rate, tick)


def draw_happenings(draw: random.Random, length: int) -> list[tuple[int, Restart | Suspension]]:
    happens: list[tuple[int, Restart | Suspension]] = []
    for _ in range(draw.choice((0, 0, 1, 1, 2))):
        restart = Restart(draw.random() < 0.25, draw.randrange(draw.choice((1, 2 * MILLISECOND))))
        happens.append((draw.randrange(length), restart))
    for _ in range(draw.choice((0, 0, 0, 1, 2))):
        suspension = Suspension(draw.randrange(TASKS + 1), draw.randrange(3 * MILLISECOND))
        happens.append((draw.randrange(length), suspension))
    return sorted(happens, key=lambda one: one[0])


def plan_of(seed: int, index: int, is_beyond: bool) -> Plan:
    draw = random.Random(f"{seed} {index} {is_beyond}")
    rates = draw.choice(BEYOND if is_beyond else WITHIN)
    tick = draw.choice(TICKS)
    turns = draw.randrange(6, 120 if draw.random() < 0.02 else 24)
    happens = draw_happenings(draw, turns * PAUSE // 2)
    restarts = sum(isinstance(one, Restart) for _, one in happens)
    return Plan(
        seed=f"{seed} {index}",
        extra=rates.extra,
        per=rates.per,
        oldest=draw.choice((U64, U64, U64, 4 * MILLISECOND // tick)),
        kept=draw.randrange(draw.choice(EPOCHS) + 1) if draw.random() < 0.5 else 0,
        saved=draw.randrange(draw.choice((1, 2, 10)) * MILLISECOND) // tick,
        hosts=[draw_host(draw, rates.table, 1, tick) for _ in range(restarts + 1)],
        tasks=[draw_host(draw, rates.tasks, 0, tick) for _ in range(TASKS)],
        network=draw.choice((
            Network(0, 0, 0, 0), Network(10, 20, 20, 3 * MILLISECOND), Network(40, 40, 10, MILLISECOND),
        )),
        turns=turns,
        happens=happens,
    )
