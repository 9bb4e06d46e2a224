"""What a service of some size costs, and who is denied for how long: `hourstable-service plan`.

Each figure follows from the terms and from a formula or a measurement of docs/OPERATIONS.md and docs/COST.md, which
it names. Measured figures are of one machine: an estimate for others.
"""

import argparse
from collections.abc import Iterator
from typing import NamedTuple

WORDS = (  # of the command: the word, what stands behind it, its type, what it is without the word, what it means
    ("--tasks", "N", int, None, "of each job, 1 to 64"),
    ("--guard", "TICKS", int, None, "the guard term, in ticks of 1 ms, 100 or more"),
    ("--bridge", "TICKS", int, None, "the bridge term, in ticks of 1 ms (that of --guard)"),
    ("--skew", "TICKS", int, 0, "of the policy, in ticks of 1 ms (0)"),
    ("--jobs", "N", int, 1, "of the store (1)"),
    ("--numbers", "N", int, 1 << 32, "grants of a job for all time (2^32)"),
    ("--requests", "RATE", float, 0.0, "blocks of serving a second of a job, all tasks together, for its logs (0)"),
)
CHOOSE = "OPERATIONS, Choose drift, terms and renewal"
NUMBERS = "OPERATIONS, Numbers that are used up"
NOTICE = "COST, What your users notice"
ALONE = "OPERATIONS, One control plane"
BEATEN = "Two control planes over PostgreSQL"
GRANTS = "COST, Grants of a control plane"
LOGS = "COST, Audits and logs"

TICK = 0.001  # seconds
DAY, YEAR = 86_400, 365  # seconds, days
AFTER_KILL = 0.2  # seconds beyond the term, in which the keys of a killed task are denied (10.2 with 10)
AFTER_PLANE = 0.52  # of the term, beyond it, in which a drain waits after a kill of the only plane (15.2 with 10)
AFTER_TAKEN = 0.4  # the same where another plane takes over (14 with 10)
RENEWED = 0.55  # of a guard term, in which a task renews at the latest: half of it, and a tenth of that
OLDEST = 0.9  # of a guard term, in which a task goes on without an answer
MEASURED = 10.0  # seconds of the terms with which the above were measured
AHEAD_GRANTS, AHEAD_SECONDS = 256, 1.0  # that a plane saves ahead
BEATS = 2.0  # writes a second of each plane: four in --standby, 2 seconds
FLEET = {"ahead": 0.57, "stored": 0.69}  # of a processor, for 16 jobs of 64 tasks that renew every 5 s
FLEET_TASKS, EVERY = 16 * 64, 5.0
OF_GRANT = {  # microseconds of a processor, each stored and saved ahead
    "sqlite": (403, 308), "postgresql": (501, 308), "etcd": (578, 424),
}
GRANT_BYTES = 117 + 423 + 125  # of logs: the line of a grant, of what is heard with its ranges, and of a sample
BLOCK_BYTES = 127 + 158  # of logs: the lines where a block begins and where it ends


class Figure(NamedTuple):
    """A figure with its unit, and what it follows from."""

    what: str
    value: str
    source: str

    def __str__(self) -> str:
        return f"{self.what}: {self.value}\n    ({self.source})"


class Size(NamedTuple):
    """What is planned: terms and skew in seconds, requests a second of a job. `shared` is whether two planes share
    the store, so that each grant is stored."""

    tasks: int
    guard: float
    bridge: float
    skew: float
    jobs: int
    numbers: int
    requests: float
    store: str
    shared: bool

    @property
    def term(self) -> float:
        """For how long the table waits for a task that is silent, at most."""
        return max(self.guard, self.bridge) + self.skew

    @property
    def grants(self) -> float:
        """Grants a second of a job: each task asks every half of a guard term."""
        return self.tasks * 2 / self.guard


def add_words(words: argparse.ArgumentParser) -> None:
    """Adds what the command takes."""
    words.set_defaults(run=run)
    words.description = (
        "Says what a service of this size costs, and who is denied for how long, by the formulas and figures of"
        " docs/OPERATIONS.md and docs/COST.md. It asks no plane."
    )
    for name, unit, kind, without, meaning in WORDS:
        words.add_argument(name, metavar=unit, type=kind, default=without, help=meaning,
                           required=name in ("--tasks", "--guard"))
    words.add_argument("--store", choices=list(OF_GRANT), default="sqlite", help="of the planes (sqlite)")
    words.add_argument("--alone", action="store_true",
                       help="one plane has the store for itself (the default with SQLite)")


def run(chosen: argparse.Namespace) -> int:
    """Prints a figure a line, and returns 0. Raises ValueError."""
    for figure in figures(size_of(chosen)):
        print(figure)
    return 0


def size_of(chosen: argparse.Namespace) -> Size:
    """Returns what is planned. Raises ValueError if a word is beyond what the service takes."""
    bridge = chosen.guard if chosen.bridge is None else chosen.bridge
    if not 1 <= chosen.tasks <= 64:
        raise ValueError("--tasks is 1 to 64: more are several jobs (--jobs)")
    if not 100 <= chosen.guard <= 1 << 32:
        raise ValueError("--guard is 100 to 4294967296 ticks of 1 ms")
    if not 1 <= bridge <= 1 << 32:
        raise ValueError("--bridge is 1 to 4294967296 ticks of 1 ms")
    if not 0 <= chosen.skew < min(chosen.guard, bridge):
        raise ValueError("--skew is 0 or more, and below --guard and --bridge")
    if chosen.jobs < 1 or not 1 <= chosen.numbers <= 1 << 32:
        raise ValueError("--jobs is 1 or more, and --numbers 1 to 4294967296")
    if not 0 <= chosen.requests < float("inf"):
        raise ValueError("--requests is a number of blocks a second, 0 or more")
    return Size(
        chosen.tasks, chosen.guard * TICK, bridge * TICK, chosen.skew * TICK, chosen.jobs, chosen.numbers,
        chosen.requests, chosen.store, not (chosen.alone or chosen.store == "sqlite"),
    )


def figures(size: Size) -> Iterator[Figure]:
    """What the command says, in its order."""
    yield from denials(size)
    yield from loads(size)
    yield from lasting(size)


def denials(size: Size) -> Iterator[Figure]:
    """Who is denied after a kill. What was measured beyond a term of 10 s grows with longer ones."""
    yield Figure("a task is killed: its keys are denied", f"{size.term + AFTER_KILL:,.1f} s",
                 f"longer of guard and bridge, skew, {AFTER_KILL} s measured: {NOTICE}")
    answers = (OLDEST - RENEWED) * size.guard
    yield Figure("a plane is killed: keys that stay are served", f"if one answers within {rounded(answers)} s",
                 f"{OLDEST} guard terms without an answer, {RENEWED} until renewal: {CHOOSE}")
    share = AFTER_TAKEN if size.shared else AFTER_PLANE
    waits = size.term + share * max(MEASURED, size.term)
    yield Figure("a plane is killed: keys that move wait", f"some {waits:,.1f} s",
                 f"grace of the longest term, {share:g} of it, from {MEASURED:g} s on: {NOTICE}")


def loads(size: Size) -> Iterator[Figure]:
    """Of all jobs together: grants, writes of the store for them, processors of the plane. Terms and changes of the
    assignment are left out."""
    grants = size.jobs * size.grants
    yield Figure("grants", f"{rounded(grants)} a second", f"each task asks every half of a guard term: {GRANTS}")
    if size.shared:
        yield Figure("store writes", f"{rounded(grants + 2 * BEATS)} a second at most",
                     f"each grant, and {BEATS:g} beats of each of two planes: {GRANTS}; {BEATEN}")
    else:
        ahead = size.jobs * min(size.grants, 1 / AHEAD_SECONDS + size.grants / AHEAD_GRANTS)
        yield Figure("store writes", f"{rounded(ahead + BEATS)} a second at most",
                     f"{AHEAD_GRANTS} grants and {AHEAD_SECONDS:g} s are saved ahead: {ALONE};"
                     f" {BEATS:g} beats: {BEATEN}")
    yield Figure("processors of the plane", f"{processors(size):.2f}, of 1 that it can use",
                 f"a fleet of {FLEET_TASKS} tasks that renew every {EVERY:g} s, and the store's share: {GRANTS}")


def processors(size: Size) -> float:
    """Processors of a plane that has all jobs: those of the measured fleet over SQLite, in proportion to what tasks
    ask (a renewal, or a report every 5 s), and what a grant takes more with another store."""
    asked = size.jobs * size.tasks * max(2 / size.guard, 1 / EVERY)
    at = 0 if size.shared else 1
    of_task = FLEET["stored" if size.shared else "ahead"] * EVERY / FLEET_TASKS
    more = (OF_GRANT[size.store][at] - OF_GRANT["sqlite"][at]) / 1e6
    return asked * of_task + size.jobs * size.grants * more


def rounded(value: float) -> str:
    """Returns a number with three digits that count, or all before its point."""
    if value >= 100:
        return f"{value:,.0f}"
    return f"{value:.1f}" if value >= 10 else f"{value:.2f}"


def lasting(size: Size) -> Iterator[Figure]:
    """Disk of the logs of all jobs, and how long the grants of one last. Changes of the assignment are left out."""
    written = size.jobs * (size.grants * GRANT_BYTES + size.requests * BLOCK_BYTES)
    yield Figure("disk of logs", f"some {rounded(written * DAY / 1e6)} MB a day, of all jobs",
                 f"{GRANT_BYTES} bytes a grant, {BLOCK_BYTES} a block: {LOGS}")
    years = size.numbers / (size.grants * DAY * YEAR)
    yield Figure("numbers of a job", f"last {rounded(years)} years", f"one each grant: {NUMBERS}")
