"""The scene of a run: which services there are, over which store, and which faults may happen. All of
it follows from the seed, or from the seed and the name of a world."""

from dataclasses import dataclass, field
from random import Random

from hourstable.versions import ROWS, ROWS_BEFORE

TASKS_OF_SECOND_JOB = 2
KEYS = 8  # of each job
LENGTH = 120.0  # seconds of a run
WHOLE_EVERY = 10  # one seed of so many goes all the way through aiohttp


@dataclass(frozen=True)
class JobScene:
    """A job: its tasks, and how many of them own a key at once."""

    name: str
    tasks: tuple[int, ...]
    owners: int = 1

    @property
    def keys(self) -> list[str]:
        return [f"{self.name}-{at}" for at in range(KEYS)]


@dataclass
class Scene:
    """What a run has. Times are in seconds, but for the guard lease, which is in ticks."""

    seed: int
    world: str
    guard: int = 4000
    planes: int = 2
    jobs: list[JobScene] = field(default_factory=list)
    clients: int = 2
    engine: str = "rows"  # or sqlite
    is_whole: bool = False  # whether requests go through aiohttp
    lone_assigners: int = 0  # in processes of their own, and none in the planes
    spare_tasks: tuple[int, ...] = ()  # of the first job, which join later
    seconds: tuple[int, ...] = ()  # tasks of the first job that have a second process elsewhere
    waits: bool = True  # whether the application awaits Task.wait()
    drift: int = 100  # parts in a million by which clocks of hosts may be wrong
    is_skewed: bool = False  # whether the real times of hosts differ
    late: float = 0.0  # when the second job begins
    second_of_day: int = 0
    kinds: tuple[str, ...] = ()
    every: float = 2.0  # seconds from a fault to the next
    begin: float = 10.0
    forms: tuple[int, ...] = (ROWS, ROWS, ROWS)  # the newest forms of rows that planes read, at first
    recovering: float = 0.0  # seconds from the begin on in which the jobs are recovered, before other faults
    length: float = LENGTH
    keeps_lines: bool = False  # whether a power loss takes nothing that was written, but for what is mapped

    @property
    def term(self) -> float:
        """The guard term in seconds."""
        return self.guard / 1000

    @property
    def is_shared(self) -> bool:
        """Whether planes share the store. One that has it for itself saves readings and grants ahead."""
        return self.planes > 1

    @property
    def end(self) -> float:
        """When the last fault has ended: four guard terms before the end."""
        return self.length - 4.0 * self.term

    @property
    def has_timely_tickets(self) -> bool:
        """Whether tickets go by one real time, so that the audit finds right clocks timely. After the
        crash of its host a plane draws those that it had kept ahead."""
        return not self.is_skewed and not UNTIMELY & set(self.kinds)

    def job_of(self, key: str) -> JobScene:
        return next(it for it in self.jobs if key in it.keys)


# The kinds of faults of each world. Of `usual` each seed has a few.
USUAL = (
    "callbacks", "crash", "cut", "disk", "drain", "freeze", "join", "kill", "leave", "one_way", "part",
    "reset", "rogue", "set_clock", "sleep", "slow", "slow_reader", "stalls", "stop", "store_fails",
    "store_freezes", "store_locks", "store_slow", "term",
)
WORLDS: dict[str, tuple[str, ...]] = {
    "quiet": (),
    "usual": USUAL,
    "failover": ("failover",),
    "handovers": ("hand_over",),
    "pairs": ("pair",),
    "isolation": ("lock_second_job", "lose_task"),
    "clocks": ("set_clock", "sleep", "wrong_day", "kill"),
    "wild": ("wrong_rate", "jump", "kill"),
    "seconds": ("second", "kill", "part"),
    "folders": ("second", "beside", "copy", "kill", "freeze_task"),
    "shared": ("second", "share", "share", "kill"),
    "backup": ("backup", "go_back", "slip_back"),
    "unheard": ("slip_unheard",),
    "upgrades": ("turn", "failover", "pair"),
    "power": ("power", "kill", "cut"),
    "secrets": ("wrong_secret", "kill"),
    "roles": ("trespass", "kill", "term"),
    "strangers": ("stranger", "cut"),
    "disks": ("disk_of_job", "kill"),
    "callers": ("callbacks",),
    "joiners": ("join", "leave", "drain", "kill", "term"),
    "stores": ("store_fails", "store_freezes", "store_slow", "stop", "kill"),
    "partitions": ("cut", "one_way", "part", "reset", "slow"),
}
UNTIMELY = {"set_clock", "wrong_day", "wrong_rate", "jump", "crash", "power", "failover"}
SHARES = {  # how many of a hundred seeds have a world; the others are usual
    "quiet": 2, "failover": 6, "isolation": 4, "clocks": 4, "wild": 4, "seconds": 3, "backup": 2, "power": 5,
    "secrets": 3, "strangers": 3, "disks": 4, "callers": 2, "joiners": 8, "stores": 8, "partitions": 8,
    "handovers": 3, "pairs": 4, "folders": 1,
    "usual": 2, "unheard": 1, "upgrades": 2, "shared": 1,  # seeds of faults that are mended keep their worlds
}


def world_of(seed: int) -> str:
    """Returns the world of a seed."""
    at = Random(f"{seed} choice").randrange(100)
    for name, share in SHARES.items():
        at -= share
        if at < 0:
            return name
    return "usual"


def scene_of(seed: int, world: str | None = None) -> Scene:
    """Returns the scene of a seed, in its world or in the one that is named."""
    rng = Random(f"{seed} scene")
    made = Scene(seed, world or world_of(seed))
    made.guard = rng.choice((5000, 10_000, 10_000))
    made.planes = rng.choice((1, 2, 2, 2, 3))
    made.is_whole = seed % WHOLE_EVERY == 0
    made.engine = "sqlite" if rng.random() < 0.15 else "rows"
    made.lone_assigners = rng.choice((0,) * 8 + (1, 2))
    made.waits = rng.random() < 0.7
    made.every = rng.choice((1.5, 3.0, 6.0))
    made.late = rng.choice((0.0, 15.0))
    made.is_skewed = rng.random() < 0.5
    made.second_of_day = rng.choice((rng.randrange(86_400), 86_400 - rng.randrange(100)))
    tasks = tuple(range(1, rng.choice((3, 4, 4)) + 1))
    owners = 2 if rng.random() < 0.15 else 1
    made.jobs = [JobScene("shop", tasks, owners)]
    if rng.random() < 0.25:
        made.jobs.append(JobScene("cart", _after(tasks, TASKS_OF_SECOND_JOB)))
    known = WORLDS[made.world]
    made.kinds = known
    if made.world == "usual":
        made.kinds = tuple(sorted({*rng.sample(known, rng.randint(2, 5)), "load"}))
    _adapt(made, rng)
    return made


def _after(tasks: tuple[int, ...], count: int) -> tuple[int, ...]:
    return tuple(range(tasks[-1] + 1, tasks[-1] + 1 + count))


def _upgrade(made: Scene, rng: Random) -> None:
    """Gives a scene planes of the release before, with one more kind of fault in half of all seeds. In half of them
    the jobs are recovered first, while an upgrade is half done: one plane cannot read the form of their rows."""
    made.guard, made.waits, made.forms = 10_000, True, (ROWS_BEFORE, ROWS_BEFORE)
    made.kinds, made.every, made.length = ("turn",), 12.0, 170.0
    if rng.random() < 0.5:
        made.kinds, made.every, made.length = ("turn", "turn", rng.choice(("failover", "pair"))), 32.0, 250.0
    if rng.random() < 0.5:
        made.forms, made.recovering = (ROWS_BEFORE, ROWS), 25.0


def _adapt(made: Scene, rng: Random) -> None:
    """Gives a scene what its world needs."""
    shop = made.jobs[0]
    if made.world in ("failover", "handovers", "pairs", "isolation", "backup", "disks", "upgrades", "unheard"):
        made.planes, made.engine, made.lone_assigners = 2, "rows", 0
        shop = made.jobs[0] = JobScene("shop", shop.tasks[:4])
        made.jobs = made.jobs[:1]
    if made.world in ("failover", "handovers", "pairs"):
        made.guard, made.every, made.length = 10_000, 30.0, 190.0
    if made.world == "upgrades":
        _upgrade(made, rng)
    if made.world == "unheard":
        made.seconds, made.waits = shop.tasks[:2], True
        made.guard, made.every, made.length = 10_000, 35.0, 160.0
    if made.world in ("isolation", "disks"):
        made.guard, made.late = 4000, 0.0
        made.jobs.append(JobScene("cart", _after(shop.tasks, TASKS_OF_SECOND_JOB)))
    if made.world in ("strangers", "secrets"):  # the second job is not yet created when they come
        made.jobs[1:] = [JobScene("cart", _after(shop.tasks, TASKS_OF_SECOND_JOB))]
        made.late, made.every = 30.0, 1.5
    if made.world in ("seconds", "folders", "shared"):
        made.seconds, made.waits = shop.tasks[:2], True  # else nobody hears that a process was overtaken
    if made.world == "power":
        made.keeps_lines = rng.random() < 0.5
    if made.world == "quiet":
        made.planes, made.engine, made.lone_assigners = 2, "rows", 0
    if made.world == "wild":
        made.drift, made.waits = 100_000, True  # else nobody hears of clocks that are broken
    if made.world in ("strangers", "secrets"):
        made.planes = 2
    if made.world in ("clocks", "power"):  # what a plane alone has not yet stored comes after the tickets it kept
        made.planes = rng.choice((1, 1, 2))
    if made.world == "clocks" or made.keeps_lines:
        made.every = 1.5
    if {"disk", "disk_of_job"} & set(made.kinds):
        made.waits = True  # else the application never hears that its task has ended
    if made.is_whole:
        made.lone_assigners = min(made.lone_assigners, 1)  # they make most requests
    if "join" in made.kinds:
        last = max(it.tasks[-1] for it in made.jobs)
        made.spare_tasks = (last + 1, last + 2)
