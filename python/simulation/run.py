"""One run: a seed, from its scene to what was found."""

import shutil
import time
from contextlib import chdir
from dataclasses import asdict, dataclass, field
from pathlib import Path
from typing import Any
from zlib import crc32

from . import linear
from .audits import audit
from .denials import RECENT, Watch, lapses
from .faults import Fault, Faults, plan_of
from .healed import Health, health
from .programs import add_all
from .scene import Scene, scene_of
from .services import JOB_TERMS, Cluster
from .trace import Trace, take_logs
from .world import SECOND, World

MAY_EXIT = ("None", "OSError", "BlockingIOError", "StoreFailed")  # None: as it was asked to
MOST_BEHIND = 2  # seconds by which a plane may show an older generation than another one
QUIET_BOUND = 2.0  # seconds for which a key that moves may be denied: blocks that are open on it have one to end
FAILOVER_BOUND = 1.0  # seconds for which a key that stays may be denied when one of two planes is lost or cut off
GRACE_BOUND = 5.0  # and one that moves, beside a lease: the plane that takes over knows no leases, so it commits a
# change that was proposed before only once those of the earlier plane have ended
TAKE_BOUND = 1.0  # or, if the lost plane had the job lease, beside the term of that: the other assigner takes it then
RECOVERED = ("go_back", "slip_back", "slip_unheard", "recover")  # kinds after which logs are not one run
CHECKS = (
    "unsafe", "history", "unserved", "not_renewed", "waiting", "grown", "died", "exited", "answered_500",
    "denied", "behind", "audit", "broken",
)


@dataclass
class Wanted:
    """What is to be run."""

    seed: int
    world: str | None = None
    left_out: frozenset[int] = frozenset()  # the numbers of faults that do not strike
    ends: float | None = None  # when the faults end, in place of the scene's time
    program: str = ""  # that audits; none: no audit
    prints: bool = False
    logs: bool = False
    keeps: Path | None = None


@dataclass
class Found:
    """What a run showed: the figures, and under the name of each check what is wrong."""

    seed: int
    world: str
    digest: str = ""
    virtual: float = 0.0
    took: float = 0.0  # seconds of the processor
    wrong: dict[str, list[str]] = field(default_factory=dict)
    figures: dict[str, Any] = field(default_factory=dict)
    faults: list[Fault] = field(default_factory=list)
    lines: list[tuple[int, str]] = field(default_factory=list)

    @property
    def failed(self) -> bool:
        return bool(self.wrong)


class Run:
    """A run of a scene in a folder."""

    def __init__(self, wanted: Wanted, folder: Path) -> None:
        self.wanted, self.folder = wanted, folder
        self.scene: Scene = scene_of(wanted.seed, wanted.world)
        if wanted.ends is not None:
            self.scene.length = wanted.ends + 4 * self.scene.term
        self.trace = Trace(wanted.prints)
        self.world = World(wanted.seed, self.trace.tell)
        self.world.second = self.scene.second_of_day * SECOND
        take_logs(self.world, self.trace if wanted.logs else None)
        self.cluster = Cluster(self.world, folder, self.scene)
        add_all(self.cluster)
        plan = [it for it in plan_of(self.scene) if it.number not in wanted.left_out]
        self.faults = Faults(self.cluster, plan)
        self.watch = Watch(self.cluster, self._kinds)
        self.behind: list[str] = []
        self._newest: list[tuple[int, int]] = []  # times, and the newest generation that was shown

    def _kinds(self) -> tuple[str, ...]:
        """Returns the kinds of the faults that are there, or were a moment ago."""
        since = self.world.now - int(RECENT * SECOND)
        there = {it.kind for it in self.faults.active}
        there |= {it.kind for it in self.faults.struck if it.at >= since}
        return tuple(sorted(there - {"load"}))

    def play(self) -> Found:
        scene, world = self.scene, self.world
        begun = time.process_time()
        self._start()
        world.run_until(int(scene.begin * SECOND))
        self.faults.begin()
        while world.now < int(scene.end * SECOND):
            world.run_until(min(world.now + 2 * SECOND, int(scene.end * SECOND)))
            self._compare_views()
        world.tell("faults end")
        self.faults.end()
        well = health(self.cluster)
        self.watch.end(max(self._bounds() or (0.0, 0.0)))
        for service in self.cluster.services.values():
            if service.process is not None:
                service.process.loop.note_dead_tasks()
        made = Found(scene.seed, scene.world, virtual=world.now / SECOND)
        made.took = time.process_time() - begun
        self._judge(made, well)
        return made

    def _start(self) -> None:
        scene, world = self.scene, self.world
        second = {it.name for it in self.cluster.tasks_of(scene.jobs[-1])} if scene.jobs[1:] else set()
        for service in self.cluster.services.values():
            late = scene.late if service.name in second else 0.0
            world.after(self.cluster.rng.uniform(0, 1) + late, service.start)
        self.cluster.scan()
        self.watch.look()

    def _compare_views(self) -> None:
        """Where only the row of another job is locked, all planes show one generation of the first."""
        if self.scene.world not in ("isolation", "disks"):
            return
        now, views = self.world.now, dict[str, int]()
        for service in self.cluster.of("plane"):
            plane = service.plane.plane if service.plane is not None else None
            if plane is not None and "shop" in plane.jobs:
                views[service.name] = plane.jobs["shop"].job.view.committed
        self._newest.append((now, max(views.values(), default=0)))
        due = max([it for at, it in self._newest if at <= now - MOST_BEHIND * SECOND], default=0)
        for name, shown in views.items():
            since = self.cluster.services[name].process
            if shown < due and since is not None and now - since.begun > 2 * MOST_BEHIND * SECOND:
                told = f"{now / SECOND:.1f}: {name} shows generation {shown}, and not {due}"
                self.behind.append(told)
                self.world.tell(told)

    def _judge(self, made: Found, well: Health) -> None:
        scene, cluster = self.scene, self.cluster
        denied = self._denied()
        if scene.world == "quiet":
            denied += lapses(cluster, self.world.now)
        wild = scene.world == "wild"  # beyond the drift nothing is promised
        overtakes = scene.seconds or scene.recovering
        back = any(it.kind in RECOVERED for it in self.faults.struck)
        found: dict[str, list[str]] = {
            "unsafe": [] if wild else cluster.oracle.faults,
            "history": [] if wild else linear.faults(cluster.shelf),
            "unserved": well.unserved, "not_renewed": well.not_renewed, "waiting": well.waiting,
            "grown": well.grown, "died": [str(it) for it in self.world.died],
            "exited": [
                str(it) for it in cluster.exits if not it.why.startswith(MAY_EXIT)
                and not (wild and "ClockBroken" in it.why) and not (overtakes and "Overtaken" in it.why)
            ],
            "trespassed": cluster.trespassed,
            "answered_500": cluster.failed, "denied": denied, "behind": [*self.behind, *well.behind],
        }
        made.faults = self.faults.struck
        made.lines = self.trace.lines
        made.figures = {
            "events": self.world.events, "checked": cluster.oracle.checked,
            "probed": cluster.oracle.probed, "writes": cluster.engine.writes, "well": well.seconds,
            "operations": sum(map(len, cluster.shelf.history.values())),
            "denied": self.watch.worst(), "turned_away": cluster.turned_away,
            "whole": scene.is_whole, "engine": scene.engine,
            "is_audited": not (back or self._has_lost()),
            "is_timely": scene.has_timely_tickets, "lone_assigners": scene.lone_assigners,
        }
        made.wrong = {name: all_of for name, all_of in found.items() if all_of}
        made.digest = f"{self.world.digest & (1 << 64) - 1:016x}"

    def _bounds(self) -> tuple[float, float] | None:
        """Returns for how many seconds the world allows a denial of a key that stays, and of one that moves; None if
        that is not judged."""
        scene = self.scene
        moves = max(scene.term + GRACE_BOUND, JOB_TERMS * scene.term + TAKE_BOUND)
        quiet, lost = (0.0, QUIET_BOUND), (FAILOVER_BOUND, moves)
        upgraded = quiet if scene.kinds == ("turn",) else lost
        return {
            "quiet": quiet, "handovers": quiet, "failover": lost, "pairs": lost, "upgrades": upgraded,
        }.get(scene.world)

    def _denied(self) -> list[str]:
        """Returns the denials that last longer than the world allows, from when the jobs are to be recovered."""
        scene, bounds = self.scene, self._bounds()
        if bounds is None:
            return []
        settled = int((scene.begin + scene.recovering) * SECOND)
        return [str(it) for it in self.watch.denials if it.lasts_from(settled) > bounds[it.moved] * SECOND]

    def _has_lost(self) -> bool:
        """Whether logs lost lines with the power of a host."""
        return any(host.disk.has_lost for host in self.cluster.network.hosts.values())


def judged(made: Found, folder: Path, program: str) -> Found:
    """Adds the bytes of the logs to the digest, and what an audit of them finds."""
    digest = int(made.digest, 16)
    jobs = set()
    for file in sorted(folder.glob("10.*/*/*.jsonl")):
        jobs.add(file.parent.name)
        digest ^= crc32(file.read_bytes(), crc32(file.name.encode())) << 16
    made.digest = f"{digest & (1 << 64) - 1:016x}"
    if program and made.figures.get("is_audited"):
        wrong = [audit(folder, job, program, made.figures["is_timely"]) for job in sorted(jobs)]
        if any(wrong):
            made.wrong["audit"] = [it for it in wrong if it]
    return made


def run(wanted: Wanted, folder: Path) -> Found:
    """Runs a seed in a folder of its own, which is removed. The run names its files below that, so that nothing
    depends on its name."""
    shutil.rmtree(folder, ignore_errors=True)
    folder.mkdir(parents=True)
    try:
        with chdir(folder):
            made = Run(wanted, Path()).play()
        made = judged(made, folder, wanted.program)
        if wanted.keeps is not None and made.failed:
            shutil.copytree(folder, wanted.keeps / f"seed-{wanted.seed}", dirs_exist_ok=True)
        return made
    finally:
        shutil.rmtree(folder, ignore_errors=True)


def as_json(found: Found) -> dict[str, Any]:
    return asdict(found)
