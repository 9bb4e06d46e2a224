"""Proves and builds crates side by side, the longest chain first."""
import functools
import os
import time
from collections.abc import Iterable, Iterator
from concurrent.futures import FIRST_COMPLETED, Future, ThreadPoolExecutor, wait
from pathlib import Path

from building import marks
from building.kit import ARCHIVE, ARCHIVES, KIT, SHARED, Crate, crate_name, crates, file_of, rtlib, share, tell, told, wanted_by

# What a line of a crate costs at first, in seconds of one processor: code, specs and proofs alike.
SECONDS_A_LINE = 0.05
LEAST_SECONDS = 15.0
# A program, and the library for C, are compiled with all that they stand on, of which a line costs this.
SECONDS_A_LINE_BELOW = 0.003


@functools.cache
def lines_of(crate: Crate) -> int:
    """How many lines of code, specs and proofs the crate has, at least 1."""
    return max(1, sum(Path(it).read_bytes().count(b"\n") for it in rtlib.files_of(crate.folder)))


class Plan:
    """What is left to be built, in the order of the longest chains, and about how long it will take."""

    def __init__(self, crates: list[Crate], lanes: int) -> None:
        self.lanes, self.crates = lanes, crates
        self.lines = {it: lines_of(it) for it in crates}
        self.above = {it: [other for other in crates if it in other.deps] for it in crates}
        self.took: dict[str, float] = {}
        self.chains: dict[str, float] = {}

    def seconds(self, crate: Crate) -> float:
        """Returns what the crate's proof is likely to take, by what those before it took."""
        lines = sum(self.lines[it] for it in self.crates if it.name in self.took)
        rate = sum(self.took.values()) / lines if lines > 5_000 else SECONDS_A_LINE
        below = 0 if crate.makes_rlib() else sum(map(lines_of, crate.below()))
        return max(LEAST_SECONDS, rate * self.lines[crate] + SECONDS_A_LINE_BELOW * below)

    def chain(self, crate: Crate) -> float:
        """Returns the seconds of the longest chain that begins with the crate."""
        if crate.name not in self.chains:
            longest = max(map(self.chain, self.above[crate]), default=0.0)
            self.chains[crate.name] = self.seconds(crate) + longest
        return self.chains[crate.name]

    def left(self) -> float:
        """Returns about how many seconds are left: all work over the lanes, or the longest chain."""
        self.chains = {}
        todo = [it for it in self.crates if it.name not in self.took]
        whole = sum(map(self.seconds, todo)) / self.lanes
        return max([whole, *map(self.chain, todo)])


def lay_stamps(crates: Iterable[Crate]) -> None:
    """Gives what `rt ci` proved in this checkout the stamps by which a build knows it, which `rt ci` leaves out. A program
    that says that it is not proved was not left by `rt ci`."""
    for crate in crates:
        out = Path(crate.folder) / "out"
        program, stamp = out / crate.name, out / "rlib/stamp"
        if crate.is_program and program.is_file() and not marks.has_section(program):
            made = rtlib.sum_of(str(program))
            (out / f"{crate.name}.stamp").write_text(crate.stamp() + made, encoding="utf-8")
        elif (out / f"rlib/{crate.name}.rlib").is_dir() and not stamp.exists():
            stamp.write_text(crate.stamp(), encoding="utf-8")


def is_made(crate: Crate) -> bool:
    """Returns whether what stands in the crate's out/ was built of the crate as it is."""
    if not crate.is_program and not crate.is_static:
        return bool(crate.is_built())
    made = f"{crate.folder}/out/{file_of(crate)}"
    return bool(rtlib.text_of(f"{made}.stamp") == crate.stamp() + rtlib.sum_of(made))


def link(crate: Crate) -> int:
    """Links a program that was compiled."""
    made = f"out/{crate.name}"
    words = ["--target", "x86_64-unknown-linux-gnu", "--toolchain", str(KIT / "toolchain"), "-o", made, f"{made}.o"]
    return int(crate.call(str(KIT / "bin/rattle-link"), *words, *ARCHIVES))


def prove(crate: Crate, jobs: int) -> int:
    """Proves and builds a crate, and returns its status."""
    if is_made(crate):
        return 0
    flags, out = ["--jobs", str(jobs)], f"{crate.folder}/out"
    os.makedirs(out, exist_ok=True)
    with open(f"{out}/build.log", "w", encoding="utf-8") as crate.out:
        if not crate.is_program and not crate.is_static:
            return int(crate.build_rlib(flags, anew=False))
        stamp, made = crate.stamp(), f"{out}/{file_of(crate)}"
        status = int(crate.build_static(flags) if crate.is_static else crate.compile(flags, f"out/{crate.name}.o") or link(crate))
        if status == 0 and stamp == crate.stamp():
            Path(f"{made}.stamp").write_text(stamp + rtlib.sum_of(made), encoding="utf-8")
        return status


def last_lines(crate: Crate) -> str:
    """Returns the end of what the crate's check said."""
    said = rtlib.text_of(f"{crate.folder}/out/build.log") or ""
    return "\n".join(said.splitlines()[-20:])


class Build:
    """A build of crates, side by side."""

    def __init__(self, crates: list[Crate], lanes: int) -> None:
        self.crates, self.lanes = crates, lanes
        self.left = [it for it in crates if not is_made(it)]
        self.plan = Plan(list(self.left), lanes)
        self.done = {it for it in crates if it not in self.left}
        self.failed: list[Crate] = []
        self.running: dict[Future[int], tuple[Crate, float]] = {}

    def run(self) -> bool:
        """Builds all, says how far it is, and returns whether all were built."""
        if self.left:
            names = " ".join(it.name for it in self.left)
            tell(f"proves {len(self.left)} crates, about {told(self.plan.left())}: {names}")
        with ThreadPoolExecutor(self.lanes) as pool:
            while self.start(pool):
                for it in wait(self.running, return_when=FIRST_COMPLETED).done:
                    self.end(*self.running.pop(it), it.result())
        return not self.failed

    def ready(self) -> Iterator[Crate]:
        """The crates whose libraries stand, those with the longest chain first."""
        of = [it for it in self.left if all(below in self.done for below in it.below())]
        yield from sorted(of, key=self.plan.chain, reverse=True)

    def start(self, pool: ThreadPoolExecutor) -> bool:
        """Begins what can be begun, and returns whether anything runs."""
        self.plan.chains = {}
        for crate in list(self.ready()):
            if len(self.running) == self.lanes:
                break
            self.left.remove(crate)
            # The processors that no other crate is ready for.
            jobs = max(1, min(4, (self.lanes - len(self.running)) // (1 + sum(1 for _ in self.ready()))))
            self.running[pool.submit(prove, crate, jobs)] = crate, time.monotonic()
        return bool(self.running)

    def end(self, crate: Crate, begun: float, status: int) -> None:
        """Tells that a crate has ended."""
        seconds = time.monotonic() - begun
        self.plan.took[crate.name] = seconds
        if status:
            self.failed.append(crate)
            tell(f"{last_lines(crate)}\n{crate.name}: NOT PROVED (status {status}; {crate.folder}/out/build.log)")
            return
        self.done.add(crate)
        rest = f"; about {told(self.plan.left())} left" if self.left or self.running else ""
        tell(f"[{len(self.done)}/{len(self.crates)}] {crate.name} proved in {told(seconds)}{rest}")


def build(targets: list[str], jobs: int, after_ci: bool) -> list[Path] | None:
    """Proves and builds targets, and returns their files, or None if one is not proved."""
    by_name = crates()
    wanted = wanted_by(by_name[crate_name(it)] for it in targets)
    held = rtlib.lock(wanted)
    try:
        if after_ci:
            lay_stamps(wanted)
        if not Build(wanted, jobs).run():
            return None
        return [made_by(it, by_name[crate_name(it)]) for it in targets]
    finally:
        for it in held:
            os.close(it)


def made_by(target: str, crate: Crate) -> Path:
    """The file of a target that was built. The shared object is linked anew."""
    out = Path(crate.folder) / "out"
    return share(out / ARCHIVE, out / SHARED) if target == SHARED else out / file_of(crate)
