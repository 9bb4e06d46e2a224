"""The command tools/simulate."""

import argparse
import os
import sys
import time
from collections.abc import Iterator, Sequence
from dataclasses import replace
from pathlib import Path
from typing import NamedTuple

from . import known
from .many import all_of, one
from .run import CHECKS, Found, Wanted
from .scene import WORLDS, world_of
from .shrink import Shrinking, timeline, told

SHOWN = 3  # findings of a check that are shown
LONGEST = 1600  # characters of a finding that are shown
PRINTED = Path("-")  # the file of digests that are printed


def seeds_in(text: str) -> list[int]:
    """Returns the seeds of N, A..B, or several of these with commas. Raises ValueError."""
    made: list[int] = []
    for part in text.split(","):
        first, dots, last = part.partition("..")
        made += range(int(first), int(last if dots else first) + 1)
    return made


def parser() -> argparse.ArgumentParser:
    made = argparse.ArgumentParser(
        prog="tools/simulate", description="Runs the service in virtual time, by seeds, and checks each run."
    )
    made.add_argument("--seeds", metavar="A..B", type=seeds_in, help="runs of these seeds")
    made.add_argument("--seed", type=int, help="one run")
    made.add_argument("--world", choices=sorted(WORLDS), help="in place of that of the seed")
    made.add_argument("--trace", action="store_true", help="tell what happens in a run, and what is logged")
    made.add_argument("--shrink", action="store_true", help="make a run that fails smaller, and tell it")
    made.add_argument("--twice", action="store_true", help="run each seed twice, and compare the digests")
    made.add_argument("--digests", metavar="FILE", nargs="?", const=PRINTED, type=Path,
                      help="print the digest of each seed, or add it to a file")
    made.add_argument("--each", action="store_true", help="print a line for each seed, also for those that are ok")
    made.add_argument("--jobs", type=int, default=len(os.sched_getaffinity(0)), help="runs at once")
    made.add_argument("--no-audit", action="store_true", help="audit no logs")
    made.add_argument("--keep", type=Path, help="keep the folders of runs that fail here")
    made.add_argument("--bounds", action="store_true", help="tell for how long keys were denied, by faults")
    made.add_argument("--gate", action="store_true", help="run the seeds of the gate, and compare with known.md")
    made.add_argument("--first-new", action="store_true",
                      help="end at the first seed that shows something new, and tell it: status 1")
    made.add_argument("--lists", action="store_true", help="print the lists of known.md for these seeds")
    made.add_argument("--write-known", action="store_true", help="write the lists of known.md anew for these seeds")
    made.add_argument("--mutants", nargs="*", metavar="NAME", help="plant bugs, and say which seed finds each")
    made.add_argument("--most", type=int, default=200, help="seeds that are tried for a planted bug")
    return made


def wanted_of(seed: int, given: argparse.Namespace) -> Wanted:
    program = "" if given.no_audit else os.environ.get("HOURSTABLE_PROGRAM", "")
    return Wanted(seed, given.world, program=program, keeps=given.keep)


def line_of(found: Found) -> str:
    """Returns the lines of a run."""
    causes = known.causes_of(found)
    how = "ok" if not found.failed else f"FAILS {' '.join(found.wrong)}"
    if found.failed and causes:
        how += f" [{', '.join(sorted(causes))}]"
    speed = found.virtual / found.took if found.took else 0
    lines = [
        f"seed {found.seed} {found.world}: {how} ({found.virtual:.0f} s, {speed:.0f} a second,"
        f" {found.digest})"
    ]
    for name in CHECKS:
        all_found = sorted(found.wrong.get(name, []), key=lambda it: bool(known.cause_of(found, name, it)))
        for one_of in all_found[:SHOWN]:
            lines.append(f"    {name}: {one_of[-LONGEST if name == 'broken' else 0:][:LONGEST]}")
    return "\n".join(lines)


class Longest(NamedTuple):
    """The longest denial of some runs, and the seed of that which shows it."""

    seconds: float = 0.0
    seed: int = 0

    def __str__(self) -> str:
        return f"{self.seconds:6.2f} {self.seed or '':>6}"


class Totals:
    """What many runs came to."""

    def __init__(self, count: int) -> None:
        self.count, self.done, self.failed, self.all = count, 0, list[Found](), list[Found]()
        self.virtual = self.took = 0.0
        self.begun = time.monotonic()
        self.bounds: dict[str, list[Longest]] = {}

    def add(self, found: Found) -> None:
        self.done += 1
        self.all.append(replace(found, lines=[]))
        self.virtual += found.virtual
        self.took += found.took
        if found.failed:
            self.failed.append(found)
        for kinds, longest in found.figures.get("denied", {}).items():
            known_of = self.bounds.setdefault(kinds, [Longest(), Longest()])
            self.bounds[kinds] = [max(a, Longest(b, found.seed)) for a, b in zip(known_of, longest)]

    def progress(self) -> None:
        if sys.stderr.isatty():
            left = (time.monotonic() - self.begun) / max(1, self.done) * (self.count - self.done)
            told_ = f"\r\x1b[K{self.done} of {self.count}, {len(self.failed)} fail, {left:.0f} s left"
            print(told_, end="", file=sys.stderr, flush=True)

    def tell(self, with_bounds: bool) -> None:
        if sys.stderr.isatty():
            print("\r\x1b[K", end="", file=sys.stderr)
        if with_bounds:
            print(f"{'longest denial, in seconds':40} {'stays':>6} {'seed':>6} {'moves':>6} {'seed':>6}")
            for kinds, (stays, moves) in sorted(self.bounds.items()):
                if "+" not in kinds:
                    print(f"{kinds:40} {stays} {moves}")
        if self.failed:
            print("failing seeds: " + " ".join(str(it.seed) for it in sorted(self.failed, key=_seed)))
        wall = time.monotonic() - self.begun
        print(
            f"{self.done} seeds, {len(self.failed)} fail, {self.virtual:.0f} virtual seconds in"
            f" {wall:.0f} s, {self.virtual / max(self.took, 0.001):.0f} a second of a processor"
        )


def _seed(found: Found) -> int:
    return found.seed


def keep(found: Found, path: Path) -> None:
    """Prints the digest of a run, or adds it to a file, which has those of other runs."""
    if path == PRINTED:
        print(f"{found.seed} {found.digest}", flush=True)
        return
    with path.open("a", encoding="utf-8") as file:
        print(found.seed, found.digest, file=file)


def run_many(seeds: Sequence[int], given: argparse.Namespace) -> int:
    totals = Totals(len(seeds))
    digests: dict[int, str] = {}
    for found in all_of(_each(seeds, given), max(1, given.jobs)):
        totals.add(found)
        if given.digests is not None:
            keep(found, given.digests)
        if found.failed and given.digests != PRINTED or given.each:
            if sys.stderr.isatty():
                print("\r\x1b[K", end="", file=sys.stderr)
            print(line_of(found), flush=True)
        before = digests.setdefault(found.seed, found.digest)
        if before != found.digest:
            print(f"seed {found.seed} is not deterministic: {before} and {found.digest}", flush=True)
            totals.failed.append(found)
        totals.progress()
    if given.lists:
        print(*known.lists_of(known.shown_by(totals.all)), sep="\n")
    if given.write_known:
        known.write(totals.all)
    totals.tell(given.bounds)
    return int(bool(totals.failed))


def _each(seeds: Sequence[int], given: argparse.Namespace) -> Iterator[Wanted]:
    for seed in seeds:
        yield wanted_of(seed, given)
        if given.twice:
            yield wanted_of(seed, given)


def run_gate(given: argparse.Namespace) -> int:
    """Runs the seeds of the gate, and tells those that do not show what known.md says."""
    listed = known.listed()
    totals, wrong = Totals(len(known.gate())), 0
    for found in all_of((wanted_of(it, given) for it in known.gate()), max(1, given.jobs)):
        totals.add(found)
        if given.digests is not None:
            keep(found, given.digests)
        causes, due = known.causes_of(found), listed.get(found.seed, set())
        if causes != due:
            wrong += 1
            print(f"known.md says of it: {', '.join(sorted(due)) or 'nothing'}")
            print(line_of(found), flush=True)
        totals.progress()
    totals.tell(given.bounds)
    print(f"{totals.done - wrong} as known, {wrong} not")
    return int(wrong > 0)


def first_new(seeds: Sequence[int], given: argparse.Namespace) -> int:
    """Tells the first seed, in the order of their ends, that shows what no known cause explains."""
    for found in all_of(_each(seeds, given), max(1, given.jobs)):
        if "new" in known.causes_of(found):
            check, shown = next(iter(found.wrong.items()))
            print(f"{found.seed} {found.world}: {check}: {shown[0]}")
            return 1
    return 0


def run_one(given: argparse.Namespace) -> int:
    wanted = wanted_of(given.seed, given)
    wanted.prints = wanted.logs = given.trace
    found = one(wanted)
    print(line_of(found))
    if given.trace:
        print(f"figures: {found.figures}")
    if found.failed and given.shrink:
        wanted.prints, wanted.logs = False, True
        shrinking = Shrinking(wanted, lambda text: print(text, flush=True))
        print(line_of(shrinking.shrink()))
        print(*told(shrinking.smallest), sep="\n")
        print(*timeline(shrinking.smallest), sep="\n")
    return int(found.failed)


def main() -> int:
    given = parser().parse_args()
    if given.mutants is not None:
        from .mutants import find_all

        return find_all(given.mutants, given.most, given.jobs)
    if given.gate:
        return run_gate(given)
    if given.first_new:
        return first_new(given.seeds or range(1, given.most + 1), given)
    if given.seed is not None:
        return run_one(given)
    return run_many(given.seeds or range(1, 21), given)


__all__ = ["main", "world_of"]
