"""What the package is known not to survive: the causes, and the seeds that show them (known.md)."""

import re
from pathlib import Path
from typing import NamedTuple

from .run import Found

LIST = Path(__file__).with_name("known.md")
SEEDS = re.compile(r"^Seeds of `([a-z-]+)`: (.*?)$", re.MULTILINE)
RANGE = re.compile(r"(\d+)(?:\.\.(\d+))?")
GATE = re.compile(r"^The gate runs the seeds 1\.\.(\d+)\.$", re.MULTILINE)
MENDED = re.compile(r"^Seeds of faults that are mended: (.*?)$", re.MULTILINE)
HEAD = "## The lists\n\n"
OF_EACH = 3  # seeds of each cause that it runs as well
FOLLOWS = {"unserved", "not_renewed", "waiting"}  # what a task or a plane that has ended brings about


class Cause(NamedTuple):
    """A fault of the package, by what it shows: the checks, and what is found."""

    name: str
    checks: frozenset[str]
    shows: "re.Pattern[str]"
    worlds: frozenset[str] = frozenset()  # in which alone it counts; none: in all


def _cause(name: str, checks: str, shows: str, worlds: str = "") -> Cause:
    return Cause(name, frozenset(checks.split()), re.compile(shows), frozenset(worlds.split()))


CAUSES: tuple[Cause, ...] = ()


def causes_of(found: Found) -> set[str]:
    """Returns the names of the known causes that a run shows, and `new` if it shows something that
    none of them explains."""
    made, is_explained = set[str](), True
    for check, all_of in found.wrong.items():
        for one in all_of:
            name = cause_of(found, check, one)
            made |= {name} if name else set()
            is_explained &= bool(name) or check in FOLLOWS
    if found.wrong and not (is_explained and made):
        made.add("new")
    return made


def cause_of(found: Found, check: str, one: str) -> str:
    """Returns the name of the known cause of a finding, nothing if there is none."""
    return next((it.name for it in CAUSES if _explains(it, found, check, one)), "")


def _explains(cause: Cause, found: Found, check: str, one: str) -> bool:
    if check not in cause.checks or (cause.worlds and found.world not in cause.worlds):
        return False
    return cause.shows.search(one) is not None


def listed() -> dict[int, set[str]]:
    """Returns the seeds of the list, and the causes that each is to show."""
    made: dict[int, set[str]] = {}
    if not LIST.exists():
        return made
    text = re.sub(r"\n(?=\d)", " ", LIST.read_text(encoding="utf-8"))
    for name, seeds in SEEDS.findall(text):
        for first, last in RANGE.findall(seeds):
            for seed in range(int(first), int(last or first) + 1):
                made.setdefault(seed, set()).add(name)
    return made


def gate() -> list[int]:
    """Returns the seeds of the gate: the first ones, those that showed a fault which is mended, and the
    first of those that show each cause."""
    text = LIST.read_text(encoding="utf-8")
    last, mended = GATE.search(text), MENDED.search(text)
    made = set(range(1, int(last[1]) + 1)) if last else set[int]()
    made |= set(map(int, mended[1].split())) if mended else set[int]()
    for name in {name for names in listed().values() for name in names}:
        seeds = sorted(seed for seed, names in listed().items() if name in names)
        made |= set(seeds[:OF_EACH])
    return sorted(made)


def shown_by(all_found: list[Found]) -> dict[int, set[str]]:
    """Returns the seeds of runs, each with the causes that it shows."""
    return {found.seed: causes_of(found) for found in all_found}


def write(all_found: list[Found]) -> None:
    """Writes the lists of known.md anew for the seeds of runs, and leaves those of others."""
    before, _, _ = LIST.read_text(encoding="utf-8").partition(HEAD)
    lines = lists_of({**listed(), **shown_by(all_found)})
    LIST.write_text(before + HEAD + "\n".join(lines) + "\n", encoding="utf-8")


def lists_of(shown: dict[int, set[str]]) -> list[str]:
    """Returns the lines of the list: for each cause the seeds that show it."""
    made = []
    for name in sorted({name for names in shown.values() for name in names}):
        them = sorted(seed for seed, names in shown.items() if name in names)
        words = [f"Seeds of `{name}`:", *map(str, them)]
        line = ""
        for word in words:
            if line and len(line) + len(word) >= 115:
                made.append(line)
                line = word
            else:
                line = f"{line} {word}" if line else word
        made.append(line)
    return made
