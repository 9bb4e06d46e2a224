"""dist/ of the repository: the wheel, what is inside, what it was made of, and checksums; and whether it fits the checkout."""
import os
import re
import tempfile
import zipfile
from collections.abc import Callable, Iterator
from dataclasses import dataclass
from pathlib import Path

import bill
import making
import sources
import wheel
from inputs import TOP, Inputs, Missing, epoch, kit, ran, tracked

# What is said of a comparison that is not made, and so neither passed nor failed.
NOT_COMPARED = "not compared"
AGAIN = "the wheel made again"
# The groups of sources that are in the wheel as they are.
PYTHON, INCLUDE = "python/hourstable", "include"


def write(inputs: Inputs, out: Path) -> list[Path]:
    """Writes the folder anew, over proved programs and committed sources."""
    if not inputs.proved:
        raise Missing("dist is made of proved programs, and these are not proved")
    paths = [it for group in sources.GROUPS.values() for it in group]
    dirty = ran("git", "status", "--porcelain", "--", *paths)
    if dirty:
        raise Missing(f"dist is made of what was committed, and this is not:\n{dirty.rstrip()}")
    return fill(inputs, out)


def fill(inputs: Inputs, out: Path) -> list[Path]:
    """The wheel, what is inside, the sources and the checksums, and no other file."""
    out.mkdir(parents=True, exist_ok=True)
    made = make_wheel(inputs, out)
    told = out / sources.NAME
    told.write_text(sources.text(epoch()), encoding="utf-8")
    for it in out.iterdir():
        if it not in (*made, told):
            it.unlink()
    return [*made, told, bill.write_sums([*made, told], out)]


def make_wheel(inputs: Inputs, out: Path) -> list[Path]:
    """The wheel and what is inside."""
    with making.libraries(inputs) as built:
        made = wheel.wheel(inputs, built, out)
    return [made, bill.write(inputs, [made], out)]


@dataclass(frozen=True)
class Finding:
    """What was compared, and how it is: as written, FAILED with a reason, or not compared with a reason."""

    what: str
    why_not: str = ""
    is_compared: bool = True

    def line(self) -> str:
        if not self.is_compared:
            return f"{self.what}: {NOT_COMPARED}: {self.why_not}"
        return f"{self.what}: FAILED: {self.why_not}" if self.why_not else f"{self.what}: as written"


def check(folder: Path, standing: Callable[[], Inputs | None]) -> Iterator[Finding]:
    """Whether the files fit their checksums, which sources have changed, and whether the same wheel is made again of the
    programs that stand."""
    yield from check_sums(folder)
    told = sources.read(folder)
    changed = sources.changed(told)
    for group in sources.GROUPS:
        yield Finding(group, "changed since" if group in changed else "", group not in changed)
    if not {PYTHON, INCLUDE} <= {*changed}:
        yield Finding("the files in the wheel", differing(only_wheel(folder), changed))
    reason = why_not_compared(told, changed)
    inputs = None if reason else standing()
    if reason:
        yield Finding(AGAIN, reason, is_compared=False)
    elif inputs is None:
        yield Finding(AGAIN, "the programs are not there", is_compared=os.environ.get("CI") == "true")
    elif not inputs.proved:
        yield Finding(AGAIN, "the programs are not proved", is_compared=False)
    else:
        yield from check_again(inputs, folder, told)


def check_sums(folder: Path) -> Iterator[Finding]:
    """SHA256SUMS names each other file, and has its checksum."""
    try:
        lines = (folder / bill.SUMS).read_text(encoding="ascii")
    except OSError as why:
        yield Finding(bill.SUMS, str(why.strerror))
        return
    told = {name: found for found, name in re.findall(r"^([0-9a-f]{64})  (\S+)$", lines, re.MULTILINE)}
    there = {it.name for it in folder.iterdir()} - {bill.SUMS}
    for name in sorted(there | told.keys()):
        if name not in there or name not in told:
            yield Finding(name, "there is no such file" if name not in there else f"{bill.SUMS} does not name it")
        else:
            yield Finding(name, "" if bill.sha256(folder / name) == told[name] else "it has another checksum")


def only_wheel(folder: Path) -> Path:
    found = list(folder.glob("*.whl"))
    if len(found) != 1:
        raise Missing(f"{folder.name} has {len(found)} wheels")
    return found[0]


def differing(made: Path, changed: list[str]) -> str:
    """Which files of the package for Python, and which header, in a wheel are not those of the checkout, or nothing. What
    has changed since is not compared."""
    header = "hourstable/include/hourstable.h"
    with zipfile.ZipFile(made) as packed:
        held = {it: packed.read(it) for it in packed.namelist() if it.startswith("hourstable/")}
    other: set[str] = set()
    if INCLUDE not in changed and held.get(header) != (TOP / "include/hourstable.h").read_bytes():
        other.add(header)
    if PYTHON not in changed:
        wanted = {it.removeprefix("python/"): (TOP / it).read_bytes() for it in tracked("python/hourstable")}
        names = held.keys() - wheel.OF_LIBRARY | wanted.keys()
        other |= {it for it in names if held.get(it) != wanted.get(it)}
    return f"other than in the checkout: {', '.join(sorted(other))}" if other else ""


def why_not_compared(told: dict[str, str], changed: list[str]) -> str:
    """Why the bytes of a wheel that is made here say nothing, if so."""
    if changed:
        return f"{', '.join(changed)} changed since"
    try:
        kit()
        here = sources.tools()
    except (Missing, OSError):
        return "kit"
    return next((name for name, value in here.items() if told.get(name) != value), "")


def check_again(inputs: Inputs, folder: Path, told: dict[str, str]) -> Iterator[Finding]:
    """Makes the wheel and the bill again, and compares the bytes."""
    os.environ[sources.EPOCH] = told[sources.EPOCH]
    epoch.cache_clear()
    with tempfile.TemporaryDirectory(prefix="dist.") as room:
        for made in make_wheel(inputs, Path(room)):
            kept = folder / made.name
            is_same = kept.is_file() and kept.read_bytes() == made.read_bytes()
            members = f": {members_of_difference(kept, made)}" if kept.suffix == ".whl" and kept.is_file() else ""
            yield Finding(f"{made.name} made again", "" if is_same else f"other bytes{members}")


def members_of_difference(kept: Path, made: Path) -> str:
    """The files in which two wheels differ."""
    with zipfile.ZipFile(kept) as one, zipfile.ZipFile(made) as other:
        names = {*one.namelist(), *other.namelist()}
        both = {*one.namelist()} & {*other.namelist()}
        return ", ".join(sorted(it for it in names if it not in both or one.read(it) != other.read(it)))
