"""The licence of the repository, and the kit's crates that are in the packages, with theirs.

A crate of the kit that follows a crate of crates.io has that crate's licence files in its folder. Of the others the
kit states no licence.
"""
import functools
import re
from dataclasses import dataclass
from pathlib import Path

from inputs import PROGRAMS, Missing, kit, text_of

OWN, HOLDER = "Apache-2.0", "Copyright The Hourstable authors"
ROOTS = (*PROGRAMS, "hourstable_c")
KINDS = {"Apache License": "Apache-2.0", "Permission is hereby granted": "MIT", "Boost Software License": "BSL-1.0"}


@dataclass(frozen=True)
class Crate:
    """A crate of the kit, the version of crates.io that it follows, if any, and its licence files."""

    name: str
    follows: str | None
    files: tuple[Path, ...]

    def licence(self) -> str | None:
        """An SPDX expression: a crate with LICENSE-APACHE and LICENSE-MIT is under either; else all files hold."""
        kinds = [kind_of(it) for it in self.files]
        either = {it.name for it in self.files} == {"LICENSE-APACHE", "LICENSE-MIT"}
        return (" OR " if either else " AND ").join(sorted(set(kinds))) or None


def kind_of(file: Path) -> str:
    text = " ".join(file.read_text(encoding="utf-8").split())
    for words, kind in KINDS.items():
        if words in text[:2000]:
            return kind
    raise Missing(f"{file} is no licence that is known here")


def crates_below(name: str) -> list[str]:
    """The crates of the kit below one of its crates."""
    folder = kit() / f"rlibs/{name}.rlib/below"
    return [it.stem for it in folder.iterdir()] if folder.is_dir() else []


@functools.cache
def crates() -> tuple[Crate, ...]:
    """The crates of the kit in the programs and the archive, as crates.txt and the kit name them."""
    named = {}
    for line in text_of("crates.txt").splitlines():
        head, colon, rest = line.partition(":")
        if colon:
            named[head.split()[0]] = rest.split()
    found: set[str] = set()
    waiting = list(ROOTS)
    while waiting:
        name = waiting.pop()
        for below in named.get(name, ()) if name in named else crates_below(name):
            if below not in found:
                found.add(below)
                waiting.append(below)
    return tuple(map(crate_of, sorted(found - named.keys())))


def crate_of(name: str) -> Crate:
    folder = kit() / "rattle" / name
    files = tuple(sorted(it for it in folder.glob("LICENSE*") if it.is_file()))
    readme = folder / "README.md"
    text = readme.read_text(encoding="utf-8") if readme.is_file() else ""
    follows = re.search(r"[Tt]he Rust crate `[\w-]+` (\d+\.\d+\.\d+)", text)
    return Crate(name, follows[1] if follows else None, files)


def copyright_page() -> str:
    """The licences of what is inside, and no more than is stated."""
    lines = [f"Hourstable: {HOLDER}", f"Licensed under the Apache License, Version 2.0 ({OWN}): LICENSE, beside this file.",
             "", f"The programs and the libraries hold these crates of {kit_name()}.",
             "Files of their licences are in the folder of the crate below licences/, beside this file.", ""]
    for crate in crates():
        follows = f", after {crate.name} {crate.follows} of crates.io" if crate.follows else ""
        lines.append(f"{crate.name}{follows}: {crate.licence() or 'the kit states no licence'}")
    return "\n".join([*lines, ""])


def kit_name() -> str:
    return (kit() / "KIT-ID").read_text(encoding="utf-8").split()[0]
