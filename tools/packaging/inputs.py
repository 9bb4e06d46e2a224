"""What packages are made of: the programs and the archive, the kit's archives and licences, and files of the commit."""
import functools
import os
import re
import subprocess
import sys
from dataclasses import dataclass
from pathlib import Path

TOP = Path(__file__).resolve().parents[2]
sys.path.append(str(TOP / "tools"))

from building.marks import is_unproved  # noqa: E402
from programs import ARCHIVE, LIBRARY, Programs  # noqa: E402

PROGRAMS = ("hourstable", "slicer_run", "slicer_live")


class Missing(Exception):
    """Something that a package is made of is not there."""


def ran(*words: str | Path, folder: Path = TOP) -> str:
    """What a command prints."""
    done = subprocess.run(words, cwd=folder, capture_output=True, text=True, check=False)
    if done.returncode != 0:
        raise Missing(f"{' '.join(map(str, words))}: {done.stderr.strip()[-500:]}")
    return done.stdout


@functools.cache
def version() -> str:
    """That of the header."""
    found = re.search(r'^#define HS_LIBRARY_VERSION "(.+)"$', text_of("include/hourstable.h"), re.MULTILINE)
    if not found:
        raise Missing("include/hourstable.h gives no version")
    return found[1]


@functools.cache
def epoch() -> int:
    """When the packages were made, as they tell: SOURCE_DATE_EPOCH, or else the time of the commit."""
    return int(os.environ.get("SOURCE_DATE_EPOCH") or ran("git", "log", "-1", "--format=%ct"))


@functools.cache
def kit() -> Path:
    return Path(ran("rt", "doc").splitlines()[-1]).parent


def text_of(path: str) -> str:
    return (TOP / path).read_text(encoding="utf-8")


def tracked(*folders: str) -> list[str]:
    """The files of folders that git knows, by their paths from the top."""
    return sorted(it for it in ran("git", "ls-files", "-z", "--", *folders).split("\0") if it)


def filled(path: str, **words: str) -> bytes:
    """A template with its words: each @WORD@ is replaced."""
    text = text_of(path)
    for word, value in words.items():
        text = text.replace(f"@{word}@", value)
    left = re.search(r"@[A-Z]+@", text)
    if left:
        raise Missing(f"{path}: nothing stands for {left[0]}")
    return text.encode()


@dataclass(frozen=True)
class Inputs:
    """What was built, whether it was proved, and the kit's archives that it is linked with."""

    programs: dict[str, Path]
    archive: Path
    kit_archives: tuple[Path, ...]
    proved: bool

    @property
    def version(self) -> str:
        """That of the packages. It says so if something in them is not proved."""
        return version() + ("" if self.proved else "+unproved")

    @staticmethod
    def found(folder: Path | None) -> "Inputs":
        """From the folder, or else as the gate leaves them in crates/NAME/out, or as tools/build proves them there."""
        given = Programs(folder)
        return Inputs.of({it: given.find(it) for it in PROGRAMS}, given.archive())

    @staticmethod
    def proved_here(after_ci: bool) -> "Inputs":
        """As tools/build proves them where they are not proved of the sources as they are."""
        words = [str(TOP / "tools/build"), *(["--after-ci"] if after_ci else []), "libhourstable.a", *PROGRAMS]
        done = subprocess.run(words, stdin=subprocess.DEVNULL, stdout=subprocess.PIPE, text=True, check=False)
        if done.returncode:
            raise Missing("tools/build has not proved them all")
        archive, *programs = map(Path, done.stdout.split())
        return Inputs.of(dict(zip(PROGRAMS, programs)), archive)

    @staticmethod
    def standing(folder: Path | None) -> "Inputs | None":
        """From the folder, or else as the gate leaves them, or None if one is not there."""
        given = Programs(folder)
        programs = {it: found for it in PROGRAMS if (found := given.look(it, it))}
        archive = given.look(LIBRARY, ARCHIVE)
        return Inputs.of(programs, archive) if archive and len(programs) == len(PROGRAMS) else None

    @staticmethod
    def of(programs: dict[str, Path], archive: Path) -> "Inputs":
        kit_archives = tuple(kit() / "c" / it for it in ("liblibc_c.a", "libos_c.a"))
        return Inputs(programs, archive, kit_archives, not any(map(is_unproved, (*programs.values(), archive))))
