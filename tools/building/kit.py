"""The kit, its module rtlib, and the crates of this checkout."""
import functools
import subprocess
import sys
from collections.abc import Iterable
from pathlib import Path
from typing import Any

TOP = Path(__file__).resolve().parents[2]
LIBRARY = "hourstable_c"
ARCHIVE = f"lib{LIBRARY}.a"
SHARED = "libhourstable.so"
# The targets that are no crate, and the file that each is made from or is.
LIBRARIES = {SHARED: SHARED, "libhourstable.a": ARCHIVE}

Crate = Any


def _said(what: str) -> str:
    try:
        return subprocess.run(["rt", what], check=True, capture_output=True, text=True).stdout
    except (OSError, subprocess.CalledProcessError):
        sys.exit("build: there is no rt: building needs the kit that README.md names")


KIT = Path(_said("doc").split()[-1]).parent
ARCHIVES = [str(KIT / "c" / it) for it in ("libos_c.a", "liblibc_c.a")]
sys.path.insert(0, str(KIT / "bin"))
import rtlib  # type: ignore[import]  # noqa: E402

__all__ = ["rtlib"]


@functools.cache
def identity() -> str:
    """What `rt version` says."""
    return _said("version").strip()


def crates() -> dict[str, Crate]:
    """The crates of this checkout by their names."""
    return {it.name: it for it in rtlib.crates_below(str(TOP / "crates"))}


def crate_name(target: str) -> str:
    """The crate of a target."""
    return LIBRARY if target in LIBRARIES else target


def file_of(crate: Crate) -> str:
    """The file that a crate is built as."""
    return f"lib{crate.name}.a" if crate.is_static else str(crate.name)


def wanted_by(targets: Iterable[Crate]) -> list[Crate]:
    """The targets and all that they stand on, each after those that it uses."""
    found: list[Crate] = []
    for target in targets:
        found += [it for it in (*target.below(), target) if it not in found]
    return found


def share(archive: Path, made: Path) -> Path:
    """Links the archive of the library as a shared object."""
    subprocess.run([TOP / "tools/link-library", archive, made], check=True)
    return made


def tell(line: str) -> None:
    print(line, file=sys.stderr, flush=True)


def told(seconds: float) -> str:
    return f"{seconds:.0f} s" if seconds < 90 else f"{seconds / 60:.0f} min"
