"""One version: that of `hourstable --version`, the header, each package of Python and Rust, and CHANGELOG.md."""
import re
import subprocess
from collections.abc import Iterator
from pathlib import Path

from built import Built
from pages import TOP, Fault, Result, repository_files

NUMBER = r"(\d+\.\d+\.\d+)"
HEADER = re.compile(rf'^#define HS_LIBRARY_VERSION "{NUMBER}"$', re.MULTILINE)
PROJECT = re.compile(rf'^version = "{NUMBER}"$', re.MULTILINE)
CHANGES = re.compile(rf"^## \[?v?{NUMBER}\b", re.MULTILINE)


def written(path: str, pattern: re.Pattern[str]) -> str | None:
    """The first version that a file gives."""
    place: Path = TOP / path
    match = pattern.search(place.read_text(encoding="utf-8")) if place.is_file() else None
    return match[1] if match else None


def told(built: Built) -> str | None:
    """The version that the program prints."""
    try:
        words = [str(built.program("hourstable")), "--version"]
        ran = subprocess.run(words, input="", capture_output=True, text=True, timeout=120, check=False)
    except (OSError, subprocess.TimeoutExpired):
        return None
    match = re.match(rf"hourstable {NUMBER}\b", ran.stdout)
    return match[1] if match and ran.returncode == 0 else None


def is_project(path: str) -> bool:
    """Whether a file gives the version of a package. The file of a workspace gives none."""
    name = path.rpartition("/")[2]
    return name == "pyproject.toml" or (name == "Cargo.toml" and "[workspace]" not in (TOP / path).read_text())


def check(built: Built) -> Iterator[Result]:
    """A result for each place that gives the version; the first is what the others are compared with."""
    newest = written("CHANGELOG.md", CHANGES)
    if newest is None:
        yield Result("CHANGELOG.md", [Fault("CHANGELOG.md", 1, "no heading `## X.Y.Z` gives the newest version")])
    places = {"include/hourstable.h": written("include/hourstable.h", HEADER), "hourstable --version": told(built)}
    places |= {it: written(it, PROJECT) for it in repository_files() if is_project(it)}
    for place, version in places.items():
        why = f"version {version}, and the newest of CHANGELOG.md is {newest}" if version else "gives no version"
        yield Result(place, [] if version and version == newest else [Fault(place, 1, why)])
