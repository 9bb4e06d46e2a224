"""The built programs and libraries of this checkout, in one folder:

  bin/hourstable  bin/slicer_run  bin/slicer_live
  lib/libhourstable.a  lib/libhourstable.so  include/hourstable.h

HOURSTABLE_BUILT names such a folder: an unpacked tarball is one. If it is not set, `find` lays one, of the first of
these that fits the sources:

  1. crates/*/out, if they hold what a proof built
  2. the wheel of dist/, if its programs and libraries were made of the crates and the header as they are
  3. with a kit, an unproved build by `tools/build --unproved`

libhourstable.a has the archives of the kit in it, so that C is linked with it alone.
"""
import importlib.util
import os
import re
import shutil
import subprocess
import sys
import tempfile
import zipfile
from collections.abc import Iterable
from importlib.machinery import SourceFileLoader
from pathlib import Path
from types import ModuleType
from typing import NamedTuple

TOP = Path(__file__).resolve().parents[1]
DIST = TOP / "dist"
PROGRAMS = ("hourstable", "slicer_run", "slicer_live")
SHARED, ARCHIVE, HEADER = "lib/libhourstable.so", "lib/libhourstable.a", "include/hourstable.h"
FILES = (*(f"bin/{it}" for it in PROGRAMS), SHARED, ARCHIVE)
TARGETS = ("libhourstable.so", "libhourstable.a", *PROGRAMS)
NOTHING = "neither crates/*/out nor dist/ was made of these crates, and there is no kit (rt) that builds them"
sys.path.append(str(TOP / "tools/packaging"))


class Missing(Exception):
    """Something that was to be built is not there."""


class Built(NamedTuple):
    """A folder, and what it holds, in words."""

    folder: Path
    what: str

    def program(self, name: str) -> Path:
        return self.folder / "bin" / name

    @property
    def shared(self) -> Path:
        return self.folder / SHARED

    @property
    def archive(self) -> Path:
        return self.folder / ARCHIVE


def find(room: Path, after_ci: bool = False) -> Built:
    """Returns what HOURSTABLE_BUILT names, or else what is laid in `room`. With `after_ci` it is what a run of
    `rt ci` has just left in this checkout."""
    given = os.environ.get("HOURSTABLE_BUILT")
    if given:
        return checked(Built(Path(given).resolve(), f"over HOURSTABLE_BUILT, {given}"))
    has_kit = shutil.which("rt") is not None
    if after_ci or has_kit and is_proved():
        return lay_build(room, "over what was proved here", "--after-ci" if after_ci else "")
    if wheel_fits():
        return lay_wheel(room)
    if has_kit:
        return lay_build(room, "over an unproved build: NOT proved", "--unproved")
    raise Missing(NOTHING)


def checked(built: Built) -> Built:
    """Fails if a file is not there."""
    missing = [it for it in FILES if not (built.folder / it).is_file()]
    if missing:
        raise Missing(f"{built.folder} has no {', '.join(missing)}")
    return built


def is_proved() -> bool:
    """Whether crates/*/out hold what a proof built of the crates as they are, by the stamps of tools/build."""
    build = script("build")
    crates = {it.name: it for it in build.rtlib.crates_below(str(TOP / "crates"))}
    return all(build.is_made(crates[it]) for it in (build.LIBRARY, *PROGRAMS))


def script(name: str) -> ModuleType:
    """Loads a script of tools/ as a module."""
    spec = importlib.util.spec_from_loader(name, SourceFileLoader(name, str(TOP / "tools" / name)))
    assert spec is not None and spec.loader is not None
    module = importlib.util.module_from_spec(spec)
    spec.loader.exec_module(module)
    return module


def lay_build(room: Path, what: str, option: str) -> Built:
    """Lays what tools/build says that it has built."""
    words = [str(TOP / "tools/build"), *([option] if option else []), *TARGETS]
    ran = subprocess.run(words, stdin=subprocess.DEVNULL, stdout=subprocess.PIPE, text=True, check=False)
    if ran.returncode:
        raise Missing(f"{' '.join([f'tools/build {option}'.strip(), *TARGETS])} failed")
    shared, archive, *programs = map(Path, ran.stdout.split())
    for program in programs:
        lay(program, room / "bin" / program.name)
    lay(shared, room / SHARED)
    kit = Path(subprocess.run(["rt", "doc"], check=True, stdout=subprocess.PIPE, text=True).stdout.split()[-1]).parent
    merge([archive, kit / "c/liblibc_c.a", kit / "c/libos_c.a"], room / ARCHIVE)
    return finished(Built(room, what))


def lay(file: Path, place: Path) -> None:
    place.parent.mkdir(parents=True, exist_ok=True)
    shutil.copy(file, place)


def merge(archives: Iterable[Path], made: Path) -> None:
    """One archive of the members of all."""
    made.parent.mkdir(parents=True, exist_ok=True)
    with tempfile.TemporaryDirectory() as folder:
        script_lines = ["create made.a"]
        for number, archive in enumerate(archives):
            shutil.copy(archive, f"{folder}/{number}.a")
            script_lines.append(f"addlib {number}.a")
        given = "\n".join([*script_lines, "save", "end", ""])
        subprocess.run(["ar", "-M"], cwd=folder, input=given, text=True, check=True, stdout=subprocess.DEVNULL)
        subprocess.run(["ranlib", "made.a"], cwd=folder, check=True)
        shutil.copy(f"{folder}/made.a", made)


def finished(built: Built) -> Built:
    """Adds the header, and the name under which a program that was linked finds the shared object."""
    lay(TOP / HEADER, built.folder / HEADER)
    found = re.search(r"^#define HS_LIBRARY_MAJOR (\d+)$", (TOP / HEADER).read_text(encoding="utf-8"), re.MULTILINE)
    assert found is not None
    soname = built.folder / f"{SHARED}.{found[1]}"
    soname.unlink(missing_ok=True)
    soname.symlink_to(Path(SHARED).name)
    return checked(built)


def wheel_of(dist: Path) -> Path | None:
    """The wheel of a folder, if it has one."""
    found = sorted(dist.glob("hourstable-*.whl"))
    return found[-1] if found else None


def wheel_fits() -> bool:
    """Whether dist/ has a wheel, and its SOURCES has the digests of the crates and the header of the checkout. What
    else is in a wheel, as the package for Python, is tested as the checkout has it."""
    if wheel_of(DIST) is None:
        return False
    sources, inputs = map(importlib.import_module, ("sources", "inputs"))
    try:
        return not {"crates", "include"}.intersection(sources.changed(sources.read(DIST)))
    except inputs.Missing:
        return False


def lay_wheel(room: Path) -> Built:
    """Lays the files of the wheel, which are known by their names, wherever it has them."""
    wheel = wheel_of(DIST)
    assert wheel is not None
    wanted = {Path(it).name: room / it for it in FILES}
    with zipfile.ZipFile(wheel) as packed:
        for name in packed.namelist():
            place = wanted.get(Path(name).name)
            if place is not None and not name.endswith("/"):
                place.parent.mkdir(parents=True, exist_ok=True)
                place.write_bytes(packed.read(name))
                place.chmod(0o755 if place.parent.name == "bin" else 0o644)
    return finished(Built(room, f"over dist/{wheel.name}, of these crates"))
