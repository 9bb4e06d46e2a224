"""What runs in this checkout use: a Python with the packages, the library, and the program that audits."""

import importlib.util
import os
import sys
from pathlib import Path
from typing import NamedTuple

TOP = Path(__file__).resolve().parents[2]
SYSTEM = "/usr/bin/python3"
sys.path[:0] = [str(TOP / "python"), str(TOP / "tools")]

import built  # noqa: E402
from hourstable import installed  # noqa: E402

Missing = built.Missing


class Used(NamedTuple):
    """The shared object of the library, and the program `hourstable`."""

    library: Path
    program: Path


def run_with_packages() -> None:
    """Goes on in a Python that has the packages: this one, or the one of the system."""
    lacking = [name for name in installed.MODULES if importlib.util.find_spec(name) is None]
    if not lacking:
        return
    if os.path.realpath(sys.executable) != os.path.realpath(SYSTEM) and os.path.exists(SYSTEM):
        os.execv(SYSTEM, [SYSTEM, *sys.argv])
    sys.exit(f"{sys.argv[0]}: there is no {', '.join(lacking)}: `tools/setup demo` installs what is missing")


def used(room: Path) -> Used:
    """Returns those that HOURSTABLE_LIBRARY and HOURSTABLE_PROGRAM name, if both do, or else those that
    tools/built.py finds, and lays in a folder if need be. Raises Missing."""
    library, program = os.environ.get("HOURSTABLE_LIBRARY"), os.environ.get(installed.PROGRAM)
    if library and program:
        return Used(Path(library).resolve(), Path(program).resolve())
    found = built.find(room)
    return Used(found.shared, found.program("hourstable"))
