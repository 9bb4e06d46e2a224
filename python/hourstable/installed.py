"""What the service needs beside the package: modules of Python, the library, and the program
`hourstable`, which audits."""

import importlib.util
import os
import shutil
import sys
from pathlib import Path

PROGRAM = "HOURSTABLE_PROGRAM"
MODULES = {"aiohttp": "python3-aiohttp", "prometheus_client": "python3-prometheus-client"}


def lacking() -> str | None:
    """Returns a sentence that says what is missing and how to install it, None if nothing is."""
    modules = [name for name in MODULES if importlib.util.find_spec(name) is None]
    if modules:
        return (
            f"there is no {' and no '.join(modules)}: install them by `apt-get install"
            f" {' '.join(MODULES.values())}` or `pip install 'hourstable[service]'`"
        )
    try:
        import hourstable.library  # noqa: F401
    except OSError as why:
        return (
            f"the library cannot be loaded ({why}): install the wheel, which has it, or set"
            " HOURSTABLE_LIBRARY to a libhourstable.so"
        )
    return None


def program(given: str | None = None) -> str | None:
    """Returns the program `hourstable`: the given one, or that of HOURSTABLE_PROGRAM, or the one
    that was installed with this package, or the one in PATH; None if there is none."""
    found = given or os.environ.get(PROGRAM)
    if found:
        return found
    folders = [Path(sys.executable).parent, Path(__file__).resolve().parents[1] / "bin"]
    if os.path.isfile(sys.argv[0]):
        folders.append(Path(sys.argv[0]).absolute().parent)
    beside = os.pathsep.join(map(str, folders))
    return shutil.which("hourstable", path=beside) or shutil.which("hourstable")
