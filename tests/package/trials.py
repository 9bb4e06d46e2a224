"""Each package is installed where the kit and this checkout are not, and is used there."""
import shutil
import subprocess
import sys
import tempfile
from collections.abc import Iterator
from pathlib import Path

from inputs import TOP, Inputs, kit, tracked, version

PARTS = Path(__file__).resolve().parent
UNSHARE = (("unshare", "--mount", "--net"), ("unshare", "--map-root-user", "--mount", "--net"))
TRIALS = {"wheel": (), "tarball": (), "debian": ("--root",)}
EXAMPLES = ("examples/c", "examples/python", "examples/scripts")
SHARED = ("tools/setup", "tools/needed")


def can(*words: str) -> bool:
    """Whether a command ends well."""
    try:
        return subprocess.run(words, capture_output=True, check=False).returncode == 0
    except OSError:
        return False


def lay(folder: Path, packages: Path) -> None:
    """What a trial needs: the packages, the scripts, and examples with what they print."""
    shutil.copytree(packages, folder / "packages")
    shutil.copytree(PARTS, folder / "parts", ignore=shutil.ignore_patterns("__pycache__"))
    for path in tracked(*EXAMPLES, *SHARED):
        (folder / path).parent.mkdir(parents=True, exist_ok=True)
        shutil.copy(TOP / path, folder / path)
    shutil.copytree(TOP / "crates/slicer_live", folder / "examples/slicer_live", ignore=shutil.ignore_patterns("out"))


def command(name: str, number: str, folder: Path, words: tuple[str, ...]) -> list[str]:
    """The trial, apart from the kit and this checkout if the system lets it be."""
    script = ["bash", f"parts/try-{name}", version(), number]
    hidden = [str(folder), str(kit()), str(TOP), "--"]
    for unshare in UNSHARE:
        apart = [*unshare, sys.executable, str(PARTS / "apart.py"), *words, *hidden]
        if can(*apart, "true"):
            return [*apart, *script]
    if words:
        return ["echo", "a root of its own (unshare, overlay): FAILED"]
    print(f"{name}: the system does not let it be apart: the kit and this checkout are only off the PATH", flush=True)
    return ["env", "-i", f"HOME={folder}", "PATH=/usr/bin:/bin", *script]


def run(inputs: Inputs, packages: Path) -> Iterator[tuple[str, bool]]:
    """Whether each thing that was tried is as written. What a script leaves out has failed."""
    for name, words in TRIALS.items():
        with tempfile.TemporaryDirectory(prefix="trial.") as made:
            folder = Path(made).resolve()
            lay(folder, packages)
            said = subprocess.run(command(name, inputs.version, folder, words), cwd=folder, capture_output=True, text=True, check=False)
            tried = 0
            for line in said.stdout.splitlines():
                what, colon, how = line.rpartition(": ")
                if colon and how in ("as written", "FAILED"):
                    tried += 1
                    yield f"{name}: {what}", how == "as written"
                elif line.startswith("skipped"):
                    yield f"{name}: {line}", False
                else:
                    print(f"{name}: {line}", flush=True)
            if said.returncode != 0 or not tried:
                print(said.stderr[-2000:], flush=True)
                yield f"{name}: its trial", False
