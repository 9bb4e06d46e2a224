"""The proved programs that the blocks and pictures of the pages run.

A program NAME is taken, in this order, from the folder given by --programs (NAME, NAME/out/NAME), from
crates/NAME/out/NAME of this checkout, or else tools/build proves and builds it there. The archive of the library for
C, libhourstable_c.a, is looked for in the same places.
"""
import subprocess
from pathlib import Path

TOP = Path(__file__).resolve().parents[1]
LIBRARY = "hourstable_c"
ARCHIVE = f"lib{LIBRARY}.a"


class Missing(Exception):
    """There is no such program, and none can be made."""


class Programs:
    """Finds each program once."""

    def __init__(self, folder: Path | None) -> None:
        self.folder = folder
        self.found: dict[str, Path] = {}

    def places(self, crate: str, file: str) -> list[Path]:
        given = [self.folder / file, self.folder / crate / "out" / file] if self.folder else []
        return [*given, TOP / "crates" / crate / "out" / file]

    def find(self, name: str) -> Path:
        """The program of a crate."""
        if name not in self.found:
            self.found[name] = self.look(name, name) or self.make(name)
        return self.found[name]

    def archive(self) -> Path:
        """The library for C."""
        if ARCHIVE not in self.found:
            self.found[ARCHIVE] = self.look(LIBRARY, ARCHIVE) or self.make("libhourstable.a")
        return self.found[ARCHIVE]

    def look(self, crate: str, file: str) -> Path | None:
        return next((it.resolve() for it in self.places(crate, file) if it.is_file()), None)

    def make(self, target: str) -> Path:
        ran = subprocess.run([TOP / "tools/build", target], stdin=subprocess.DEVNULL, stdout=subprocess.PIPE, text=True)
        if ran.returncode:
            raise Missing(f"tools/build {target} makes no such file")
        return Path(ran.stdout.strip())
