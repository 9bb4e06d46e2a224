"""A tree of files in memory, which is laid out, packed, and compared byte by byte."""
import os
from dataclasses import dataclass, field
from pathlib import Path


@dataclass(frozen=True, order=True)
class File:
    data: bytes
    mode: int = 0o644


@dataclass(frozen=True)
class Link:
    target: str


@dataclass
class Tree:
    """Files and links by their paths."""

    entries: dict[str, File | Link] = field(default_factory=dict)

    def put(self, path: str, data: bytes | Path, mode: int = 0o644) -> None:
        self.entries[path] = File(data.read_bytes() if isinstance(data, Path) else data, mode)

    def link(self, path: str, target: str) -> None:
        self.entries[path] = Link(target)

    def under(self, folder: str) -> "Tree":
        return Tree({f"{folder}/{path}": entry for path, entry in self.entries.items()})

    def files(self) -> list[tuple[str, File]]:
        """The files by their paths, which rise."""
        return sorted((path, it) for path, it in self.entries.items() if isinstance(it, File))

    def folders(self) -> list[str]:
        """Each folder, after the one that it is in."""
        found = {str(it) for path in self.entries for it in Path(path).parents if str(it) != "."}
        return sorted(found)

    def lay(self, folder: Path, epoch: int) -> None:
        """Writes the tree to an empty folder, with these times."""
        for path, entry in self.entries.items():
            place = folder / path
            place.parent.mkdir(parents=True, exist_ok=True)
            if isinstance(entry, Link):
                place.symlink_to(entry.target)
            else:
                place.write_bytes(entry.data)
                place.chmod(entry.mode)
        for place in [*sorted(folder.rglob("*"), reverse=True), folder]:
            if place.is_dir() and not place.is_symlink():
                place.chmod(0o755)
            os.utime(place, (epoch, epoch), follow_symlinks=False)
