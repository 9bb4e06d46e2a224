"""What packages are made of, as digests of files of the checkout, and with what, as names of tools."""
import hashlib
import os
import re
import zlib
from pathlib import Path

from inputs import TOP, Missing, ran

NAME = "SOURCES"
# Each group of files that git knows, and its paths.
GROUPS = {
    "crates": ("crates", "crates.txt", "HANDLES"),
    "python/hourstable": ("python/hourstable", "python/pyproject.toml"),
    "include": ("include",),
    "packaging": ("packaging", "LICENSE"),
    "tools/packaging": ("tools/packaging", "tools/link-library"),
}
EPOCH = "SOURCE_DATE_EPOCH"


def content(path: Path) -> bytes:
    """The bytes of a file, or where a link leads."""
    if path.is_symlink():
        return os.fsencode(os.readlink(path))
    try:
        return path.read_bytes()
    except OSError as why:
        raise Missing(f"{path.relative_to(TOP)}: {why.strerror}") from why


def digest(group: str) -> str:
    """The SHA-256 of the files of a group that git knows, as they are: paths, which rise, with modes and content."""
    found = hashlib.sha256()
    for line in sorted(filter(None, ran("git", "ls-files", "-s", "-z", "--", *GROUPS[group]).split("\0")), key=path_in):
        path, data = path_in(line), content(TOP / path_in(line))
        found.update(f"{line.split()[0]} {len(data)} {path}\n".encode() + data)
    return found.hexdigest()


def path_in(line: str) -> str:
    return line.partition("\t")[2]


def digests() -> dict[str, str]:
    return {group: digest(group) for group in GROUPS}


def tools() -> dict[str, str]:
    """What else the bytes of a wheel depend on: the kit, the linker and the compression."""
    linker = ran("ld", "--version").splitlines()[0]
    return {"kit": ran("rt", "version").strip(), "linker": linker, "zlib": zlib.ZLIB_RUNTIME_VERSION}


def text(when: int) -> str:
    """A line for each group, each tool, and the time."""
    told = digests() | tools() | {EPOCH: str(when)}
    return "".join(f"{name}: {value}\n" for name, value in told.items())


def read(folder: Path) -> dict[str, str]:
    """What the file of a folder says."""
    try:
        lines = (folder / NAME).read_text(encoding="utf-8").splitlines()
    except OSError as why:
        raise Missing(f"{folder.name}/{NAME}: {why.strerror}") from why
    told = dict(re.findall(r"^(\S+): (.+)$", "\n".join(lines), re.MULTILINE))
    lacking = [it for it in (*GROUPS, "kit", EPOCH) if it not in told]
    if lacking:
        raise Missing(f"{folder.name}/{NAME} has no {', '.join(lacking)}")
    return told


def changed(told: dict[str, str]) -> list[str]:
    """The groups of which the checkout has other files."""
    return [group for group, found in digests().items() if told[group] != found]


def fits(folder: Path) -> bool:
    """Whether the checkout has all the files that the packages of a folder were made of."""
    try:
        return not changed(read(folder))
    except Missing:
        return False
