"""The archive and the shared object, from what was proved and the kit's two archives."""
import re
import shutil
from pathlib import Path

from inputs import TOP, Inputs, Missing, ran, version

# The newest version of glibc of which a program or the shared object may need something.
GLIBC = "2.34"
NEEDED = {"libc.so.6", "ld-linux-x86-64.so.2"}


def soname() -> str:
    return f"libhourstable.so.{version().partition('.')[0]}"


def merge(inputs: Inputs, folder: Path) -> Path:
    """One archive of the members of all, whose times and owners are 0 as ar writes them."""
    words = ["create libhourstable.a"]
    for number, archive in enumerate((inputs.archive, *inputs.kit_archives)):
        shutil.copy(archive, folder / f"{number}.a")
        words.append(f"addlib {number}.a")
    script = folder / "merge"
    script.write_text("\n".join([*words, "save", "end", ""]), encoding="ascii")
    ran("sh", "-c", "ar -M <merge && ranlib -D libhourstable.a", folder=folder)
    return folder / "libhourstable.a"


def share(inputs: Inputs, folder: Path) -> Path:
    """The shared object. It takes from the kit's archives what it needs, and needs libc alone."""
    out = folder / "libhourstable.so"
    ran(TOP / "tools/link-library", inputs.archive, out)
    return out


def functions() -> set[str]:
    """The functions that the header declares."""
    header = (TOP / "include/hourstable.h").read_text(encoding="utf-8")
    return set(re.findall(r"^(?:int32_t|uint64_t|void) (hs_\w+)\(", header, re.MULTILINE))


def check_shared(shared: Path) -> None:
    """It has its soname, and shows the functions of the header and no other name."""
    dynamic = ran("readelf", "-dW", shared)
    if f"soname: [{soname()}]" not in dynamic:
        raise Missing(f"{shared.name} has another soname than {soname()}")
    shown = {line.split()[-1] for line in ran("nm", "-D", "--defined-only", shared).splitlines()}
    if shown != functions():
        raise Missing(f"{shared.name} shows other names than the header: {sorted(shown ^ functions())}")


def check_archive(archive: Path) -> None:
    """It has each function of the header."""
    lines = ran("nm", "--defined-only", archive).splitlines()
    shown = {words[2] for words in map(str.split, lines) if len(words) == 3 and words[1] == "T"}
    if not functions() <= shown:
        raise Missing(f"{archive.name} lacks {sorted(functions() - shown)}")


def parts(number: str) -> list[int]:
    return [int(it) for it in number.split(".")]


def versions_needed(file: Path) -> set[str]:
    """The names of the versions of other libraries' symbols that a file needs, as GLIBC_2.34."""
    return set(re.findall(r"Name: (\S+)\s+Flags:", ran("readelf", "-VW", file)))


def check_needs(file: Path) -> None:
    """It needs the C library alone, and nothing of it that is newer than GLIBC."""
    needed = set(re.findall(r"\(NEEDED\).*\[(.*)\]", ran("readelf", "-dW", file)))
    if not needed <= NEEDED:
        raise Missing(f"{file.name} needs {', '.join(sorted(needed - NEEDED))}")
    for name in sorted(versions_needed(file)):
        number = re.fullmatch(r"GLIBC_(\d+(?:\.\d+)+)", name)
        if not number or parts(number[1]) > parts(GLIBC):
            raise Missing(f"{file.name} needs {name}, and it may need GLIBC_{GLIBC} at most")


def least_libc(*files: Path) -> str:
    """The least version of glibc that has all that these files take from it."""
    return max((it.removeprefix("GLIBC_") for file in files for it in versions_needed(file)), key=parts)
