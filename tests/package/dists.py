"""A dist/ is made in another folder. What `tools/package --check` says of it is tried, and of one that was changed."""
import os
import re
import shutil
import subprocess
import tempfile
import zipfile
from collections.abc import Callable, Iterator
from contextlib import contextmanager
from dataclasses import replace
from pathlib import Path
from unittest import mock

import bill
import dist
import library
import sources
from inputs import TOP, Inputs, Missing, tracked

Tried = tuple[str, bool]
ABSENT = "the programs are not there"


@contextmanager
def changed(path: str) -> Iterator[None]:
    """While this lasts, the file of the checkout is read with a byte more."""
    read = sources.content
    with mock.patch.object(sources, "content", lambda it: read(it) + (b"\n" if it == TOP / path else b"")):
        yield


def sum_again(folder: Path) -> None:
    """Has SHA256SUMS fit the files."""
    bill.write_sums(sorted(it for it in folder.iterdir() if it.name != bill.SUMS), folder)


def pack_again(wheel: Path, change: Callable[[str, bytes], bytes]) -> None:
    """Changes files in a wheel, and has SHA256SUMS fit it."""
    with zipfile.ZipFile(wheel) as packed:
        files = [(it, change(it.filename, packed.read(it))) for it in packed.infolist()]
    with zipfile.ZipFile(wheel, "w", zipfile.ZIP_DEFLATED) as packed:
        for info, data in files:
            packed.writestr(info, data)
    sum_again(wheel.parent)


def lines(folder: Path, inputs: Inputs | None) -> list[str]:
    return [it.line() for it in dist.check(folder, lambda: inputs)]


def failures(said: list[str]) -> list[str]:
    return [it for it in said if ": FAILED" in it]


def refuses(what: Callable[[], object], words: str) -> bool:
    try:
        what()
    except Missing as why:
        return words in str(why)
    return False


def run(inputs: Inputs) -> Iterator[Tried]:
    """What was tried, and whether it is as written."""
    with tempfile.TemporaryDirectory(prefix="dists.") as made:
        kept = Path(made) / "kept"
        dist.fill(inputs, kept)
        yield from try_as_it_is(kept, inputs)
        for number, attempt in enumerate((try_wheel, try_python, try_sources, try_kit, try_programs)):
            folder = Path(made) / str(number)
            shutil.copytree(kept, folder)
            yield from attempt(folder, inputs)
    yield from try_refusals(inputs)
    yield from try_needs()


def try_as_it_is(folder: Path, inputs: Inputs) -> Iterator[Tried]:
    said = lines(folder, replace(inputs, proved=False))
    fits = [f"{it}: as written" for it in (*sources.GROUPS, dist.only_wheel(folder).name, "the files in the wheel")]
    yield "dist as it was made fits", not failures(said) and set(fits) <= set(said)
    yield "unproved programs are not compared with it", said[-1] == f"{dist.AGAIN}: not compared: the programs are not proved"
    again = [it.line() for it in dist.check_again(inputs, folder, sources.read(folder))]
    yield "the same wheel and bill are made again", len(again) == 2 and all(it.endswith(": as written") for it in again)
    for where, gate, how in (("in the gate", "true", "FAILED"), ("elsewhere", "", "not compared")):
        with mock.patch.dict(os.environ, CI=gate):
            yield f"what is said where there are no programs, {where}", lines(folder, None)[-1] == f"{dist.AGAIN}: {how}: {ABSENT}"


def try_wheel(folder: Path, inputs: Inputs) -> Iterator[Tried]:
    wheel = dist.only_wheel(folder)
    data = bytearray(wheel.read_bytes())
    data[len(data) // 2] ^= 1
    wheel.write_bytes(data)
    said = failures(list(it.line() for it in dist.check_sums(folder)))
    yield "a changed byte in the wheel is found", said == [f"{wheel.name}: FAILED: it has another checksum"]


def try_python(folder: Path, inputs: Inputs) -> Iterator[Tried]:
    """Files that differ are named, but for those of sources that have changed since."""
    files = {"include": "hourstable/include/hourstable.h", "python/hourstable": "hourstable/keys.py"}
    pack_again(dist.only_wheel(folder), lambda path, data: data + b"\n" * (path in files.values()))
    wanted = "the files in the wheel: FAILED: other than in the checkout: "
    said = failures(lines(folder, None))[:1]
    yield "files in the wheel that are not those of the sources are named", said == [wanted + ", ".join(files.values())]
    for group, left in (("include", "python/hourstable"), ("python/hourstable", "include")):
        with changed(tracked(*sources.GROUPS[group])[0]):
            said = failures(lines(folder, None))[:1]
        yield f"those of {left} also where {group} has changed", said == [wanted + files[left]]


def try_sources(folder: Path, inputs: Inputs) -> Iterator[Tried]:
    """One file of each group."""
    for group, paths in sources.GROUPS.items():
        with changed(tracked(*paths)[0]):
            said, fits = lines(folder, inputs), sources.fits(folder)
        wanted = [f"{group}: not compared: changed since", f"{dist.AGAIN}: not compared: {group} changed since"]
        yield f"a changed file of {group} is told", [it for it in said if "not compared" in it] == wanted and not fits
    yield "without a change the sources fit", sources.fits(folder)


def try_kit(folder: Path, inputs: Inputs) -> Iterator[Tried]:
    told = folder / sources.NAME
    told.write_text(re.sub(r"^kit: .*$", "kit: another-kit", told.read_text(), flags=re.MULTILINE))
    sum_again(folder)
    said = lines(folder, inputs)
    yield "over another kit nothing is compared", not failures(said) and said[-1] == f"{dist.AGAIN}: not compared: kit"


def try_programs(folder: Path, inputs: Inputs) -> Iterator[Tried]:
    """A wheel that was made of other programs."""
    wheel = dist.only_wheel(folder)
    inputs = replace(inputs, programs=inputs.programs | {"slicer_run": inputs.programs["slicer_live"]})
    said = failures([it.line() for it in dist.check_again(inputs, folder, sources.read(folder))])
    script = f"hourstable-{inputs.version}.data/scripts/slicer_run"
    yield "a wheel of other programs is found", bool(said) and said[0].startswith(wheel.name) and script in said[0]


def try_refusals(inputs: Inputs) -> Iterator[Tried]:
    with tempfile.TemporaryDirectory(prefix="dists.") as made:
        is_refused = refuses(lambda: dist.write(replace(inputs, proved=False), Path(made) / "dist"), "not proved")
        yield "unproved programs are refused", is_refused and not any(Path(made).iterdir())


def try_needs() -> Iterator[Tried]:
    """Programs that need more than the C library, or more of it than the wheel's tag says."""
    with tempfile.TemporaryDirectory(prefix="needs.") as made:
        source, program = Path(made) / "it.c", Path(made) / "it"
        for what, text, more in (
            ("libm.so.6", "#include <math.h>\nint main(int n, char **v) { return v[0][0] + (int)cos(n); }", ["-lm"]),
            ("GLIBC_2.99", '__asm__(".symver newer,newer@GLIBC_2.99");\nint newer(void);\nint main(void) { return newer(); }',
             ["-Wl,--unresolved-symbols=ignore-all", stand_in(Path(made))]),
        ):
            source.write_text(text)
            subprocess.run(["gcc", "-O0", source, "-o", program, *more], check=True, capture_output=True)
            yield f"a program that needs {what} is refused", refuses(lambda: library.check_needs(program), what)
        source.write_text("int main(void) { return 0; }")
        subprocess.run(["gcc", source, "-o", program], check=True)
        yield "a program that needs the C library alone is taken", not refuses(lambda: library.check_needs(program), "")


def stand_in(folder: Path) -> str:
    """A library named as the C library, with a function of a version that is not there yet."""
    (folder / "newer.c").write_text("int newer(void) { return 0; }")
    (folder / "newer.map").write_text("GLIBC_2.99 { newer; };")
    made = folder / "newer.so"
    subprocess.run(["gcc", "-shared", "-fPIC", folder / "newer.c", f"-Wl,--version-script={folder / 'newer.map'}",
                    "-Wl,-soname,libc.so.6", "-o", made], check=True)
    return str(made)
