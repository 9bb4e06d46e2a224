"""What `tools/build --unproved` keeps, how it marks what it builds, and what of the sources it relies on. It builds nothing
here, which takes minutes."""
import shutil
import subprocess
import tempfile
from collections.abc import Iterator
from pathlib import Path
from unittest import mock

import library
from building import kit, marks, proved, unproved
from inputs import TOP

Tried = tuple[str, bool]


def run() -> Iterator[Tried]:
    """What was tried, and whether it is as written."""
    with tempfile.TemporaryDirectory(prefix="builds.") as folder:
        yield from try_kept(Path(folder))
    with tempfile.TemporaryDirectory(prefix="builds.") as folder:
        yield from try_marks(Path(folder))
    with tempfile.TemporaryDirectory(prefix="builds.") as folder:
        yield from try_version(Path(folder))
    exports = [name for _, name, _ in unproved.exports_of(TOP / "crates/hourstable_c/src")]
    yield "the exports that are built are those of the header", sorted(exports) == sorted(library.functions())


def keep(target: str, crate: kit.Crate) -> Path:
    """Lays a file as if the target had been built."""
    file = unproved.made_by(target)
    file.write_text("built", encoding="ascii")
    unproved.stamp_of(file).write_text(unproved.digest(target, crate), encoding="ascii")
    return file


def try_kept(folder: Path) -> Iterator[Tried]:
    """Of two programs, one stands on the crate of which a file is changed."""
    crates = kit.crates()
    with mock.patch.object(unproved, "OUT", folder):
        above, apart = keep("slicer_run", crates["slicer_run"]), keep("lock_bench", crates["lock_bench"])
        unproved.drop_others(crates)
        yield "what was built of these sources is kept", above.is_file() and apart.is_file()
        code_of = unproved.code_of
        more = folder / "more.rt"
        more.write_text("// another file\n", encoding="ascii")
        with mock.patch.object(unproved, "code_of", lambda it: code_of(it) + [more] * (it.name == "service")):
            yield "a changed source builds anew what stands on it", not unproved.is_made("slicer_run", crates["slicer_run"])
            unproved.drop_others(crates)
        yield "what was built of other sources is dropped, and nothing else", not above.exists() and apart.is_file()


def try_marks(folder: Path) -> Iterator[Tried]:
    """A program with the section, one beside the note, and one with neither."""
    plain, marked = folder / "plain", folder / "marked"
    shutil.copy("/bin/true", plain)
    (folder / "mark").write_text(marks.TEXT, encoding="ascii")
    subprocess.run(["objcopy", f"--add-section={marks.SECTION}={folder / 'mark'}", plain, marked], check=True)
    found = [marks.is_unproved(plain), marks.is_unproved(marked)]
    (folder / marks.NOTE).write_text(marks.TEXT, encoding="ascii")
    yield "what is not proved is known by its section and by its folder", [*found, marks.is_unproved(plain)] == [False, True, True]
    yield "it gets no stamp of a proof", [stamped(folder, plain), stamped(folder, marked)] == [True, False]


def stamped(folder: Path, program: Path) -> bool:
    """Whether a program that stands in a crate's out/ after a run of rt ci is taken as proved."""
    crate = mock.Mock(folder=str(folder), is_program=True, stamp=lambda: "stamp")
    crate.name = "it"
    (folder / "out").mkdir(exist_ok=True)
    shutil.copy(program, folder / "out/it")
    (folder / "out/it.stamp").unlink(missing_ok=True)
    proved.lay_stamps([crate])
    return (folder / "out/it.stamp").is_file()


def try_version(folder: Path) -> Iterator[Tried]:
    copy = unproved.unproved_version(folder, kit.crates()[unproved.VERSION_CRATE])
    text = (copy / unproved.VERSION_FILE).read_text(encoding="utf-8")
    yield "its version says that it is not proved", "{LIBRARY_VERSION} (NOT proved; " in text
