"""The packages: a wheel, a tarball, and a package for Debian. Two of one commit and one proof are the same bytes."""
import gzip
import hashlib
import io
import os
import shutil
import tarfile
import tempfile
from collections.abc import Callable
from pathlib import Path

import library
from inputs import Inputs, epoch, ran
from layout import installed
from tree import Link
from wheel import wheel

MULTIARCH = "lib/x86_64-linux-gnu"
SUMMARY = "key ownership for server tasks, by a proved library"


def tarball(inputs: Inputs, built: Path, out: Path) -> Path:
    """hourstable-VERSION/ with the tree that is installed, sorted, of owner 0, and of one time."""
    name = f"hourstable-{inputs.version}"
    tree = installed(inputs, built, "lib", ".").under(name)
    tree.entries = {os.path.normpath(path): entry for path, entry in tree.entries.items()}
    made = out / f"{name}-x86_64-linux.tar.gz"
    held = io.BytesIO()
    with tarfile.open(fileobj=held, mode="w", format=tarfile.USTAR_FORMAT) as tar:
        folders = {it: None for it in tree.folders()}
        for path in sorted([*folders, *tree.entries]):
            entry = tree.entries.get(path)
            info = tarfile.TarInfo(path)
            info.mtime, info.uname, info.gname = epoch(), "root", "root"
            if entry is None:
                info.type, info.mode = tarfile.DIRTYPE, 0o755
                tar.addfile(info)
            elif isinstance(entry, Link):
                info.type, info.linkname, info.mode = tarfile.SYMTYPE, entry.target, 0o777
                tar.addfile(info)
            else:
                info.size, info.mode = len(entry.data), entry.mode
                tar.addfile(info, io.BytesIO(entry.data))
    made.write_bytes(gzip.compress(held.getvalue(), 9, mtime=epoch()))
    return made


def debian(inputs: Inputs, built: Path, out: Path) -> Path:
    """hourstable_VERSION_amd64.deb, with the tree under /usr."""
    tree = installed(inputs, built, MULTIARCH, "share/hourstable").under("usr")
    size = sum(len(it.data) for _, it in tree.files())
    libc = library.least_libc(built / "libhourstable.so", *inputs.programs.values())
    control = {
        "Package": "hourstable", "Version": inputs.version, "Architecture": "amd64", "Section": "libs",
        "Priority": "optional", "Maintainer": "Hourstable <hourstable@localhost>", "Depends": f"libc6 (>= {libc})",
        "Installed-Size": str((size + 1023) // 1024),
        "Description": f"{SUMMARY}\n Programs, the library for C as an archive and as a shared object, its header, and"
                       "\n what Go, Rust and Java need to call it.",
    }
    tree.put("DEBIAN/control", "".join(f"{name}: {value}\n" for name, value in control.items()).encode())
    sums = [f"{hashlib.md5(it.data).hexdigest()}  {path}\n" for path, it in tree.files() if path.startswith("usr/")]
    tree.put("DEBIAN/md5sums", "".join(sums).encode())
    tree.put("DEBIAN/triggers", b"activate-noawait ldconfig\n")
    made = out / f"hourstable_{inputs.version}_amd64.deb"
    with tempfile.TemporaryDirectory() as folder:
        tree.lay(Path(folder), epoch())
        ran("env", f"SOURCE_DATE_EPOCH={epoch()}", "dpkg-deb", "--root-owner-group", "-Zxz", "--build", folder, made)
    return made


Pack = Callable[[Inputs, Path, Path], Path]


def can_be_made() -> list[Pack]:
    """All, but for Debian's if there is no dpkg-deb."""
    return [wheel, tarball, *([debian] if shutil.which("dpkg-deb") else [])]
