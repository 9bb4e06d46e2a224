"""The wheel: the package for Python, the library with its header, and the programs. It needs the C library alone."""
import base64
import hashlib
import time
import tomllib
import zipfile
from pathlib import Path
from typing import Any

import library
import licences
from inputs import TOP, Inputs, epoch, filled, text_of, tracked, version
from tree import Tree

TAG = f"py3-none-manylinux_{library.GLIBC.replace('.', '_')}_x86_64"
# Where the files of the library are below the package's folder, which has the shared object itself.
LIBDIR = "lib"
OF_LIBRARY = {f"hourstable/{LIBDIR}/libhourstable.a", f"hourstable/{LIBDIR}/pkgconfig/hourstable.pc",
              "hourstable/include/hourstable.h", "hourstable/libhourstable.so"}


def project() -> dict[str, Any]:
    found: dict[str, Any] = tomllib.loads(text_of("python/pyproject.toml"))["project"]
    return found


def name_of(inputs: Inputs) -> str:
    return f"hourstable-{inputs.version}-{TAG}.whl"


def metadata(number: str, licence_files: list[str]) -> str:
    """The METADATA, from [project] of pyproject.toml."""
    told = project()
    lines = ["Metadata-Version: 2.4", f"Name: {told['name']}", f"Version: {number}", f"Summary: {told['description']}",
             *(f"Author: {it['name']}" for it in told.get("authors", ())),
             f"License-Expression: {told['license']['text']}", *(f"License-File: {it}" for it in licence_files),
             f"Requires-Python: {told['requires-python']}"]
    lines += [f"Requires-Dist: {it}" for it in told.get("dependencies", ())]
    for extra, needs in told.get("optional-dependencies", {}).items():
        lines += [f"Provides-Extra: {extra}", *(f'Requires-Dist: {it}; extra == "{extra}"' for it in needs)]
    return "\n".join([*lines, ""])


def put_library(tree: Tree, built: Path) -> None:
    tree.put("hourstable/libhourstable.so", built / "libhourstable.so", 0o755)
    tree.put(f"hourstable/{LIBDIR}/libhourstable.a", built / "libhourstable.a")
    tree.put("hourstable/include/hourstable.h", TOP / "include/hourstable.h")
    words = {"VERSION": version(), "LIBDIR": LIBDIR, "UP": "../.."}
    tree.put(f"hourstable/{LIBDIR}/pkgconfig/hourstable.pc", filled("packaging/hourstable.pc.in", **words))


def put_licences(tree: Tree, info: str) -> list[str]:
    """Puts the licences of all that is inside, and returns their paths."""
    found: dict[str, bytes | Path] = {"copyright.txt": licences.copyright_page().encode()}
    found |= {it: TOP / it for it in tracked("LICENSE")}
    found |= {f"licences/{crate.name}/{it.name}": it for crate in licences.crates() for it in crate.files}
    for path, data in found.items():
        tree.put(f"{info}/licenses/{path}", data)
    return sorted(found)


def tree_of(inputs: Inputs, built: Path) -> Tree:
    tree, name = Tree(), f"hourstable-{inputs.version}"
    info = f"{name}.dist-info"
    for path in tracked("python/hourstable"):
        tree.put(path.removeprefix("python/"), TOP / path)
    put_library(tree, built)
    for program, file in inputs.programs.items():
        tree.put(f"{name}.data/scripts/{program}", file, 0o755)
    tree.put(f"{info}/METADATA", metadata(inputs.version, put_licences(tree, info)).encode())
    tree.put(f"{info}/WHEEL", f"Wheel-Version: 1.0\nGenerator: tools/package\nRoot-Is-Purelib: false\nTag: {TAG}\n".encode())
    scripts = [f"{script} = {where}\n" for script, where in project().get("scripts", {}).items()]
    tree.put(f"{info}/entry_points.txt", "".join(["[console_scripts]\n", *scripts]).encode())
    record = [f"{path},sha256={base64.urlsafe_b64encode(hashlib.sha256(it.data).digest()).decode().rstrip('=')},"
              f"{len(it.data)}\n" for path, it in tree.files()]
    tree.put(f"{info}/RECORD", "".join([*record, f"{info}/RECORD,,\n"]).encode())
    return tree


def wheel(inputs: Inputs, built: Path, out: Path) -> Path:
    made = out / name_of(inputs)
    when = time.gmtime(epoch())[:6]
    with zipfile.ZipFile(made, "w", zipfile.ZIP_DEFLATED, compresslevel=9) as archive:
        for path, entry in tree_of(inputs, built).files():
            info = zipfile.ZipInfo(path, when)
            info.external_attr, info.create_system = (0o100000 | entry.mode) << 16, 3
            info.compress_type = zipfile.ZIP_DEFLATED
            archive.writestr(info, entry.data, compresslevel=9)
    return made
