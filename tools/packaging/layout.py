"""The tree that is installed under a prefix, and what is beside it in share/doc."""
import subprocess
import sys
from pathlib import Path

import library
import licences
from inputs import TOP, Inputs, filled, tracked, version
from tree import Tree

PAGES = ("README.md", "CHANGELOG.md", *(f"docs/{it}.md" for it in (
    "AUDIT", "BINDINGS", "COMPARISON", "CONCEPTS", "COST", "FENCING", "FORMATS", "HTTP", "INSTALL", "OPERATIONS", "SECURITY",
    "THREADS", "TUTORIAL", "verification/MODEL", "verification/PROMISES")))
LANGUAGES = ("go", "rust", "java")
DOC = "share/doc/hourstable"


def installed(inputs: Inputs, built: Path, libdir: str, sources: str) -> Tree:
    """The tree, with libraries in `libdir` and the languages in `sources`."""
    tree = Tree()
    for name, program in inputs.programs.items():
        tree.put(f"bin/{name}", program, 0o755)
    tree.put(f"{libdir}/libhourstable.a", built / "libhourstable.a")
    tree.put(f"{libdir}/libhourstable.so.{version()}", built / "libhourstable.so")
    tree.link(f"{libdir}/{library.soname()}", f"libhourstable.so.{version()}")
    tree.link(f"{libdir}/libhourstable.so", library.soname())
    tree.put("include/hourstable.h", TOP / "include/hourstable.h")
    put_configuration(tree, libdir)
    put_pages(tree, libdir, sources)
    for path in tracked(*LANGUAGES):
        if "/wrong-bodies/" not in path:
            tree.put(f"{sources}/{path}", TOP / path, 0o755 if (TOP / path).stat().st_mode & 0o100 else 0o644)
    return tree


def put_configuration(tree: Tree, libdir: str) -> None:
    words = {"VERSION": version(), "LIBDIR": libdir, "UP": "/".join([".."] * (libdir.count("/") + 2))}
    tree.put(f"{libdir}/pkgconfig/hourstable.pc", filled("packaging/hourstable.pc.in", **words))
    config = filled("packaging/hourstable-config.cmake.in", **words, SONAME=library.soname())
    tree.put(f"{libdir}/cmake/hourstable/hourstable-config.cmake", config)
    words |= {"MAJOR": version().partition(".")[0]}
    tree.put(f"{libdir}/cmake/hourstable/hourstable-config-version.cmake",
             filled("packaging/hourstable-config-version.cmake.in", **words))


def put_pages(tree: Tree, libdir: str, sources: str) -> None:
    page = filled("packaging/INSTALLED.md", VERSION=version(), LIBDIR=libdir, SOURCES=sources)
    tree.put(f"{DOC}/INSTALLED.md", page)
    for path in (*PAGES, *tracked("examples/c", "examples/counts", "examples/python", "docs/pictures")):
        tree.put(f"{DOC}/{path}", TOP / path)
    tree.put(f"{DOC}/docs/API.md", api_page())
    tree.put(f"{DOC}/copyright", licences.copyright_page().encode())
    tree.put(f"{DOC}/LICENSE", TOP / "LICENSE")
    for crate in licences.crates():
        for file in crate.files:
            tree.put(f"{DOC}/licences/{crate.name}/{file.name}", file)


def api_page() -> bytes:
    """The page that lists the public calls of the crates. It is made of the sources, and not kept in the repository."""
    return subprocess.run([sys.executable, TOP / "docs/api"], check=True, stdout=subprocess.PIPE).stdout
