"""Wrong bodies of what is tested and not proved: what python/wrong-bodies and go/service/wrong-bodies have in common.

An edit is a file AREA/NAME.edit. Each line begins with a word, and lines with one word after each other are the
lines of one text:

  why: what is wrong with it, in one line
  found: what is tried first; may be left out
  file: the file that is changed
  old: the text that stands there, once
  new: the text in its place

More pairs of old and new may follow, and more files.
"""

from collections.abc import Sequence
from pathlib import Path
from typing import NamedTuple

WORDS = ("why", "found", "file", "old", "new")


class Malformed(Exception):
    """An edit is not as the form says, or does not fit what it changes."""


class Change(NamedTuple):
    file: str
    old: str
    new: str


class Edit(NamedTuple):
    name: str
    why: str
    found: str
    changes: tuple[Change, ...]

    def texts(self, folder: Path) -> dict[str, str]:
        """Returns the texts of the files of a folder that it changes, after it. Raises Malformed."""
        texts: dict[str, str] = {}
        for file, old, new in self.changes:
            path = folder / file
            if not path.is_file():
                raise Malformed(f"there is no {file}")
            text = texts.get(file, path.read_text(encoding="utf-8"))
            if text.count(old) != 1:
                raise Malformed(f"{file} has {text.count(old)} times {old!r}")
            texts[file] = text.replace(old, new)
        return texts


def read(path: Path) -> Edit:
    """Reads an edit. Raises Malformed."""
    blocks: list[tuple[str, str]] = []
    for number, line in enumerate(path.read_text(encoding="utf-8").splitlines(), 1):
        word, colon, text = line.partition(":")
        if not colon or word not in WORDS:
            raise Malformed(f"line {number} begins with none of {', '.join(WORDS)}")
        text = text.removeprefix(" ")
        if blocks and blocks[-1][0] == word:
            blocks[-1] = word, f"{blocks[-1][1]}\n{text}"
        else:
            blocks.append((word, text))
    words = {word: text for word, text in blocks if word in ("why", "found")}
    if not words.get("why"):
        raise Malformed("no line says why")
    return Edit(f"{path.parent.name}/{path.stem}", words["why"], words.get("found", ""), changes_in(blocks))


def changes_in(blocks: Sequence[tuple[str, str]]) -> tuple[Change, ...]:
    file, old, changes = "", None, list[Change]()
    for word, text in blocks:
        if word == "file":
            file = text
        elif word == "old":
            old = text
        elif word == "new":
            if old is None or not file:
                raise Malformed("a new text follows no old one, or is of no file")
            changes.append(Change(file, old, text))
            old = None
    if not changes or old is not None:
        raise Malformed("an old text has no new one")
    return tuple(changes)


def files_named(folder: Path, names: Sequence[str]) -> list[Path]:
    """Returns the files of edits with these names, of these areas, or all if there is no name. Raises Malformed."""
    if not names:
        return sorted(folder.glob("*/*.edit"))
    paths = []
    for name in names:
        found = sorted((folder / name).glob("*.edit")) or [it for it in [folder / f"{name}.edit"] if it.is_file()]
        if not found:
            raise Malformed(f"no edit {name}")
        paths += found
    return paths


def names_in(path: Path) -> list[str]:
    """Returns the names that a file lists, a line for each; a line may be a comment."""
    return [line for line in path.read_text(encoding="utf-8").splitlines() if line and not line.startswith("#")]
