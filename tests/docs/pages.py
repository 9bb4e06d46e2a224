"""The Markdown pages of the repository: their fenced blocks, their prose and their headings."""
import re
import subprocess
from collections.abc import Iterator
from dataclasses import dataclass, field
from functools import cached_property
from pathlib import Path
from typing import NamedTuple

TOP = Path(__file__).resolve().parents[2]
FENCE = re.compile(r"^(\s*)(`{3,}|~{3,})\s*(\S*)\s*$")
COMMENT = re.compile(r"^\s*<!--\s*(.*?)\s*-->\s*$")
CODE_SPAN = re.compile(r"(?<!`)(`+)(?!`)((?:(?!\n[ \t]*\n).)+?)(?<!`)\1(?!`)", re.DOTALL)
HEADING = re.compile(r"^#{1,6}\s+(.*?)(?:\s+#+)?\s*$")
ANCHOR = re.compile(r"<[a-z]+\s[^>]*\b(?:id|name)=[\"']([^\"']+)[\"']")


class Fault(NamedTuple):
    """What is wrong, and where."""

    page: str
    line: int
    text: str

    def __str__(self) -> str:
        return f"{self.page}:{self.line}: {self.text}"


class Result(NamedTuple):
    """One thing that was looked at: right if it has no faults."""

    what: str
    faults: list[Fault]


@dataclass
class Fence:
    """A fenced block: its language, the line that opens it, what it holds, and the comment on the line above."""

    language: str
    line: int
    last: int
    lines: list[str]
    comment: str

    @property
    def text(self) -> str:
        return "".join(f"{line}\n" for line in self.lines)


@dataclass
class Page:
    """A page, by its path from the top of the repository."""

    path: str
    lines: list[str] = field(repr=False)

    @property
    def text(self) -> str:
        return "\n".join(self.lines)

    @cached_property
    def fences(self) -> list[Fence]:
        found: list[Fence] = []
        opened: Fence | None = None
        indent, marks = 0, ""
        for number, line in enumerate(self.lines, 1):
            match = FENCE.match(line)
            if opened is None:
                if match:
                    above = COMMENT.match(self.lines[number - 2]) if number > 1 else None
                    indent, marks = len(match[1]), match[2]
                    opened = Fence(match[3], number, number, [], above[1] if above else "")
            elif match and match[2].startswith(marks) and not match[3]:
                opened.last = number
                found.append(opened)
                opened = None
            else:
                opened.lines.append(line[min(indent, len(line) - len(line.lstrip())):])
        if opened is not None:
            opened.last = len(self.lines)
            found.append(opened)
        return found

    @cached_property
    def prose(self) -> str:
        """The text with fenced blocks and comments blanked, line for line."""
        kept = list(self.lines)
        for fence in self.fences:
            for number in range(fence.line, fence.last + 1):
                kept[number - 1] = ""
        return re.sub(r"<!--.*?-->", lambda it: blank(it[0]), "\n".join(kept), flags=re.DOTALL)

    @cached_property
    def anchors(self) -> set[str]:
        """The anchors that GitHub gives the headings, and those that the page sets itself."""
        found: set[str] = set()
        times: dict[str, int] = {}
        for line in self.prose.split("\n"):
            found.update(ANCHOR.findall(line))
            match = HEADING.match(line)
            if match:
                base = slug(match[1])
                seen = times.get(base, 0)
                times[base] = seen + 1
                found.add(f"{base}-{seen}" if seen else base)
        return found


def slug(heading: str) -> str:
    """The anchor of a heading by GitHub's rule: lower case, punctuation dropped, spaces as hyphens."""
    shown = re.sub(r"!?\[([^\]]*)\]\([^)]*\)", r"\1", heading)
    shown = re.sub(r"<[^>]+>", "", shown)
    return re.sub(r"[^\w\- ]", "", shown.strip().lower()).replace(" ", "-")


def blank(text: str) -> str:
    """As many lines as the text has, with nothing in them but spaces."""
    return re.sub(r"[^\n]", " ", text)


def line_of(text: str, place: int) -> int:
    return text.count("\n", 0, place) + 1


def repository_files() -> list[str]:
    """The files of the repository as they stand: those of git, and new ones that it does not ignore."""
    words = ["git", "ls-files", "-z", "--cached", "--others", "--exclude-standard"]
    listed = subprocess.run(words, cwd=TOP, check=True, capture_output=True, text=True).stdout.split("\0")
    return sorted({it for it in listed if it and (TOP / it).is_symlink() or it and (TOP / it).is_file()})


def all_pages() -> Iterator[Page]:
    for path in repository_files():
        if path.endswith(".md") and not (TOP / path).is_symlink():
            yield Page(path, (TOP / path).read_text(encoding="utf-8").split("\n"))
