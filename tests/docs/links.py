"""Relative links lead to files and folders of the repository, and anchors to headings."""
import re
from collections.abc import Iterator
from pathlib import Path

from pages import CODE_SPAN, TOP, Fault, Page, Result, all_pages, blank, line_of

INLINE = re.compile(r"\]\(\s*<?([^)\s>]+)>?(?:\s+[\"'(][^)]*)?\)")
DEFINED = re.compile(r"^ {0,3}\[[^\]]+\]:\s*<?([^\s>]+)>?", re.MULTILINE)
USED = re.compile(r"\]\[([^\]]+)\]")
HTML = re.compile(r"<(?:a|img)\s[^>]*\b(?:href|src)=[\"']([^\"']+)[\"']")
ELSEWHERE = re.compile(r"^[a-z][a-z0-9+.\-]*:", re.IGNORECASE)
LINES = re.compile(r"^L(\d+)(?:-L(\d+))?$")


def fault_of(page: Page, target: str, pages: dict[Path, Page]) -> str | None:
    """Why a link leads nowhere, or None."""
    path, _, anchor = target.partition("#")
    place = (TOP / page.path).parent / path if path else TOP / page.path
    if path.startswith("/"):
        return f"{target}: a link to a file is relative to its page"
    place = Path(*place.parts).resolve() if place.exists() else place
    if not place.exists():
        return f"{target}: there is no such file or folder"
    if TOP not in (place, *place.parents):
        return f"{target}: it is outside the repository"
    if not anchor:
        return None
    if place in pages:
        return None if anchor in pages[place].anchors else f"{target}: the page has no such heading"
    match = LINES.match(anchor)
    if not match or not place.is_file():
        return f"{target}: only a page has anchors"
    last = len(place.read_bytes().splitlines())
    return None if int(match[2] or match[1]) <= last else f"{target}: the file has {last} lines"


def targets(page: Page) -> Iterator[tuple[int, str]]:
    """The links of a page: the line and the target."""
    text = CODE_SPAN.sub(lambda it: blank(it[0]), page.prose)
    for pattern in (INLINE, DEFINED, HTML):
        for match in pattern.finditer(text):
            if not ELSEWHERE.match(match[1]):
                yield line_of(text, match.start(1)), match[1]


def undefined(page: Page) -> Iterator[Fault]:
    """Links by a name that the page does not define."""
    text = CODE_SPAN.sub(lambda it: blank(it[0]), page.prose)
    defined = {it.lower() for it in re.findall(r"^ {0,3}\[([^\]]+)\]:", text, re.MULTILINE)}
    for match in USED.finditer(text):
        if match[1].lower() not in defined:
            why = f"[{match[1]}]: the page does not say where it leads"
            yield Fault(page.path, line_of(text, match.start(1)), why)


def check_page(page: Page) -> Iterator[Result]:
    """A result for each link of a page."""
    yield from of_page(page, {(TOP / it.path).resolve(): it for it in all_pages()})


def of_page(page: Page, pages: dict[Path, Page]) -> Iterator[Result]:
    for line, target in sorted(targets(page)):
        why = fault_of(page, target, pages)
        yield Result(target, [Fault(page.path, line, why)] if why else [])
    for fault in undefined(page):
        yield Result(fault.text, [fault])


def check() -> Iterator[Result]:
    """A result for each link."""
    pages = {(TOP / it.path).resolve(): it for it in all_pages()}
    for page in pages.values():
        yield from of_page(page, pages)
