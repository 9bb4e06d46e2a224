"""Pages stay short enough to be read."""
import re
from collections.abc import Iterator

from pages import Fault, Page, Result, all_pages

# How many words pages may have together, code and comments among them, as `wc -w` counts.
MOST_WORDS = {"README.md": 900, "README.md and docs/": 45_000, "all other pages": 5_500}
# How many characters a cell of a table may have, a link counted by its text.
MOST_IN_CELL = {"docs/verification/PROMISES.md": 300}
BETWEEN_CELLS = re.compile(r"(?<!\\)\|")
LINK = re.compile(r"\[([^\]]*)\]\([^)]*\)")


def long_cells(page: Page, most: int) -> Iterator[Fault]:
    for number, line in enumerate(page.prose.split("\n"), 1):
        if line.lstrip().startswith("|"):
            longest = max(len(it.strip()) for it in BETWEEN_CELLS.split(LINK.sub(r"\1", line)))
            if longest > most:
                yield Fault(page.path, number, f"a table cell of {longest} characters, of at most {most}")


def counted_with(path: str) -> list[str]:
    """The limits under which a page is counted."""
    if path == "README.md":
        return [path, "README.md and docs/"]
    return ["README.md and docs/" if path.startswith("docs/") else "all other pages"]


def check() -> Iterator[Result]:
    """A result for each limit."""
    pages = {it.path: it for it in all_pages()}
    for what, limit in MOST_WORDS.items():
        words = sum(len(it.text.split()) for it in pages.values() if what in counted_with(it.path))
        print(f"{what}: {words} words, of at most {limit}")
        yield Result(what, [Fault(what, 1, f"{words} words, of at most {limit}")] if words > limit else [])
    for path, most in MOST_IN_CELL.items():
        faults = list(long_cells(pages[path], most)) if path in pages else [Fault(path, 1, "there is no such page")]
        yield Result(path, faults)
