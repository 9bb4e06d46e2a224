"""The calls, laws and names of C that pages give in backticks are in the sources.

In README.md each `Type::call` and `name_law` is. On the other pages a `Type::call` is looked up if the type is one of
the repository's. On every page each name with `hs_` or `HS_` is one of include/hourstable.h.
"""
import re
from collections.abc import Iterator

from pages import CODE_SPAN, TOP, Fault, Page, Result, all_pages, line_of

ITEM = re.compile(r"^(?:pub(?:\(crate\))? )?(?:unsafe )?(struct|enum|trait) (\w+)")
IMPL = re.compile(r"^(?:unsafe )?impl\b(?:<.*?>)? (?:[\w:]+(?:<.*>)? for )?(?:\w+::)*(\w+)")
MEMBER = re.compile(
    r"^    (?:pub(?:\(crate\))? )?(?:unsafe )?(?:fn|const|type) (\w+)|^    (?:pub )?([A-Za-z]\w*)(?:[,({:]| \{)"
)
LAW = re.compile(r"\bfn (\w+_law)\b")
CALL = re.compile(r"\b([A-Z]\w+)::(\w+)")
NAMED_LAW = re.compile(r"\b(?:[A-Z]\w+::)?(\w+_law)\b")
# `hs_KIND_open` stands for several.
OF_C = re.compile(r"\b(?!hs_KIND_)(?:hs|HS)_\w*[A-Za-z0-9]\b(?!\*)")


class Sources:
    """What the sources define: the members of each type, and the laws."""

    def __init__(self) -> None:
        self.members: dict[str, set[str]] = {}
        self.laws: set[str] = set()
        for path in sorted((TOP / "crates").glob("*/src/**/*.rt")):
            self.read(path.read_text(encoding="utf-8"))
        header = (TOP / "include/hourstable.h").read_text(encoding="utf-8")
        self.of_c = set(re.findall(r"\b(?:hs|HS)_\w+", header))

    def read(self, text: str) -> None:
        self.laws.update(LAW.findall(text))
        within: set[str] | None = None
        for line in text.split("\n"):
            if line[:1].strip():
                match = ITEM.match(line)
                name = match[2] if match else (found[1] if (found := IMPL.match(line)) else None)
                within = self.members.setdefault(name, set()) if name else None
            elif within is not None and (member := MEMBER.match(line)):
                within.add(member[1] or member[2])


def spans(page: Page) -> Iterator[tuple[int, str]]:
    """What a page has in backticks: the place in its prose, and the text."""
    for match in CODE_SPAN.finditer(page.prose):
        yield match.start(), match[2]


def unknown(page: Page, sources: Sources) -> Iterator[tuple[int, str, str | None]]:
    """Each name that is looked up: its place, the name, and what is wrong with it."""
    strict = page.path == "README.md"
    for place, text in spans(page):
        for kind, member in CALL.findall(text):
            if strict or kind in sources.members:
                known = member in sources.members.get(kind, set())
                yield place, f"{kind}::{member}", None if known else "no type of the sources has it"
        for law in NAMED_LAW.findall(text):
            yield place, law, None if law in sources.laws else "the sources have no such law"
        for name in OF_C.findall(text):
            yield place, name, None if name in sources.of_c else "include/hourstable.h has no such name"


def check() -> Iterator[Result]:
    """A result for each name on a page."""
    sources = Sources()
    for page in all_pages():
        for place, name, why in unknown(page, sources):
            yield Result(name, [Fault(page.path, line_of(page.prose, place), f"`{name}`: {why}")] if why else [])
