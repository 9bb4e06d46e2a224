"""Each picture docs/NAME.svg that a page shows is what `hourstable-show timeline` draws, or is drawn by hand.

A line `<!-- picture: timeline ARGS < FILE -->` stands directly above the image, with FILE from the top of the
repository; or `<!-- picture: by hand -->`, and then the picture has a title, a description, and colours for a dark
page. Every picture under docs/ is shown in one of these ways by some page.
"""
import os
import re
import shlex
import subprocess
import sys
import xml.etree.ElementTree as ElementTree
from collections.abc import Iterator

from built import Built
from pages import COMMENT, TOP, Fault, Page, Result, all_pages, repository_files

IMAGE = re.compile(r"(?:!\[[^\]]*\]\(|<img\s[^>]*src=[\"'])([^)\s\"']+\.svg)")
CLAIM = re.compile(r"^picture: (timeline\b.*?) < (\S+)$")
BY_HAND = "picture: by hand"
SVG = "{http://www.w3.org/2000/svg}"


def drawn(words: list[str], script: str, built: Built) -> bytes | str:
    """The picture of a script, or why there is none."""
    try:
        command = [sys.executable, "-B", "-m", "hourstable.show", *words]
        named = {"HOURSTABLE_PROGRAM": str(built.program("hourstable")), "PYTHONPATH": str(TOP / "python")}
        text = (TOP / script).read_bytes()
        ran = subprocess.run(
            command, input=text, capture_output=True, timeout=120, check=False, env={**os.environ, **named}
        )
    except (OSError, subprocess.TimeoutExpired) as why:
        return str(why)
    return ran.stdout if ran.returncode == 0 else ran.stderr.decode(errors="replace").strip()


def lacks(shown: str) -> str | None:
    """What a picture lacks that was drawn by hand, or None."""
    try:
        text = (TOP / shown).read_text(encoding="utf-8")
        root = ElementTree.fromstring(text)
    except (OSError, ElementTree.ParseError) as why:
        return f"{shown}: {why}"
    for name in ("title", "desc"):
        if not (root.findtext(f"{SVG}{name}") or "").strip():
            return f"{shown}: it has no {name}"
    return None if "prefers-color-scheme: dark" in text else f"{shown}: it has no colours for a dark page"


def look(page: Page, number: int, shown: str, built: Built) -> str | None:
    """What is wrong with a picture that a page shows on a line, or None."""
    above = next((it for it in reversed(page.lines[: number - 1]) if it.strip()), "")
    comment = COMMENT.match(above)
    if comment and comment[1] == BY_HAND:
        return lacks(shown)
    claim = CLAIM.match(comment[1]) if comment else None
    if not claim:
        return f"{shown}: no line `<!-- picture: timeline ARGS < FILE -->` stands above it"
    made = drawn(shlex.split(claim[1]), claim[2], built)
    if isinstance(made, str):
        return f"{shown}: {made}"
    picture = TOP / shown
    if not picture.is_file():
        return f"{shown}: there is no such picture"
    if made != picture.read_bytes():
        return f"{shown}: hourstable-show {claim[1]} < {claim[2]} draws another picture"
    return None


def check(built: Built) -> Iterator[Result]:
    """A result for each picture that a page shows, and one for each that none shows."""
    claimed: set[str] = set()
    for page in all_pages():
        for number, line in enumerate(page.prose.split("\n"), 1):
            for target in IMAGE.findall(line):
                place = ((TOP / page.path).parent / target).resolve()
                shown = str(place.relative_to(TOP)) if place.is_relative_to(TOP) else target
                claimed.add(shown)
                why = look(page, number, shown, built)
                yield Result(shown, [Fault(page.path, number, why)] if why else [])
    for path in repository_files():
        if path.startswith("docs/") and path.endswith(".svg") and path not in claimed:
            yield Result(path, [Fault(path, 1, "no page shows this picture")])
