"""The scripts of examples/scripts, and their texts, are those that crates/worked_examples plays.

They are copies: `rt ci` runs that crate outside the repository, and refuses links.
"""
from collections.abc import Iterator

from pages import TOP, Fault, Result

PLAYED = "crates/worked_examples/data"
SHOWN = "examples/scripts"


def fault_of(name: str) -> str | None:
    """What is wrong with a file of examples/scripts, or None."""
    played = TOP / PLAYED / name
    if not played.is_file():
        return f"{PLAYED} has no such file"
    if (TOP / SHOWN / name).read_bytes() != played.read_bytes():
        return f"it is not that of {PLAYED}: copy it from there"
    stem, _, ending = name.rpartition(".")
    other = {"json": "stdout", "stdout": "json"}.get(ending)
    if other is None or not (TOP / SHOWN / f"{stem}.{other}").is_file():
        return "a script NAME.json stands beside its text NAME.stdout"
    return None


def check() -> Iterator[Result]:
    """A result for each file."""
    for path in sorted((TOP / SHOWN).iterdir()):
        why = fault_of(path.name)
        yield Result(path.name, [Fault(f"{SHOWN}/{path.name}", 1, why)] if why else [])
