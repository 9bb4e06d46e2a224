"""The row of a job in two parts: its assignments, which change at a proposal and at a commit, and
all the rest of what a table keeps, which changes at each grant that is stored.

In the place of its assignments the rest has their digest, so that parts which do not belong together
are not taken for a row. A row that an older version wrote is whole; an older version refuses one of
two parts.
"""

import hashlib
import json
import re
from typing import Any, NamedTuple

from hourstable.store import Damaged, Stored

MEMBERS = '"committed":', '"pending":'  # in this order in kept values
MARK = re.compile(r'"committed":"in row ([0-9a-f]{32})"')
_decoder = json.JSONDecoder()


class Parts(NamedTuple):
    """The text of kept values without assignments, and that of the assignments, with its digest. The second one is
    empty if the row is whole."""

    rest: str
    assignments: str
    digest: str


class Known(NamedTuple):
    """The assignments that the row of a version has."""

    version: int
    assignments: str
    digest: str


class Rows:
    """The parts of the rows of jobs, and which of them the store has, as far as this process knows."""

    def __init__(self) -> None:
        self._known: dict[str, Known] = {}

    def parts(self, job: str, kept: bytes) -> Parts:
        """Returns the parts of kept values."""
        text, known = kept.decode(), self._known.get(job)
        places = _places(text, known.assignments.split("\n") if known else [])
        if places is None:
            return Parts(text, "", "")
        (begin, end), (begin_other, end_other) = places
        assignments = f"{text[begin:end]}\n{text[begin_other:end_other]}"
        is_known = known is not None and assignments == known.assignments
        digest = known.digest if known is not None and is_known else _digest(assignments)
        mark = f'"in row {digest}"'
        rest = f"{text[:begin]}{mark}{text[end:begin_other]}{mark}{text[end_other:]}"
        return Parts(rest, assignments, digest)

    def has(self, job: str, version: int, parts: Parts) -> bool:
        """Whether nothing is to be written of the assignments when the parts take the place of a version."""
        return not parts.digest or self._known.get(job) == Known(version, parts.assignments, parts.digest)

    def wrote(self, job: str, version: int, parts: Parts) -> None:
        """Takes that the parts were written, as this version."""
        if parts.digest:
            self._known[job] = Known(version, parts.assignments, parts.digest)
        else:
            self._known.pop(job, None)

    def whole(self, job: str, version: int, rest: str, assignments: str | None) -> bytes:
        """Returns the kept values of parts that were read. Raises Damaged."""
        mark = MARK.search(rest)
        if mark is None:
            return rest.encode()
        if assignments is None or _digest(assignments) != mark[1] or assignments.count("\n") != 1:
            raise Damaged(f"the assignments of {job} are not those of its row")
        self._known[job] = Known(version, assignments, mark[1])
        for member, text in zip(MEMBERS, assignments.split("\n")):
            rest = rest.replace(f'{member}"in row {mark[1]}"', member + text, 1)
        return rest.encode()


def stored_in(rows: Rows, job: str, found: list[Any]) -> Stored | None:
    """Returns what is stored, from the rows of version, policy, kept values, line, assignments, holder and rights.
    Raises Damaged."""
    if not found:
        return None
    version, policy, rest, line, assignments, holder, rights = found[0]
    return Stored(version, policy, rows.whole(job, version, rest, assignments), line, holder or "", rights or "")


def _places(text: str, known: list[str]) -> tuple[tuple[int, int], tuple[int, int]] | None:
    """Returns where the assignments of kept values begin and end, None if these are no kept values. Known texts are
    not read again."""
    found, at = [], 0
    for number, member in enumerate(MEMBERS):
        begin = text.find(member, at)
        if begin < 0:
            return None
        begin += len(member)
        if known and text.startswith((f"{known[number]},", f"{known[number]}}}"), begin):
            at = begin + len(known[number])
        else:
            try:
                _, at = _decoder.raw_decode(text, begin)
            except ValueError:
                return None
        found.append((begin, at))
    return found[0], found[1]


def _digest(text: str) -> str:
    return hashlib.blake2b(text.encode(), digest_size=16).hexdigest()
