"""Beats: what a control plane sends while a GET waits, so that each side notices when the other one is gone.

A caller that takes beats says so by the header Hourstable-Beat. A plane that lets such a call wait answers at once
with this header, which says in milliseconds how often it sends a byte, and then sends an empty line as often. The
answer follows: a line with its status and its ticket, and the body. Two beats that are missing end the call.
"""

import re
from typing import NamedTuple

HEADER = "Hourstable-Beat"
TAKES = "1"  # what a caller says
KIND = "application/vnd.hourstable.beats"
BEAT = b"\n"
PART = 10  # of a guard term, between two beats
MISSED = 2.5  # beats of silence: two are missing, and half of one for the way
LEAST = 0.5  # seconds of silence that end a call at least: the caller itself may be slow
LATER = re.compile(rb"(\d{3}) (\d{1,20})\n")


class Later(NamedTuple):
    """An answer that came after beats."""

    status: int
    ticket: str
    body: bytes

    def packed(self) -> bytes:
        return b"%d %s\n%s" % (self.status, self.ticket.encode(), self.body)

    @classmethod
    def read(cls, text: bytes) -> "Later":
        """Returns the answer in what came, beats and all. Raises ValueError if it is cut off."""
        text = text.lstrip(BEAT)
        found = LATER.match(text)
        if found is None:
            raise ValueError("the answer of a call that waited is cut off")
        return cls(int(found[1]), found[2].decode(), text[found.end():])


def silence(beat: float) -> float:
    """Returns the seconds of silence that end a call, from those between two beats."""
    return max(LEAST, MISSED * beat)


def seconds_of(text: str | None) -> float | None:
    """Returns the seconds between two beats that a plane's header says, None if it says none."""
    if text is None or not (text.isascii() and text.isdigit() and len(text) <= 6):
        return None
    return int(text) / 1000 or None
