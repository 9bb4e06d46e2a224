"""The version of the calls between planes and those who call them, which each request and each answer says, and the
forms of the rows of jobs.

A plane is upgraded before its callers. So it takes older calls, and refuses newer ones by name. Planes of a store are
upgraded one after the other. So each says in its beat which rows it reads, and writes none that another one cannot
read which beats.
"""

from collections.abc import Mapping

HEADER = "Hourstable-Version"
SPEAKS = 1  # the version of the calls that are made, and the greatest that is taken
SAYS = {HEADER: str(SPEAKS)}
ROWS = 2  # the newest form of a row that is read
ROWS_BEFORE = 1  # and the one of planes whose beats say nothing of it: those of the release before


def why_not(headers: Mapping[str, str], what: str) -> str | None:
    """Returns why a request or an answer is not taken, by its headers; None if it is. Those of versions up to 1.0 say
    nothing."""
    text = headers.get(HEADER, "0")
    if not (text.isascii() and text.isdigit() and len(text) <= 9):
        return f"{HEADER} is no number"
    if int(text) > SPEAKS:
        return f"{what} is of version {text}, and this Hourstable speaks those up to {SPEAKS}: run a newer one"
    return None
