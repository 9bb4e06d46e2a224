"""Lines of logs that are written by hand, as docs/AUDIT.md says them: what tests compare with, and what planes of
tests write."""

import json
from collections.abc import Mapping
from typing import Any


def line_of(ticket: int, do: str, reply: str, **members: object) -> str:
    """Returns the line of a call: its ticket, its name, its other members and the words that its caller was told."""
    return json.dumps({"ticket": ticket, "do": do, **members, "reply": reply}, separators=(",", ":"))


def told_grant(grant: Mapping[str, object]) -> str:
    """Returns the reply of `grant`, from the value of the message."""
    return "grant {number} {kind} {generation} until {until} {ends}".format(**grant)


def value_of(message: bytes | str) -> dict[str, Any]:
    """Returns the value of a message, which is what the line of a call that delivers it has."""
    value = json.loads(message)["value"]
    assert isinstance(value, dict)
    return value
