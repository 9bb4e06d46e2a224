"""The line of a reply, as scripts and logs have it."""

from __future__ import annotations

from collections.abc import Callable, Iterable
from typing import Any

from .trace import Members

REFUSALS = {  # what a refusal names after its word
    "job-held": ("until",), "not-holder": ("number",), "stale-base": ("generation",), "grace": ("until",),
    "held": ("task", "kind", "number"), "old": ("number", "generation"),
}
RESTORED = ("last", "granted", "deadline")


def refusal_words(reply: Members) -> str:
    """Returns why a call is refused."""
    word = str(reply["refused"])
    if word in ("less-than-log", "far-ahead", "not-ahead"):
        return " ".join([word, *(f"{name} {reply[name]}" for name in RESTORED)])
    return " ".join([word, *(str(reply[name]) for name in REFUSALS.get(word, ()) if name in reply)])


def listed(values: Iterable[object], between: str = ",") -> str:
    return between.join(map(str, values))


def denial_words(reply: Members) -> str:
    return listed([reply["denied"], *([reply["generation"]] if "generation" in reply else [])], " ")


def row_words(row: Members) -> str:
    return listed((row[name] for name in ("number", "task", "life", "kind", "generation", "until")), ":")


def phase_words(reply: Members) -> str:
    if reply["phase"] == "steady":
        return f"phase steady {reply['generation']}"
    return f"phase bridging {reply['from']} {reply['to']}"


def loads_words(reply: Members) -> str:
    return f"{listed(['loads', *reply['loads']], ' ')} {listed(['totals', *reply['totals']], ' ')}"


def move_words(move: Members) -> str:
    change = f"{move['from']}>{move['to']}" if "from" in move and "to" in move else ""
    if not change and "to" in move:
        change = f"+{move['to']}"
    elif not change and "from" in move:
        change = f"-{move['from']}"
    return f"{move['start']}:{change} gain {move['gain']} churn {move['churn']}"


def plan_words(reply: Members) -> str:
    slices = listed((f"{start}:{listed(owners)}" for start, owners in reply["slices"]), " ")
    return f"plan [{slices}] moves [{listed(map(move_words, reply['moves']), ', ')}]"


def released_words(reply: Members) -> str:
    return f"released note {reply['note']} number {reply['number']}"


def grant_words(reply: Members) -> str:
    return f"grant {reply['number']} {reply['kind']} {reply['generation']} until {reply['until']} {reply['ends']}"


LINES: dict[str, str | Callable[[Any], str]] = {
    "assigned": "assigned {generation} slices {slices}",
    "term": "term {number} until {until}",
    "renewed": "renewed {number} until {until}",
    "proposed": "proposed {generation}",
    "committed": "committed {generation}",
    "freed": "freed {rows}",
    "lost": "lost {rows}",
    "started": "started {life}",
    "heard": "heard {number}",
    "handle": "handle {handle}",
    "learnt": "learnt {generation}",
    "recorded": "recorded {total}",
    "next": "next {next}",
    "key": "key {key}",
    "served": "served {kind} {generation}",
    "opened": "opened {life}",
    "restored": "restored generation {generation} grace {grace}",
    "owners": lambda reply: f"owners {listed(reply['owners'])}",
    "found": lambda reply: f"found generation {reply['generation']} owners {listed(reply['owners'])}",
    "rows": lambda reply: f"rows [{listed(map(row_words, reply['rows']), ' ')}]",
    "phase": phase_words,
    "loads": loads_words,
    "plan": plan_words,
    "grant": grant_words,
    "released": released_words,
}


def line_of(reply: Members) -> str:
    """Returns the line of a reply, without its line feed."""
    if "refused" in reply:
        return f"refused {refusal_words(reply)}"
    if "denied" in reply:
        return f"denied {denial_words(reply)}"
    word = str(reply["reply"])
    form = LINES.get(word, word)
    return form.format(**reply) if isinstance(form, str) else form(reply)


def plain_line(reply: Members) -> str:
    """Returns the line of a reply with what a note or a handle contains in place of its number."""
    word = reply.get("reply")
    if word == "released":
        return f"released life {reply['life']} number {reply['number']}"
    if word == "handle":
        return f"handle life {reply['life']} position {reply['position']}"
    return line_of(reply)
