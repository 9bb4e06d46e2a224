"""Why the calls of a script have their replies: a sentence below a line that does not say everything."""

from __future__ import annotations

from collections.abc import Callable

from . import phrases
from .trace import Call, Lease, Owners, Place, Reason, Trace, Untimely
from .words import line_of, listed

DELIVERED = {"hear": "grant", "free": "note", "check": "handle", "learn": "committed generation"}
Standing = Callable[[Place], str]  # names where a call stands


def step_name(place: Place) -> str:
    return f"step {place.call}"


def lease_words(lease: Lease, denied: str, standing: Standing) -> str:
    """Returns what the lease that decides a verdict covers, and its deadline."""
    heard = f"heard in {standing(lease.heard)}" if lease.heard else ""
    return phrases.lease_words(phrases.lease_name(lease.kind, lease.number, heard), denied, str(lease.ends))


def below_words(call: Call, last: int) -> str:
    whose = f"task {call.task}" if call.task is not None else "the table"
    return f"{call.at} is below {last}, the last reading that {whose} accepted"


def ground_words(call: Call, denied: str, last: int) -> str:
    """Returns why a key is denied if no lease decides it."""
    if denied == "down":
        return f"task {call.task} was not started"
    if denied == "clock-back":
        return below_words(call, last)
    return phrases.no_lease_words(call.task or 0)


def verdict_words(call: Call, reason: Reason, denied: str, standing: Standing) -> str:
    rule, owners = reason.rule, reason.owners or Owners(0, ())
    lease = rule.decides if rule else None
    why = lease_words(lease, denied, standing) if lease else ground_words(call, denied, rule.last if rule else 0)
    return f"{why}; owners in generation {owners.generation}: {listed(owners.tasks) or 'none'}"


def broken_words(call: Call, reason: Reason, standing: Standing) -> str:
    if reason.life is not None:
        return f"task {call.task} is in life {reason.life}, and the handle is from another life"
    if reason.rule:
        return verdict_words(call, reason, reason.denied, standing)
    if reason.taken_last:
        return f"the key was denied just before or just after {standing(reason.taken_last)}"
    return "the task did not hold the key all the time"


def row_words(reason: Reason) -> str:
    row = reason.row or {}
    told = phrases.granted_words(row["generation"], row["life"])
    return phrases.may_hold_words(row["task"], phrases.lease_name(row["kind"], row["number"], told), row["until"])


def old_words(call: Call, reason: Reason) -> str:
    """Returns why a grant or an assignment is refused as old."""
    if call.do == "learn":
        kept, clerk = call.reply["generation"], call.members["clerk"]
        generation = call.members["generation"]
        return f"generation {generation} is not above generation {kept}, which clerk {clerk} keeps"
    heard = reason.heard or {}
    return (
        f"grant {delivered(call)} is not above grant {heard['number']}, the last {heard['kind']} lease that"
        f" task {call.task} heard in life {reason.life}"
    )


def delivered(call: Call) -> int:
    """Returns the number of the grant, the note, the handle or the generation that a call delivers."""
    if call.do == "learn":
        return int(call.members["generation"])
    found: int = call.members["number"] if "number" in call.members else call.members["grant"]["number"]
    return found


def unsent_words(call: Call, made: int) -> str:
    last = f"the last one is {made}" if made else "there is none yet"
    return f"there is no {DELIVERED[call.do]} {delivered(call)}; {last}"


def refusal_sentence(call: Call, reason: Reason) -> str | None:
    ground = call.ground
    if ground == "held" and reason.row:
        return row_words(reason)
    if ground == "clock-back" and call.reason:
        return below_words(call, reason.last)
    if ground == "old":
        return old_words(call, reason)
    if ground == "old-life":
        life = call.members["life"]
        return f"life {life} is not above life {reason.life}, the current life of task {call.task}"
    return unsent_words(call, reason.made) if ground == "not-sent" and reason.sent is None else None


def sentence(call: Call, standing: Standing = step_name) -> str | None:
    """Returns why a call has its reply, None if the line of the reply says it all. `standing` names other calls."""
    reason = call.reason or Reason()
    if call.word == "refused":
        return refusal_sentence(call, reason)
    if call.word == "broken":
        return broken_words(call, reason, standing)
    if reason.rule and call.word in ("served", "denied"):
        return verdict_words(call, reason, call.ground, standing)
    return None


def indented(words: str | None) -> str:
    return f"    {words}\n" if words else ""


def untimely_words(untimely: Untimely, skew: int) -> str:
    early, late = untimely.first, untimely.task
    steps = [it.place.call if it.place else 0 for it in (early, late)]
    return (
        f"step {steps[0]} read {early.at} on the table's clock; later step {steps[1]} read {late.at} on a task's"
        f" clock, more than the skew {skew} below"
    )


def explained(trace: Trace, numbered: bool) -> str:
    """Returns the lines of a script's replies, each with the sentence that says why, and its last line. If
    `numbered`, each line of a reply follows the number of its element and the name of its step."""
    lines = []
    for call in trace.calls:
        heading = f"{call.place.call} {call.do}: " if numbered else ""
        lines.append(f"{heading}{line_of(call.reply)}\n{indented(sentence(call))}")
    untimely = trace.end.untimely
    if untimely is None:
        return "".join([*lines, "timely yes\n"])
    return "".join([*lines, "timely no\n", indented(untimely_words(untimely, trace.head.job["skew"]))])
