"""The calls of logs in lines, each with what decides its reply, and the report of an audit."""

from __future__ import annotations

from collections.abc import Callable, Iterable

from .trace import TASK_CLOCK, Call, End, Fault, Lease, Members, Place, Trace, Unreadable, escaped
from .words import plain_line

CALLS = {  # what names a call, after its word; what it delivers is named by its numbers alone
    "take": "assigner {assigner} at {at}",
    "renew": "term {term} at {at}",
    "propose": "term {term} generation {generation} at {at}",
    "commit": "term {term} at {at}",
    "grant": "task {task} life {life} at {at}",
    "free": "task {note[task]} life {note[life]} kind {note[kind]} number {note[number]} at {at}",
    "start": "task {task} life {life} at {at}",
    "open": "task {task} life {life}",
    "hear": "task {task} grant {grant[number]} at {at}",
    "release": "task {task} kind {kind} at {at}",
    "serve": "task {task} slice_key {slice_key} at {at}",
    "hold": "task {task} slice_key {slice_key} at {at}",
    "check": (
        "task {task} life {handle[life]} position {handle[position]} slice_key {handle[slice_key]} at {at}"
    ),
    "learn": "clerk {clerk} generation {generation}",
    "look": "clerk {clerk} slice_key {slice_key}",
    "forget": "clerk {clerk}",
    "restore": "last {last} granted {granted} deadline {deadline}",
    "sample": "task {task} sent {sent} reading {reading} now {now}",
}
MISSING = "lines of the table may be missing before this call, or a second table ran"


def call_words(call: Call) -> str:
    """Returns the word of a call, and its members with their names, or raises Unreadable if it lacks one."""
    form = CALLS.get(call.do)
    try:
        return f"{call.do} {form.format(**call.members)}" if form else call.do
    except (KeyError, TypeError) as why:
        raise Unreadable(f"call {call.place.call} lacks a member, or has one of another kind: {why!r}") from None


def lease_words(lease: Lease, at: int) -> str:
    return f"{lease.kind} {lease.number} {'ended at' if lease.ends <= at else 'until'} {lease.ends}, "


def held_words(call: Call) -> str:
    """Returns the leases by which a key is denied, and the reading."""
    rule, at = call.reason.rule if call.reason else None, call.at or 0
    if rule is None or call.do not in ("serve", "hold"):
        return ""
    if call.ground == "ended":
        ended = "".join(lease_words(it, at) for it in rule.leases if it.ends <= at)
        return f": {ended}read at {at}"
    if call.ground in ("not-owned", "no-lease") and rule.leases:
        return f": {''.join(lease_words(it, at) for it in rule.leases)}read at {at}"
    return ""


def sent_words(trace: Trace, call: Call) -> str:
    sent = call.reason.sent if call.reason else None
    if sent is None:
        return ""
    there = trace.standing(sent.at)
    if sent.way == "later":
        return f": it is sent later, at {there}, ticket {sent.ticket}"
    if sent.way == "nothing":
        return ": no line of the logs sends it"
    if sent.member in ("ranges", "slices"):
        return f': "{sent.member}" are not those of {there}'
    here, other = (f'"{it}"' if sent.member == "kind" else it for it in (sent.here, sent.there))
    return f': "{sent.member}" is {here} here, {other} at {there}'


def term_words(call: Call, term: Members | None) -> str:
    if term is None:
        return ""
    if term["number"] == call.members["term"]:
        return f": term {term['number']} ended at {term['until']}"
    return f": the table's term is {term['number']}"


def late_words(call: Call) -> str:
    grant = call.members["grant"]
    return f": {grant['kind']} {grant['number']} ended at {grant['ends']}, read at {call.at}"


def back_words(call: Call) -> str:
    if call.reason is None:
        return ""
    last = call.reason.rule.last if call.reason.rule else call.reason.last
    return f": read at {call.at} after {last}"


def row_words(call: Call) -> str:
    row = call.reason.row if call.reason else None
    return f": it ends at {row['until']}, read at {call.at}" if row else ""


def life_words(call: Call) -> str:
    return f": the task is in life {call.reason.life}" if call.reason and call.reason.life is not None else ""


CAUSES: dict[str, Callable[[Call], str]] = {  # of the grounds of refusals
    "not-holder": lambda call: term_words(call, call.reason.term if call.reason else None),
    "job-held": lambda call: f": read at {call.at}",
    "grace": lambda call: f": read at {call.at}",
    "held": row_words,
    "clock-back": back_words,
    "too-late": late_words,
    "old-life": life_words,
    "other-life": life_words,
}


def cause_words(trace: Trace, call: Call) -> str:
    """Returns what decides a refusal, a reading that is too low, or a broken handle, beyond what its line says."""
    if call.word == "broken":
        first = call.reason.taken_first if call.reason else None
        return f": {trace.standing(first)} took its key away" if first else ""
    if call.word == "denied":
        return back_words(call) if call.ground == "clock-back" and call.do in TASK_CLOCK else ""
    if call.ground == "not-sent":
        return sent_words(trace, call)
    cause = CAUSES.get(call.ground)
    return cause(call) if cause and has_cause(call) else ""


def has_cause(call: Call) -> bool:
    """Whether more is said of a refusal: of an `open` only that its life is old."""
    return call.do != "open" or call.ground == "old-life"


def why(trace: Trace, call: Call) -> str:
    return held_words(call) + cause_words(trace, call)


def explained(trace: Trace, shown: Iterable[Call]) -> str:
    """Returns a line for each call: where it stands, the call, its reply and what decides it."""
    return "".join(
        f"{trace.standing(it.place)}: {call_words(it)}: {plain_line(it.reply)}{why(trace, it)}\n" for it in shown
    )


def fault_line(trace: Trace, fault: Fault) -> str:
    call = fault.call
    told = f'told "{escaped(fault.told)}"; should be "{plain_line(call.reply)}"'
    return f"{trace.standing(call.place)}: {told}{why(trace, call)}\n"


def double_line(trace: Trace) -> str:
    double = trace.end.double or {}
    first, second = (trace.standing(Place(0, double[it]["log"], double[it]["line"])) for it in ("first", "second"))
    return f"{second}: ticket {double['ticket']} is also at {first}\n"


def clocks_line(trace: Trace) -> str:
    found = trace.end.untimely
    if found is None:
        return "timely yes\n"
    table = found.greatest
    read = f"{trace.standing(table.place)} read {table.at} before it"
    if table.place is None:
        read = f"the table read {table.at} in earlier logs"
    skew = trace.head.job["skew"]
    return f"timely no: {trace.standing(found.task.place)} read {found.task.at}, {read}, skew {skew}\n"


def counts_line(end: End) -> str:
    counts = end.counts
    if counts is None:
        return ""
    tasks = "".join(f", task {task} {count}" for task, count in counts.tasks)
    clerks = "".join(f", clerk {clerk} {count}" for clerk, count in counts.clerks)
    return f"calls table {counts.table}{tasks}{clerks}\n"


def one_lines(trace: Trace) -> str:
    end = trace.end
    one_word = f"replies of one word {end.one_word}\n" if end.one_word else ""
    silent = f"no calls of task{''.join(f' {it}' for it in end.silent)}\n" if end.silent else ""
    return f"audit one\nsteps {end.calls}\n{counts_line(end)}{one_word}{silent}{clocks_line(trace)}"


def hint_line(trace: Trace, hint: Members) -> str:
    """Returns the line for something that the logs may lack."""
    if "open" in hint:
        found = hint["open"]
        before = trace.standing(Place(0, found["before"]["log"], found["before"]["line"]))
        return (
            f"hint: an open line of task {found['task']} with life {found['life']} before {before} would make the"
            " calls up to this one a run\n"
        )
    if "begin" in hint:
        return f"hint: a start line of task {hint['begin']['task']} may be missing before this call\n"
    first, last = (hint["grants"][it] for it in ("from", "to"))
    if first == last:
        return f"hint: grant {first} is not in the logs: {MISSING}\n"
    return f"hint: grants {first} to {last} are not in the logs: {MISSING}\n"


def drift_line(trace: Trace) -> str:
    """Returns whether the samples keep the drift, nothing if they were not judged."""
    found = trace.end.drift
    if found is None or found.get("kept"):
        return "drift yes\n" if found else ""
    place = trace.standing(Place(0, found["log"], found["line"]))
    if found["why"] == "back":
        return f'drift no: {place}: "now" is {found["now"]}, below that of a sample before\n'
    if found["why"] == "ahead":
        return f'drift no: {place}: "sent" is {found["sent"]}, above "now", which is {found["now"]}\n'
    return (
        f'drift no: {place}: "reading" is {found["reading"]}, and by the samples before at most {found["most"]} at'
        f" {found['now']}\n"
    )


FORGOTTEN = (
    "not-sent: what earlier logs sent may be forgotten, so only an audit of all logs judges these refusals\n"
)
MOST_FAULTS = 20


def report(trace: Trace, every: bool = False) -> str:
    """Returns the report of an audit: what was found of the calls, and what the logs may lack. With `every` it names
    the later faults too."""
    end = trace.end
    if end.verdict == "one":
        return one_lines(trace) + drift_line(trace) + (FORGOTTEN if end.forgotten else "")
    if end.verdict == "double":
        return double_line(trace)
    first, later = trace.faults[:1], trace.faults[1:] if every else []
    lines = [fault_line(trace, it) for it in first]
    lines += [hint_line(trace, it) for it in end.hints]
    lines += [fault_line(trace, it) for it in later]
    if every and len(trace.faults) >= MOST_FAULTS:
        lines.append("the calls after this one were not judged\n")
    return "".join(lines)
