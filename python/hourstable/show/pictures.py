"""What a picture shows of a trace: that of a script, or the calls of logs that are wanted."""

from __future__ import annotations

from collections.abc import Iterable
from itertools import pairwise

from .drawing import draw, text
from .lanes import Alarm, Shown, Span, cut
from .report import report
from .story import Deed, Story
from .trace import TASK_CLOCK, Call, Head, Stretch, Trace
from .views import Window
from .words import line_of, plain_line

LABEL_CHARACTERS = 16  # of a key


def key_label(key: str) -> str:
    """Returns a key as a label shows it: its first characters."""
    return key if len(key) <= LABEL_CHARACTERS else f"{key[:LABEL_CHARACTERS]}…"


def alarms_of(call: Call, place: str, slice_key: int | None) -> list[Alarm]:
    """Returns the warnings of a call. With a key, that a task does not own it is warned of for that key alone."""
    found, task, at = [], call.task, call.at
    if task is None or at is None or call.do not in TASK_CLOCK:
        return []
    if call.untimely is not None:
        words = f"task {task} reads {at}, more than the skew below {call.untimely}, which the table read before"
        found.append(Alarm(place, task, at, words))
    if call.not_owner is not None and slice_key in (None, call.slice_key):
        words = f"task {task} serves a key at {at} that it does not own in generation {call.not_owner}"
        found.append(Alarm(place, task, at, words))
    return found


def is_shown(call: Call, slice_key: int | None) -> bool:
    """Whether a call is shown: with a key, requests for other keys are not."""
    return slice_key is None or call.slice_key in (None, slice_key)


# STRETCHES


def cut_points(calls: Iterable[Call]) -> dict[tuple[int, int], list[int]]:
    """Returns the readings at which each process of each task accepted a call that may change what it holds."""
    found: dict[tuple[int, int], list[int]] = {}
    process: dict[int, int] = {}
    for call in calls:
        task = call.task
        if task is None or "reply" not in call.reply:
            continue
        if call.do == "open":
            process[task] = process.get(task, 0) + 1
        elif call.do in ("start", "hear", "release") and call.at is not None:
            found.setdefault((task, process.get(task, 0)), []).append(call.at)
    return found


def joined(stretches: Iterable[Stretch]) -> list[Span]:
    """Returns stretches of a process as spans. Those that touch are one."""
    found: list[Span] = []
    for it in stretches:
        if found and found[-1].end == it.first:
            found[-1] = Span(found[-1].first, it.end)
        else:
            found.append(Span(it.first, it.end))
    return found


def pieces(spans: Iterable[Span], points: list[int]) -> list[Span]:
    """Returns spans, cut at readings."""
    found = []
    for span in spans:
        inner = sorted({it for it in points if span.first < it < span.end})
        found += [Span(*it) for it in pairwise([span.first, *inner, span.end])]
    return found


def within(spans: Iterable[Span], span: Span) -> list[Span]:
    found = (Span(max(it.first, span.first), min(it.end, span.end)) for it in spans)
    return [it for it in found if it.first < it.end]


def later_readings(points: dict[tuple[int, int], list[int]], task: int, process: int) -> list[int]:
    """Returns the first reading of each later process of a task, whose clock may count from 0 again."""
    return [readings[0] for (by, other), readings in points.items() if by == task and other > process]


def spans_of(trace: Trace) -> dict[int, list[Span]]:
    """Returns for each task the readings at which it may serve the key of the trace. Those of a process go on up to
    the first reading of a later one."""
    points = cut_points(trace.calls)
    found: dict[int, list[Span]] = {}
    by_process: dict[tuple[int, int], list[Stretch]] = {}
    for it in trace.stretches:
        by_process.setdefault((it.task, it.process), []).append(it)
    for (task, process), stretches in sorted(by_process.items()):
        later = later_readings(points, task, process)
        spans = pieces(joined(stretches), points.get((task, process), []))
        found.setdefault(task, []).extend(within(spans, Span(0, min(later))) if later else spans)
    return found


# SCRIPTS


def with_ground(label: str, call: Call) -> str:
    return f"{label}: {call.ground}" if call.word == "denied" else label


def script_label(call: Call) -> str:
    """Returns the label of a step: the key of a request and why it is denied, or the step with its number."""
    members, do = call.members, call.do
    if do in ("serve", "hold", "look"):
        name = key_label(members["key"])
        return name if do == "look" else with_ground(f"hold {name}" if do == "hold" else name, call)
    if do == "check":
        more = {"continuous": " kept", "broken": " broken"}.get(call.word, "")
        return f"handle {members['number']}{more}"
    named = {"start": "life", "hear": "number"}
    if do in named:
        return f"{do} {members[named[do]]}"
    return {"release": "release", "lose": "restart"}.get(do, "")


def script_deed(call: Call, is_alarmed: bool) -> Deed:
    label = script_label(call)
    asked = "the table restarts" if call.do == "lose" else label
    key = key_label(call.members["key"]) if call.do in ("serve", "hold", "look") else ""
    return Deed("", label, asked, key, line_of(call.reply), is_alarmed)


def script_picture(trace: Trace, with_clerks: bool) -> str:
    """Returns the picture of a script. With a key, requests for it alone are shown."""
    story, alarms = Story(trace), list[Alarm]()
    slice_key, key = trace.head.slice_key, trace.head.key
    for call in trace.calls:
        found = alarms_of(call, f"step {call.place.call}", slice_key)
        alarms += found
        story.see(call, script_deed(call, bool(found)) if is_shown(call, slice_key) else None)
    shown = Shown("", story.lanes(with_clerks), spans_of(trace), alarms)
    heading = f"Timeline of {trace.end.calls} steps{f', key {key}' if key is not None else ''}"
    return draw(shown, heading, key is not None)


# LOGS


def log_label(call: Call) -> str:
    """Returns the label of a call: the number of its line, and what is not seen from its mark."""
    line, do = call.place.line, call.do
    if call.word == "denied":
        return f"{line}: {call.ground}"
    if do in ("serve", "look"):
        return str(line)
    if call.word in ("continuous", "broken"):
        return f"{line}: {'kept' if call.word == 'continuous' else 'broken'}"
    if do == "restore" and call.word == "refused":
        return f"{line}: restore refused"
    return f"{line}: {do if do != 'lose' else 'restart'}"


def log_deed(trace: Trace, call: Call, is_alarmed: bool) -> Deed:
    key = "" if call.slice_key is None else f"slice key {call.slice_key}"
    named = {"restore": "the table is restored", "lose": "the table restarts"}
    asked = named.get(call.do, f"{call.do} {key}" if key else call.do)
    place = f"{trace.standing(call.place)}: "
    return Deed(place, log_label(call), asked, key, plain_line(call.reply), is_alarmed)


def span_of(calls: Iterable[Call]) -> Span:
    """Returns the span from the lowest to the greatest reading of calls, of whichever clock."""
    readings = [it.at for it in calls if it.at is not None]
    return Span(min(readings, default=(1 << 64) - 1), max(readings, default=0))


def note_of(trace: Trace) -> str:
    """Returns what a picture says first if the calls are not one run."""
    verdict = trace.end.verdict
    if verdict == "one":
        return ""
    if verdict == "double":
        return f"The calls are not one run, and none is drawn:\n{report(trace)}"
    return f"The calls are not one run. They are drawn up to the one with a wrong reply:\n{report(trace)}"


def log_heading(head: Head, drawn: int, calls: int) -> str:
    key = "" if head.slice_key is None else f", slice key {head.slice_key}"
    return f"{drawn} of {calls} calls of a log{key}"


def log_story(trace: Trace, window: Window, first: int) -> tuple[Story, list[Alarm], int]:
    """Returns what happened up to the end of a window, from a reading on, with the warnings of the window, and how
    many of its calls have marks."""
    story, alarms, drawn = Story(trace, first), list[Alarm](), 0
    slice_key = trace.head.slice_key
    for index, call in enumerate(trace.calls[:window.end]):
        found = alarms_of(call, text(trace.standing(call.place)), slice_key) if index >= window.first else []
        alarms += found
        is_marked = index >= window.first and is_shown(call, slice_key)
        drawn += is_marked
        story.see(call, log_deed(trace, call, bool(found)) if is_marked else None)
    return story, alarms, drawn


def log_picture(trace: Trace, window: Window, with_clerks: bool) -> str:
    """Returns the picture of the calls of logs in a window, from their lowest to their greatest reading."""
    span = span_of(trace.calls[window.first:window.end])
    story, alarms, drawn = log_story(trace, window, span.first)
    lanes = [cut(lane, span) for lane in story.lanes(with_clerks)]
    stretches = {task: within(spans, span) for task, spans in spans_of(trace).items()}
    shown = Shown(note_of(trace), lanes, stretches, alarms)
    return draw(shown, log_heading(trace.head, drawn, trace.end.calls), trace.head.slice_key is not None)


def shown_calls(trace: Trace, window: Window) -> list[Call]:
    """Returns the calls of a window that have replies; with a key, of requests only those for it."""
    return [it for it in trace.calls[window.first:window.end] if is_shown(it, trace.head.slice_key)]
