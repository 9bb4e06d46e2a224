"""Each reason of a trace decides its reply: the ground follows from the values that are written out, by the rules of
docs/FORMATS.md alone. The stretches of a key are where it is served."""

import itertools
import json
from collections.abc import Iterable, Iterator
from pathlib import Path

import pytest

import needed

needed.library()

import random_scripts  # noqa: E402
from hourstable.show.trace import Call, Rule, Trace  # noqa: E402
from showing import COMMANDS, SCRIPTS, keys_of, of_logs, of_script, read  # noqa: E402
from test_show import played  # noqa: E402

LOGS = (
    ["move-table.jsonl", "move-task-1.jsonl", "move-task-2.jsonl", "move-client.jsonl"], ["hand-over.jsonl"],
    ["begun-anew.jsonl"], ["restored-twice.jsonl"], ["served-at-the-deadline.jsonl"], ["slow-clock.jsonl"],
)


def ruled(rule: Rule, at: int) -> str:
    """Returns what the written rule answers for the values of a reason, as docs/CONCEPTS.md has it."""
    if not rule.started:
        return "down"
    if at < rule.last:
        return "clock-back"
    for lease in rule.leases:
        if lease.covers and at < lease.ends:
            return f"served {lease.kind} {lease.generation} by {lease.number}"
    for lease in rule.leases:
        if lease.covers:
            return f"ended by {lease.number}"
    live = [it for it in rule.leases if at < it.ends]
    if not live:
        return "no-lease"
    newest = max(it.generation for it in live)
    return f"not-owned {newest} by {next(it.number for it in live if it.generation == newest)}"


def told(call: Call) -> str:
    """Returns the ground that a reply tells, and the lease that its reason names."""
    assert call.reason and call.reason.rule
    lease = call.reason.rule.decides
    by = f" by {lease.number}" if lease else ""
    if call.word == "denied":
        generation = call.reply.get("generation")
        return f"{call.ground}{'' if generation is None else f' {generation}'}{by}"
    assert lease
    if call.word == "served":
        return f"served {call.reply['kind']} {call.reply['generation']}{by}"
    return f"served {lease.kind} {lease.generation}{by}" if call.word == "handle" else call.reason.denied


def check_verdict(call: Call) -> None:
    assert call.reason and call.reason.rule and call.at is not None, call
    answer = ruled(call.reason.rule, call.at)
    if call.word == "broken":
        assert answer.split(" ")[0] == call.reason.denied, call
    else:
        assert answer == told(call), call


def check_refusal(call: Call) -> None:
    """Fails if the ground of a refusal does not follow from its reason."""
    ground, reason, at = call.ground, call.reason, call.at or 0
    if ground == "clock-back":
        assert reason and at < reason.last, call
    elif ground == "held":
        assert reason and reason.row and at < reason.row["until"], call
        assert all(reason.row[it] == call.reply[it] for it in ("task", "kind", "number")), call
    elif ground == "old" and call.do == "hear":
        assert reason and reason.heard and call.members["grant"]["number"] <= reason.heard["number"], call
        assert (reason.heard["kind"], reason.heard["number"]) == (call.members["grant"]["kind"], call.reply["number"])
    elif ground == "old-life":
        assert reason and reason.life is not None and call.members["life"] <= reason.life, call
    elif ground == "other-life":
        assert reason and reason.life != call.members["grant"]["life"], call
    elif ground == "not-holder" and reason and "term" in call.members:
        assert reason.term and (reason.term["number"] != call.members["term"] or reason.term["until"] <= at), call
    elif ground == "job-held":
        assert reason and reason.term and at < reason.term["until"] == call.reply["until"], call
    elif ground == "not-sent" and "number" in call.members:
        assert reason and call.members["number"] not in range(1, reason.made + 1), call


def check(call: Call) -> None:
    if call.do in ("serve", "hold") and call.word in ("served", "denied", "handle"):
        check_verdict(call)
    elif call.word == "broken":
        assert call.reason, call
        if call.reason.rule:
            check_verdict(call)
        else:
            assert call.reason.life is not None or call.reason.taken_last, call
    elif call.word == "refused":
        check_refusal(call)


def random_traces(folder: Path) -> Iterator[Trace]:
    for seed in range(20, 30):
        path = folder / f"{seed}.json"
        path.write_text(json.dumps(random_scripts.script(seed, 250)), encoding="utf-8")
        yield read(of_script(path, random_scripts.KEYS[seed % len(random_scripts.KEYS)]))


def traces() -> Iterator[Trace]:
    for name in played():
        yield read(of_script(SCRIPTS / f"{name}.json"))
    for names in LOGS:
        yield read(of_logs(COMMANDS, list(names)))


def test_each_reason_decides_its_reply(tmp_path: Path) -> None:
    many: dict[str, int] = {}
    for trace in itertools.chain(traces(), random_traces(tmp_path)):
        for call in trace.calls:
            check(call)
            which = call.ground or call.word
            many[which] = many.get(which, 0) + (call.reason is not None)
    grounds = ("served", "ended", "not-owned", "no-lease", "down", "clock-back", "broken", "held", "old", "old-life")
    assert all(many.get(it, 0) > 0 for it in (*grounds, "not-sent", "not-holder", "job-held")), many


def broken(call: Call) -> Iterator[Call]:
    """Yields a call with reasons that decide something else."""
    assert call.reason and call.reason.rule
    rule = call.reason.rule
    for index, lease in enumerate(rule.leases):
        for other in (lease._replace(covers=not lease.covers), lease._replace(ends=0)):
            leases = (*rule.leases[:index], other, *rule.leases[index + 1:])
            yield Call(call.place, call.do, call.members, call.reply,
                       type(call.reason)(rule=rule._replace(leases=leases), owners=call.reason.owners))
    yield Call(call.place, call.do, call.members, call.reply,
               type(call.reason)(rule=rule._replace(started=False), owners=call.reason.owners))


def test_a_reason_that_decides_something_else_is_found() -> None:
    calls = read(of_script(SCRIPTS / "bridge-carries-a-key-over-a-change.json")).calls
    served = [it for it in calls if it.do == "serve" and it.word == "served"]
    assert served
    for call in served:
        assert call.reason and call.reason.rule and call.reason.rule.decides
        for other in itertools.islice(broken(call), 2):
            with pytest.raises(AssertionError):
                check(other)


# STRETCHES


def process_of(calls: Iterable[Call]) -> Iterator[tuple[Call, int]]:
    """Yields calls with the process of their task."""
    process: dict[int, int] = {}
    for call in calls:
        if call.do == "open" and call.word == "opened":
            process[call.members["task"]] = process.get(call.members["task"], 0) + 1
        yield call, process.get(call.task or 0, 0)


def check_stretches(trace: Trace) -> int:
    """Fails if a request for the key is served outside the stretches, or denied in one that its task then knew of.
    Returns how many requests there were."""
    many = 0
    for call, process in process_of(trace.calls):
        if call.do not in ("serve", "hold") or call.slice_key != trace.head.slice_key or call.at is None:
            continue
        own = [it for it in trace.stretches if (it.task, it.process) == (call.task, process)]
        inside = [it for it in own if it.first <= call.at < it.end]
        assert len(inside) <= 1
        if call.word in ("served", "handle"):
            assert inside and call.reason and call.reason.rule and call.reason.rule.decides, call
            assert inside[0].lease["number"] == call.reason.rule.decides.number, call
        many += 1
    return many


def check_edges(trace: Trace) -> None:
    """Fails if a stretch goes on beyond the deadline of its lease, or begins where the task did nothing."""
    ends: dict[int, int] = {}
    accepted: set[tuple[int, int]] = set()
    for call in trace.calls:
        if call.word == "grant":
            ends[call.reply["number"]] = call.reply["ends"]
        if call.do in ("start", "hear", "release") and "reply" in call.reply and call.task and call.at is not None:
            accepted.add((call.task, call.at))
    for stretch in trace.stretches:
        number = stretch.lease["number"]
        assert stretch.first < stretch.end <= ends[number], stretch
        before = {it.end for it in trace.stretches if it.task == stretch.task}
        assert (stretch.task, stretch.first) in accepted or stretch.first in before, stretch
        assert stretch.end == ends[number] or (stretch.task, stretch.end) in accepted, stretch


def test_stretches_are_where_a_key_is_served() -> None:
    many = 0
    for name in played():
        path = SCRIPTS / f"{name}.json"
        for key in keys_of(path)[:3]:
            trace = read(of_script(path, key))
            many += check_stretches(trace)
            check_edges(trace)
    assert many >= 48


def test_stretches_of_random_scripts_are_where_a_key_is_served(tmp_path: Path) -> None:
    many = stretches = 0
    for trace in random_traces(tmp_path):
        many += check_stretches(trace)
        check_edges(trace)
        stretches += len(trace.stretches)
    assert many > 100 and stretches > 10


def test_each_process_of_a_task_has_its_stretches() -> None:
    names = list(LOGS[2])
    key = next(it.slice_key for it in read(of_logs(COMMANDS, names)).calls if it.slice_key is not None)
    trace = read(of_logs(COMMANDS, names, f"--slice-key={key}"))
    check_stretches(trace)
    assert {it.process for it in trace.stretches} >= {1, 2}
