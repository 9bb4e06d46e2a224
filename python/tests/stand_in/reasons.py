"""The values that decide replies, asked of the machines."""

from __future__ import annotations

from collections.abc import Callable

from .machines import Machines
from .tasks import Members, Task, taking

Refer = Callable[[int], Members]  # names a call by its number
TASK_CALLS = frozenset("start hear release serve hold check open".split())


def rule_of(machines: Machines, task: Task, slice_key: int, refer: Refer) -> Members:
    """Returns what the written rule is asked for a key."""
    leases = []
    for it in task.held():
        heard = task.heard.get(it.number)
        leases.append({
            "kind": it.kind, "number": str(it.number), "generation": str(it.generation), "ends": str(it.ends),
            "covers": machines.covers(it.number, slice_key), **({"heard": refer(heard)} if heard else {}),
        })
    return {"started": task.is_started, "last": str(task.last), "leases": leases}


def deciding(rule: Members, answer: Members, at: int) -> Members | None:
    """Returns the lease by which the rule answers, if one decides."""
    leases: list[Members] = rule["leases"]
    if answer.get("reply") == "served":
        return next(it for it in leases if it["kind"] == answer["kind"])
    if answer.get("denied") == "ended":
        return next(it for it in leases if it["covers"])
    if answer.get("denied") == "not-owned":
        return next(it for it in leases if it["generation"] == answer["generation"] and at < int(it["ends"]))
    return None


def verdict_reason(machines: Machines, task: Task, slice_key: int, at: int, refer: Refer) -> Members:
    answer, rule = task.answer(slice_key, at), rule_of(machines, task, slice_key, refer)
    lease = deciding(rule, answer, at)
    if lease is not None:
        rule["number"] = lease["number"]
    generation, owners = machines.owners(slice_key)
    return {"rule": rule, "owners": {"generation": str(generation), "tasks": owners}}


def broken_reason(machines: Machines, task: Task, handle: Members, at: int, refer: Refer) -> Members:
    """Returns why a handle is broken: the task is in another life, the rule denies its key, or a call took its key
    away; and which call took it away first."""
    first, last = taking(task, handle, at)
    found: Members = {"taken": {"first": refer(first)}} if first is not None else {}
    if handle["life"] != task.life:
        return {"life": task.life, **found}
    slice_key = int(handle["slice_key"])
    answer = task.answer(slice_key, at)
    if "denied" in answer:
        return {"denied": answer["denied"], **verdict_reason(machines, task, slice_key, at, refer), **found}
    if last is not None:
        found.setdefault("taken", {})["last"] = refer(last)
    return found


def row_reason(machines: Machines, at: int) -> Members | None:
    """Returns the row that holds a commit up."""
    generation = machines.generation()
    found = (it for it in machines.rows() if int(it["generation"]) <= generation and at < int(it["until"]))
    row = next(found, None)
    return {"row": row} if row else None


def table_reason(machines: Machines, call: Members, ground: str) -> Members | None:
    if ground == "clock-back":
        return {"last": str(machines.last)}
    if ground == "held":
        return row_reason(machines, int(call["at"]))
    if ground in ("not-holder", "job-held") and machines.term:
        return {"term": machines.term}
    return None


def task_reason(task: Task, call: Members, ground: str) -> Members | None:
    if ground == "clock-back":
        return {"last": str(task.last)}
    if ground in ("old-life", "other-life"):
        return {"life": task.life}
    if ground == "old":
        kind = call["grant"]["kind"]
        return {"heard": {"kind": kind, "number": str(task.greatest[kind])}, "life": task.life}
    return None


def reason_of(machines: Machines, call: Members, reply: Members, refer: Refer) -> Members | None:
    """Returns the values that decide the reply to a call, None if the call and the reply say them all. Those of what
    was not sent are told by its caller."""
    task = machines.tasks.get(call["task"]) if call["do"] in TASK_CALLS else None
    ground = reply.get("refused")
    if ground is not None:
        return task_reason(task, call, ground) if task else table_reason(machines, call, ground)
    if task is None:
        return None
    if call["do"] in ("serve", "hold"):
        return verdict_reason(machines, task, int(call["slice_key"]), int(call["at"]), refer)
    if reply.get("reply") == "broken":
        return broken_reason(machines, task, call["handle"], int(call["at"]), refer)
    return None
