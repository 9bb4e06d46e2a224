"""Sentences on leases, rows and owners, which a script, a log and the page of a control plane share. The caller words
the readings: `95` of a log, `48,085 (in 9.2 s)` of a job that runs."""

from __future__ import annotations


def lease_name(kind: str, number: int, told: str = "") -> str:
    """Returns the name of a lease, with what is told of it besides."""
    return f"the {kind} lease of grant {number}{f', {told},' if told else ''}"


def granted_words(generation: int, life: int) -> str:
    """Returns for whom a lease was granted."""
    return f"of life {life} and generation {generation}"


def lease_words(name: str, ground: str, ends: str) -> str:
    """Returns how a lease decides a verdict on a key: what it covers, and its deadline. `ground` is why the key is
    denied, nothing if it is served."""
    if not ground:
        return f"{name} covers the key until {ends}"
    if ground == "ended":
        return f"{name} covers the key and ended at {ends}"
    return f"{name} is live until {ends} and does not cover the key"


def no_lease_words(task: int) -> str:
    return f"task {task} holds no live lease, and none that covers the key"


def may_hold_words(task: int, name: str, until: str) -> str:
    """Returns why a commit waits: a row of the table, for a lease that a task may still hold."""
    return f"task {task} may hold {name} until {until}"
