"""The lines of `hourstable trace --logs` are those of the stand-in, which shares no code with it: the same values, in
the same order."""

from __future__ import annotations

import json
from collections.abc import Iterator
from itertools import islice
from pathlib import Path

import pytest

import needed

needed.library()

import random_logs  # noqa: E402
from hourstable.library import slice_key  # noqa: E402
from showing import COMMANDS, names_in, proved, stood_in, stored, stored_texts  # noqa: E402
from stand_in.tasks import Members  # noqa: E402

LINES = [json.loads(line) for line in stored("commands.jsonl").splitlines()]
AUDITED = {it["name"]: it["words"][1:] for it in LINES if it["words"][0] == "audit" and it["status"] < 2}
OF_CALLS = ("call", "stretch", "broken")  # lines that --no-calls leaves out
BUGS = stored_texts("bugs.txt")  # of examples/audit
MANY_CALLS = "history-without-end"


def traced(folder: Path, names: list[str], *words: str) -> list[Members]:
    """Returns the lines of the program."""
    ran = proved("trace", *words, "--logs", *names, cwd=folder)
    assert ran.returncode in (0, 1), ran.stderr
    lines = ran.stdout.decode().splitlines()
    found: list[Members] = [json.loads(line) for line in lines]
    assert lines == [json.dumps(it, ensure_ascii=False, separators=(",", ":"), sort_keys=True) for it in found]
    assert (ran.returncode == 0) == (found[-1]["end"]["verdict"] == "one")
    return found


def check(folder: Path, names: list[str], key: int | None = None, drift: str | None = None) -> list[Members]:
    """Fails if lines differ, with calls or without. Returns them."""
    due: list[Members] = json.loads(json.dumps(stood_in(folder, names, key, drift)))
    options = [] if drift is None else [f"--drift={drift}"]
    keyed = [] if key is None else [f"--slice-key={key}"]
    for found, wanted in zip(traced(folder, names, *options, *keyed), due, strict=True):
        assert found == wanted
    short = [it for it in due if not any(name in it for name in OF_CALLS)]
    assert traced(folder, names, *options, *keyed, "--no-calls") == short
    return due


def keys_in(lines: list[Members]) -> Iterator[int]:
    """Yields the slice keys of requests, each once."""
    yield from dict.fromkeys(int(it["slice_key"]) for it in lines if "call" in it and "slice_key" in it)


def words_of(name: str) -> tuple[list[str], str | None]:
    """Returns the logs of a stored audit, and its drift."""
    words = AUDITED[name]
    drift = words[words.index("--drift") + 1] if "--drift" in words else None
    return [it for it in words if it.endswith(".jsonl")], drift


@pytest.mark.parametrize("name", [name for name, it in AUDITED.items() if not {"-", "--from"}.intersection(it)])
def test_stored_logs_are_traced(name: str) -> None:
    names, drift = words_of(name)
    lines = check(COMMANDS, names, drift=drift)
    for key in islice(keys_in(lines), 2):
        check(COMMANDS, names, key, drift)


@pytest.mark.parametrize("bug", [it for it in BUGS if it != MANY_CALLS])
def test_logs_of_a_bug_are_traced(bug_logs: Path, bug: str) -> None:
    folder = bug_logs / bug
    lines = check(folder, names_in(folder))
    for key in islice(keys_in(lines), 1):
        check(folder, names_in(folder), key)


@pytest.mark.parametrize("seed", range(20))
@pytest.mark.parametrize("is_spoilt", [False, True], ids=["right", "spoilt"])
def test_random_logs_are_traced(tmp_path: Path, seed: int, is_spoilt: bool) -> None:
    names = random_logs.write(tmp_path, seed, 250, is_spoilt)
    lines = check(tmp_path, names, drift="1/10/2")
    assert is_spoilt or lines[-1]["end"]["verdict"] == "one"
    check(tmp_path, names, slice_key(b"hello"))


def test_a_key_is_told_as_it_is_given() -> None:
    names, _ = words_of("audit-writes")
    first = traced(COMMANDS, names, "--key=hello")
    assert first[0]["key"] == "hello" and first[0]["slice_key"] == str(slice_key(b"hello"))
    second = traced(COMMANDS, names, f"--slice-key={slice_key(b'hello')}")
    assert "key" not in second[0] and second[1:] == first[1:]
