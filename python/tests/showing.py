"""Traces for tests, by `hourstable trace` and by its stand-in; and what is to be shown of them.

tests/stored/shown has what hourstable-show is to write, as the proved programs of earlier versions wrote it:

  scripts.txt         scripts of crates/worked_examples/data, explained with numbers
  scripts/, random/   pictures of scripts, NAME.svg with the clerks or NAME.KEY.svg; scripts of random steps
  commands.jsonl      command lines in the folder crates/command_examples/data, with what they write
  bugs.txt            reports with --all of the logs of examples/audit/bugs; of some, bugs-explained.txt and
                      bugs-around.txt have the calls, and bugs/ the pictures

In a text file a line `== NAME` is above each text.
"""

from __future__ import annotations

import json
import os
import re
import subprocess
import sys
from collections.abc import Iterable
from pathlib import Path
from typing import TypeAlias

import needed

from hourstable.show import trace
from stand_in.logs import Asked, Logs
from stand_in.tasks import Members

TOP = Path(__file__).resolve().parents[2]
SCRIPTS = TOP / "crates/worked_examples/data"
COMMANDS = TOP / "crates/command_examples/data"
SHOWN = TOP / "tests/stored/shown"
NAME = re.compile(r"^== (.*)\n", re.MULTILINE)
TORN = re.compile(r"^hourstable: (.*):(\d+): a last line without its end was left out$", re.MULTILINE)
SECONDS = 120
Ran: TypeAlias = "subprocess.CompletedProcess[bytes]"


def proved(*words: str, cwd: Path = TOP, given: bytes = b"") -> Ran:
    """Runs the proved program."""
    return subprocess.run(
        [needed.program(), *words], cwd=cwd, input=given, capture_output=True, check=False, timeout=SECONDS
    )


def stored(name: str) -> str:
    """Returns the text of a stored file."""
    return (SHOWN / name).read_bytes().decode()


def stored_texts(name: str) -> dict[str, str]:
    """Returns the texts of a stored file by their names."""
    found = NAME.split(stored(name))
    return dict(zip(found[1::2], found[2::2], strict=True))


def read(lines: Iterable[Members]) -> trace.Trace:
    return trace.read(json.dumps(it).encode() for it in lines)


def of_script(path: Path, key: str | None = None) -> list[Members]:
    """Returns the lines of the trace of a script, none if it is refused."""
    ran = proved("trace", *([] if key is None else [f"--key={key}"]), str(path))
    return [json.loads(line) for line in ran.stdout.splitlines()] if ran.returncode == 0 else []


def of_logs(folder: Path, names: list[str], *options: str, given: bytes = b"") -> list[Members]:
    """Returns the lines of the trace of logs; none if they are refused."""
    ran = proved("trace", *options, "--logs", *names, cwd=folder, given=given)
    return [json.loads(line) for line in ran.stdout.splitlines()] if ran.returncode < 2 else []


def stood_in(folder: Path, names: list[str], key: int | None = None, drift: str | None = None) -> list[Members]:
    """Returns the lines of the trace of logs that are not refused, by the stand-in."""
    ran = proved("audit", *names, cwd=folder)
    assert ran.returncode in (0, 1), ran.stderr
    found = TORN.findall(ran.stderr.decode())
    torn = [frozenset(int(line) for log, line in found if log == name) for name in names]
    texts = [(folder / name).read_bytes() for name in names]
    return list(Logs(Asked(names, texts, torn, key, drift)).trace())


def names_in(folder: Path) -> list[str]:
    """Returns the names of the logs that examples/audit/bugs has left in a folder, but for those of days."""
    names = (it.name for it in folder.glob("*.jsonl") if not it.name.startswith("day-"))
    return sorted(names, key=lambda it: (not it.startswith("table"), it))


def keys_of(path: Path) -> list[str]:
    """Returns the keys that a script names."""
    steps = json.loads(path.read_bytes())[1:]
    return sorted({it["key"] for it in steps if it.get("do") in ("serve", "hold", "look")})


def show(*words: str, program: str | None = None, cwd: Path = TOP, given: bytes = b"") -> Ran:
    """Runs hourstable-show over the proved program, or over another one."""
    named = {"HOURSTABLE_PROGRAM": program or needed.program(), "PYTHONPATH": str(TOP / "python")}
    return subprocess.run(
        [sys.executable, "-B", "-m", "hourstable.show", *words], cwd=cwd, input=given, capture_output=True,
        check=False, env={**os.environ, **named}, timeout=SECONDS,
    )
