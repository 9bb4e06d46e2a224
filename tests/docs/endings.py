"""The programs end with the statuses and the words on standard error that docs/FORMATS.md gives.

Each program's own stored run, in crates/NAME, ends well; most of these runs do not. An audit saves the state that was
written by hand for its log.
"""
import shutil
import subprocess
import tempfile
from collections.abc import Iterator
from dataclasses import dataclass
from pathlib import Path

from built import Built
from pages import TOP, Fault, Result

JOB = (
    '{"job":{"redundancy":1,"skew":10,"guard":100,"bridge":100,"job":1000,"numbers":1000,'
    '"assigners":2,"tasks":2,"clerks":2}}'
)
# A program that still runs after so many seconds has failed.
LIMIT = 60


@dataclass(frozen=True)
class Run:
    """A run of a program, and what it must come to."""

    program: str
    words: list[str]
    stdin: str
    status: int
    stdout: str
    stderr: str


HOLD_OF_NO_TASK = f'[{JOB},{{"do":"hold","task":3,"key":"a","at":7}}]'
PHASE = f'[{JOB},{{"do":"phase"}}]'
HOT_IS_NO_SWITCH = '{"tasks":2,"workers":2,"rounds":3,"asks":100,"hot":1}'
EMPTY = "hourstable: standard input: no job: the array is empty; its first element must be the job line\n"

RUNS = [
    Run("slicer_run", [], "[]", 2, "", "slicer_run: script refused: no job\n"),
    Run("slicer_run", [], HOLD_OF_NO_TASK, 2, "", "slicer_run: script refused: bad step 1\n"),
    Run("slicer_run", [""], PHASE, 2, "", "slicer_run: no arguments taken\n"),
    Run("slicer_live", [], HOT_IS_NO_SWITCH, 2, "", "slicer_live: input refused\n"),
    Run("slicer_live", [""], "", 2, "", "slicer_live: no arguments taken\n"),
    Run("hourstable", ["run"], "[]", 2, "", EMPTY),
    Run("hourstable", ["run", "-"], PHASE, 0, "phase steady 0\ntimely yes\n", ""),
]

# A log, and the state that it leaves, which crates/command_examples goes on from.
DATA = TOP / "crates/command_examples/data"
SAVING = Run(
    "hourstable",
    ["audit", "--until", "saved.state", "day-1.jsonl"],
    "",
    0,
    "audit one\nsteps 6\ncalls table 4, task 1 2\ntimely yes\n",
    "",
)


def fault_of_saving(built: Built, folder: str) -> str | None:
    """What is wrong with the state that an audit saves, or None."""
    shutil.copy(DATA / "day-1.jsonl", folder)
    why = fault_of(SAVING, built, folder)
    saved = Path(folder, "saved.state")
    if why is None and saved.read_bytes() != (DATA / "day-1.state").read_bytes():
        why = f"the state of day-1.jsonl is\n{saved.read_text()}"
    return why


def fault_of(run: Run, built: Built, folder: str) -> str | None:
    """What is wrong with a run in a folder, or None."""
    try:
        words = [str(built.program(run.program)), *run.words]
        ran = subprocess.run(words, cwd=folder, input=run.stdin, capture_output=True, text=True, timeout=LIMIT)
    except (OSError, subprocess.TimeoutExpired) as why:
        return str(why)
    wanted = (run.status, run.stdout, run.stderr)
    found = (ran.returncode, ran.stdout, ran.stderr)
    if found == wanted:
        return None
    return f"{[run.program, *run.words]} on {run.stdin!r} ends with {found}, not {wanted}"


def check(built: Built) -> Iterator[Result]:
    """A result for each run."""
    with tempfile.TemporaryDirectory() as folder:
        found = [(run, fault_of(run, built, folder)) for run in RUNS]
        found.append((SAVING, fault_of_saving(built, folder)))
    for run, why in found:
        yield Result(run.program, [Fault("tests/docs/endings.py", 1, why)] if why else [])
