"""The audit of the logs of a job by the program `hourstable`, over what logs lack, and day after day.

A folder whose old logs were removed after an audit has the state that they left, as `hourstable audit --until` saves
it. Its name is `audited.TICKET.state`: it is that of all calls whose tickets are below this one, from which the next
audit goes on.
"""

import json
import os
import re
import subprocess
import tempfile
from collections.abc import Iterator, Sequence
from pathlib import Path
from typing import NamedTuple

from hourstable import logs

STATE = re.compile(r"audited\.(\d{1,20})\.state")
LAST = 1 << 64  # above all tickets


class Gap(NamedTuple):
    """Calls that the logs lack, and the line that says so."""

    file: str
    line: int
    missing: int
    first: int  # the tickets of the first and the last of them
    last: int
    removed: str = ""  # the file that had them, if that was removed

    def __str__(self) -> str:
        what = f"{self.missing} lines are missing"
        if self.removed:
            what = f"{self.removed} was removed and not audited"
        return f"{self.file}:{self.line}: {what}, tickets {self.first} to {self.last}"


class Verdict(NamedTuple):
    """What the program said of some logs, and its status."""

    status: int
    said: str

    @property
    def is_one(self) -> bool:
        return self.said.startswith("audit one\n")


def gaps_of(folder: Path, above: int = 0) -> list[Gap]:
    """Returns what the logs of a job lack, but for what was removed and is below a ticket, up to which an earlier
    audit saw all.

    A gap whose first and last calls are in a log is none: a control plane has logged what its store had of one
    write. Of the others that begin with one call the later one counts: the disk had not taken what came then, or had
    taken it after all.
    """
    gaps = [gap for gap in _gaps_in(folder) if not (gap.removed and gap.last < above)]
    there = _those_there(folder, {ticket for gap in gaps for ticket in (gap.first, gap.last)})
    return list({gap.first: gap for gap in gaps if not {gap.first, gap.last} <= there}.values())


def _those_there(folder: Path, wanted: set[int]) -> set[int]:
    """Returns those of the tickets that a call of the logs has."""
    there: set[int] = set()
    for path in logs.files_of(folder) if wanted else ():
        with open(path, "rb") as lines:
            there.update(ticket for line in lines if (ticket := logs.ticket_of(line, 0)) in wanted)
    return there


def _gaps_in(folder: Path) -> Iterator[Gap]:
    for path in (*logs.files_of(folder), *logs.spares_of(folder)):  # what a log lacks and does not say comes last
        with open(path, "rb") as lines:
            for number, line in enumerate(lines, 1):
                if line.startswith(logs.GAP):
                    gap = json.loads(line)["gap"]
                    yield Gap(path.name, number, gap["lines"], gap["from"], gap["until"], gap.get("file", ""))


class Audit:
    """The audit of the logs of a job by a program, with its options."""

    def __init__(self, folder: Path, program: str, options: Sequence[str] = ()) -> None:
        self.folder, self._program, self._options = folder, os.path.abspath(program), list(options)

    def run(self, keep: int | None = None) -> int:
        """Audits what no earlier audit saw, and prints what the program says. Returns its status, and 1 if the logs
        lack something. With `keep`, if all of it is one run, it saves the state up to the last days, as many as are
        kept, and removes the files that end before them."""
        above, begins = self._audited()
        verdict = self.judged([*self._options, *begins], above, LAST)
        status = self._tell(verdict, gaps_of(self.folder, above))
        if keep is not None and verdict.is_one and status == 0:
            self._save(keep, above, begins)
        return status

    def _tell(self, verdict: Verdict, gaps: list[Gap]) -> int:
        """Prints what the program said and what the logs lack, and returns the status."""
        said = verdict.said.replace("audit one\n", "audit gaps\n", 1) if gaps else verdict.said
        print(said, *(f"gap {gap}\n" for gap in gaps), sep="", end="", flush=True)
        return verdict.status or int(bool(gaps))

    def judged(self, options: Sequence[str], above: int, below: int) -> Verdict:
        """Hands the calls whose tickets are from one on and below another to the program."""
        with tempfile.TemporaryDirectory(prefix="hourstable-audit.") as laid:
            paths = logs.lay_out(self.folder, laid, above, below)
            words = [self._program, "audit", *options, *(path.name for path in paths)]
            ran = subprocess.run(words, cwd=laid, stdout=subprocess.PIPE, text=True, check=False)
            return Verdict(ran.returncode, ran.stdout)

    def _states(self) -> list[tuple[int, Path]]:
        found = ((STATE.fullmatch(path.name), path) for path in self.folder.glob("audited.*.state"))
        return sorted((int(name[1]), path) for name, path in found if name)

    def _audited(self) -> tuple[int, list[str]]:
        """Returns the ticket below which an earlier audit saw all, and the options by which it goes on."""
        states = self._states()
        if not states or "--from" in self._options:
            return 0, []
        return states[-1][0], ["--from", str(states[-1][1].absolute())]

    def _save(self, days: int, above: int, begins: list[str]) -> None:
        """Saves the state of all calls before the first one of the days that are kept."""
        first_day, files = logs.days_before(logs.utc_day(), days), logs.files_of(self.folder)
        old = [path for path in files if logs.day_of(path) < first_day]
        kept = [path for path in files if logs.day_of(path) >= first_day]
        firsts = [ticket for path in kept if (ticket := logs.first_ticket(path))]
        below = min(firsts, default=1 + max(map(logs.last_ticket, old), default=0))
        old = [path for path in old if logs.last_ticket(path) < below]
        if not old or below <= above:
            return
        state = self.folder / f"audited.{below}.state"
        verdict = self.judged([*begins, "--until", str(state.absolute())], above, below)
        if not verdict.is_one:
            print(f"the calls before ticket {below} alone are not one run, so no file is removed")
            return
        for path in [*old, *(path for ticket, path in self._states() if ticket < below)]:
            path.unlink()
        print(f"removed {len(old)} files of days before {first_day}")
