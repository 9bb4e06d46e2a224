"""Bugs that are planted in a copy of the package, one at a time, to see that seeds find them."""

import os
import shutil
import subprocess
import sys
import tempfile
from pathlib import Path
from typing import NamedTuple

TOP = Path(__file__).resolve().parents[1]


class Mutant(NamedTuple):
    """A bug: its name, the file, and each old text, which stands once, with the new one. `seeds` are
    those that are tried first, among them one that finds it. What tests find stands in python/wrong-bodies."""

    name: str
    file: str
    edits: tuple[tuple[str, str], ...]
    seeds: str = ""


MUTANTS = (
    Mutant("answered-first", "jobs.py", ((
        "        lines = [one.line for one in played if one.line]\n",
        "        lines = [one.line for one in played if one.line]\n"
        "        for waiting, made, _ in played:\n            waiting.tell(made)\n",
    ),), seeds="44"),
    Mutant("version-not-compared", "store_sqlite.py", (
        ('AND version = ?{where}",', 'AND version >= 0 * ?{where}",'),
        ('where, compared = f" AND {HOLDER} = ?",', 'where, compared = f" AND {HOLDER} <> ?",'),
    ), seeds="113"),
    Mutant("conflict-overwritten", "jobs.py", ((
        "        written = await self.ask(\"swap\", self._store.swap, *given)\n",
        "        newest = await self._store.load(self.name)\n"
        "        given = (self.name, newest.version, *given[2:4], holding._replace(before=newest.holder))\n"
        "        written = await self.ask(\"swap\", self._store.swap, *given)\n",
    ),), seeds="6"),
    Mutant("late-writes-taken", "library.py", ((
        "        return bool(code == 0)\n", "        return True\n",
    ),), seeds="19"),
    Mutant("ticket-before-claim", "jobs.py", (
        ("        self._waiting.append(Waiting(call, answer))\n",
         "        call.drawn = self.tickets.draw()\n        self._waiting.append(Waiting(call, answer))\n"),
        ("call.logged(self.tickets.draw(), at)  # after", "call.logged(call.drawn, at)  # after"),
    ), seeds="3"),
    Mutant("check-always", "task.py", ((
        "self._task._leases is self._leases and self._leases.check(self._entered, self._is_logged)",
        "self._leases.check(self._entered, self._is_logged) or True",
    ),), seeds="5"),
    Mutant("clock-behind", "leases.py", ((
        "        self.clock.sample(sent, reading, now)",
        "        self.clock.sample(sent, max(0, reading - 1500), now)",
    ),), seeds="2"),
    Mutant("clock-stops-asleep", "clock.py", ((
        "    ticks = steady_ticks if system is SYSTEM else system.ticks",
        "    ticks = lambda: int(system.monotonic() * 1000)",
    ),), seeds="28"),
    Mutant("sent-is-late", "calls.py", ((
        "        made = _taken(url, status, headers, found, sent)",
        "        made = _taken(url, status, headers, found, self.local_clock())",
    ),), seeds="6"),
    Mutant("life-twice", "store.py", ((
        "            return Life(life.life + 1, life.drained)",
        "            return Life(max(life.life, 1), life.drained)",
    ),), seeds="4"),
    Mutant("observe-nothing", "calls.py", (
        ("            self.tickets.observe_text(headers.get(HEADER))\n", "            pass\n"),
    ), seeds="2"),
    Mutant("plane-observes-nothing", "control.py", ((
        "                self.tickets.observe_text(request.headers.get(ticketing.HEADER))",
        "                pass",
    ),), seeds="2"),
    Mutant("restore-not-stored", "jobs.py", ((
        "            version, line = await self._write_restore(stored, row, rights)\n"
        "            holder = self.settings.incarnation",
        "            version, line = stored.version, row.lines[-1]",
    ),), seeds="20"),
    Mutant("clock-ahead", "clock.py", (
        ("TableClock(kept, ahead + GRAIN + 1, local())", "TableClock(kept, 0, local())"),
    ), seeds="102"),
    Mutant("went-back-not-noticed", "jobs.py", (
        ("        if stored.version < version:\n", "        if stored.version < 0:\n"),
    ), seeds="82"),
    Mutant("place-of-another-boot", "rights.py", (
        ("all(self[1:]) and self[1:] == other[1:]", "all(self[1:]) and self[2:] == other[2:]"),
    ), seeds="11"),
    Mutant("row-form-of-its-own", "jobs.py", (
        ("        rights.fit(self._others.reads(self.settings.row_form))\n", ""),
    ), seeds="80"),
    Mutant("lines-not-logged", "jobs.py", (
        ("            self._log.append(*lines)\n            held.line", "            held.line"),
    ), seeds="2"),
    Mutant("last-not-kept", "tickets.py", (
        ("                self._words[LAST] = place\n", "                pass\n"),
    ), seeds="563"),
    Mutant("boot-not-compared", "tickets.py", (
        ("        if boot and boot == self.fields.boot and", "        if boot and"),
    ), seeds="163"),
    Mutant("notes-not-brought", "task.py", ((
        '                await self._control.read(replies.freed_in, "POST", "/free", body)\n                return',
        "                return",
    ),), seeds="55"),
    Mutant("renews-late", "task.py", ((
        "        half = max(0, leases.held[kind].until - at) / 2",
        "        half = max(0, leases.held[kind].until - at) * 1.2",
    ),), seeds="55"),
    Mutant("wakes-kept", "jobs.py", (
        ("            self._wakes.discard(waking)\n", "            pass\n"),
    ), seeds="2"),
    Mutant("work-not-ended", "jobs.py", ((
        "                one.fail(error)\n        finally:\n            self._working = None",
        "                one.fail(error)\n        finally:\n            pass",
    ),), seeds="2"),
    Mutant("line-not-observed", "jobs.py", (
        ("        self._observe(stored)\n        self._seen.saw", "        self._seen.saw"),
    ), seeds="9"),
    Mutant("policy-from-anything", "replies.py", (
        ("    answer.value()\n    return answer.status != 409", "    return answer.status != 409"),
    ), seeds="117"),
)


def planted(mutant: Mutant, folder: Path) -> Path:
    """Copies the package into a folder with a bug, and returns the folder. Raises ValueError if the
    old text does not stand there once."""
    shutil.copytree(TOP / "hourstable", folder / "hourstable", ignore=shutil.ignore_patterns("__pycache__"))
    path = folder / "hourstable" / mutant.file
    text = path.read_text(encoding="utf-8")
    for old, new in mutant.edits:
        if text.count(old) != 1:
            raise ValueError(f"{mutant.name}: {mutant.file} has {old!r} {text.count(old)} times")
        text = text.replace(old, new)
    path.write_text(text, encoding="utf-8")
    return folder


def found_at(mutant: Mutant, most: int, jobs: int) -> tuple[int, str] | None:
    """Returns the first seed that finds a bug, and what it shows; that of the list is tried first."""
    with tempfile.TemporaryDirectory(prefix="mutant.") as folder:
        package = planted(mutant, Path(folder))
        path = os.pathsep.join((str(package), str(TOP)))
        environment = {**os.environ, "PYTHONPATH": path, "PYTHONDONTWRITEBYTECODE": "1", "PYTHONSAFEPATH": "1"}
        tried = [mutant.seeds] if mutant.seeds else []
        for some in (*tried, *([f"1..{most}"] if most else [])):
            words = [sys.executable, "-m", "simulation", "--seeds", some, "--jobs", str(jobs), "--first-new"]
            ran = subprocess.run(words, capture_output=True, text=True, env=environment, check=False)
            if ran.returncode == 1:
                seed, _, shown = ran.stdout.partition(" ")
                return int(seed), " ".join(shown.split())[:200]
            if ran.returncode:
                raise RuntimeError(f"{mutant.name}: {ran.stderr[-2000:]}")
    return None


def find_all(names: list[str], most: int, jobs: int) -> int:
    """Looks for the bugs with these names, or for all, and returns the status: 0 if each was found."""
    unknown = set(names) - {it.name for it in MUTANTS}
    if unknown:
        raise SystemExit(f"no bug {' '.join(sorted(unknown))}")
    missed = found = 0
    for mutant in MUTANTS:
        if names and mutant.name not in names:
            continue
        seen = found_at(mutant, most, jobs)
        if seen is None:
            missed += 1
            print(f"{mutant.name}: not found", flush=True)
        else:
            found += 1
            print(f"{mutant.name}: seed {seen[0]}: {seen[1]}", flush=True)
    print(f"{found} passed, {missed} failed")
    return int(missed > 0)
