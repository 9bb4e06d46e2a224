"""The lines of a plane's calls beside a log that version 1.0.0 stored, when planes wrote their lines themselves: the
same calls have lines of the same values now, and such a log is read, laid out and audited as one of today."""

import json
import shutil
import subprocess
from pathlib import Path
from typing import Any

import needed

needed.library()

from hourstable import logs  # noqa: E402
from hourstable.jobs import policy_of  # noqa: E402
from hourstable.library import CALLS, LoggedCall, Refused, Table, log_line  # noqa: E402
from hourstable.logs import Log  # noqa: E402
from hourstable.rights import Asked  # noqa: E402
from hourstable.table_calls import Call, Commit, Free, Grant, Propose, Renew, Take  # noqa: E402

OLD = Path(__file__).with_name("old-logs")
PLANE, TASK = OLD / "control-0.2026-11-30.jsonl", OLD / "task-1.2026-11-30.jsonl"
MEMBERS = ("redundancy", "skew", "guard", "bridge", "job", "numbers")


def message(kind: str, value: object) -> bytes:
    return json.dumps({"job": "shop", "type": kind, "value": value, "version": 2}).encode()


def call_of(line: dict[str, Any]) -> Call[Any]:
    match line["do"]:
        case "take":
            return Take(line["assigner"])
        case "renew":
            return Renew(line["term"])
        case "propose":
            slices = [[str(start), owners] for start, owners in line["slices"]]
            value = {"generation": str(line["generation"]), "slices": slices}
            return Propose(line["term"], message("assignment", value))
        case "commit":
            return Commit(line["term"], None)
        case "grant":
            return Grant(Asked(line["task"], line["life"]))
        case "free":
            return Free(message("note", line["note"]))
    raise AssertionError(line)


def played(table: Table, line: dict[str, Any]) -> str:
    """Plays the call of a line, and returns its line as a plane writes it now."""
    call = call_of(line)
    logged = call.logged(line["ticket"], line["at"])
    try:
        written = call.wrote(logged, call.play(table, line["at"]))
    except Refused as refused:
        logged.code, written = refused.code, call.message
    logged.told = table.told
    return log_line("shop", logged, written)


def numbers(value: Any) -> Any:
    """Returns a value whose texts of digits are numbers."""
    if isinstance(value, dict):
        return {name: numbers(it) for name, it in value.items()}
    if isinstance(value, list):
        return [numbers(it) for it in value]
    return int(value) if isinstance(value, str) and value.isdigit() else value


def test_the_library_writes_the_lines_of_an_old_log() -> None:
    first, *lines = PLANE.read_text().splitlines()
    members = json.loads(first)["job"]
    policy, told = policy_of({name: members[name] for name in MEMBERS})
    assert logs.job_line(told) == first
    table, seen = Table("shop", policy), set()
    for line in lines:
        old = json.loads(line)
        if old["do"] == "restore":
            kept = table.kept()
            table = Table.restore("shop", policy, kept)
            made = log_line("shop", LoggedCall(old["ticket"], CALLS["restore"]), kept)
        else:
            made = played(table, old)
        assert numbers(json.loads(made)) == numbers(old)
        seen.add((old["do"], old["reply"].split(" ")[0]))
    assert seen == {
        ("take", "term"), ("take", "refused"), ("renew", "renewed"), ("renew", "refused"), ("propose", "proposed"),
        ("propose", "refused"), ("commit", "committed"), ("commit", "refused"), ("grant", "grant"), ("free", "freed"),
        ("restore", "restored"),
    }


def test_an_old_log_is_read(tmp_path: Path) -> None:
    tickets = [json.loads(line)["ticket"] for line in PLANE.read_text().splitlines()[1:]]
    assert (logs.first_ticket(PLANE), logs.last_ticket(PLANE)) == (tickets[0], tickets[-1])
    assert [logs.ticket_of(line, 0) for line in PLANE.read_bytes().splitlines()[1:]] == tickets
    shutil.copy(PLANE, tmp_path)
    first, *lines = PLANE.read_text().splitlines()
    log = Log(tmp_path, "control-0", first, today=lambda: "2026-11-30")
    new = json.dumps({**json.loads(lines[-1]), "ticket": tickets[-1] + 256}, sort_keys=True, separators=(",", ":"))
    log.append(new)
    log.close()
    assert logs.last_ticket(tmp_path / PLANE.name) == logs.ticket_of(new.encode() + b"\n", 0) == tickets[-1] + 256
    assert log.lacking(lines[-2:]) == []
    assert (tmp_path / PLANE.name).read_text() == PLANE.read_text() + new + "\n"


def test_an_old_log_is_audited(tmp_path: Path) -> None:
    made = logs.lay_out(OLD, tmp_path)
    ran = subprocess.run([needed.program(), "audit", *map(str, made)], capture_output=True, text=True, check=False)
    assert ran.stdout.splitlines()[0] == "audit one" and ran.returncode == 0, ran.stdout + ran.stderr
