"""What hourstable-show writes has the bytes that are stored in tests/stored/shown."""

import json
import re
import shutil
from pathlib import Path
from xml.etree import ElementTree

import pytest

import needed

needed.library()

from hourstable.library import slice_key  # noqa: E402
from hourstable.show import pictures, report, sentences, trace, views  # noqa: E402
from showing import (  # noqa: E402
    COMMANDS, SCRIPTS, SHOWN, TOP, names_in, of_logs, of_script, read, show, stored, stored_texts,
)
from stand_in.tasks import Members  # noqa: E402

PICTURE = re.compile(r"<!-- picture: timeline (.*) < (\S+) -->\n!\[[^\]]*\]\((\S+)\)")
EXPLAINED = stored_texts("scripts.txt")
LINES = {it["name"]: it for it in map(json.loads, stored("commands.jsonl").splitlines())}
REPORTS = stored_texts("bugs.txt")  # of examples/audit
BUGS = stored_texts("bugs-explained.txt")  # each kind of cause and hint
NUMBER = re.compile(r"^\d+ \w+: ", re.MULTILINE)
FENCED = re.compile(r"^fenced .*\n", re.MULTILINE)
OF_HELLO = f"--slice-key={slice_key(b'hello')}"


def played() -> list[str]:
    """Returns the stored scripts that are not refused."""
    return sorted(it.stem for it in SCRIPTS.glob("*.json") if (SCRIPTS / f"{it.stem}.status").read_text() == "0\n")


def drawn(folder: str) -> list[str]:
    """Returns the names of stored pictures."""
    return sorted(it.stem for it in (SHOWN / folder).glob("*.svg"))


# SCRIPTS


def test_the_stored_scripts_are_many() -> None:
    assert len(played()) >= 55 and len(drawn("scripts")) >= 49


@pytest.mark.parametrize("name", played())
def test_a_script_is_explained(name: str) -> None:
    found = read(of_script(SCRIPTS / f"{name}.json"))
    assert sentences.explained(found, numbered=True) == EXPLAINED[name]
    assert sentences.explained(found, numbered=False) == NUMBER.sub("", EXPLAINED[name])


@pytest.mark.parametrize("name", drawn("scripts"))
def test_a_script_is_drawn(name: str) -> None:
    script, _, key = name.partition(".")
    found = read(of_script(SCRIPTS / f"{script}.json", key or None))
    assert pictures.script_picture(found, with_clerks=not key) == stored(f"scripts/{name}.svg")


@pytest.mark.parametrize(("name", "key"), [("1", "abc"), ("2", "k"), ("5", "abc")])
def test_a_script_of_random_steps_is_explained_and_drawn(name: str, key: str) -> None:
    found = read(of_script(SHOWN / f"random/{name}.json", key))
    assert sentences.explained(found, numbered=True) == stored(f"random/{name}.txt")
    assert pictures.script_picture(found, with_clerks=True) == stored(f"random/{name}.svg")


def test_the_pictures_of_the_pages_are_drawn() -> None:
    found = PICTURE.findall((TOP / "docs/CONCEPTS.md").read_text(encoding="utf-8"))
    assert len(found) >= 5
    for words, script, picture in found:
        assert words == "--key hello"
        picture_of = pictures.script_picture(read(of_script(TOP / script, "hello")), with_clerks=False)
        assert picture_of == (TOP / "docs" / picture).read_text(encoding="utf-8"), picture


# COMMAND LINES


@pytest.fixture(scope="module")
def folder(tmp_path_factory: pytest.TempPathFactory) -> Path:
    return Path(shutil.copytree(COMMANDS, tmp_path_factory.mktemp("stored") / "data"))


def as_written(name: str) -> tuple[str, str, int]:
    it = LINES[name]
    return it.get("stdout", ""), it.get("stderr", ""), it["status"]


def shown(folder: Path, name: str) -> tuple[str, str, int]:
    """Plays a stored command line by hourstable-show. Its own messages begin with its own name."""
    words = LINES[name]["words"]
    words = [{"audit": "report"}.get(words[0], words[0]), *words[1:]]
    ran = show(*words, cwd=folder, given=LINES[name].get("stdin", "").encode())
    errors = re.sub(r"^hourstable-show: ", "hourstable: ", ran.stderr.decode(), flags=re.MULTILINE)
    return ran.stdout.decode(), errors, ran.returncode


@pytest.mark.parametrize("name", [name for name, it in LINES.items() if it["words"][0] != "audit"])
def test_a_command_line_shows_what_is_stored(folder: Path, name: str) -> None:
    assert shown(folder, name) == as_written(name)


@pytest.mark.parametrize("name", [
    "audit-two-files", "audit-dash", "audit-torn-last-line", "audit-all", "audit-drift-broken", "audit-not-json",
    "audit-missing-log", "audit-two-jobs", "audit-from-a-state",
])
def test_a_command_line_reports_what_is_stored(folder: Path, name: str) -> None:
    assert shown(folder, name) == as_written(name)


@pytest.mark.parametrize("name", [
    name for name, it in LINES.items() if it["words"][0] == "audit" and it["status"] < 2
])
def test_a_report_is_what_is_stored(name: str) -> None:
    line = LINES[name]
    options, names = options_in(line["words"][1:])
    found = read(of_logs(COMMANDS, names, *options, "--no-calls", given=line.get("stdin", "").encode()))
    wanted = FENCED.sub("", as_written(name)[0])  # a trace does not tell writes to stores
    assert report.report(found, every="--all" in line["words"]) == wanted


def options_in(words: list[str]) -> tuple[list[str], list[str]]:
    """Returns the options of an audit that its trace has too, and the names of its logs."""
    options = [f"{word}={words[place + 1]}" for place, word in enumerate(words) if word in ("--drift", "--from")]
    after = {word for option in options for word in option.split("=")}
    return options, [it for it in words if it not in after and it not in ("--strict", "--all", "--progress")]


# THE AUDITED EXAMPLE


def whole(found: trace.Trace) -> views.Window:
    return views.Window(0, len(found.calls) + len(found.rest))


def explained(found: trace.Trace, window: views.Window) -> str:
    return report.explained(found, pictures.shown_calls(found, window)) + report.report(found)


def test_the_bugs_are_many() -> None:
    assert len(REPORTS) >= 156


@pytest.mark.parametrize("bug", REPORTS)
def test_logs_of_a_bug_are_reported(bug_logs: Path, bug: str) -> None:
    folder = bug_logs / bug
    found = read(of_logs(folder, names_in(folder)))
    assert report.report(found, every=True) == REPORTS[bug]


@pytest.mark.parametrize("bug", BUGS)
def test_logs_of_a_bug_are_explained(bug_logs: Path, bug: str) -> None:
    folder = bug_logs / bug
    found = read(of_logs(folder, names_in(folder)))
    assert explained(found, whole(found)) == BUGS[bug]


@pytest.mark.parametrize("name", drawn("bugs"))
def test_logs_of_a_bug_are_drawn(bug_logs: Path, name: str) -> None:
    bug, _, key = name.partition(".")
    folder = bug_logs / bug
    found = read(of_logs(folder, names_in(folder), *([OF_HELLO] if key else [])))
    assert pictures.log_picture(found, whole(found), not key) == stored(f"bugs/{name}.svg")


@pytest.mark.parametrize("name", stored_texts("bugs-around.txt"))
def test_calls_around_a_line_are_explained(bug_logs: Path, name: str) -> None:
    bug, _, place = name.partition(" ")
    folder = bug_logs / bug
    names = names_in(folder)
    found = read(of_logs(folder, names, OF_HELLO))
    window = views.window_of(found, views.view_of(tuple(names), place, None))
    assert window is not None
    assert explained(found, window) == stored_texts("bugs-around.txt")[name]


# OTHER TRACES


@pytest.mark.parametrize(("lines", "why"), [
    ([], "it is empty"),
    ([b"{\n"], "line 1 is no JSON text"),
    ([b"[]\n"], "line 1 is no object"),
    ([b'{"trace":2}\n'], "line 1 is not the first of a trace of version 1"),
    ([b'{"trace":1,"of":"script","job":{}}\n'], "it has no last line, and ends after line 1"),
    ([b'{"trace":1,"of":"script","job":{}}\n', b'{"call":1}\n'], "line 2 lacks a member"),
])
def test_what_is_no_trace_is_refused(lines: list[bytes], why: str) -> None:
    with pytest.raises(trace.Unreadable, match=why):
        trace.read(lines)


def test_lines_of_other_kinds_are_passed_over() -> None:
    head: Members = {"trace": 1, "of": "script", "job": {"skew": 0}}
    lines = [head, {"later": {"kind": 1}}, {"end": {"calls": 0}}]
    assert sentences.explained(read(lines), numbered=False) == "timely yes\n"


def test_a_trace_is_read_from_a_pipe() -> None:
    name = "bridge-carries-a-key-over-a-change"
    path = SCRIPTS / f"{name}.json"
    text = "".join(f"{json.dumps(it)}\n" for it in of_script(path, "abc")).encode()
    ran = show("timeline", "--trace", "-", given=text)
    assert (ran.returncode, ran.stderr) == (0, b"")
    assert ran.stdout.decode() == stored(f"scripts/{name}.abc.svg")
    cut = show("explain", "--trace", "-", given=text[:-40])
    assert cut.returncode == 3 and cut.stderr.startswith(b"hourstable-show: the trace cannot be read: "), cut
    report_of = show("report", "--trace", "-", given=text)
    assert (report_of.returncode, report_of.stdout) == (2, b"")
    assert report_of.stderr == b"hourstable-show: error: the trace is of a script, and a report is of logs\n"
    part_of = show("explain", "--readings", "0..5", "--trace", "-", given=text)
    assert (part_of.returncode, part_of.stdout) == (2, b"")
    assert part_of.stderr.startswith(b"hourstable-show: error: the trace is of a script, and --around")
    both = show("explain", "--trace", "-", str(path), given=text)
    assert both.returncode == 2 and b"--trace is given alone" in both.stderr


def test_a_page_is_written_beside_the_report(folder: Path, tmp_path: Path) -> None:
    page = tmp_path / "page.html"
    ran = show("timeline", f"--html={page}", "--logs", "served-at-the-deadline.jsonl", cwd=folder)
    assert (ran.returncode, ran.stdout) == (1, b"")
    assert ran.stderr.decode() == as_written("audit-served-at-the-deadline")[0]
    assert page.read_text(encoding="utf-8").startswith("<!DOCTYPE html>")
    lost = show("timeline", f"--html={tmp_path}", "--logs", "hand-over.jsonl", cwd=folder)
    assert lost.returncode == 3 and b"Is a directory" in lost.stderr


def test_markup_in_a_key_stays_text(tmp_path: Path) -> None:
    key = "</text><script>alert(1)</script>&\"'\u202e\x1b]]>"
    job = {"redundancy": 1, "skew": 10, "guard": 100, "bridge": 100, "job": 1000, "numbers": 1000, "assigners": 1}
    steps = [{"do": "start", "task": 1, "life": 1, "at": 1}, {"do": "serve", "task": 1, "key": key, "at": 2}]
    script = json.dumps([{"job": {**job, "tasks": 1, "clerks": 1}}, *steps]).encode()
    picture = show("timeline", f"--key={key}", given=script)
    assert (picture.returncode, picture.stderr) == (0, b"")
    assert not [it for it in ElementTree.fromstring(picture.stdout).iter() if it.tag.endswith("script")]
    page = tmp_path / "page.html"
    assert show("timeline", f"--key={key}", f"--html={page}", given=script).returncode == 0
    assert "alert(1)</script>" not in page.read_text(encoding="utf-8")


def test_there_must_be_a_program(tmp_path: Path) -> None:
    ran = show("explain", program=str(tmp_path / "nothing"))
    assert ran.returncode == 3 and b"No such file or directory" in ran.stderr, ran


def test_a_call_without_its_members_is_refused() -> None:
    lines: list[Members] = [
        {"trace": 1, "of": "logs", "job": {"skew": 0, "tasks": 1, "clerks": 1}, "logs": ["it.jsonl"]},
        {"call": 1, "log": 0, "line": 2, "do": "renew", "at": "5", "reply": {"refused": "not-holder", "number": "0"}},
        {"end": {"calls": 1, "verdict": "one"}},
    ]
    text = "".join(f"{json.dumps(it)}\n" for it in lines).encode()
    ran = show("explain", "--trace", "-", given=text)
    assert (ran.returncode, ran.stdout) == (3, b"")
    assert ran.stderr == (
        b"hourstable-show: the trace cannot be read: call 1 lacks a member, or has one of another kind:"
        b" KeyError('term')\n"
    )


def test_what_ends_with_a_failure_of_the_program_has_its_status(tmp_path: Path) -> None:
    program = tmp_path / "hourstable"
    program.write_text("#!/bin/sh\necho 'hourstable: out of memory' >&2\nexit 3\n", encoding="utf-8")
    program.chmod(0o755)
    ran = show("explain", program=str(program))
    assert (ran.returncode, ran.stdout, ran.stderr) == (3, b"", b"hourstable: out of memory\n")
