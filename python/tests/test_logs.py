"""Tests of hourstable.logs."""

import json
from pathlib import Path

import pytest

from hourstable import logs
from hourstable.logs import Log
from lines import line_of

POLICY = {"redundancy": [1, 1], "skew": 0, "guard": 100, "bridge": 100, "job": 1000, "numbers": 9}
JOB = logs.job_line(POLICY)


def test_the_job_line() -> None:
    assert JOB == (
        '{"job":{"assigners":8,"bridge":100,"clerks":128,"guard":100,"job":1000,"numbers":9,'
        '"redundancy":[1,1],"skew":0,"tasks":64}}'
    )


def test_words_of_refusals() -> None:
    assert logs.told_refusal("serve", "not-owned 2") == "denied not-owned 2"
    assert logs.told_refusal("hold", "no-lease") == "denied no-lease"
    assert logs.told_refusal("hear", "old 2") == "refused old 2"
    assert logs.told_refusal("check", "broken") == "broken"
    assert logs.told_refusal("check", "stranger") == "refused stranger"


def test_each_job_has_a_folder_of_its_own(tmp_path: Path) -> None:
    for name in ["shop", "a.b", "_", "x" * 64]:
        assert logs.folder_of(tmp_path, name) == tmp_path / name


@pytest.mark.parametrize("name", ["", ".", "..", ".a", "a/b", "\u00e9", "a b", "x" * 65, "a\n"])
def test_a_name_that_is_none_of_a_folder_is_refused(tmp_path: Path, name: str) -> None:
    with pytest.raises(ValueError, match="no name of a job"):
        logs.folder_of(tmp_path, name)


def test_a_file_a_day(tmp_path: Path) -> None:
    days = iter(["2026-11-27", "2026-11-27", "2026-11-28"])
    log = Log(tmp_path, "task-1", JOB, today=lambda: next(days))
    log.append(line_of(1, "start", "started 1", task=1, life=1, at=0))
    log.append(line_of(2, "start", "refused old-life", task=1, life=1, at=1))
    log.close()
    first, second = (tmp_path / f"task-1.2026-11-{day}.jsonl" for day in (27, 28))
    assert first.read_text().splitlines() == [
        JOB,
        '{"ticket":1,"do":"start","task":1,"life":1,"at":0,"reply":"started 1"}',
    ]
    assert second.read_text().splitlines()[0] == JOB
    assert [call["ticket"] for call in logs.merged(tmp_path)] == [1, 2]


def test_a_line_is_written_when_append_returns(tmp_path: Path) -> None:
    log = Log(tmp_path, "control", JOB, today=lambda: "2026-11-27")
    log.append("{}")
    assert (tmp_path / "control.2026-11-27.jsonl").read_text() == JOB + "\n{}\n"


@pytest.mark.parametrize(
    "tail,mended",
    [
        ("", ""),
        ('{"ticket":2}\n', '{"ticket":2}\n'),
        ('{"ticket":2}', '{"ticket":2}\n'),
        ('{"ticket":2', ""),
        ('{"ticket":2,"key":"' + "x" * 70_000, ""),
    ],
)
def test_a_torn_last_line_is_mended(tmp_path: Path, tail: str, mended: str) -> None:
    path = tmp_path / "task-1.2026-11-27.jsonl"
    path.write_text(JOB + '\n{"ticket":1}\n' + tail)
    log = Log(tmp_path, "task-1", JOB, today=lambda: "2026-11-27")
    log.append('{"ticket":3}')
    assert path.read_text() == JOB + '\n{"ticket":1}\n' + mended + '{"ticket":3}\n'


def test_a_torn_job_line_is_written_anew(tmp_path: Path) -> None:
    path = tmp_path / "task-1.2026-11-27.jsonl"
    path.write_text(JOB[:20])
    Log(tmp_path, "task-1", JOB, today=lambda: "2026-11-27")
    assert path.read_text() == JOB + "\n"


def test_a_log_of_another_job_is_refused(tmp_path: Path) -> None:
    Log(tmp_path, "task-1", JOB)
    with pytest.raises(ValueError, match="another job line"):
        Log(tmp_path, "task-1", logs.job_line({**POLICY, "guard": 101}))


def test_which_lines_are_not_there(tmp_path: Path) -> None:
    days = iter(["2026-11-27", "2026-11-27", "2026-11-28", "2026-11-29", "2026-11-29"])
    log = Log(tmp_path, "control", JOB, today=lambda: next(days))
    one, two, three, four, five = (line_of(it, "lose", "lost 0") for it in (1, 2, 3, 14, 5))
    log.append(one)
    log.append(two)
    log.append(three, four)
    log.append(five)
    for there in ([two], [three, four], [four], [three, four, five], [five]):
        assert log.lacking(there) == []
    assert log.lacking([one]) == [one]  # in an older file than the two newest
    for ticket in (4, 140, 1400):
        absent = line_of(ticket, "lose", "lost 0")
        assert log.lacking([absent]) == [absent]
    assert log.lacking([line_of(5, "lose", "lost 1")]) != []


def test_the_last_reading_of_a_log_is_the_greatest(tmp_path: Path) -> None:
    """Calls need not stand in the order of their readings, and some have none."""
    days = iter(["2026-11-27", "2026-11-27", "2026-11-28"])
    log = Log(tmp_path, "control", JOB, today=lambda: next(days))
    assert log.last_reading() == 0
    lines = [line_of(it, "grace", "grace 0", at=at) for it, at in ((1, 5), (2, 9), (3, 7))]
    log.append(*lines)
    assert log.last_reading() == 9
    log.append(line_of(4, "lose", "lost 0"))  # on another day
    assert log.last_reading() == 9


def test_lines_of_a_torn_write_are_missing(tmp_path: Path) -> None:
    lines = [line_of(it, "lose", "lost 0") for it in range(1, 9)]
    Log(tmp_path, "control", JOB, today=lambda: "2026-11-27").append(*lines)
    path = tmp_path / "control.2026-11-27.jsonl"
    whole = path.read_text()
    for cut in range(len(JOB) + 1, len(whole) + 1):
        path.write_text(whole[:cut])
        log = Log(tmp_path, "control", JOB, today=lambda: "2026-11-27")
        lacking = log.lacking(lines)
        if lacking:
            log.append(*lacking)
        log.close()
        assert path.read_text() == whole


def test_logs_laid_out_for_an_audit(tmp_path: Path) -> None:
    logged, laid = tmp_path / "logged", tmp_path / "laid"
    repeated = line_of(5, "lose", "lost 0")
    for name, lines in {
        "control-0": [line_of(1, "lose", "lost 0"), repeated],
        "control-1": [repeated, line_of(5, "lose", "lost 1")],
        "task-1": [line_of(2, "open", "opened 0", task=1, life=0)],
    }.items():
        log = Log(logged, name, JOB, today=lambda: "2026-11-27")
        for line in lines:
            log.append(line)
        log.close()
    paths = logs.lay_out(logged, laid)
    assert [path.name for path in paths] == [
        "control-0.2026-11-27.jsonl", "control-1.2026-11-27.jsonl", "task-1.2026-11-27.jsonl",
    ]
    texts = [path.read_text().split("\n") for path in paths]
    assert texts[0] == [JOB, line_of(1, "lose", "lost 0"), repeated, ""]
    assert texts[1] == ["", "", line_of(5, "lose", "lost 1"), ""]
    assert texts[2] == ["", line_of(2, "open", "opened 0", task=1, life=0), ""]


def test_logs_of_two_jobs_are_not_laid_out_together(tmp_path: Path) -> None:
    Log(tmp_path / "logged", "a", JOB)
    Log(tmp_path / "logged", "b", logs.job_line({**POLICY, "guard": 101}))
    with pytest.raises(ValueError, match="another job"):
        logs.lay_out(tmp_path / "logged", tmp_path / "laid")


def test_merged_calls(tmp_path: Path) -> None:
    for name, tickets in {"a": [1, 4, 9], "b": [2, 4]}.items():
        log = Log(tmp_path, name, JOB, today=lambda: "2026-11-27")
        for ticket in tickets:
            log.append(line_of(ticket, "lose", "lost 0"))
    with open(tmp_path / "b.2026-11-27.jsonl", "a", encoding="utf-8") as file:
        file.write('{"ticket":10')
    calls = logs.merged(tmp_path)
    found = [(call["ticket"], call["file"][0]) for call in calls]
    assert found == [(1, "a"), (2, "b"), (4, "a"), (9, "a")]


def test_a_broken_line_within_a_log_is_an_error(tmp_path: Path) -> None:
    path = tmp_path / "a.jsonl"
    path.write_text(JOB + '\n{"ticket":\n' + json.dumps({"ticket": 3}) + "\n")
    with pytest.raises(ValueError):
        logs.merged(tmp_path)
