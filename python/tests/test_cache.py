"""Tests of the demo's cache: the shelf of sessions, and the check that knows nothing of
Hourstable."""

import fcntl
import json
from pathlib import Path

import pytest

from hourstable.demo import judge
from hourstable.demo.shelf import NOTHING, Late, Locked, Session, Shelf


def written(folder: Path, name: str, lines: list[list[object]]) -> None:
    with open(folder / name, "a", encoding="utf-8") as file:
        for line in lines:
            file.write(json.dumps(line) + "\n")


def test_sessions_on_the_shelf(tmp_path: Path) -> None:
    shelf = Shelf(tmp_path)
    assert shelf.take("a/b", b"1") == NOTHING
    first = NOTHING.after("x", "one")
    shelf.put("a/b", b"1", first)
    shelf.put("a/b", b"1", first.after("y", "two"))
    assert Shelf(tmp_path).take("a/b", b"1") == Session(2, "two", ("y", "x"))
    assert shelf.take("a", b"1") == NOTHING


def test_revisions_of_the_shelf_rise(tmp_path: Path) -> None:
    """Also after a line that a killed process left torn."""
    shelf, session = Shelf(tmp_path), NOTHING.after("x", "one")
    revisions = [shelf.put("key", b"1", session), shelf.put("key", b"1", session)]
    with open(tmp_path / "key-key", "a", encoding="utf-8") as file:
        file.write('["33", 2, "two", ["y"')
    shelf.take("key", b"2")
    revisions += [shelf.put("key", b"2", session), Shelf(tmp_path).put("key", b"2", session)]
    assert revisions == sorted(set(revisions))


def test_a_late_writer_is_refused(tmp_path: Path) -> None:
    one, two = Shelf(tmp_path), Shelf(tmp_path)
    one.put("key", b"1", NOTHING.after("x", "one"))
    taken = two.take("key", b"2")
    assert taken.text == "one"
    with pytest.raises(Late):
        one.put("key", b"1", taken.after("y", "late"))
    with pytest.raises(Late):
        one.take("key", b"1")
    two.put("key", b"2", taken.after("z", "two"))
    assert two.take("key", b"2").ids == ("z", "x")


def test_a_line_that_a_kill_left_torn(tmp_path: Path) -> None:
    shelf = Shelf(tmp_path)
    shelf.put("key", b"2", NOTHING.after("x", "one"))
    with open(tmp_path / "key-key", "a", encoding="utf-8") as file:
        file.write('["33", 2, "two", ["y"')
    assert shelf.take("key", b"2").text == "one"
    shelf.put("key", b"2", NOTHING.after("x", "one").after("z", "two"))
    assert shelf.take("key", b"2").ids == ("z", "x")


def test_a_key_whose_writer_is_stopped(tmp_path: Path) -> None:
    shelf = Shelf(tmp_path)
    shelf.put("key", b"1", NOTHING.after("x", "one"))
    with open(tmp_path / "key-key", "rb") as file:
        fcntl.flock(file, fcntl.LOCK_EX)
        with pytest.raises(Locked):
            shelf.take("key", b"2")
        assert shelf.take("other", b"1") == NOTHING
    assert shelf.take("key", b"2").text == "one"


def test_a_session_knows_its_last_writes() -> None:
    session = NOTHING
    for number in range(40):
        session = session.after(str(number), "")
    assert session.version == 40
    assert session.ids == tuple(str(number) for number in range(39, 7, -1))


def shelf_of(folder: Path) -> Shelf:
    return Shelf(folder / "shelf")


def test_a_run_without_faults(tmp_path: Path) -> None:
    shelf = shelf_of(tmp_path)
    first = NOTHING.after("x", "one")
    second = first.after("y", "two")
    shelf.put("key", b"1", first)
    shelf.put("key", b"1", second)
    written(tmp_path, "spans-1.jsonl", [[1, "key", "write x", 10, 20]])
    written(tmp_path, "spans-2.jsonl", [[2, "key", "write y", 20, 30], [2, "other", "read", 0, 99]])
    written(
        tmp_path, "acks-1.jsonl",
        [["write", "key", "x", 1, 5, 25], ["read", "key", "", 1, 26, 27],
         ["write", "key", "y", 2, 15, 35], ["read", "key", "", 2, 28, 34]],
    )
    assert judge.judge(tmp_path) == judge.Verdict([], 3, 2, 2)


def test_two_tasks_at_once_are_found(tmp_path: Path) -> None:
    # Task 2 reads while the first write of task 1 goes on, though task 1 wrote again meanwhile.
    written(
        tmp_path, "spans-1.jsonl",
        [[1, "key", "write long", 10, 90], [1, "key", "write short", 20, 30]],
    )
    written(tmp_path, "spans-2.jsonl", [[2, "key", "read", 80, 95]])
    faults, spans = judge.overlaps(tmp_path)
    assert spans == 3
    assert faults == [
        "key: task 1 worked until 90 (write long), and task 2 from 80 on (read)"
    ]


def test_a_torn_last_line_is_left_out(tmp_path: Path) -> None:
    written(tmp_path, "spans-1.jsonl", [[1, "key", "write x", 10, 20]])
    with open(tmp_path / "spans-1.jsonl", "a", encoding="utf-8") as file:
        file.write('[1, "key", "y"')
    assert judge.overlaps(tmp_path) == ([], 1)


def test_lost_writes_are_found(tmp_path: Path) -> None:
    shelf = shelf_of(tmp_path)
    shelf.put("key", b"1", NOTHING.after("x", "one"))
    written(
        tmp_path, "acks-1.jsonl",
        [["write", "key", "x", 1, 0, 1], ["write", "key", "y", 1, 0, 1],
         ["write", "none", "z", 1, 0, 1]],
    )
    assert judge.judge(tmp_path).faults == [
        "key: write y was acknowledged as version 1", "none: write z was acknowledged as version 1",
    ]


def test_a_session_that_was_begun_anew_is_found(tmp_path: Path) -> None:
    shelf = shelf_of(tmp_path)
    shelf.put("key", b"1", Session(1, "", ("x",)))
    shelf.put("key", b"1", Session(2, "", ("y", "x")))
    shelf.put("key", b"1", Session(3, "", ("z", "x")))  # made of version 1
    shelf.put("key", b"1", Session(5, "", ("v", "u")))
    assert judge.judge(tmp_path).faults == [
        "key: version 3 is not made of version 2", "key: version 5 is not made of version 3",
    ]


def test_a_write_that_the_shelf_should_have_refused_is_found(tmp_path: Path) -> None:
    (tmp_path / "shelf").mkdir()
    lines = [["02", 1, "one", ["x"]], ["03", 1, "one", ["x"]], ["03", 2, "two", ["y", "x"]]]
    written(tmp_path / "shelf", "key-key", [*lines, ["02", 2, "late", ["z", "x"]]])
    assert judge.judge(tmp_path).faults == [
        "key: version 2 has the token 02 after 03", "key: version 2 is not made of version 2",
    ]


def test_stale_reads_are_found(tmp_path: Path) -> None:
    shelf = shelf_of(tmp_path)
    shelf.put("key", b"1", Session(1, "", ("x",)))
    shelf.put("key", b"1", Session(2, "", ("y", "x")))
    written(
        tmp_path, "acks-1.jsonl",
        [["write", "key", "y", 2, 0, 50], ["read", "key", "", 1, 49, 99],
         ["read", "key", "", 1, 51, 52]],
    )
    assert judge.judge(tmp_path).faults == ["key: asked at 51, version 1 was read after 2"]


def test_a_read_is_not_older_than_one_before_it(tmp_path: Path) -> None:
    (tmp_path / "shelf").mkdir()
    written(
        tmp_path, "acks-1.jsonl", [["read", "key", "", 3, 0, 10], ["read", "key", "", 2, 11, 12]]
    )
    assert judge.judge(tmp_path).faults == ["key: asked at 11, version 2 was read after 3"]
