"""`hourstable-service plan`: what it says of a size, and what it refuses."""

import re

import pytest

import needed

needed.library()

from hourstable import capacity  # noqa: E402
from hourstable.command import main, parser  # noqa: E402

Said = pytest.CaptureFixture[str]


def size_of(*words: str) -> capacity.Size:
    return capacity.size_of(parser().parse_args(["plan", *words]))


def value_of(what: str, *words: str) -> str:
    found = [it.value for it in capacity.figures(size_of(*words)) if it.what.startswith(what)]
    assert len(found) == 1, found
    return found[0]


TEN = ("--tasks", "64", "--guard", "10000")


@pytest.mark.parametrize(
    ("what", "words", "value"),
    [
        # the measured ones come out as they were measured
        ("a task is killed", TEN, "10.2 s"),
        ("a plane is killed: keys that move", TEN, "some 15.2 s"),
        ("a plane is killed: keys that move", (*TEN, "--store", "etcd"), "some 14.0 s"),
        ("processors", (*TEN, "--jobs", "16"), "0.57, of 1 that it can use"),
        ("grants", TEN, "12.8 a second"),
        ("numbers", TEN, "last 10.6 years"),
        # the longer term and the skew count
        ("a task is killed", (*TEN, "--bridge", "20000", "--skew", "300"), "20.5 s"),
        ("a plane is killed: keys that stay", TEN, "if one answers within 3.50 s"),
        # a plane alone stores a reading a second, however many grants there are
        ("store writes", TEN, "3.05 a second at most"),
        ("store writes", ("--tasks", "1", "--guard", "20000"), "2.10 a second at most"),
        ("store writes", (*TEN, "--store", "postgresql"), "16.8 a second at most"),
        ("store writes", (*TEN, "--store", "postgresql", "--alone"), "3.05 a second at most"),
        # etcd takes more of the processor for each grant: 175 us for 204.8 of them, beside the fleet's 0.69
        ("processors", (*TEN, "--jobs", "16", "--store", "etcd"), "0.73, of 1 that it can use"),
        # tasks report loads every 5 s, also where they renew less often
        ("processors", ("--tasks", "64", "--guard", "100000", "--jobs", "16"), "0.57, of 1 that it can use"),
        ("disk", TEN, "some 735 MB a day, of all jobs"),
        ("disk", (*TEN, "--requests", "100"), "some 3,198 MB a day, of all jobs"),
        ("disk", (*TEN, "--requests", "100", "--jobs", "2"), "some 6,396 MB a day, of all jobs"),
    ],
)
def test_figures(what: str, words: tuple[str, ...], value: str) -> None:
    assert value_of(what, *words) == value


def test_shorter_terms_are_no_promise_of_less_than_was_measured() -> None:
    """What was measured beyond a term of 10 s does not shrink with shorter ones."""
    assert value_of("a plane is killed: keys that move", "--tasks", "1", "--guard", "2000") == "some 7.2 s"


def test_each_figure_says_what_it_follows_from(capsys: Said) -> None:
    assert main(["plan", *TEN]) == 0
    lines = capsys.readouterr().out.splitlines()
    assert len(lines) == 16
    assert all(re.fullmatch(r"    \(.*(OPERATIONS|COST), .*\)", it) for it in lines[1::2]), lines


@pytest.mark.parametrize(
    "words",
    [
        ("--tasks", "0", "--guard", "10000"), ("--tasks", "65", "--guard", "10000"),
        ("--tasks", "3", "--guard", "99"), (*TEN, "--bridge", "0"), (*TEN, "--skew", "10000"),
        (*TEN, "--bridge", "50", "--skew", "60"), (*TEN, "--jobs", "0"), (*TEN, "--numbers", "0"),
        (*TEN, "--requests", "-1"), (*TEN, "--requests", "nan"), (*TEN, "--requests", "inf"),
    ],
)
def test_what_the_service_does_not_take_is_refused(words: tuple[str, ...], capsys: Said) -> None:
    assert main(["plan", *words]) == 2
    assert capsys.readouterr().err.startswith("hourstable-service: --")
