"""The loads of slices: what they are, how little they take, and that nobody waits for an assigner that thinks."""

import asyncio
import random
import threading
import time
from collections.abc import Callable
from fractions import Fraction
from pathlib import Path
from typing import Any

import pytest
from hypothesis import given, settings
from hypothesis import strategies as st

import needed

needed.library()

from hourstable.assigner import THINK, JobAssigner  # noqa: E402
from hourstable.clock import local_clock  # noqa: E402
from hourstable.desk import LocalDesk  # noqa: E402
from hourstable.loads import (  # noqa: E402
    FEW, KEYS, PART, PARTS, Loads, Piece, Reports, loads_of_parts, pieces_of_parts,
)
from hourstable.plans import Hysteresis, Planner, loads_over, spread_over  # noqa: E402
from hourstable.store import Store  # noqa: E402
from serving import running  # noqa: E402

MANY = 64 * 1024  # ranges that 64 tasks may report


def plain(starts: list[int], pieces: list[Piece]) -> list[int]:
    """The definition: of each piece, each slice has the part that its keys are of the keys of the piece."""
    ends = [*starts[1:], KEYS]
    loads = [0] * len(starts)
    for low, high, load in pieces:
        for at, (start, end) in enumerate(zip(starts, ends)):
            shared = min(high, end) - max(low, start)
            if shared > 0:
                loads[at] += load * shared // (high - low)
    return loads


keys = st.one_of(
    st.integers(0, KEYS - 1), st.integers(0, 40), st.integers(KEYS - 40, KEYS - 1),
    st.integers(0, PARTS - 1).map(lambda part: part * PART),
)


@st.composite
def pieces_of(draw: Any, most: int = 12) -> list[Piece]:
    """Ranges of keys with loads, which may overlap and be equal."""
    made = []
    for _ in range(draw(st.integers(0, most))):
        low = draw(keys)
        high = draw(st.one_of(st.integers(low + 1, KEYS), st.integers(low + 1, min(low + 40, KEYS))))
        made.append((low, high, draw(st.one_of(st.integers(0, 1 << 40), st.integers(0, 5)))))
    return made


@st.composite
def starts_of(draw: Any) -> list[int]:
    return sorted({0, *draw(st.lists(keys, max_size=12))})


@settings(max_examples=400, deadline=None)
@given(starts_of(), pieces_of())
def test_one_sweep_is_the_plain_definition(starts: list[int], pieces: list[Piece]) -> None:
    slices = [(start, [1]) for start in starts]
    wanted = plain(starts, pieces)
    assert spread_over(slices, pieces) == wanted
    spread = sum(wanted) // 16 if any(wanted) else 1 << 20
    widths = [end - start for start, end in zip(starts, [*starts[1:], KEYS])]
    everywhere = [min(load + spread * width // KEYS, 1 << 40) for load, width in zip(wanted, widths)]
    assert loads_over(slices, pieces) == everywhere


@settings(max_examples=200, deadline=None)
@given(pieces_of(40))
def test_loads_of_parts_are_those_of_the_pieces(pieces: list[Piece]) -> None:
    """Together they have the same load, and each part has its share, but for what is rounded."""
    made = pieces_of_parts(loads_of_parts(pieces))
    assert sum(load for _, _, load in made) == sum(load for _, _, load in pieces)
    assert all(low % PART == 0 and high == low + PART for low, high, _ in made)
    assert made == sorted(set(made)) and len({low for low, _, _ in made}) == len(made)
    found = {low // PART: load for low, _, load in made}
    touched = {part for low, high, _ in pieces for part in (low // PART, (high - 1) // PART)}
    for part in sorted(touched)[:20]:
        exact = Fraction(0)
        for low, high, load in pieces:
            shared = min(high, (part + 1) * PART) - max(low, part * PART)
            exact += Fraction(load * max(0, shared), high - low)
        assert abs(found.get(part, 0) - exact) <= len(pieces) * PARTS


@settings(max_examples=100, deadline=None)
@given(st.lists(pieces_of(6), max_size=5), starts_of())
def test_joined_reports_are_the_reports(reports: list[list[Piece]], starts: list[int]) -> None:
    """The pieces do not overlap and have all the load; over slices of whole parts it is where it was."""
    loads = Loads()
    for task, pieces in enumerate(reports, 1):
        loads.report(task, [[1, 2, 7]], 0.0)  # another one takes its place
        loads.report(task, [list(piece) for piece in pieces], 1.0)
    joined = loads.pieces(2.0)
    assert all(one[1] <= other[0] for one, other in zip(joined, joined[1:]))
    flat = [piece for pieces in reports for piece in pieces]
    assert sum(load for _, _, load in joined) == sum(load for _, _, load in flat)
    aligned = sorted({start // PART * PART for start in starts})
    slices = [(start, [1]) for start in aligned]
    exact = [Fraction(0) for _ in aligned]
    for low, high, load in flat:
        for at, (start, end) in enumerate(zip(aligned, [*aligned[1:], KEYS])):
            exact[at] += Fraction(load * max(0, min(high, end) - max(low, start)), high - low)
    for found, wanted in zip(spread_over(slices, joined), exact):
        assert abs(found - wanted) <= (len(flat) + 1) * PARTS


def test_reports_of_parts_stay_as_they_are() -> None:
    """Those of tasks, which count requests for as many parts: their sums are exact."""
    loads, wanted = Loads(), [0] * PARTS
    random.seed(1)
    for task in range(1, 65):
        counts = [random.randrange(0, 9) for _ in range(PARTS)]
        report = [[str(at * PART), str((at + 1) * PART), count] for at, count in enumerate(counts) if count]
        loads.report(task, report, float(task))
        wanted = [one + more for one, more in zip(wanted, counts)]
    assert loads.pieces(60.0) == [(at * PART, (at + 1) * PART, load) for at, load in enumerate(wanted) if load]
    assert loads.pieces(61.5) != loads.pieces(61.5 + 60)
    assert loads.pieces(1000.0) == []


def test_joined_pieces_are_few_whatever_was_reported() -> None:
    loads = Loads()
    for task in range(1, 65):
        few = [[task * 1000 + at, KEYS - at, 1] for at in range(FEW)]
        many = [[task * 1000 + 7 * at, task * 1000 + 7 * at + 5, 1] for at in range(1024)]
        loads.report(task, few if task % 2 else many, 0.0)
    assert len(loads.pieces(1.0)) <= PARTS
    loads = Loads()
    for task in range(1, 65):
        loads.report(task, [[(task * FEW + at) * 64, (task * FEW + at) * 64 + 9, 1] for at in range(FEW)], 0.0)
    assert len(loads.pieces(1.0)) == 64 * FEW


def test_many_pieces_and_slices_take_little() -> None:
    """A sweep of the most slices and of all that 64 tasks may report: by the plain definition it is 67 million steps,
    of which this measures the first hundredth."""
    slices = [(KEYS * at // 1024, [1]) for at in range(1024)]
    pieces = [(KEYS * at // MANY, KEYS * (at + 1) // MANY, at % 7 + 1) for at in range(MANY)]
    begun = time.process_time()
    found = spread_over(slices, pieces)
    taken = time.process_time() - begun
    begun = time.process_time()
    some = plain([start for start, _ in slices], pieces[: MANY // 100])
    assert taken < 100 * (time.process_time() - begun) / 20
    assert sum(found) == sum(load for _, _, load in pieces)
    assert found[:10] == some[:10]


async def until(holds: Callable[[], object]) -> None:
    end = time.monotonic() + 30
    while not holds():
        assert time.monotonic() < end, "it does not come true"
        await asyncio.sleep(0.01)


@pytest.mark.parametrize(("kind", "name"), [(Planner, "wanted"), (Reports, "joined")], ids=["plan", "reports"])
async def test_an_assigner_thinks_beside_the_loop(
    kind: type, name: str, file: Store, tmp_path: Path, monkeypatch: pytest.MonkeyPatch
) -> None:
    """While it makes a plan, and while it joins what tasks reported, grants are answered."""
    goes_on, begun = threading.Event(), threading.Event()
    thinks = getattr(kind, name)

    def slow(*given: Any) -> Any:
        begun.set()
        assert goes_on.wait(20), "the loop stands still"
        return thinks(*given)

    monkeypatch.setattr(kind, name, slow)
    async with running(file, tmp_path / "logs") as (plane, caller):
        await caller.create()
        await caller.grant(1)
        assigner = JobAssigner("shop", 1, LocalDesk(plane), local_clock(), Hysteresis(settle=0.0))
        step = asyncio.create_task(assigner.step())
        await until(begun.is_set)
        assert (await caller.grant(1)).status == 409
        goes_on.set()
        await step
        assigner.close()


async def test_an_assigner_thinks_when_something_changed(
    file: Store, tmp_path: Path, monkeypatch: pytest.MonkeyPatch
) -> None:
    """Steps between are without a thought: loads alone are looked at every few seconds."""
    thoughts: list[list[int]] = []
    wanted = Planner.wanted

    def counted(planner: Planner, assignment: Any, policy: Any, tasks: Any, *rest: Any) -> bytes | None:
        thoughts.append(tasks)
        return wanted(planner, assignment, policy, tasks, *rest)

    monkeypatch.setattr(Planner, "wanted", counted)
    now = 1000
    async with running(file, tmp_path / "logs") as (plane, caller):
        await caller.create({"redundancy": 1, "skew": 0, "guard": 60_000, "bridge": 1000, "job": 60_000,
                             "numbers": 1000})
        await caller.grant(1)
        assigner = JobAssigner("shop", 1, LocalDesk(plane), lambda: now, Hysteresis(settle=0.0))
        while not (await caller.get()).json["committed"]:
            await assigner.step()
            now += 100
        thoughts.clear()
        for _ in range(10):
            await assigner.step()
        assert len(thoughts) == 1
        now += int(THINK * 1000)
        await assigner.step()
        assert thoughts == [[1], [1]]
        await caller.grant(2)
        await assigner.step()
        assert thoughts[-1] == [1, 2]
        assigner.close()
