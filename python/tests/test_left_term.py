"""The term of the job lease that a lost plane leaves: the assigner of the plane that takes its job goes on with it,
and moves keys once the grace is over. A plane tells it in its beat, and it counts once that stands still."""

from collections.abc import Callable
from typing import Any

import pytest

import needed

needed.library()

from hourstable.desk import LocalDesk  # noqa: E402
from hourstable.peers import Beat, Peers  # noqa: E402
from hourstable.service import ControlPlane  # noqa: E402
from hourstable.store import Store, StoreFailed  # noqa: E402
from serving import Caller, Task  # noqa: E402
from test_assigner import at_work  # noqa: E402
from test_failover import Side, two  # noqa: E402, F401
from test_handed_term import AT_ONCE, acts, moved, planes, renewed  # noqa: E402, F401
from waits import until  # noqa: E402


async def test_keys_move_after_the_grace_once_a_plane_with_an_assigner_is_lost(
    planes: list[tuple[ControlPlane, Caller]], monkeypatch: pytest.MonkeyPatch,  # noqa: F811
) -> None:
    """Its job term lasts for a minute."""
    (lost_one, _), (taker, caller) = planes
    assert lost_one.plane is not None and taker.plane is not None
    beats, peers, jobs = lost_one.plane.peers, taker.plane.peers, taker.plane.jobs
    tasks = [Task(caller, number) for number in (1, 2)]
    async with at_work(*(task.run() for task in tasks)):
        await moved(caller, 1, 2)
        before = (await caller.get()).json["term"]
        await until(lambda: peers.known[1].terms == {"shop": before["number"]})

        async def fail(*_: object, **__: object) -> None:
            raise StoreFailed("the plane is lost")

        monkeypatch.setattr(beats, "beat", fail)
        await until(lambda: jobs["shop"].job.is_held)
        assert (await caller.post("drain", {"task": 1})).status == 204
        assert await moved(caller, 2) < AT_ONCE + 3
        term = (await caller.get()).json["term"]
        assert (term["number"], term["assigner"]) == (before["number"], 1)
        assert term["until"] > before["until"]


async def lost(first: Side, second: Side, seen_as: Callable[[Beat], Beat] = lambda beat: beat) -> None:
    """Lets the assigner of a plane have the term, and the plane beat no more."""
    await renewed(first)
    await until(lambda: second.plane.peers.known[1].terms == {"shop": 1})
    first.store.is_mute = True
    second.plane.peers.known[1] = seen_as(second.plane.peers.known[1])
    await until(lambda: second.job.is_held)


async def test_one_assigner_acts_after_a_plane_was_lost(two: tuple[Side, Side]) -> None:  # noqa: F811
    """That one stood still, and goes on."""
    first, second = two
    await lost(first, second)
    old, new = LocalDesk(first.plane), LocalDesk(second.plane)
    assert (await new.status("shop"))["own_term"] == 1
    assert (await acts(old), await acts(new)) == (False, True)
    assert not first.job.is_held and first.job.term_of_own() == 0
    await until(lambda: second.plane.peers.is_gone(1))
    first.store.is_mute = False
    await until(lambda: first.plane.peers.known[2].terms == {"shop": 1})
    assert (await acts(old), await acts(new)) == (False, True)


@pytest.mark.parametrize("seen_as", [
    pytest.param(lambda beat: beat._replace(incarnation="another"), id="another start of the plane"),
    pytest.param(lambda beat: beat._replace(terms={"shop": 2}), id="another term"),
    pytest.param(lambda beat: beat._replace(terms={"cart": 1}), id="a term of another job"),
    pytest.param(lambda beat: beat._replace(terms={}), id="a plane of the release before"),
])
async def test_a_term_that_may_be_of_another_assigner_does_not_count(
    seen_as: Callable[[Beat], Beat], two: tuple[Side, Side],  # noqa: F811
) -> None:
    first, second = two
    await lost(first, second, seen_as)
    assert (await LocalDesk(second.plane).status("shop"))["own_term"] == 0


async def test_the_term_of_a_plane_that_beats_is_not_gone_on_with(two: tuple[Side, Side]) -> None:  # noqa: F811
    """Such as one on which the job fails."""
    first, second = two
    await renewed(first)
    await until(lambda: second.plane.peers.known[1].terms == {"shop": 1})
    first.plane.failures.failed("shop", "call", OSError("as of a full disk"), 0.0)
    await until(lambda: second.job.is_held)
    assert second.job.own_term == 0 and not second.plane.peers.is_gone(1)


async def test_what_a_plane_tells_of_terms(two: tuple[Side, Side]) -> None:  # noqa: F811
    """That of its own assigner, while it holds the job."""
    first, second = two
    assert first.job.term_of_own() == second.job.term_of_own() == 0
    await renewed(first)
    assert (first.job.term_of_own(), second.job.term_of_own()) == (1, 0)
    first.job.term = {"number": 2, "assigner": 7, "until": 1}  # as after another one took the job lease
    assert first.job.term_of_own() == 0


async def test_the_terms_of_a_beat(file: Store) -> None:
    beat: Any = Beat("00ff", "", 7, {}, frozenset(), terms={"shop": 3})
    assert Beat.read(beat.text()) == beat
    now = 0.0
    peers = Peers(file, 2, "mine", 1.0, lambda: now)
    await file.beat(1, beat.text())
    for _ in range(5):
        assert peers.left_term(1, "00ff", "shop") == 0
        await peers.beat({}, frozenset())
    found = [peers.left_term(*it) for it in ((1, "00ff", "shop"), (1, "00fe", "shop"), (1, "00ff", "cart"))]
    assert found == [3, 0, 0] and peers.left_term(3, "00ff", "shop") == peers.left_term(2, "mine", "shop") == 0
