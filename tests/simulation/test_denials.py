"""What the simulator finds of keys that were denied: those that move are told from those that stay, also where a
block ends long after the loss of its key, or the run ends before another task serves it."""

from types import SimpleNamespace
from typing import Any

import pytest

from hourstable.ranges import KEYS, Ranges
from simulation.denials import Denial, Watch, lapses
from simulation.scene import JobScene
from simulation.services import Broken, Gain, Loss
from simulation.world import SECOND, World

ALL: Ranges = [(0, KEYS)]
KEY, END = "shop-0", 100 * SECOND
JOBS = [JobScene("shop", (1, 2)), JobScene("cart", (3,))]
BLOCK = Broken(5 * SECOND, 30 * SECOND, "task1", KEY)  # of a writer that was stopped


def lapsed(losses: list[Loss], gains: list[Gain], broken: list[Broken]) -> list[str]:
    """Returns what is found wrong with KEY."""
    cluster: Any = SimpleNamespace(
        scene=SimpleNamespace(jobs=JOBS), losses=losses, gains=gains, broken=broken,
        tasks_of=lambda job: [SimpleNamespace(name=f"task{it}") for it in job.tasks],
    )
    return [it for it in lapses(cluster, END) if it.startswith(f"{KEY} ")]


def loss(second: int) -> Loss:
    return Loss(second * SECOND, "task1", ALL)


def gain(second: int, task: str = "task2") -> Gain:
    return Gain(second * SECOND, task, ALL)


def test_a_key_that_moved_while_a_block_was_open_has_not_lapsed() -> None:
    """The block ends 20 s later, when nobody gains the key."""
    assert lapsed([loss(10)], [gain(11)], [BLOCK]) == []


@pytest.mark.parametrize(
    ("losses", "gains", "broken", "told"),
    [
        ([loss(10)], [], [BLOCK], "was told to lose it at 10.00"),
        ([loss(10)], [gain(20)], [], "was told to lose it at 10.00"),
        ([loss(10)], [gain(11, "task1")], [], "was told to lose it at 10.00"),
        ([loss(10)], [gain(11, "task3")], [], "was told to lose it at 10.00"),
        ([], [gain(11)], [BLOCK], "lost a block on it untold at 30.00"),
        ([loss(4)], [gain(5)], [BLOCK], "lost a block on it untold at 30.00"),
    ],
    ids=["nobody", "later", "again", "of-another-job", "untold", "told-before"],
)
def test_a_key_that_stayed_has_lapsed(
    losses: list[Loss], gains: list[Gain], broken: list[Broken], told: str
) -> None:
    assert lapsed(losses, gains, broken) == [f"{KEY} lapsed, task1 {told}"]


def test_a_key_that_another_task_may_still_gain_is_not_judged() -> None:
    assert lapsed([loss(98)], [], []) == []


@pytest.mark.parametrize(
    ("owner", "after", "moved", "seconds"),
    [("task2", 1.5, True, 2.0), ("task1", 1.5, False, 2.0), ("task2", 9.0, False, 2.5)],
    ids=["moves", "stays", "denied-for-long"],
)
def test_a_denial_is_followed_beyond_the_end_of_the_run(
    owner: str, after: float, moved: bool, seconds: float
) -> None:
    """It has lasted half a second when the run ends."""
    served: dict[str, Ranges] = {"task1": ALL, "task2": []}
    world = World(1)
    tasks: Any = [
        (SimpleNamespace(name=it, stops=0), SimpleNamespace(served=lambda it=it: served[it])) for it in served
    ]
    scene = SimpleNamespace(jobs=JOBS[:1])
    cluster: Any = SimpleNamespace(world=world, scene=scene, running=lambda _: tasks)
    watch = Watch(cluster, lambda: ())
    watch.look()
    world.run_until(10 * SECOND)
    served["task1"] = []
    world.after(0.5 + after, lambda: served.update({owner: ALL}))
    world.run_until(world.now + SECOND // 2)
    watch.end(2.0)
    found = {(it.moved, round(it.seconds, 1)) for it in watch.denials}
    assert found == {(moved, seconds)} and len(watch.denials) == len(JOBS[0].keys)


@pytest.mark.parametrize(("begun", "ended", "lasts"), [(40, 45, 5), (10, 45, 10), (10, 35, 0), (10, 20, -15)])
def test_a_denial_that_began_before_a_time_counts_from_then(begun: int, ended: int, lasts: int) -> None:
    """One that began while jobs were recovered, and lasts on, is no part of the recovery."""
    assert Denial(KEY, begun * SECOND, ended * SECOND, False, ()).lasts_from(35 * SECOND) == lasts * SECOND
