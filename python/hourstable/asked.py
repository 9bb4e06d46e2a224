"""Which of several control planes is asked, and how often a call is made again.

A caller asks one plane until that fails. It moves on only from the plane that failed, so that calls that fail
together do not come back to it; and not to a plane that was silent a moment ago, as long as another one answers. What
is no answer of a plane, as that of a proxy, or of a plane with another secret, is as good as none.
"""

import asyncio
from collections.abc import Callable, Iterator

TRUST = 60.0  # seconds after its silence, for which a caller goes to a plane not just because another one names it


class RetryBudget:
    """How many calls may be made again: a tenth of all calls, `a_second` more each second, and up to `most` at once
    after a quiet time. `now` returns seconds that never fall.

    Without it each caller would make its calls twice, or more often, as soon as who answers them is overloaded.
    """

    SHARE = 0.1

    def __init__(
        self, now: Callable[[], float], most: float = 10.0, a_second: float = 0.0
    ) -> None:
        self._now, self._most, self._a_second = now, most, a_second
        self._left, self._at = most, now()

    def add(self) -> None:
        """Notes a call that is made for the first time."""
        self._left = min(self._most, self._left + self.SHARE)

    def take(self) -> bool:
        """Takes the right to make a call again, and returns whether there was one."""
        now = self._now()
        self._left = min(self._most, self._left + (now - self._at) * self._a_second)
        self._at = now
        if self._left < 1:
            return False
        self._left -= 1
        return True

    def give_back(self) -> None:
        """Gives a right back that was taken, as after a call that was then done: where things go well again, nobody
        waits for the budget."""
        self._left = min(self._most, self._left + 1)


class Planes:
    """The planes of a caller, by their places in `urls`.

    `now` returns seconds that never fall. A plane that was silent is left alone for `rest` seconds while another one
    answers, be it that it cannot do the call yet.
    """

    def __init__(self, urls: list[str], now: Callable[[], float], rest: float) -> None:
        if not urls:
            raise ValueError("there is no control plane")
        self.urls, self.rest = urls, rest
        self.budget, self.hedges = RetryBudget(now), RetryBudget(now)
        self._now = now
        self._at = 0
        self._silent: dict[int, float] = {}  # planes that gave no answer, and when
        self._wrong: set[int] = set()  # planes whose last answer was none of a plane
        self._silent_at: dict[int, float] = {}  # those that ever did not
        self._left = asyncio.Event()  # set, and replaced, when a plane is left that was silent

    def tries(self) -> Iterator[int]:
        """Returns the planes that a call is made at, one after the other until one does it: each at most once, and
        only the first one if the budget is spent. The caller tells how each try ended."""
        tries = Tries(self)
        while (at := tries.next()) is not None:
            yield at

    def after(self, tried: set[int]) -> int | None:
        """Returns the plane to ask after those that were tried, None if there is no other."""
        left = [it for it in self._round() if it not in tried]
        if any(it not in self._silent and it not in self._wrong for it in tried):
            # One answered, so nobody waits for a silent one.
            left = [it for it in left if not self._rests(it)]
        return left[0] if left else None

    def is_silent(self, at: int) -> bool:
        """Whether a plane gave no answer when it was asked last."""
        return at in self._silent

    def _round(self) -> list[int]:
        count = len(self.urls)
        return [(self._at + step) % count for step in range(count)]

    def _rests(self, at: int) -> bool:
        return self._now() - self._silent.get(at, -self.rest) < self.rest

    def answered(self, at: int) -> None:
        """Notes that a plane did a call."""
        self._silent.pop(at, None)
        self._wrong.discard(at)

    def failed(self, at: int, is_silent: bool, is_wrong: bool = False) -> None:
        """Notes that a plane did not do a call, and moves on from it if it is the one that is asked first. `is_wrong`
        says that its answer was none of a plane to a right call."""
        self.answered(at)
        if is_silent:
            self._silent[at] = self._silent_at[at] = self._now()
        elif is_wrong:
            self._wrong.add(at)
        if at == self._at:
            others = self._round()[1:]
            awake = [it for it in others if not self._rests(it)]
            if awake or is_silent or is_wrong:
                self._at = (awake or others or [at])[0]
            if is_silent and self._at != at:
                self._left.set()
                self._left = asyncio.Event()

    def told(self, url: str) -> None:
        """Takes that the plane of a URL holds the job, as another one said: it is asked first from now on, unless it
        was silent to this caller in the last minute or so."""
        at = self.urls.index(url) if url in self.urls else self._at
        if self._now() - self._silent_at.get(at, -TRUST) >= TRUST:
            self._at = at

    async def left(self, at: int) -> None:
        """Returns when a plane that was asked first has been left because it was silent: who still waits for an
        answer of it may wait for long."""
        while self._at == at or at not in self._silent:
            await self._left.wait()


class Tries:
    """The planes that one call is made at, each at most once."""

    def __init__(self, planes: Planes) -> None:
        self._planes, self._tried = planes, set[int]()
        planes.budget.add()
        planes.hedges.add()

    def next(self) -> int | None:
        """Returns the plane to ask first, or after one that did not do the call; None if there is no other, or the
        budget is spent."""
        return self._take(self._planes.budget)

    def hedge(self) -> int | None:
        """Returns the plane to ask beside one that has not answered yet, None if there is no other, or hedges are a
        tenth of all calls already. A plane that was silent when it was asked last is not asked for that."""
        at = self._planes.after(self._tried)
        return None if at is None or self._planes.is_silent(at) else self._take(self._planes.hedges)

    def _take(self, budget: RetryBudget) -> int | None:
        at = self._planes.after(self._tried)
        if at is None or (self._tried and not budget.take()):
            return None
        self._tried.add(at)
        return at
