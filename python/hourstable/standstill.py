"""For how long the row of a job has stood still, which is when another plane may take the job over."""

from collections.abc import Callable


class Standstill:
    """The version of a row, and for how long it is the same. Only time in which the store answers counts: while it
    stands still itself no plane writes, and none is to lose its jobs for that. Of a read that takes longer, `quick`
    seconds count. `now` returns seconds that never fall."""

    def __init__(self, now: Callable[[], float], quick: float) -> None:
        self._now, self._quick = now, quick
        self.version: int | None = None  # that was read last; None: none is known
        self._since = 0.0

    def saw(self, version: int, took: float) -> None:
        """Takes a version that was read, which took some seconds."""
        if version != self.version:
            self.version, self._since = version, self._now()
        else:
            self._since += max(0.0, took - self._quick)

    def forget(self) -> None:
        """Forgets the version, as the store did not answer, or the row is one's own: the time begins again."""
        self.version = None

    def seconds(self) -> float:
        """Returns for how long the row has had its version."""
        return 0.0 if self.version is None else max(0.0, self._now() - self._since)
