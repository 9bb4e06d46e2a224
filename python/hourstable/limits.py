"""What a control plane takes of its callers, and how fast."""

from dataclasses import dataclass

MIB = 1 << 20


@dataclass
class Limits:
    """What a control plane takes. Beyond a limit it answers 413 or 429 and says which."""

    body: int = MIB
    jobs: int = 64
    connections: int = 1024
    peer: int = 0  # connections of one address; 0: half of all, but at least 16
    first: float = 5.0  # seconds in which a connection makes its first whole request, and a body comes
    grants: float = 20.0  # a second, of each task of each job
    burst: float = 40.0  # grants of a task that may come at once
    patience: float = 10.0  # seconds in which a call is answered

    @property
    def of_peer(self) -> int:
        """How many connections an address may have."""
        return self.peer or max(16, self.connections // 2)


class Limited(Exception):
    """A request is beyond a limit; it may be made again after some seconds."""

    def __init__(self, limit: str, after: float) -> None:
        super().__init__(f"limit of {limit}")
        self.limit, self.after = limit, after


class Bucket:
    """A rate: `burst` at once, and then `rate` a second."""

    def __init__(self, rate: float, burst: float, now: float) -> None:
        self._rate, self._burst, self._left, self._at = rate, burst, burst, now

    def take(self, now: float) -> float:
        """Takes one, and returns 0; or the seconds until there is one again."""
        self._left = min(self._burst, self._left + (now - self._at) * self._rate)
        self._at = now
        if self._left >= 1:
            self._left -= 1
            return 0.0
        return (1 - self._left) / self._rate
