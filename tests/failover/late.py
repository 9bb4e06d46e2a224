"""How late a thread wakes that sleeps again and again: for so long the machine lets processes wait."""

import threading
import time

SLEPT = 0.05  # seconds


class Waking:
    """A thread that sleeps, and how late it woke at most since that was asked."""

    def __init__(self) -> None:
        self._latest = 0.0
        threading.Thread(target=self._run, daemon=True).start()

    def _run(self) -> None:
        while True:
            due = time.monotonic() + SLEPT
            time.sleep(SLEPT)
            self._latest = max(self._latest, time.monotonic() - due)

    def latest(self) -> float:
        """Returns by how many seconds it woke late at most since the last call."""
        latest, self._latest = self._latest, 0.0
        return round(latest, 3)
