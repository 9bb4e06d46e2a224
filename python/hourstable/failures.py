"""The jobs of a control plane that do not work, and why. What goes wrong with one job is kept to it."""

from collections.abc import Iterator
from typing import Any, NamedTuple

from hourstable.store import StoreFailed


class Failure(NamedTuple):
    """Why a job does not work: the words of the last error, the monotonic seconds of the first one in a row, how many
    there were since, the seconds of the last one, and whether it is one of the store."""

    why: str
    since: float
    tries: int
    last: float
    is_of_store: bool = False

    def value(self, now: float) -> dict[str, Any]:
        """Returns what `/overview` shows as `failed`. `seconds` says for how long the job has failed."""
        return {"why": self.why, "seconds": round(now - self.since, 1), "tries": self.tries}


class Failures:
    """What failed of each job: to read what is stored (`read`), or a call (`call`). Each is well again when the same
    succeeds."""

    def __init__(self) -> None:
        self._failed: dict[str, dict[str, Failure]] = {}

    def failed(self, job: str, what: str, error: BaseException, now: float) -> Failure:
        """Takes an error of a job, and returns its failure."""
        of_job = self._failed.setdefault(job, {})
        before = of_job.get(what, Failure("", now, 0, now))
        is_of_store = isinstance(error, StoreFailed)
        made = of_job[what] = Failure(words_of(error), before.since, before.tries + 1, now, is_of_store)
        return made

    def well(self, job: str, what: str) -> None:
        """Takes that something of a job succeeded."""
        of_job = self._failed.get(job)
        if of_job is not None:
            of_job.pop(what, None)
            if not of_job:
                del self._failed[job]

    def lapse(self, job: str, what: str, before: float) -> None:
        """Takes that nothing is known any more of what failed before a time, as nobody tried it since."""
        failure = self._failed.get(job, {}).get(what)
        if failure is not None and failure.last < before:
            self.well(job, what)

    def forget(self, job: str) -> None:
        """Forgets a job, which is no more."""
        self._failed.pop(job, None)

    def of(self, job: str) -> Failure | None:
        """Returns the failure of a job that began first, None if it is well."""
        found = sorted(self._failed.get(job, {}).values(), key=lambda it: it.since)
        return found[0] if found else None

    def of_plane(self) -> frozenset[str]:
        """Returns the jobs that fail on this plane by itself: another one may do better. The store is the same for
        all, and a plane that does not reach it writes no beat either."""
        return frozenset(job for job, of in self._failed.items() if not all(it.is_of_store for it in of.values()))

    def __iter__(self) -> Iterator[str]:
        """Returns the names of the jobs that failed."""
        return iter(list(self._failed))

    def __contains__(self, job: object) -> bool:
        return job in self._failed


def words_of(error: BaseException) -> str:
    """Returns an error in words: those of the system and of the store say enough; of others the type counts."""
    if isinstance(error, OSError | StoreFailed) and str(error):
        return str(error)
    return f"{type(error).__name__}: {error}"
