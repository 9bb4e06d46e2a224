"""The metrics of a control plane, in the text form of Prometheus."""

from collections.abc import Iterable, Iterator

from prometheus_client import CollectorRegistry, Counter, Gauge, Histogram, Metric, generate_latest
from prometheus_client.exposition import CONTENT_TYPE_LATEST
from prometheus_client.registry import Collector

from hourstable.jobs import Counters
from hourstable.library import library_version

CONTENT_TYPE = CONTENT_TYPE_LATEST
SECONDS = (0.0005, 0.001, 0.0025, 0.005, 0.01, 0.025, 0.05, 0.1, 0.25, 0.5, 1.0, 2.5, 5.0, 10.0)


class Metrics(Counters):
    """What a control plane counts. OPERATIONS says what to watch."""

    def __init__(self) -> None:
        self.registry = registry = CollectorRegistry()
        self.calls = Counter(
            "hourstable_calls", "Calls of a table that were accepted and stored.",
            ["job", "call"], registry=registry,
        )
        self.refusals = Counter(
            "hourstable_refusals", "Calls of a table that it refused.",
            ["job", "call", "refused"], registry=registry,
        )
        self.restarts = Counter(
            "hourstable_restarts", "Tables that were restored from the store.",
            ["job"], registry=registry,
        )
        self.conflicts = Counter(
            "hourstable_conflicts", "Times that another control plane had written.",
            ["job"], registry=registry,
        )
        self.request_seconds = Histogram(
            "hourstable_request_seconds", "Seconds from a request to its answer, GETs left out.",
            ["call"], buckets=SECONDS, registry=registry,
        )
        self.store_seconds = Histogram(
            "hourstable_store_seconds", "Seconds that an operation of the store took.",
            ["operation"], buckets=SECONDS, registry=registry,
        )
        self.store_failures = Counter(
            "hourstable_store_failures", "Times that the store failed.",
            ["operation"], registry=registry,
        )
        self.limited = Counter(
            "hourstable_limited", "Requests that were answered 413 or 429.",
            ["limit"], registry=registry,
        )
        self.unauthorized = Counter(
            "hourstable_unauthorized", "Requests without a right secret.", registry=registry
        )
        self.forbidden = Counter(
            "hourstable_forbidden", "Requests that their caller may not make, or that a page of elsewhere made.",
            registry=registry,
        )
        self.reloads = Counter(
            "hourstable_reloads", "Times that callers and certificates were read again, and whether that was done.",
            ["result"], registry=registry,
        )
        self.job_failures = Counter(
            "hourstable_job_failures", "Times that a job failed: its log, what is stored of it, or a call.",
            ["job"], registry=registry,
        )
        self.internal_errors = Counter(
            "hourstable_internal_errors", "Exceptions that nobody expected, by what failed.",
            ["where"], registry=registry,
        )
        self._tickets = Counter(
            "hourstable_tickets_left_out", "Tickets and real times beyond the year 6429, which nothing follows.",
            registry=registry,
        )
        self.log_lines = Counter(
            "hourstable_log_lines_missing", "Lines that the log of a job did not take, as on a full disk.",
            ["job"], registry=registry,
        )
        self.connections = Gauge(
            "hourstable_open_connections", "Open connections.", registry=registry
        )
        self._left_out = 0
        self._gauges = Gauges(registry)
        build = Gauge(
            "hourstable_build_info", "1, with the version of the library.", ["version"],
            registry=registry,
        )
        build.labels(".".join(map(str, library_version()))).set(1)

    def made(self, job: str, do: str, refused: str | None) -> None:
        if refused is None:
            self.calls.labels(job, do).inc()
        else:
            self.refusals.labels(job, do, word_of(refused)).inc()

    def restored(self, job: str) -> None:
        self.restarts.labels(job).inc()

    def replaced(self, job: str) -> None:
        self.conflicts.labels(job).inc()

    def stored(self, what: str, seconds: float, failed: bool) -> None:
        self.store_seconds.labels(what).observe(seconds)
        if failed:
            self.store_failures.labels(what).inc()

    def log_missing(self, job: str, lines: int) -> None:
        self.log_lines.labels(job).inc(lines)

    def turned(self, limit: str) -> None:
        """Counts a connection that was turned away."""
        self.limited.labels(limit).inc()

    def job_failed(self, job: str) -> None:
        """Counts a failure of a job."""
        self.job_failures.labels(job).inc()

    def internal_error(self, where: str) -> None:
        """Counts an exception that nobody expected, as a supervisor caught it."""
        self.internal_errors.labels(where).inc()

    def turned_away(self, status: int) -> None:
        """Counts a request that is turned away: 401 if nobody is known by it."""
        if status == 401:
            self.unauthorized.inc()
        else:
            self.forbidden.inc()

    def text(
        self, jobs: Iterable["Shown"], left_out: int = 0, only: frozenset[str] | None = None
    ) -> bytes:
        """Returns the text of all metrics, or of those of some jobs alone. `left_out` is how many tickets the process
        has left out."""
        self._tickets.inc(max(0, left_out - self._left_out))
        self._left_out = left_out
        for shown in jobs:
            self._gauges.show(shown)
        shown_of = self.registry
        if only is not None:
            shown_of = CollectorRegistry()
            shown_of.register(OfJobs(self.registry, only))
        made: bytes = generate_latest(shown_of)
        return made


class OfJobs(Collector):
    """The metrics of some jobs, and none of the plane as a whole."""

    def __init__(self, registry: CollectorRegistry, jobs: frozenset[str]) -> None:
        self._registry, self._jobs = registry, jobs

    def collect(self) -> Iterator[Metric]:
        """Returns the metrics that have a sample of one of the jobs, with these samples."""
        for metric in self._registry.collect():
            samples = [sample for sample in metric.samples if sample.labels.get("job") in self._jobs]
            if samples:
                made = Metric(metric.name, metric.documentation, metric.type)
                made.samples = samples
                yield made


class Shown:
    """What the gauges of a job show."""

    def __init__(self, job: str, numbers: dict[str, float]) -> None:
        self.job, self.numbers = job, numbers


class Gauges:
    """The gauges of jobs, which are set when they are asked for."""

    TEXTS = {
        "generation": "The committed generation.",
        "proposed": "1 while an assignment is proposed, else 0.",
        "proposed_seconds": "Seconds since the assignment was proposed, 0 if none is.",
        "held": "1 if this control plane holds the table, else 0.",
        "grace_seconds": "Seconds for which commits still wait for leases of before a restart.",
        "tasks_alive": "Tasks that renewed their leases lately.",
        "tasks_draining": "Tasks that are being drained.",
        "rows": "Open rows of the table.",
        "grants_made": "Grants that count as made, of the numbers of the policy.",
        "job_failed": "1 if the job does not work on this control plane, else 0: /overview says why.",
        "numbers_left_ratio": "The part of the numbers of grants that is left.",
    }

    def __init__(self, registry: CollectorRegistry) -> None:
        self._gauges = {
            name: Gauge(f"hourstable_{name}", text, ["job"], registry=registry)
            for name, text in self.TEXTS.items()
        }

    def show(self, shown: Shown) -> None:
        for name, number in shown.numbers.items():
            self._gauges[name].labels(shown.job).set(number)


def word_of(name: str) -> str:
    """Returns the word of a script for the name of a code."""
    return name.lower().replace("_", "-")
