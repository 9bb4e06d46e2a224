"""What tasks and routers count, for Prometheus."""

from collections import Counter as Counts
from collections.abc import Callable, Iterator, Mapping

from prometheus_client import CollectorRegistry, Counter, Gauge, generate_latest
from prometheus_client.core import CounterMetricFamily
from prometheus_client.registry import Collector


class Totals(Collector):
    """Counters that are plain numbers of their owner, and are read at a scrape: `told` returns each as its name, its
    words, and what was counted by the values of its own labels, which `labels` names."""

    Told = tuple[str, str, tuple[str, ...], Mapping[tuple[str, ...], float]]

    def __init__(self, names: tuple[str, str], values: tuple[str, str], told: Callable[[], list[Told]]) -> None:
        self._names, self._values, self._told = names, values, told

    def collect(self) -> Iterator[CounterMetricFamily]:
        for name, words, labels, counted in self._told():
            family = CounterMetricFamily(f"hourstable_{name}", words, labels=[*self._names, *labels])
            for values, count in counted.items():
                family.add_metric([*self._values, *values], count)
            yield family


class CallerMetrics:
    """What each caller of control planes counts. Its labels are those of `names`, with these values."""

    def __init__(self, names: tuple[str, str], values: tuple[str, str]) -> None:
        self.registry = CollectorRegistry()
        self._names, self._values = names, values
        self.unreachable = self._counter("control_unreachable", "Calls that no plane answered.")
        self.log_missing = self._counter("log_lines_missing", "Lines that the log did not take.")
        self._wrong = self._labelled(
            "control_wrong_answers", "Answers that are none of a control plane to a right call.", "answer"
        )
        self._errors = self._labelled(
            "internal_errors", "Exceptions that nobody expected, by what failed.", "where"
        )

    def wrong_answer(self, word: str) -> None:
        """Counts a wrong answer: the status of a plane, `unreadable`, `ticket` or `other`."""
        self._wrong.labels(*self._values, word).inc()

    def internal_error(self, where: str) -> None:
        """Counts an exception that nobody expected."""
        self._errors.labels(*self._values, where).inc()

    def text(self) -> bytes:
        return generate_latest(self.registry)

    def _counter(self, name: str, words: str) -> Counter:
        made = Counter(f"hourstable_{name}", words, self._names, registry=self.registry)
        return made.labels(*self._values)

    def _labelled(self, name: str, words: str, label: str) -> Counter:
        return Counter(f"hourstable_{name}", words, [*self._names, label], registry=self.registry)

    def _gauge(self, name: str, words: str) -> Gauge:
        made = Gauge(f"hourstable_{name}", words, self._names, registry=self.registry)
        return made.labels(*self._values)


class Metrics(CallerMetrics):
    """The counters and gauges of a task."""

    def __init__(self, job: str, task: int) -> None:
        super().__init__(("job", "task"), (job, str(task)))
        self.denials: Counts[str] = Counts()  # by the ground
        self.requests = 0  # questions for a key
        self.lost = 0  # answers after the end of their lease
        self.registry.register(Totals(self._names, self._values, self._totals))
        self.behind = self._counter("clock_behind", "Times that the clock stopped the task.")
        self.lives = self._counter("lives", "Lives that were begun.")
        self.left = self._gauge("calls_left", "Calls that the slicelet still accepts.")
        self.keys = self._gauge("served_share", "The part of all slice keys that it may serve.")
        self._heard = self._labelled("heard", "Leases that were heard.", "kind")

    def denied(self, ground: str) -> None:
        self.denials[ground] += 1

    def _totals(self) -> list[Totals.Told]:
        denials: dict[tuple[str, ...], float] = {(ground,): count for ground, count in self.denials.items()}
        return [
            ("requests", "Questions for a key.", (), {(): self.requests}),
            ("lease_lost", "Answers after the end of their lease.", (), {(): self.lost}),
            ("denied", "Questions that were denied.", ("ground",), denials),
        ]

    def heard(self, kind: str) -> None:
        self._heard.labels(*self._values, kind).inc()


class RouterMetrics(CallerMetrics):
    """The counters of a router."""

    def __init__(self, job: str, clerk: int) -> None:
        super().__init__(("job", "clerk"), (job, str(clerk)))
