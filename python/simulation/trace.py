"""What is told of a run: what happened, and what the package logged."""

import logging

from .world import SECOND, World

WARNINGS = ("too-old", "serves nothing", "ends", "refused", "failed")


class Trace:
    """The lines of a run, which are printed as they come if that is asked for."""

    def __init__(self, prints: bool) -> None:
        self.lines: list[tuple[int, str]] = []
        self._prints = prints

    def tell(self, now: int, text: str) -> None:
        self.lines.append((now, text))
        if self._prints:
            print(f"{now / SECOND:11.6f} {text}", flush=True)


class Told(logging.Handler):
    """Tells what the package logs, as a line of the process that runs."""

    def __init__(self, world: World, trace: Trace) -> None:
        super().__init__()
        self._world, self._trace = world, trace

    def emit(self, record: logging.LogRecord) -> None:
        process = self._world.current
        text = record.getMessage()
        if record.exc_info and record.exc_info[1] is not None:
            text += f": {record.exc_info[1]!r}"
        name = process.name if process is not None else "-"
        self._trace.tell(self._world.now, f"  {name} {record.name}: {text}")


def take_logs(world: World, trace: Trace | None) -> None:
    """Brings the package's logs into a trace, or drops them."""
    if trace is None:
        logging.disable(logging.CRITICAL)
        return
    logging.disable(logging.NOTSET)
    logging.getLogger().handlers[:] = [Told(world, trace)]
    logging.getLogger().setLevel(logging.INFO)
