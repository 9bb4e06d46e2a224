"""What a line of a program's log is about: the job, the task, the caller and the request.

    with about(job="shop", task=3):
        log.warning("a lease was lost")    # .. hourstable.task: a lease was lost job=shop task=3

`show()` lets the handlers of the root logger end each line of the package with it; `Context` does so for a handler of
an application. asyncio tasks that are made inside of a block are about the same.
"""

import logging
from collections.abc import Iterator
from contextlib import contextmanager
from contextvars import ContextVar

FIELDS = ("job", "task", "caller", "request")
FORMAT = "%(asctime)s %(levelname)s %(name)s: %(message)s%(context)s"
_here: ContextVar[dict[str, str]] = ContextVar("hourstable_about")


@contextmanager
def about(**fields: object) -> Iterator[None]:
    """Says what lines of the block are about, besides what those around it are."""
    kept = _here.set({**_here.get({}), **{name: str(value) for name, value in fields.items()}})
    try:
        yield
    finally:
        _here.reset(kept)


def note(**fields: object) -> None:
    """Says more of what the innermost block is about, once it is known."""
    known = _here.get(None)
    if known is not None:
        known.update((name, str(value)) for name, value in fields.items())


def noted() -> dict[str, str]:
    """Returns what lines are about here."""
    return dict(_here.get({}))


class Context(logging.Filter):
    """Gives each record the attribute `context`: what it is about, as text that begins with a blank, or nothing."""

    def filter(self, record: logging.LogRecord) -> bool:
        known = _here.get({})
        record.context = "".join(f" {name}={known[name]}" for name in FIELDS if name in known)
        return True


def show(level: int) -> None:
    """Writes lines from a level on to standard error, with what they are about."""
    handler = logging.StreamHandler()
    handler.setFormatter(logging.Formatter(FORMAT))
    handler.addFilter(Context())
    logging.basicConfig(level=level, handlers=[handler])
