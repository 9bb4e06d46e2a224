"""The page at / of a control plane: its files, and what it shows of a job.

The files are the same for everybody and are answered without a secret. What they show comes from
JSON routes, which want the secret of the plane. The page runs no script of elsewhere and has no
styles or scripts in its HTML, so its policy allows none.
"""

from collections.abc import Awaitable, Callable
from dataclasses import asdict
from pathlib import Path
from typing import TYPE_CHECKING, Any

from aiohttp import web

from hourstable.failures import Failure
from hourstable.jobs import Job
from hourstable.keys import proposed_of
from hourstable.library import KIND_WORDS
from hourstable.loads import KEYS
from hourstable.plans import Slices, slices_in

if TYPE_CHECKING:
    from hourstable.control import Followed

FOLDER = Path(__file__).with_name("static")
FILES = {
    "/": ("page.html", "text/html"), "/page.css": ("page.css", "text/css"),
    "/page.js": ("page.js", "text/javascript"), "/icon.svg": ("icon.svg", "image/svg+xml"),
}
HEADERS = {
    "Content-Security-Policy": (
        "default-src 'none'; script-src 'self'; style-src 'self'; img-src 'self';"
        " connect-src 'self'; form-action 'none'; base-uri 'none'; frame-ancestors 'none'"
    ),
    "X-Content-Type-Options": "nosniff",
    "Referrer-Policy": "no-referrer",
    "Cache-Control": "no-cache",
}


def routes() -> list[web.RouteDef]:
    """Returns the routes of the files."""
    return [web.get(path, _file(*given)) for path, given in FILES.items()]


def _file(name: str, kind: str) -> Callable[[web.Request], Awaitable[web.Response]]:
    body = (FOLDER / name).read_bytes()

    async def answer(_: web.Request) -> web.Response:
        return web.Response(body=body, content_type=kind, charset="utf-8", headers=HEADERS)

    return answer


def overview_of(followed: "Followed", now: float, failed: Failure | None) -> dict[str, Any]:
    """Returns the line of a job in a list of all. `failed` says why it does not work, and is null if it does."""
    job = followed.job
    return {
        "job": job.name, "holder": job.is_held, "committed": job.view.committed,
        "proposed": job.view.proposed or None, "alive": len(followed.alive(now)),
        "draining": len(followed.draining()), "grace": job.grace_left(),
        "failed": failed.value(now) if failed is not None else None,
    }


def overview_of_failed(job: str, now: float, failed: Failure | None) -> dict[str, Any]:
    """Returns the line of a job of which the plane could read nothing."""
    return {
        "job": job, "holder": False, "committed": 0, "proposed": None, "alive": 0, "draining": 0, "grace": 0,
        "failed": failed.value(now) if failed is not None else None,
    }


def leases_of(followed: "Followed", now: float) -> dict[str, Any]:
    """Returns what GET /jobs/J/leases answers: the table as it is now, and what this plane saw of
    it in the last minutes. Readings are of the table's clock, in milliseconds."""
    job, lanes = followed.job, followed.lanes
    return {
        "job": job.name, "holder": job.is_held, "reading": job.reading(), "policy": job.members,
        "committed": job.view.committed, "proposed": job.view.proposed or None,
        "phase_seconds": round(now - job.since, 1), "term": job.term,
        "grace": {"until": job.grace, "left": job.grace_left()},
        "alive": followed.alive(now), "draining": followed.draining(),
        "rows": rows_of(job),
        "stretches": [asdict(one) for one in lanes.stretches],
        "terms": [asdict(one) for one in lanes.terms],
        "phases": [one._asdict() for one in lanes.phases],
        "events": [one._asdict() for one in lanes.events],
        "refusals": [
            {"call": call, "refused": word, "count": count}
            for (call, word), count in sorted(lanes.refusals.items())
        ],
        "tasks": [
            {"task": task, **one._asdict()} for task, one in sorted(followed.denials.items())
        ],
    }


def rows_of(job: Job) -> list[dict[str, Any]]:
    """Returns the open rows, each with the word of its kind."""
    return [
        {
            "number": row.number, "task": row.task, "life": row.life,
            "kind": KIND_WORDS[row.kind], "generation": row.generation, "until": row.table_ends,
        }
        for row in job.rows()
    ]


def slices_of(followed: "Followed", now: float) -> dict[str, Any]:
    """Returns what GET /jobs/J/slices answers: the slices of the committed assignment and of the
    proposed one, each with its owners and its part of the reported loads."""
    job = followed.job
    loads = [(int(low), int(high), int(load)) for low, high, load in followed.loads.newest(now)]
    proposed = proposed_of(job)
    return {
        "job": job.name, "generation": job.view.committed, "load": sum(it[2] for it in loads),
        "slices": _shown(job.view.assignment, loads), "proposed": _shown(proposed, loads),
    }


def _shown(assignment: bytes | None, loads: list[tuple[int, int, int]]) -> list[dict[str, Any]]:
    if assignment is None:
        return []
    slices = slices_in(assignment)
    ends = [start for start, _ in slices[1:]] + [KEYS]
    return [
        {
            "start": str(start), "end": str(end), "from": start / KEYS, "to": end / KEYS,
            "owners": owners, "load": load,
        }
        for (start, owners), end, load in zip(slices, ends, loads_in(slices, loads))
    ]


def loads_in(slices: Slices, loads: list[tuple[int, int, int]]) -> list[int]:
    """Returns the load of each slice. That of a reported range is spread evenly over its keys."""
    starts = [start for start, _ in slices]
    ends = starts[1:] + [KEYS]
    made = [0.0] * len(slices)
    at = 0
    for low, high, load in sorted(loads):
        while ends[at] <= low:
            at += 1
        on = at
        while on < len(slices) and starts[on] < high:
            shared = min(high, ends[on]) - max(low, starts[on])
            made[on] += load * shared / (high - low)
            on += 1
    return [round(it) for it in made]
