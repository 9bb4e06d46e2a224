"""Who may make which request of a control plane.

A request is turned away if it comes from a page of elsewhere (a name of the plane that is none, another origin, a
body that any page may send), from a caller who is not known, or from one whose role does not allow it.
"""

import ipaddress
import logging
from collections.abc import Callable, Iterable
from typing import Protocol
from urllib.parse import urlsplit

from aiohttp import web

from hourstable import roles
from hourstable.callers import Caller, Callers, Role
from hourstable.context import note
from hourstable.limits import Bucket

FORWARDED = "Hourstable-Caller"  # the header of a plane's call for another caller
CALLER = "hourstable.caller"  # of a request
JSON = "application/json"
OLDER = "application/octet-stream"  # of clients before 1.1, or none at all; no page may send it elsewhere by itself
READS = ("GET", "HEAD")
MOST_LINES = 5.0  # a second, about requests that are turned away
MOST_PATH = 200  # characters of a line
log = logging.getLogger("hourstable.access")


class Turned(Exception):
    """A request that is turned away, by this status."""

    def __init__(self, status: int, why: str) -> None:
        super().__init__(why)
        self.status = status


class Counts(Protocol):
    """What counts the requests that are turned away."""

    def turned_away(self, status: int) -> None: ...


class Access:
    """Looks at each request of a plane. `hosts` are the names by which callers reach it, besides its addresses;
    `callers` may be replaced."""

    def __init__(
        self, callers: Callers, hosts: Iterable[str], counts: Counts, now: Callable[[], float]
    ) -> None:
        self.callers = callers
        self._hosts = {"localhost", *(host.lower().rstrip(".") for host in hosts)}
        self._counts, self._now = counts, now
        self._bucket, self._left_out = Bucket(MOST_LINES, 4 * MOST_LINES, now()), 0

    def reached_by(self, host: str | None) -> None:
        """Takes that callers reach the plane by a name, too."""
        if host:
            self._hosts.add(host.lower().rstrip("."))

    def know(self, request: web.Request) -> None:
        """Finds out who calls. Raises Turned for a page of elsewhere, and for who is not known."""
        self._look_at_origin(request)
        authorization = request.headers.get("Authorization")
        found = self.callers.find(authorization, names_of(request))
        if found is not None:
            found = _for_whom(request, found)
            request[CALLER] = found
            if found.name:
                note(caller=f"{found.name}@{address_of(request)}")
        elif not roles.is_public(route_of(request)):
            raise Turned(401, "the secret is missing or wrong")

    def admit(self, request: web.Request) -> None:
        """Raises Turned if the role of the caller does not allow the call, or if its body is not said to be JSON."""
        route = route_of(request)
        if route not in roles.ROLES or roles.is_public(route):
            return  # nothing answers it, or everybody may have it
        why = roles.why_not(caller_in(request), route, request.match_info.get("job"))
        if why is not None:
            raise Turned(403, why)
        if request.method not in READS and not _is_json(request):
            if request.content_type != OLDER or "Origin" in request.headers:
                raise Turned(415, f"a call that changes something has the header Content-Type: {JSON}")
            self._warn("%s says no Content-Type: upgrade it, a later version refuses this", told_of(request))

    def reads_all(self, request: web.Request) -> bool:
        """Whether all that the plane tells is told to the caller."""
        found: Caller | None = request.get(CALLER)
        return found is not None and found.reads_all()

    def turned(self, request: web.Request, turned: Turned) -> None:
        """Counts and logs a request that is turned away."""
        self._counts.turned_away(turned.status)
        self._warn("%d to %s: %s", turned.status, told_of(request), turned)

    def _look_at_origin(self, request: web.Request) -> None:
        hosts: list[str] = request.headers.getall("Host", [])
        for host in hosts:
            if not self._is_ours(host):
                raise Turned(403, f"{host[:80]!r} is no name of the plane: give it --host NAME, or use its address")
        origin = request.headers.get("Origin")
        if origin is not None and [urlsplit(origin).netloc.lower()] != [host.lower() for host in hosts]:
            raise Turned(403, f"a page of {origin[:80]!r} may not call this plane")

    def _is_ours(self, host: str) -> bool:
        """Whether a host, with its port or without one, is an address or a name of the plane."""
        name, colon, port = host.rpartition(":")
        if not colon or not port.isdecimal():
            name = host
        try:
            ipaddress.ip_address(name.removeprefix("[").removesuffix("]"))
        except ValueError:
            return name.lower().rstrip(".") in self._hosts
        return True

    def _warn(self, text: str, *given: object) -> None:
        """Logs a line, if there were not so many of late."""
        if self._bucket.take(self._now()) > 0:
            self._left_out += 1
            return
        more = f" ({self._left_out} lines before it were left out)" if self._left_out else ""
        self._left_out = 0
        log.warning(text + "%s", *given, more)


def caller_in(request: web.Request) -> Caller:
    """Returns who makes a request that is not turned away."""
    found: Caller = request[CALLER]
    return found


def look_at_task(request: web.Request, job: str, task: int) -> None:
    """Raises Turned if the caller may not act for a task."""
    caller = caller_in(request)
    if not caller.acts_for(job, task):
        is_of_job = caller.role is Role.TASK and caller.has(job)
        raise Turned(403, f"it is of {'another task' if is_of_job else 'another job'}")


def _is_json(request: web.Request) -> bool:
    """Whether the body is said to be JSON. Most callers say it in these words, which need no parser."""
    return request.headers.get("Content-Type") == JSON or request.content_type == JSON


def route_of(request: web.Request) -> str:
    """Returns the method and the path of a route, as ROLES names them."""
    resource = request.match_info.route.resource
    method = "GET" if request.method == "HEAD" else request.method
    return f"{method} {resource.canonical if resource is not None else ''}"


def names_of(request: web.Request) -> list[str]:
    """Returns the names of the certificate that a caller showed: those of DNS, and the common name."""
    shown = request.transport.get_extra_info("peercert") if request.transport is not None else None
    if not shown:
        return []
    names = [value for kind, value in shown.get("subjectAltName", ()) if kind == "DNS"]
    return names + [value for part in shown.get("subject", ()) for key, value in part if key == "commonName"]


def address_of(request: web.Request) -> str:
    """Returns the address of a caller."""
    return request.remote or "unknown"


def told_of(request: web.Request) -> str:
    """Returns who asks for what, as a line tells it: without the query, which may have the key of a user."""
    found: Caller | None = request.get(CALLER)
    name = found.name if found is not None else "".join(names_of(request)[:1])
    path = request.raw_path.partition("?")[0][:MOST_PATH].encode("unicode_escape").decode()
    return f"{name or 'somebody'}@{address_of(request)}: {request.method} {path}"


def _for_whom(request: web.Request, caller: Caller) -> Caller:
    """Returns for whom a plane calls, or else the caller itself. Raises Turned."""
    text = request.headers.get(FORWARDED)
    if text is None:
        return caller
    if caller.role is not Role.ADMIN:
        raise Turned(403, "only a plane calls for another caller")
    try:
        return Caller.unpacked(text)
    except ValueError as error:
        raise Turned(400, f"{FORWARDED}: {error}") from error
