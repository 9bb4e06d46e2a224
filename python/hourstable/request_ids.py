"""Who makes a request, and its id, which its answer and all lines about it have."""

import itertools
import os
import re
from collections.abc import Awaitable, Callable

from aiohttp import web

from hourstable.context import about

HEADER = "Hourstable-Request"
GIVEN = (HEADER, "X-Request-Id")  # headers by which a caller, or a proxy before it, names the request
NAME = re.compile(r"[A-Za-z0-9._:-]{1,64}")
Handler = Callable[[web.Request], Awaitable[web.StreamResponse]]
_ours = f"{os.urandom(3).hex()}-"
_numbers = itertools.count(1)


@web.middleware
async def traced(request: web.Request, handler: Handler) -> web.StreamResponse:
    """Names the request in all lines of the log about it, and for its answer."""
    given = {name: request.match_info[name] for name in ("job", "task") if name in request.match_info}
    name = request[HEADER] = id_of(request)
    with about(caller=caller_of(request), request=name, **given):
        return await handler(request)


async def name_answer(request: web.Request, answer: web.StreamResponse) -> None:
    """Gives an answer the id of its request, before its headers leave."""
    if HEADER in request:
        answer.headers[HEADER] = request[HEADER]


def id_of(request: web.Request) -> str:
    """Returns the id of a request: the one that came with it, if it is one of 64 letters, or else a new one."""
    for header in GIVEN:
        given = request.headers.get(header, "")
        if NAME.fullmatch(given):
            return given
    return f"{_ours}{next(_numbers):x}"


def caller_of(request: web.Request) -> str:
    """Returns who asks: the address, with the name of the certificate that was shown, if one was."""
    address = request.remote or "unknown"
    shown = request.transport.get_extra_info("peercert") if request.transport is not None else None
    names = [value for part in (shown or {}).get("subject", ()) for key, value in part if key == "commonName"]
    return f"{names[0]}@{address}" if names else address
