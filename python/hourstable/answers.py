"""What requests to a control plane carry, and how they are answered. Bodies that are messages are those that the
library writes and reads."""

import json
import math
from collections.abc import Callable
from typing import Any, TypeVar

from aiohttp import web

from hourstable import logs
from hourstable.jobs import Made, is_number
from hourstable.metrics import word_of
from hourstable.rights import Asked, Heard, NotAdmitted, Place
from hourstable.table_calls import Malformed

T = TypeVar("T")
READING = "Hourstable-Reading"
HOLDER = "Hourstable-Holder"  # the address of the plane that did a call which was handed on to it
KEY = "Hourstable-Key"  # of the life that gives leases back, whose body is a message
MOST_SHOWN, MOST_WORD = 8, 128  # lives whose keys are shown; characters of a key or a part of a place
TASKS, LIVES, NUMBERS = range(1, 65), range(1, 1 << 32), range(1 << 64)
JSON = {"Content-Type": "application/json"}


def job_in(request: web.Request) -> str:
    return name_in(request.match_info["job"])


def name_in(given: object) -> str:
    """Returns the name of a job. Raises Malformed."""
    if not isinstance(given, str) or not logs.NAME.fullmatch(given):
        raise Malformed("the name of a job is that of a folder: 1 to 64 letters, digits, . _ and -")
    return given


def number_in(request: web.Request, name: str, default: int) -> int:
    text = request.query.get(name, str(default))
    if not (text.isascii() and text.isdigit() and len(text) <= 20 and int(text) < 1 << 64):
        raise Malformed(f"{name} is no number of 64 bits")
    return int(text)


async def json_of(request: web.Request) -> dict[str, Any]:
    try:
        given = json.loads(await request.read())
    except (ValueError, RecursionError) as error:
        raise Malformed("the body is not a JSON text") from error
    if not isinstance(given, dict):
        raise Malformed("the body is not an object")
    return given


def member(given: dict[str, Any], name: str, limits: range) -> int:
    value = given.get(name)
    if not is_number(value) or value not in limits:
        raise Malformed(f"{name} is no number from {limits.start} to {limits.stop - 1}")
    assert isinstance(value, int)
    return value


def asked_in(given: dict[str, Any]) -> Asked:
    """Returns who asks for a grant, or only to be let in. Raises Malformed."""
    task, life, key = member(given, "task", TASKS), member(given, "life", LIVES), word_in(given, "key")
    place, shown = given.get("place", {}), given.get("shown", {})
    if not isinstance(place, dict) or not isinstance(shown, dict) or len(shown) > MOST_SHOWN:
        raise Malformed(f"place is no object, or shown is none of at most {MOST_SHOWN} lives")
    let_in = given.get("let_in", False)
    if not isinstance(let_in, bool):
        raise Malformed("let_in is neither true nor false")
    where = Place(*(word_in(place, name) for name in Place._fields))
    keys = tuple((_life_of(text), word_in(shown, text)) for text in shown)
    return Asked(task, life, key, where, keys, let_in, _heard_in(given))


def _heard_in(given: dict[str, Any]) -> Heard:
    """Returns what a task heard. Raises Malformed."""
    heard = given.get("heard", {})
    if not isinstance(heard, dict):
        raise Malformed("heard is no object")
    return Heard(*(member(heard, name, NUMBERS) if name in heard else 0 for name in Heard._fields))


def word_in(given: dict[str, Any], name: str) -> str:
    """Returns a short text, empty if it is not there. Raises Malformed."""
    text = given.get(name, "")
    if not isinstance(text, str) or len(text) > MOST_WORD:
        raise Malformed(f"{name} is no text of at most {MOST_WORD} characters")
    return text


def _life_of(text: str) -> int:
    if not (text.isascii() and text.isdigit() and len(text) <= 10):
        raise Malformed("shown has a life that is no number")
    return int(text)


def answer_of(value: object, status: int = 200) -> web.Response:
    return message_of(logs.COMPACT.encode(value).encode(), status)


def message_of(message: bytes, status: int = 200) -> web.Response:
    return web.Response(body=message, status=status, headers=JSON)


def failure(status: int, error: str, after: float | None = None, **members: str) -> web.Response:
    """Returns the answer of a request that is not done, with the seconds after which to retry."""
    made = answer_of({"error": error, **members}, status)
    if after is not None:
        made.headers["Retry-After"] = str(max(1, math.ceil(after)))
    return made


def refused(made: Made[Any]) -> bytes:
    """Returns the body of the answer of a call that a table refused."""
    assert made.refusal is not None
    why = {"refused": word_of(made.refusal.name), "told": made.refusal.carried}
    return logs.COMPACT.encode(why).encode()


def not_admitted(why: NotAdmitted) -> web.Response:
    """Returns the answer to a life that gets no lease: the word, and the life that is let in. One that waits is told
    after how many seconds it may be let in."""
    made: dict[str, Any] = {"refused": why.word, "told": {}, "admitted": why.admitted}
    if why.after is not None:
        made["after"] = why.after
    return answer_of(made, 409)


def told(made: Made[T], answer: Callable[[T], web.Response]) -> web.Response:
    """Returns the answer of a call of a table."""
    if made.refusal is not None:
        response = message_of(refused(made), 409)
    else:
        assert made.result is not None
        response = answer(made.result)
    if made.at is not None:
        response.headers[READING] = str(made.at)
    return response
