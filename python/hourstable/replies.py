"""What tasks and routers read from the answers of control planes.

Each raises ValueError, LookupError, TypeError or Refused if the answer is none of a plane to the call: a proxy may
answer, something else may listen, and a body may be torn.
"""

import json
from collections.abc import Mapping
from typing import Any, NamedTuple

from .calls import Answer
from .leases import Held, held_in, policy_of
from .library import Phase, Table, read_assignment
from .own_lives import Life

LIVES = 1 << 32
LONGEST = 1e9  # seconds for which a life may wait
NUMBERS = 1 << 64
Members = Mapping[str, Any]


class Granted(NamedTuple):
    """The answer to a call for a lease: the lease of its grant, or the word for why it was refused. Where another
    life of the task is let in, `admitted` says which, and `after` in how many seconds to ask again. A life that was
    let in without a lease is told the `epoch` of the job."""

    answer: Answer
    lease: Held | None
    refused: str
    admitted: int = 0
    after: float = 0.0
    epoch: int = 0


def check_policy(job: str, members: Members) -> Members:
    """Returns the members of a policy, which the library accepts. Raises ValueError."""
    try:
        Table(job, policy_of(members)).close()
    except Exception as why:
        raise ValueError(f"no policy of a job: {members!r}: {type(why).__name__} {why}") from why
    return members


def policy_in(job: str, answer: Answer) -> Members:
    """Returns the members of the policy that GET /jobs/J tells."""
    members = answer.value()["policy"]
    if not isinstance(members, dict):
        raise ValueError("a policy is no object")
    return check_policy(job, members)


def is_created(answer: Answer) -> bool:
    """Returns whether PUT /jobs/J found or made the job with the policy that was given."""
    answer.value()
    return answer.status != 409


def phase_in(answer: Answer) -> Phase | None:
    """Returns the phase that GET /jobs/J/phase tells, None if it is still the known one."""
    if answer.status == 204:
        return None
    value = answer.value()
    pending = value["pending"]
    return Phase(number(value["committed"]), 0 if pending is None else number(pending))


def life_in(answer: Answer) -> Life:
    """Returns the life that POST /jobs/J/tasks/T/life gives."""
    value = answer.value()
    if answer.status == 409:
        raise ValueError(f"no life: {value}")
    life, last = number(value["life"]), number(value["last"])
    if not last < life < LIVES:
        raise ValueError(f"life {life} after {last}")
    key = value.get("key", "")
    if not isinstance(key, str):
        raise ValueError("a key is no text")
    return Life(life, last, key)


def granted(job: str, answer: Answer) -> Granted:
    """Returns what POST /jobs/J/grant answers."""
    if answer.status == 409:
        value = answer.value()
        after = value.get("after", 0.0)
        if isinstance(after, bool) or not isinstance(after, int | float) or not 0 <= after < LONGEST:
            raise ValueError("after is no number of seconds")
        return Granted(answer, None, refusal(value), number(value.get("admitted", 0)), float(after))
    if answer.reading is None:
        raise ValueError("a grant without a reading")
    return Granted(answer, held_in(job, answer.body), "")


def let_in(job: str, life: int, answer: Answer) -> Granted:
    """Returns what POST /jobs/J/grant answers to a life that asks only to be let in: a version up to 1.0 gives it a
    lease."""
    if answer.status == 409:
        return granted(job, answer)
    value = answer.value()
    if "let_in" not in value:
        return granted(job, answer)
    if answer.reading is None or number(value["let_in"]) != life:
        raise ValueError(f"life {life} was let in otherwise")
    epoch = number(value["epoch"])
    if not 0 < epoch < LIVES:
        raise ValueError(f"{epoch} is no epoch")
    return Granted(answer, None, "", epoch=epoch)


def freed_in(answer: Answer) -> None:
    """Reads the answer to POST /jobs/J/free."""
    value = answer.value()
    if answer.status == 409:
        refusal(value)
    else:
        number(value["freed"])


def done(answer: Answer) -> None:
    """Reads an answer that has no body."""
    if answer.status != 204:
        raise ValueError(f"{answer.status} in place of 204")


def is_draining(task: int, answer: Answer) -> bool:
    """Returns whether a task is drained, as GET /jobs/J tells."""
    return task in answer.value().get("draining", [])


def generation_in(job: str, answer: Answer) -> tuple[int, bytes]:
    """Returns what GET /jobs/J/assignment answers: the generation and the message, or 0 and nothing if there is no
    later assignment."""
    if answer.status == 204:
        return 0, b""
    return read_assignment(job, answer.body).generation, answer.body


def refusal(value: Members) -> str:
    """Returns the word for why a table refused a call."""
    word = value["refused"]
    if not isinstance(word, str):
        raise ValueError("a refusal is a word")
    return word


def number(value: object) -> int:
    """Returns a number of 64 bits. Raises ValueError."""
    if isinstance(value, bool) or not isinstance(value, int) or not 0 <= value < NUMBERS:
        raise ValueError(f"{json.dumps(value)[:40]} is no number of 64 bits")
    return value
