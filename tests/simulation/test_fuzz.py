"""Any bytes as path, header or body of every route: each request gets an answer below 500, and afterwards the plane
has the tasks, files and connections that it had. All runs in virtual time, through the server of aiohttp."""

import asyncio
import json
import re
from collections.abc import Callable, Iterator
from pathlib import Path
from typing import Any

import pytest
from hypothesis import HealthCheck, given, settings
from hypothesis import strategies as st

from simulation.programs import run_plane
from simulation.scene import JobScene, Scene
from simulation.services import SECRET, Cluster
from simulation.world import SECOND, Process, World

BEGUN = range(1, 4)  # tasks that have had life 1
PATIENCE = 40  # virtual seconds for an answer: longer than a waiting GET
JOB = "shop"
POLICY = {"redundancy": [1, 1], "skew": 0, "guard": 1000, "bridge": 1000, "job": 2000, "numbers": 1000}
MEMBERS = (
    "task", "life", "assigner", "term", "generation", "loads", "denied", "grants", "job", "value", "type", "version",
    "slices", "redundancy", "skew", "guard", "bridge", "numbers", "calls_left", "clock_behind", "number", "kind",
)
FUZZ = settings(
    max_examples=250, deadline=None, derandomize=True, database=None,
    suppress_health_check=list(HealthCheck),
)


class Heard(asyncio.Protocol):
    """What a client hears on a connection."""

    def __init__(self) -> None:
        self.data, self.is_closed = b"", False

    def data_received(self, data: bytes) -> None:
        self.data += data

    def connection_lost(self, error: Exception | None) -> None:
        self.is_closed = True


class Fuzzed:
    """A plane with a job, and a client that sends it bytes."""

    def __init__(self, folder: Path) -> None:
        self.world = World(1)
        scene = Scene(1, "quiet", planes=1, jobs=[JobScene(JOB, (1,))], is_whole=True, lone_assigners=1)
        self.cluster = Cluster(self.world, folder, scene)
        self.at = self.cluster.planes[0]
        self.plane = self.cluster.add("plane0", self.at[0], lambda service: run_plane(0, service))
        self.client = Process(self.world, "client", self.cluster.add("client0", "10.0.2.0", _nothing).host)
        self.plane.start()
        self.run(1)
        assert self.ask(b"PUT", f"/jobs/{JOB}".encode(), body=json.dumps(POLICY).encode()) == 201
        for task in BEGUN:
            assert self.ask(b"POST", f"/jobs/{JOB}/tasks/{task}/life".encode()) == 200
        self.run(PATIENCE)
        self.had = self.has()

    def run(self, seconds: float) -> None:
        self.world.run_until(self.world.now + int(seconds * SECOND))

    def has(self) -> tuple[int, int, bool]:
        """Returns how many tasks and files the plane has, and whether it is idle."""
        process = self.plane.process
        assert process is not None and self.plane.plane is not None and self.plane.plane.plane is not None
        tasks = sum(not it.done() for it in process.loop.tasks)
        return tasks, self.plane.host.disk.opened_by(process), self.plane.plane.plane.idle()

    def settle(self) -> None:
        """Waits for waiting GETs, and compares what the plane has with what it had."""
        self.run(2 * PATIENCE)
        assert self.cluster.network.used_by(self.client) == 0
        assert self.has() == self.had
        assert not self.world.died

    def ask(self, method: bytes, path: bytes, head: bytes = b"", body: bytes | None = None) -> int | None:
        """Returns the status of the answer to a request of the job's secret; None if there is none."""
        head += b"Authorization: Bearer " + SECRET.encode() + b"\r\n"
        return self.send(method, path, head, body)

    def send(self, method: bytes, path: bytes, head: bytes, body: bytes | None) -> int | None:
        heard = Heard()
        length = b"" if body is None else b"Content-Length: %d\r\n" % len(body)
        text = b"%s %s HTTP/1.1\r\nHost: 127.0.0.1\r\n%s%s\r\n%s" % (method, path, length, head, body or b"")
        ends: list[Any] = []

        async def talk() -> None:
            end, _ = await self.world.network.connect(self.client, lambda: heard, *self.at)
            ends.append(end)
            end.write(text)

        def begin() -> None:
            self.client.main = self.client.loop.create_task(talk())

        self.world.at(self.world.now, begin, self.client)
        until = self.world.now + PATIENCE * SECOND
        while self.world.now < until and not heard.is_closed and b"\r\n\r\n" not in heard.data:
            self.run(0.05)
        self.world.enter(self.client, ends[0].abort)
        self.run(0.05)
        return int(heard.data.split(b" ")[1]) if heard.data.startswith(b"HTTP/1.") else None


async def _nothing(_: object) -> None:
    await asyncio.Event().wait()


@pytest.fixture(scope="module")
def fuzzed(tmp_path_factory: pytest.TempPathFactory) -> Iterator[Fuzzed]:
    made = Fuzzed(tmp_path_factory.mktemp("fuzz"))
    yield made
    made.settle()


def routes_of(made: Fuzzed) -> list[tuple[bytes, str]]:
    """Returns the method and the path of each route of the plane."""
    assert made.plane.plane is not None and made.plane.plane.plane is not None
    routes = made.plane.plane.plane.application().router.routes()
    found = {(it.method, it.resource.canonical) for it in routes if it.resource is not None}
    return sorted((method.encode(), path) for method, path in found if method != "HEAD")


def path_of(canonical: str, job: bytes = JOB.encode(), task: bytes = b"1") -> bytes:
    return canonical.encode().replace(b"{job}", job).replace(b"{task}", task)


NUMBERS = st.one_of(
    st.integers(-2, 1 << 70), st.floats(allow_nan=True, allow_infinity=True), st.booleans(), st.none(),
    st.sampled_from((0, 1, 64, 1 << 63, 1 << 64)), st.text(max_size=8),
)
VALUES = st.recursive(
    NUMBERS,
    lambda inner: st.lists(inner, max_size=4) | st.dictionaries(st.sampled_from(MEMBERS), inner, max_size=4),
    max_leaves=12,
)
OBJECTS = st.dictionaries(st.sampled_from(MEMBERS), VALUES, max_size=6).map(lambda it: json.dumps(it).encode())
BODIES = st.one_of(st.binary(max_size=300), OBJECTS, VALUES.map(lambda it: json.dumps(it).encode()))
# What cannot be in the first line of a request, or in a header.
IN_LINE = st.binary(max_size=80).map(lambda it: it.translate(None, b"\r\n \t\x00"))


def answered(status: int | None, what: object) -> None:
    assert status is None or status < 500, what


# What docs/HTTP.md says of bodies: for each call its members, each with what it may be, and the statuses of a
# right one. A member that may be left out has a question mark.
Is = Callable[[object], bool]
U64 = (1 << 64) - 1
KEYS, MOST_LOAD = 1 << 63, 1 << 40


def number(least: int, most: int) -> Is:
    return lambda it: type(it) is int and least <= it <= most


def text(it: object) -> bool:
    return type(it) is str and len(it) <= 128


def is_place(it: object) -> bool:
    return isinstance(it, dict) and all(text(it.get(name, "")) for name in ("process", "boot", "device", "inode"))


def is_shown(it: object) -> bool:
    lives = re.compile(r"[0-9]{1,10}")
    return isinstance(it, dict) and len(it) <= 8 and all(lives.fullmatch(life) and text(it[life]) for life in it)


def is_loads(it: object) -> bool:
    return isinstance(it, list) and len(it) <= 1024 and all(map(is_range, it))


def is_range(it: object) -> bool:
    if not isinstance(it, list) or len(it) != 3 or type(it[2]) is not int:
        return False
    ends = [int(end) if type(end) is str and re.fullmatch("[0-9]+", end) else end for end in it[:2]]
    low, high = ends
    return type(low) is type(high) is int and 0 <= low < high <= KEYS and 0 <= it[2] <= MOST_LOAD


def is_redundancy(it: object) -> bool:
    return number(0, U64)(it) or isinstance(it, list) and len(it) == 2 and all(map(number(0, U64), it))


TASK, LIFE = number(1, 64), number(1, (1 << 32) - 1)
GRANT: dict[str, Is] = {
    "task": TASK, "life": LIFE, "key?": text, "place?": is_place, "shown?": is_shown,
    "let_in?": lambda it: type(it) is bool,
}
WORDS = ("skew", "guard", "bridge", "job", "numbers")
CALLS: dict[str, tuple[dict[str, Is], set[int]]] = {
    "/jobs/{job}/grant": (GRANT, {200, 403, 409, 429}),
    "/grants": ({"grants": lambda it: isinstance(it, list) and 1 <= len(it) <= 1024}, {200}),
    "/jobs/{job}/take": ({"assigner": number(1, U64)}, {200, 409}),
    "/jobs/{job}/renew": ({"term": number(0, U64)}, {200, 409}),
    "/jobs/{job}/commit": ({"term": number(0, U64), "generation?": number(1, U64)}, {200, 409}),
    "/jobs/{job}/drain": ({"task": TASK}, {204}),
    "/jobs/{job}/loads": (
        {
            "task": TASK, "life?": LIFE, "key?": text, "loads": is_loads, "denied?": lambda it: it == {},
            "clock_behind?": number(0, U64), "calls_left?": lambda it: it is None or number(0, U64)(it),
        },
        {204, 403},
    ),
    "/jobs/{job}": ({"redundancy": is_redundancy, **dict.fromkeys(WORDS, number(0, U64))}, {200, 400, 409}),
}
SMALL = st.integers(0, 70)
RIGHT: dict[str, st.SearchStrategy[Any]] = {  # values that are mostly right
    "key": st.text(max_size=8), "place": st.dictionaries(st.sampled_from(("process", "boot")), st.text(max_size=4)),
    "shown": st.dictionaries(st.integers(0, 9).map(str), st.text(max_size=4), max_size=3),
    "grants": st.lists(st.fixed_dictionaries({"job": st.just(JOB), "task": SMALL, "life": SMALL}), max_size=3),
    "loads": st.lists(st.tuples(SMALL, st.integers(60, 200), SMALL).map(list), max_size=3),
    "redundancy": st.just([1, 1]), "denied": st.just({}), "let_in": st.booleans(),
}


def is_right(canonical: str, given: dict[str, Any]) -> bool:
    """Whether an object is a body of a call, as the rules say."""
    members, _ = CALLS[canonical]
    names = {name.rstrip("?"): check for name, check in members.items()}
    if canonical == "/jobs/{job}" and set(given) != set(names):
        return False
    missing = [name for name in members if not name.endswith("?") and name not in given]
    return not missing and all(names[name](it) for name, it in given.items() if name in names)


def objects_of(canonical: str) -> st.SearchStrategy[dict[str, Any]]:
    """Returns objects that a call may have as its body, most of them right, and some with a member that is missing,
    odd or of another call."""
    members = [name.rstrip("?") for name in CALLS[canonical][0]]
    right = st.fixed_dictionaries({name: RIGHT.get(name, SMALL) for name in members})
    odd = st.dictionaries(st.sampled_from((*members, *members, *MEMBERS)), VALUES, max_size=1)
    left_out = st.sets(st.sampled_from(members), max_size=1)
    whole = st.tuples(right, odd, left_out).map(
        lambda it: {name: value for name, value in {**it[0], **it[1]}.items() if name not in it[2]}
    )
    return st.one_of(right, whole)


@FUZZ
@given(data=st.data())
def test_an_object_is_answered_as_the_rules_say(fuzzed: Fuzzed, data: st.DataObject) -> None:
    canonical = data.draw(st.sampled_from(sorted(CALLS)))
    given = json.loads(json.dumps(data.draw(objects_of(canonical))))
    method = b"PUT" if canonical == "/jobs/{job}" else b"POST"
    status = fuzzed.ask(method, path_of(canonical), body=json.dumps(given).encode())
    if is_right(canonical, given):
        never_begun = canonical.endswith("/grant") and not (given["task"] in BEGUN and given["life"] == 1)
        assert status in CALLS[canonical][1] or never_begun and status == 400, (canonical, given)
    elif canonical == "/jobs/{job}/loads":
        assert status in (400, 403), (canonical, given)  # the key of the life comes first
    else:
        assert status == 400, (canonical, given)


@FUZZ
@given(given=OBJECTS, call=st.sampled_from(("free", "propose?term=1")))
def test_an_object_that_is_no_message(fuzzed: Fuzzed, given: bytes, call: str) -> None:
    assert fuzzed.ask(b"POST", f"/jobs/{JOB}/{call}".encode(), body=given) == 400


@FUZZ
@given(data=st.data())
def test_any_body_of_any_route(fuzzed: Fuzzed, data: st.DataObject) -> None:
    method, canonical = data.draw(st.sampled_from(routes_of(fuzzed)))
    body = data.draw(BODIES)
    path = path_of(canonical) + (b"?term=1" if canonical.endswith("propose") else b"")
    status = fuzzed.ask(method, path, body=body)
    answered(status, (method, path, body))
    if method == b"POST" and not canonical.endswith(("/life", "/look")) and not _is_object(body):  # they read no body
        assert status is not None and 400 <= status < 500


def _is_object(body: bytes) -> bool:
    try:
        return isinstance(json.loads(body), dict)
    except (ValueError, RecursionError):
        return False


@FUZZ
@given(data=st.data())
def test_any_path_of_any_route(fuzzed: Fuzzed, data: st.DataObject) -> None:
    method, canonical = data.draw(st.sampled_from(routes_of(fuzzed)))
    job, task, query = data.draw(IN_LINE), data.draw(IN_LINE), data.draw(IN_LINE)
    chosen = data.draw(st.sampled_from((job, JOB.encode())))
    path = path_of(canonical, chosen, task) + (b"?" + query if query else b"")
    answered(fuzzed.ask(method, path, body=b"{}"), (method, path))


@FUZZ
@given(path=IN_LINE, method=st.sampled_from((b"GET", b"POST", b"PUT", b"DELETE", b"PATCH", b"OPTIONS")))
def test_any_path(fuzzed: Fuzzed, path: bytes, method: bytes) -> None:
    status = fuzzed.ask(method, b"/" + path)
    answered(status, (method, path))


@FUZZ
@given(data=st.data())
def test_any_header_of_any_route(fuzzed: Fuzzed, data: st.DataObject) -> None:
    method, canonical = data.draw(st.sampled_from(routes_of(fuzzed)))
    names = (b"Authorization", b"Hourstable-Ticket", b"Content-Type", b"Accept-Encoding", b"Range", b"If-None-Match")
    name = data.draw(st.sampled_from(names))
    value = data.draw(st.one_of(IN_LINE, st.integers(-1, 1 << 70).map(lambda it: b"%d" % it)))
    prefix = data.draw(st.sampled_from((b"", b"Bearer ")))
    head = name + b": " + prefix + value + b"\r\n"
    answered(fuzzed.send(method, path_of(canonical), head, b"{}"), (method, canonical, head))
    answered(fuzzed.ask(method, path_of(canonical), head, b"{}"), (method, canonical, head))


def test_what_gave_500_before(fuzzed: Fuzzed) -> None:
    assert fuzzed.send(b"GET", b"/jobs", b"Authorization: Bearer \xff\r\n", None) == 401
    value = {"generation": "@", "slices": [["0", [1]]]}
    message = {"job": JOB, "type": "assignment", "value": value, "version": 2}
    body = json.dumps(message).replace('"@"', "1e999").encode()
    assert fuzzed.ask(b"POST", f"/jobs/{JOB}/propose?term=1".encode(), body=body) == 400
