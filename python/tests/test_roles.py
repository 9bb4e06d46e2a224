"""Who may do what: each call of each role, by a table that is written by hand."""

import hmac
import re
from collections.abc import AsyncIterator
from pathlib import Path
from typing import Any, NamedTuple

import aiohttp
import pytest
from aiohttp.test_utils import make_mocked_request

import needed

needed.library()

from hourstable import access, callers, roles  # noqa: E402
from hourstable.callers import Caller as Known  # noqa: E402
from hourstable.callers import Callers, Role  # noqa: E402
from hourstable.callers import Known as KnownBy  # noqa: E402
from hourstable.control import Plane  # noqa: E402
from hourstable.store import Store  # noqa: E402
from serving import HALF, POLICY, Answer, Caller, assignment, running  # noqa: E402

TOP = Path(__file__).resolve().parents[2]
FILE = """
[reader]
role = "read"
secret = "the-secret-of-reader"

[reader-of-cart]
role = "read"
job = "cart"
secret = "the-secret-of-reader-of-cart"

[shop-1]
role = "task"
job = "shop"
task = 1
secret = "the-secret-of-shop-1"

[shop]
role = "task"
job = "shop"
secret = "the-secret-of-shop"

[cart]
role = "task"
job = "cart"
secret = "the-secret-of-cart"

[assigner]
role = "assigner"
job = "shop"
secret = "the-secret-of-assigner"

[assigner-of-cart]
role = "assigner"
job = "cart"
secret = "the-secret-of-assigner-of-cart"

[admin]
role = "admin"
secret = ["the-secret-of-admin", "another-secret-of-admin"]
"""
CALLERS = (
    "nobody", "a stranger", "reader", "reader-of-cart", "shop-1", "shop", "cart", "assigner", "assigner-of-cart",
    "admin",
)
MEMBERS = {**POLICY, "job": 60_000}  # of the policy of both jobs
NOTE = {"job": "shop", "type": "note", "value": {"kind": "guard", "life": 9, "number": "9"}, "version": 2}


def note_of(task: int) -> dict[str, Any]:
    return {**NOTE, "value": {"kind": "guard", "life": 9, "number": "9", "task": task}}


class Asked(NamedTuple):
    """A request for a route, the status of one that is done, and who may make it: one mark for each of CALLERS. It is
    done (+), turned away since its caller is not known (?), or since its role is too small (-)."""

    route: str
    status: int
    marks: str
    body: object = None
    path: str = ""


TABLE = [  # nobody, a stranger | reader, of cart | task shop-1, shop, cart | assigner, of cart | admin
    Asked("GET /", 200, "++ ++ +++ ++ +"),
    Asked("GET /page.css", 200, "++ ++ +++ ++ +"),
    Asked("GET /page.js", 200, "++ ++ +++ ++ +"),
    Asked("GET /icon.svg", 200, "++ ++ +++ ++ +"),
    Asked("GET /healthz", 200, "++ ++ +++ ++ +"),
    Asked("GET /readyz", 200, "++ ++ +++ ++ +"),
    Asked("GET /metrics", 200, "?? ++ --- -- +"),
    Asked("GET /overview", 200, "?? ++ --- -- +"),
    Asked("GET /record", 200, "?? ++ --- -- +"),
    Asked("GET /jobs", 200, "?? ++ --- ++ +"),
    Asked("PUT /jobs/{job}", 200, "?? -- ++- -- +", MEMBERS),
    Asked("GET /jobs/{job}", 200, "?? +- ++- +- +"),
    Asked("GET /jobs/{job}/phase", 200, "?? +- ++- +- +"),
    Asked("GET /jobs/{job}/assignment", 200, "?? +- ++- +- +"),
    Asked("GET /jobs/{job}/loads", 200, "?? +- --- +- +"),
    Asked("GET /jobs/{job}/leases", 200, "?? +- --- -- +"),
    Asked("GET /jobs/{job}/slices", 200, "?? +- --- -- +"),
    Asked("GET /jobs/{job}/key", 200, "?? +- --- -- +", None, "/jobs/shop/key?key=a"),
    Asked("POST /jobs/{job}/tasks/{task}/life", 200, "?? -- ++- -- +"),
    Asked("POST /jobs/{job}/tasks/{task}/life", 200, "?? -- -+- -- +", None, "/jobs/shop/tasks/2/life"),
    Asked("POST /jobs/{job}/grant", 200, "?? -- ++- -- +", {"task": 1, "life": 1}),
    Asked("POST /jobs/{job}/grant", 200, "?? -- -+- -- +", {"task": 2, "life": 1}),
    Asked("POST /jobs/{job}/free", 409, "?? -- ++- -- +", note_of(1)),
    Asked("POST /jobs/{job}/free", 409, "?? -- -+- -- +", note_of(2)),
    Asked("POST /jobs/{job}/loads", 204, "?? -- ++- -- +", {"task": 1, "loads": []}),
    Asked("POST /jobs/{job}/loads", 204, "?? -- -+- -- +", {"task": 2, "loads": []}),
    Asked("POST /jobs/{job}/drain", 204, "?? -- ++- -- +", {"task": 1}),
    Asked("POST /jobs/{job}/drain", 204, "?? -- -+- -- +", {"task": 2}),
    # a call for grants is done, and each of them is answered for itself
    Asked("POST /grants", 200, "?? -- +++ -- +", {"grants": [{"job": "shop", "task": 1, "life": 1}]}),
    Asked("POST /jobs/{job}/take", 409, "?? -- --- +- +", {"assigner": 2}),
    Asked("POST /jobs/{job}/renew", 409, "?? -- --- +- +", {"term": 99}),
    Asked("POST /jobs/{job}/propose", 409, "?? -- --- +- +", assignment(2, [[0, [1]]]), "/jobs/shop/propose?term=99"),
    Asked("POST /jobs/{job}/commit", 409, "?? -- --- +- +", {"term": 99}),
    Asked("POST /jobs/{job}/evict", 200, "?? -- --- -- +", {"task": 3}),
    Asked("DELETE /jobs/{job}", 200, "?? -- --- -- +"),
    Asked("POST /jobs/{job}/hold", 204, "?? -- --- -- +", {"process": 5}),
    Asked("POST /jobs/{job}/look", 204, "?? -- --- -- +", {}),
    Asked("POST /jobs/{job}/evict", 200, "?? -- --- -- +", {"task": 2}),
    Asked("DELETE /jobs/{job}", 200, "?? -- --- -- +"),
]
STATUS = {"?": 401, "-": 403}


def headers_of(name: str) -> dict[str, str]:
    return {} if name == "nobody" else {"Authorization": f"Bearer the-secret-of-{name}"}


class Counted:
    """Counts what is turned away."""

    def __init__(self) -> None:
        self.statuses: list[int] = []

    def turned_away(self, status: int) -> None:
        self.statuses.append(status)


class Plain:
    """A plane with two jobs, and a caller of each name."""

    def __init__(self, plane: Plane, caller: Caller, folder: Path) -> None:
        self.plane, self.folder, self._caller = plane, folder, caller

    async def ask(
        self, name: str, method: str, path: str, body: object = None, headers: dict[str, str] | None = None
    ) -> Answer:
        return await self._caller.ask(method, path, body, {**headers_of(name), **(headers or {})})


def written(folder: Path, text: str = FILE) -> Path:
    path = folder / "callers.toml"
    path.write_text(text)
    path.chmod(0o640)
    return path


@pytest.fixture
async def plain(file: Store, tmp_path: Path) -> AsyncIterator[Plain]:
    """A plane over the file of callers, with the jobs shop and cart."""
    known = Callers.read(written(tmp_path))
    async with running(file, tmp_path / "logs", callers=known) as (plane, caller):
        async with aiohttp.ClientSession(headers=headers_of("admin")) as session:
            for job in ("shop", "cart"):
                admin = Caller(caller.url, session, job)
                assert (await admin.create(MEMBERS)).status == 201
                await admin.change(await admin.take(1), 1, [[0, [1]], [HALF, [2]]])
                assert [(await admin.post(f"tasks/{task}/life")).status for task in (1, 2)] == [200, 200]
        yield Plain(plane, caller, tmp_path)


def path_of(asked: Asked) -> str:
    named = asked.route.split()[1].replace("{job}", "shop").replace("{task}", "1")
    return asked.path or named


async def test_each_call_of_each_role(plain: Plain) -> None:
    for asked in TABLE:
        marks = asked.marks.replace(" ", "")
        assert len(marks) == len(CALLERS), asked
        for name, mark in zip(CALLERS, marks):
            method = asked.route.split()[0]
            told = await plain.ask(name, method, path_of(asked), asked.body)
            assert told.status == STATUS.get(mark, asked.status), (name, asked.route, asked.body, told)
            if mark != "+":
                assert set(told.json) == {"error"}, told


async def test_the_table_has_each_route(plain: Plain) -> None:
    routes = {
        f"{route.method} {route.resource.canonical}" for route in plain.plane.application().router.routes()
        if route.resource is not None and route.method != "HEAD"
    }
    assert routes == {asked.route for asked in TABLE}
    assert routes == set(roles.ROLES)


async def test_a_grant_of_several_is_of_the_task_of_its_caller(plain: Plain) -> None:
    """Each of them is answered as if it was asked for by itself."""
    parts = [{"job": job, "task": task, "life": 1} for job, task in (("shop", 1), ("shop", 2), ("cart", 1))]
    for name, statuses in {
        "shop-1": [200, 403, 403], "shop": [200, 200, 403], "cart": [403, 403, 200], "admin": [200, 200, 200],
    }.items():
        told = await plain.ask(name, "POST", "/grants", {"grants": parts})
        assert [one["status"] for one in told.json["answers"]] == statuses, name


async def test_only_an_admin_creates_a_job(plain: Plain) -> None:
    """A task compares the policy of its job with its own: 403 if there is no job, and none is made."""
    assert (await plain.ask("shop-1", "PUT", "/jobs/shop", {**MEMBERS, "guard": 2000})).status == 409
    assert (await plain.ask("shop-1", "PUT", "/jobs/shop", {"guard": 2000})).status == 400
    known = Callers.read(written(plain.folder, FILE.replace('job = "shop"', 'job = ["shop", "new"]')))
    plain.plane.admit(known, None)
    refused = await plain.ask("shop-1", "PUT", "/jobs/new", MEMBERS)
    assert (refused.status, refused.json) == (403, {"error": "there is no job new, and only an admin creates one"})
    assert (await plain.ask("admin", "GET", "/jobs")).json == {"jobs": ["cart", "shop"]}
    assert (await plain.ask("admin", "PUT", "/jobs/new", MEMBERS)).status == 201
    assert (await plain.ask("shop-1", "PUT", "/jobs/new", MEMBERS)).status == 200


READS = {"reader": {"shop", "cart"}, "reader-of-cart": {"cart"}, "admin": {"shop", "cart"}}


@pytest.mark.parametrize("name", READS)
async def test_pages_and_metrics_tell_of_no_other_job(plain: Plain, name: str) -> None:
    """Neither its name nor a number of it; metrics of the plane as a whole are for those who may read all."""
    for caller, path, body in (("shop", "/jobs/shop/drain", {"task": 2}), ("cart", "/jobs/cart/drain", {"task": 2})):
        assert (await plain.ask(caller, "POST", path, body)).status == 204
    told = {path: await plain.ask(name, "GET", path) for path in ("/jobs", "/overview", "/record", "/metrics")}
    assert {path: answer.status for path, answer in told.items()} == dict.fromkeys(told, 200)
    mentioned = {
        path: {job for job in ("shop", "cart") if f'"{job}"'.encode() in answer.body} for path, answer in told.items()
    }
    assert mentioned == dict.fromkeys(told, READS[name])
    text = told["/metrics"].body.decode()
    samples = [line for line in text.splitlines() if not line.startswith("#")]
    assert any(line.startswith('hourstable_generation{job="cart"} 1.0') for line in samples)
    assert any("job=" not in line for line in samples) == (READS[name] == {"shop", "cart"})
    record = await plain.ask(name, "GET", "/record?job=shop")
    assert bool(record.json["record"]) == ("shop" in READS[name])


async def test_an_assigner_hears_of_its_own_jobs(plain: Plain) -> None:
    assert (await plain.ask("assigner", "GET", "/jobs")).json == {"jobs": ["shop"]}
    assert (await plain.ask("assigner-of-cart", "GET", "/jobs")).json == {"jobs": ["cart"]}


async def test_readiness_tells_what_is_wrong_to_those_who_may_read_all(plain: Plain, tmp_path: Path) -> None:
    plain.plane.readiness.folders = [tmp_path / "no such folder"]
    for name in CALLERS:
        told = await plain.ask(name, "GET", "/readyz")
        tells = "No such file" in told.json["disk"]
        assert told.status == 503 and tells == (name in ("reader", "admin")), (name, told)


async def test_what_is_turned_away_is_logged(plain: Plain, caplog: pytest.LogCaptureFixture) -> None:
    """With who asked from where for what, and without the secret or the key; at most so many lines a second."""
    await plain.ask("a stranger", "GET", "/jobs/shop/key?key=mine%0a")
    await plain.ask("shop-1", "POST", "/jobs/shop%0Aforged/take", {"assigner": 1})
    await plain.ask("shop-1", "POST", "/jobs/shop/drain", {"task": 2})
    lines = [it.getMessage() for it in caplog.records if it.name == "hourstable.access"]
    assert lines == [
        "401 to somebody@127.0.0.1: GET /jobs/shop/key: the secret is missing or wrong",
        "403 to shop-1@127.0.0.1: POST /jobs/shop%0Aforged/take: it is a call of admin and assigner",
        "403 to shop-1@127.0.0.1: POST /jobs/shop/drain: it is of another task",
    ]
    assert "secret-of" not in caplog.text
    caplog.clear()
    for _ in range(60):
        assert (await plain.ask("nobody", "GET", "/jobs")).status == 401
    lines = [it.getMessage() for it in caplog.records if it.name == "hourstable.access"]
    assert len(lines) < 60
    text = (await plain.ask("admin", "GET", "/metrics")).body.decode()
    assert "hourstable_unauthorized_total 61.0\n" in text and "hourstable_forbidden_total 2.0\n" in text


def test_lines_that_were_left_out_are_counted(caplog: pytest.LogCaptureFixture) -> None:
    now = 0.0
    made = access.Access(Callers(), [], Counted(), lambda: now)
    for _ in range(23):
        made.turned(make_mocked_request("GET", "/jobs"), access.Turned(401, "why"))
    now = 1.0
    made.turned(make_mocked_request("GET", "/jobs"), access.Turned(401, "why"))
    lines = [it.getMessage() for it in caplog.records]
    assert len(lines) == 21  # twenty at once, and five a second
    assert lines[-1].endswith("why (3 lines before it were left out)")


def test_each_secret_is_compared_in_constant_time(monkeypatch: pytest.MonkeyPatch, tmp_path: Path) -> None:
    """All of them, also after one is found, by values of one length."""
    compared: list[tuple[bytes, bytes]] = []
    compare = hmac.compare_digest

    def counted(given: bytes, known: bytes) -> bool:
        compared.append((given, known))
        return compare(given, known)

    monkeypatch.setattr(hmac, "compare_digest", counted)
    known = Callers.read(written(tmp_path))
    for secret, name in (("the-secret-of-reader", "reader"), ("the", None), ("the-secret-of-" + 5000 * "a", None)):
        compared.clear()
        found = known.find(f"Bearer {secret}", [])
        assert (found.name if found is not None else None) == name
        assert len(compared) == 9 and {len(it) for pair in compared for it in pair} == {32}
    assert known.find("the-secret-of-reader", []) is None
    assert known.find("Basic the-secret-of-reader", []) is None


WRONG = {
    "there is no caller": "",
    "Expected": "[reader",
    "it is no table": "reader = 7",
    "is no name of a caller": '["a b"]\nrole = "read"\nsecret = "0123456789abcdef"',
    "the role is read, task, assigner, admin": '[a]\nrole = "king"\nsecret = "0123456789abcdef"',
    "it has no member sekret": '[a]\nrole = "read"\nsekret = "0123456789abcdef"',
    "it has a secret or the name of a certificate": '[a]\nrole = "read"',
    "at least 16 characters": '[a]\nrole = "read"\nsecret = "0123456789abcde"',
    "secret is a text or a list of texts": '[a]\nrole = "read"\nsecret = 7',
    "secret is empty": '[a]\nrole = "read"\nsecret = []\ncertificate = "a"',
    "a job is named": '[a]\nrole = "task"\nsecret = "0123456789abcdef"',
    "an admin has all": '[a]\nrole = "admin"\njob = "shop"\nsecret = "0123456789abcdef"',
    "a job is the name of one": '[a]\nrole = "task"\njob = "a/b"\nsecret = "0123456789abcdef"',
    "a task is 1 to 64": '[a]\nrole = "task"\njob = "shop"\ntask = 65\nsecret = "0123456789abcdef"',
    "of the role task": '[a]\nrole = "read"\ntask = 6\nsecret = "0123456789abcdef"',
    "two callers have one secret": "".join(
        f'[{it}]\nrole = "read"\nsecret = "0123456789abcdef"\n' for it in "ab"),
    "two callers have the certificate": "".join(f'[{it}]\nrole = "read"\ncertificate = "c"\n' for it in "ab"),
}


@pytest.mark.parametrize("why", WRONG)
def test_a_file_of_callers_that_is_refused(why: str, tmp_path: Path) -> None:
    path = written(tmp_path, WRONG[why])
    with pytest.raises(ValueError, match=re.escape(why)) as refused:
        Callers.read(path)
    assert str(refused.value).startswith(f"{path}: ") and "0123456789" not in str(refused.value)


@pytest.mark.parametrize(
    "mode, is_open", [(0o600, False), (0o640, False), (0o644, True), (0o660, True), (0o602, True)]
)
def test_a_file_that_others_can_read(
    mode: int, is_open: bool, tmp_path: Path, caplog: pytest.LogCaptureFixture
) -> None:
    """A file of callers is refused, and of one with secrets alone the plane warns."""
    path = written(tmp_path)
    path.chmod(mode)
    if is_open:
        with pytest.raises(ValueError, match=f"other users may read or write it: chmod 640 {path}"):
            Callers.read(path)
    else:
        assert len(Callers.read(path).known) == 8
    secrets = tmp_path / "secrets"
    secrets.write_text("0123456789abcdef\n")
    secrets.chmod(mode)
    assert callers.secrets_in(secrets) == ["0123456789abcdef"]
    assert (f"other users may read or write {secrets}" in caplog.text) == is_open


def test_a_caller_is_packed_for_another_plane() -> None:
    for caller in (
        Known("shop-3", Role.TASK, frozenset({"shop", "cart"}), 3), Known("", Role.ADMIN), Known("a", Role.READ),
    ):
        assert Known.unpacked(caller.packed()) == caller
    for wrong in ("", "7", "{}", '{"name":"a","role":"king"}', '{"name":"a","role":"read","jobs":"shop"}',
                  '{"name":"a","role":"task","jobs":["shop"],"task":"3"}'):
        with pytest.raises(ValueError):
            Known.unpacked(wrong)


def test_by_what_a_caller_is_known() -> None:
    """A header that is there decides alone, and who shows names of two callers is none of them."""
    shop, cart = (Known(name, Role.TASK, frozenset({name})) for name in ("shop", "cart"))
    found = Callers([
        KnownBy(shop, ("the-secret-of-shop",), ("shop.local",)),
        KnownBy(cart, ("the-secret-of-cart",), ("cart.local",)),
    ]).find
    assert found("Bearer the-secret-of-shop", ["cart.local"]) == shop
    assert found(None, ["else.local", "cart.local"]) == cart
    for wrong in ("Basic the-secret-of-shop", "the-secret-of-shop", "Bearer", "Bearer the-secret-of-sho"):
        assert found(wrong, []) is None and found(wrong, ["cart.local"]) is None, wrong
    assert found(None, ["shop.local", "cart.local"]) is None
    assert found(None, []) is None


async def test_a_plane_calls_for_another_caller(plain: Plain) -> None:
    """Only an admin may, and what is done is what that caller may do."""
    task = {access.FORWARDED: Known("shop-1", Role.TASK, frozenset({"shop"}), 1).packed()}
    reader = {access.FORWARDED: Known("reader", Role.READ).packed()}
    body = {"task": 1, "life": 1}
    for name, header, status in (
        ("admin", task, 200), ("admin", reader, 403), ("shop", task, 403), ("reader", task, 403),
        ("admin", {access.FORWARDED: "{"}, 400), ("a stranger", task, 401),
    ):
        told = await plain.ask(name, "POST", "/jobs/shop/grant", body, header)
        assert told.status == status, (name, header, told)
    assert (await plain.ask("admin", "POST", "/jobs/shop/grant", {"task": 2, "life": 1}, task)).status == 403


def test_each_test_that_the_manual_names() -> None:
    """The tables of who trusts whom, and of what who has broken into a place can do."""
    page = (TOP / "docs/SECURITY.md").read_text(encoding="utf-8")
    named = re.findall(r"`([a-z_]+): ([a-z0-9_]+)`", page)
    assert len(named) >= 40
    rows = [line for line in page.split("\n## Who trusts whom\n")[1].splitlines() if line.startswith("| ")]
    without = [row for row in rows if not row.endswith("Tried by |") and "_" not in row.split(" | ")[-1]]
    assert len(rows) >= 20 and not without
    for file, name in named:
        text = (TOP / f"python/tests/test_{file}.py").read_text(encoding="utf-8")
        assert f"def test_{name}(" in text, (file, name)


def test_the_file_that_the_manual_shows(tmp_path: Path) -> None:
    page = (TOP / "docs/OPERATIONS.md").read_text(encoding="utf-8")
    found = re.search(r"```toml\n(.*?)```", page, re.DOTALL)
    assert found is not None
    read = {one.caller.name: one.caller for one in Callers.read(written(tmp_path, found[1])).known}
    assert read == {
        "shop-3": Known("shop-3", Role.TASK, frozenset({"shop"}), 3), "prometheus": Known("prometheus", Role.READ),
        "shop-assigner": Known("shop-assigner", Role.ASSIGNER, frozenset({"shop"})),
        "operator": Known("operator", Role.ADMIN),
    }
