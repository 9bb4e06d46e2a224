"""Pages of elsewhere in the browser of an operator: they call no plane, not by a name that they lead to its address
(DNS rebinding), nor by what a page may send to any address (CSRF)."""

import asyncio
import itertools
import json
from collections.abc import AsyncIterator
from contextlib import asynccontextmanager
from pathlib import Path
from urllib.parse import urlsplit

import pytest
from aiohttp import web

import browser
import needed

needed.library()

from hourstable.access import JSON  # noqa: E402
from hourstable.control import Plane  # noqa: E402
from hourstable.store import Store  # noqa: E402
from serving import POLICY, Answer, Caller, running  # noqa: E402

ELSEWHERE = "pages.elsewhere.example"
FORBIDDEN = "hourstable_forbidden_total "


async def ask(caller: Caller, method: str, path: str, headers: dict[str, str], body: object = None) -> Answer:
    """Makes a request with these headers alone."""
    data = None if body is None else json.dumps(body).encode()
    skipped = () if "Content-Type" in headers else ("Content-Type",)
    async with caller.session.request(
        method, caller.url + path, data=data, headers=headers, skip_auto_headers=skipped
    ) as answer:
        return Answer(answer.status, answer.headers, await answer.read())


HOSTS = {
    200: (
        "127.0.0.1", "127.0.0.1:{port}", "10.1.2.3:80", "[::1]:{port}", "[::1]", "localhost:{port}",
        "plane-1.example", "Plane-1.Example.:{port}",
    ),
    403: (
        ELSEWHERE, ELSEWHERE + ":{port}", "plane-1.example." + ELSEWHERE, "127.0.0.1.nip.io",
        "127.0.0.1@" + ELSEWHERE, "",
    ),
}


async def test_a_name_that_is_led_to_the_plane(file: Store, tmp_path: Path) -> None:
    """A page of this name would be of one origin with the plane, and read all that it tells (DNS rebinding)."""
    async with running(file, tmp_path / "logs", hosts=["plane-1.example"]) as (_, caller):
        for status, hosts in HOSTS.items():
            for host, path in itertools.product(hosts, ("/jobs", "/healthz", "/")):
                named = host.format(port=urlsplit(caller.url).port)
                told = await ask(caller, "GET", path, {"Host": named})
                assert told.status == status, (named, told)
                assert status == 200 or "is no name of the plane" in told.json["error"]


ORIGINS = {
    201: (None, "http://{host}", "https://{host}"),
    403: ("http://" + ELSEWHERE, "null", "http://127.0.0.1:1", "http://{host}." + ELSEWHERE, ""),
}


async def test_the_origin_of_a_page(file: Store, tmp_path: Path) -> None:
    async with running(file, tmp_path / "logs") as (plane, caller):
        host, made = urlsplit(caller.url).netloc, list[str]()
        for status, origins in ORIGINS.items():
            for origin in origins:
                job = f"job-{len(made) + 1}"
                headers = {} if origin is None else {"Origin": origin.format(host=host)}
                told = await ask(caller, "PUT", f"/jobs/{job}", {"Content-Type": JSON, **headers}, POLICY)
                assert told.status == status, (origin, told)
                made += [job] if status == 201 else []
                assert sorted(await plane.store.jobs()) == made


KINDS = {
    201: ("application/json", "application/json; charset=utf-8", None, "application/octet-stream"),
    415: (
        "text/plain", "application/x-www-form-urlencoded", "multipart/form-data; boundary=a",
        "text/plain; application/json", "",
    ),
}


async def test_the_type_of_a_body(file: Store, tmp_path: Path, caplog: pytest.LogCaptureFixture) -> None:
    """A page may send the types of forms anywhere without being asked. Clients of version 1.0 said none, or that of
    bytes: they are served, and the plane warns."""
    async with running(file, tmp_path / "logs") as (plane, caller):
        made = list[str]()
        for status, kinds in KINDS.items():
            for kind in kinds:
                caplog.clear()
                job = f"job-{len(made) + 1}"
                headers = {} if kind is None else {"Content-Type": kind}
                told = await ask(caller, "PUT", f"/jobs/{job}", headers, POLICY)
                assert told.status == status, (kind, told)
                made += [job] if status == 201 else []
                assert sorted(await plane.store.jobs()) == made
                said = f"PUT /jobs/{job} says no Content-Type: upgrade it" in caplog.text
                assert said == (kind in (None, "application/octet-stream")), kind


async def test_a_page_has_no_grace(file: Store, tmp_path: Path) -> None:
    """A page of the plane says the type; a request without one that names a page is none of an older client."""
    async with running(file, tmp_path / "logs") as (plane, caller):
        assert (await ask(caller, "PUT", "/jobs/shop", {"Origin": caller.url}, POLICY)).status == 415
        assert await plane.store.jobs() == []


PAGE = """
<body><form method=post enctype=text/plain target=frame action="{url}/jobs/shop/drain">
<input name='{{"task":1,"a":"' value='"}}'></form><iframe name=frame></iframe></body>
"""
SENDS = """
(async () => {{
  document.forms[0].submit();
  for (const body of ['{{"task":2}}', new TextEncoder().encode('{{"task":2}}')]) {{
    await fetch("{url}/jobs/shop/drain", {{method: "POST", mode: "no-cors", body}}).catch(() => 0);
  }}
  window.told = await fetch("{url}/jobs").then(() => "read", () => "not read");
}})(); 0
"""


@asynccontextmanager
async def page_of_elsewhere(text: str) -> AsyncIterator[str]:
    """Serves a page, and returns its URL, which is of another site than the plane's."""
    async def answer(_: web.Request) -> web.Response:
        return web.Response(text=text, content_type="text/html")

    app = web.Application()
    app.router.add_get("/", answer)
    runner = web.AppRunner(app)
    await runner.setup()
    try:
        await web.TCPSite(runner, "127.0.0.1", 0).start()
        yield f"http://localhost:{runner.addresses[0][1]}/"
    finally:
        await runner.cleanup()


@pytest.mark.skipif(bool(browser.missing()), reason=browser.missing())
async def test_a_page_of_elsewhere_in_a_browser(file: Store, tmp_path: Path) -> None:
    """It sends a form, a text and bytes to a plane that knows no callers: no task is drained, and nothing is read."""
    async with running(file, tmp_path / "logs") as (plane, caller):
        await caller.create()
        assert [(await caller.post(f"tasks/{task}/life")).status for task in (1, 2)] == [200, 200]
        async with page_of_elsewhere(PAGE.format(url=caller.url)) as elsewhere, browser.browser() as tab:
            await tab.open(elsewhere)
            await tab.until("document.forms.length")
            await tab.value(SENDS.format(url=caller.url))
            assert await tab.until("window.told") == "not read"
            async with asyncio.timeout(browser.PATIENCE):
                while forbidden(plane) < 4:  # the form is sent beside the others
                    await asyncio.sleep(0.05)
        assert (await caller.get()).json["draining"] == []


def forbidden(plane: Plane) -> float:
    """Returns how many requests a plane has answered by 403 or 415."""
    found = [line for line in plane.metrics.text([]).decode().splitlines() if line.startswith(FORBIDDEN)]
    return float(found[0].removeprefix(FORBIDDEN))
