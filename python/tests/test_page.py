"""The page at / of a control plane: its routes, and what a person sees in a browser."""

import asyncio
import json
import os
from collections.abc import AsyncIterator
from contextlib import asynccontextmanager
from html.parser import HTMLParser
from pathlib import Path
from typing import Any

import aiohttp
import pytest

import needed

needed.library()

import browser  # noqa: E402
from hourstable import page  # noqa: E402
from hourstable.store import Store  # noqa: E402
from hourstable.task import Denied, Task  # noqa: E402
from hourstable.tickets import HEADER, real_milliseconds  # noqa: E402
from serving import HALF, POLICY, Caller, assignment, running  # noqa: E402
from test_command import SECRET, process  # noqa: E402

SLOW = {**POLICY, "guard": 5000, "bridge": 5000, "job": 60_000}
# SHA-256 of "hello" begins 2cf24dba5fb0a30e, and that of "abc" ba7816bf8f01cfea.
HELLO, ABC = 0x2CF24DBA5FB0A30E >> 1, 0xBA7816BF8F01CFEA >> 1
HOSTILE = "<img src=x onerror=document.title='owned'>&\"'"


class Inline(HTMLParser):
    """Finds what the policy of the page forbids."""

    def __init__(self) -> None:
        super().__init__()
        self.found: list[str] = []

    def handle_starttag(self, tag: str, attrs: list[tuple[str, str | None]]) -> None:
        names = dict(attrs)
        if tag == "style" or (tag == "script" and "src" not in names):
            self.found.append(tag)
        self.found += [name for name in names if name == "style" or name.startswith("on")]
        for name in ("src", "href"):
            if not (names.get(name) or "/").startswith("/"):
                self.found.append(f"{tag} {name}")


# The routes --------------------------------------------------------------------------------------


async def test_files_are_public_and_data_are_not(file: Store, tmp_path: Path) -> None:
    async with running(file, tmp_path / "logs", secrets=[SECRET]) as (_, caller):
        for path in page.FILES:
            told = await caller.ask("GET", path)
            assert told.status == 200, path
            policy = told.headers["Content-Security-Policy"].split("; ")
            assert policy[0] == "default-src 'none'" and "unsafe" not in " ".join(policy)
            assert told.headers["X-Content-Type-Options"] == "nosniff"
        for path in ("/overview", "/jobs", "/jobs/shop/leases", "/jobs/shop/key?key=a"):
            assert (await caller.ask("GET", path)).status == 401, path
        ahead = (real_milliseconds() + 3_600_000) << 16
        await caller.ask("GET", "/", headers={HEADER: str(ahead)})
        headers = {"Authorization": f"Bearer {SECRET}"}
        told = await caller.ask("GET", "/overview", headers=headers)
        assert (told.status, told.json) == (200, {"jobs": []})
        assert int(told.headers[HEADER]) < ahead  # a stranger does not move the tickets


def test_the_html_has_no_script_or_style_of_its_own() -> None:
    found = Inline()
    found.feed((page.FOLDER / "page.html").read_text(encoding="utf-8"))
    assert found.found == []
    script = (page.FOLDER / "page.js").read_text(encoding="utf-8")
    for word in ("innerHTML", "outerHTML", "insertAdjacentHTML", "eval(", "http://127"):
        assert word not in script


async def begun(caller: Caller) -> int:
    """Creates the job: task 1 owns `hello`, task 2 owns `abc`."""
    assert (await caller.create(SLOW)).status == 201
    term = await caller.take()
    await caller.change(term, 1, [[0, [1]], [HALF, [2]]])
    return term


async def key_of(caller: Caller, key: str = "hello") -> dict[str, Any]:
    async with caller.session.get(
        f"{caller.url}/jobs/{caller.job}/key", params={"key": key}
    ) as answer:
        assert answer.status == 200
        told: dict[str, Any] = await answer.json()
        return told


async def test_a_key_is_told_by_the_lease_that_decides(file: Store, tmp_path: Path) -> None:
    async with running(file, tmp_path / "logs") as (_, caller):
        await begun(caller)
        told = await key_of(caller)
        assert (told["slice_key"], told["owners"], told["served"]) == (str(HELLO), [1], [])
        assert told["denied"] == [{"task": 1, "ground": "no-lease"}]
        one = (await caller.grant(1)).json["value"]
        two = (await caller.grant(2)).json["value"]
        told = await key_of(caller)
        assert told["served"] == [{
            "task": 1, "life": 1, "kind": "guard", "number": int(one["number"]), "generation": 1,
            "ends": int(one["ends"]), "until": int(one["until"]),
        }]
        assert told["denied"] == [{"task": 2, "ground": "not-owned"}]
        assert told["sentences"][0] == "Task 1 owns it in generation 1, which is committed."
        name = f"the guard lease of grant {one['number']}, of life 1 and generation 1,"
        assert f"Task 1 may serve it: {name} covers the key until {int(one['ends']):,} (in " in told["sentences"][1]
        told = await key_of(caller, "abc")
        assert (told["slice_key"], told["owners"]) == (str(ABC), [2])
        assert [it["number"] for it in told["served"]] == [int(two["number"])]


async def test_a_move_is_told_until_it_is_done(file: Store, tmp_path: Path) -> None:
    async with running(file, tmp_path / "logs") as (_, caller):
        term = await begun(caller)
        one = (await caller.grant(1)).json["value"]
        await caller.post(f"propose?term={term}", assignment(2, [[0, [2]]]))
        held = await caller.post("commit", {"term": term})
        assert (held.status, held.json["refused"]) == (409, "held")
        told = await key_of(caller)
        assert (told["owners"], told["proposed"], told["proposed_owners"]) == ([1], 2, [2])
        text = " ".join(told["sentences"])
        assert "Generation 2 is proposed: task 2 owns it once this is committed." in text
        assert f"At {held.reading:,} the table refused the commit: task 1 may hold" in text
        name = f"the guard lease of grant {one['number']}, of life 1 and generation 1,"
        assert f"task 1 may hold {name} until {int(one['until']):,}" in text
        note = {"kind": "guard", "life": 1, "number": one["number"], "task": 1}
        message = {"job": "shop", "type": "note", "value": note, "version": 2}
        assert (await caller.post("free", message)).json == {"freed": 1}
        told = await key_of(caller)
        assert (told["served"], told["denied"][0]) == ([], {"task": 1, "ground": "no-lease"})
        assert (await caller.post("commit", {"term": term})).status == 200
        await caller.grant(2)
        told = await key_of(caller)
        assert (told["owners"], [it["task"] for it in told["served"]]) == ([2], [2])


async def test_a_lease_that_ended_is_told(file: Store, tmp_path: Path) -> None:
    async with running(file, tmp_path / "logs") as (_, caller):
        assert (await caller.create({**POLICY, "guard": 200})).status == 201
        await caller.change(await caller.take(), 1, [[0, [1]]])
        one = (await caller.grant(1)).json["value"]
        await asyncio.sleep(0.3)
        told = await key_of(caller)
        assert (told["served"], told["denied"]) == ([], [{"task": 1, "ground": "ended"}])
        name = f"the guard lease of grant {one['number']}, of life 1 and generation 1,"
        text = " ".join(told["sentences"])
        assert f"Task 1 is denied, ended: {name} covers the key and ended at {int(one['ends']):,} (" in text


async def test_who_is_to_own_a_key_is_told_why_it_is_denied(file: Store, tmp_path: Path) -> None:
    async with running(file, tmp_path / "logs") as (_, caller):
        term = await begun(caller)
        two = (await caller.grant(2)).json["value"]
        await caller.post(f"propose?term={term}", assignment(2, [[0, [2]]]))
        name = f"the guard lease of grant {two['number']}, of life 1 and generation 1,"
        told = (await key_of(caller))["sentences"]
        denied = next(it for it in told if it.startswith("Task 2 is denied, not-owned 1: "))
        assert f": {name} is live until {int(two['ends']):,} (in " in denied
        assert denied.endswith(" s) and does not cover the key.")


async def test_the_last_lease_of_who_holds_none_is_told(file: Store, tmp_path: Path) -> None:
    async with running(file, tmp_path / "logs") as (_, caller):
        assert (await caller.create({**POLICY, "guard": 200})).status == 201
        term = await caller.take()
        await caller.change(term, 1, [[0, [1]], [HALF, [2]]])
        two = (await caller.grant(2)).json["value"]
        await caller.post(f"propose?term={term}", assignment(2, [[0, [2]]]))
        await asyncio.sleep(0.3)
        last = f"the guard lease of grant {two['number']}, ended at {int(two['ends']):,} ("
        told = (await key_of(caller))["sentences"]
        denied = next(it for it in told if it.startswith("Task 2 is denied, no-lease: "))
        assert f"task 2 holds no live lease, and none that covers the key; its last one, {last}" in denied


async def test_a_restart_is_told(file: Store, tmp_path: Path) -> None:
    async with running(file, tmp_path / "logs") as (_, caller):
        await begun(caller)
        one = (await caller.grant(1)).json["value"]
    async with running(file, tmp_path / "logs") as (_, caller):
        told = await key_of(caller)
        assert told["reading"] is None and "does not hold the job" in told["sentences"][-1]
        await caller.grant(2)
        text = " ".join((await key_of(caller))["sentences"])
        assert "has no rows of leases that it gave before" in text
        assert f"until {int(one['until']):,}" in text
        leases = (await caller.get("/leases")).json
        assert [it["do"] for it in leases["events"]] == ["restore"]


async def test_the_last_minutes(file: Store, tmp_path: Path) -> None:
    async with running(file, tmp_path / "logs") as (_, caller):
        await begun(caller)
        first, second = [(await caller.grant(1)).json["value"] for _ in range(2)]
        assert (await caller.post("take", {"assigner": 2})).json["refused"] == "job-held"
        report = {"task": 1, "loads": [["0", str(HALF), 3], [str(HALF), str(2 * HALF), 5]],
                  "denied": {"ended": 2}, "clock_behind": 1, "calls_left": 77}
        assert (await caller.post("loads", report)).status == 204
        told = (await caller.get("/leases")).json
        lease, = told["stretches"]
        assert (lease["first"], lease["last"]) == (int(first["number"]), int(second["number"]))
        assert (lease["until"], lease["freed"]) == (int(second["until"]), None)
        assert [(it["committed"], it["proposed"]) for it in told["phases"]] == [
            (0, 0), (0, 1), (1, 0)]
        assert told["refusals"] == [{"call": "take", "refused": "job-held", "count": 1}]
        assert told["tasks"] == [
            {"task": 1, "denied": {"ended": 2}, "clock_behind": 1, "calls_left": 77}]
        numbers = [int(it["number"]) for it in (first, second)]
        assert [it["number"] for it in told["rows"]] == numbers
        slices = (await caller.get("/slices")).json
        assert [(it["owners"], it["load"]) for it in slices["slices"]] == [([1], 3), ([2], 5)]
        assert [(it["from"], it["to"]) for it in slices["slices"]] == [(0, 0.5), (0.5, 1)]


async def test_what_is_malformed(file: Store, tmp_path: Path) -> None:
    async with running(file, tmp_path / "logs") as (_, caller):
        await begun(caller)
        for path in ("/key", "/key?key=" + "a" * 4097):
            assert (await caller.get(path)).status == 400, path
        caller.job = "other"
        for path in ("/key?key=a", "/leases", "/slices"):
            assert (await caller.get(path)).status == 404, path
        caller.job = "shop"
        for name, wrong in (("denied", {"<b>": 1}), ("denied", {"ended": -1}), ("denied", []),
                            ("clock_behind", "1"), ("calls_left", -1)):
            assert (await caller.post("loads", {"task": 1, "loads": [], name: wrong})).status == 400


# The browser -------------------------------------------------------------------------------------

needs_browser = pytest.mark.skipif(bool(browser.missing()), reason=browser.missing() or "none")
ANSWER = "document.getElementById('answer').innerText"


@asynccontextmanager
async def served(folder: Path, *words: str) -> AsyncIterator[str]:
    """A control plane in a process of its own, and its URL."""
    own = ("--store", f"sqlite:{folder}/jobs", "--logs", f"{folder}/logs", "--assigner", "0")
    with process(*own, *words) as (_, url):
        yield url


async def ask_often(task: Task, keys: list[str]) -> None:
    while True:
        for key in keys:
            try:
                async with task.serving(key):
                    pass
            except Denied:
                pass
        await asyncio.sleep(0.05)


async def picture(tab: browser.Tab, folder: Path, name: str) -> None:
    """Takes a picture, for the docs if HOURSTABLE_PICTURES names their folder."""
    path = Path(os.environ.get("HOURSTABLE_PICTURES") or folder) / name
    await tab.picture(path)
    assert path.stat().st_size > 10_000


@needs_browser
async def test_a_person_follows_a_move(tmp_path: Path) -> None:
    """Real tasks over a control plane in another process; the person has a keyboard alone."""
    async with served(tmp_path) as url, aiohttp.ClientSession() as session:
        other = Caller(url, session, "carts")
        assert (await other.create(SLOW)).status == 201
        caller = Caller(url, session)
        term = await begun(caller)
        tasks = [Task(url, "shop", n, logs=tmp_path / "tasks", report=0.3) for n in (1, 2)]
        async with tasks[0], tasks[1], browser.browser() as tab:
            keys = [f"k{n}" for n in range(300)] + ["hello", "abc"]
            asking = [asyncio.create_task(ask_often(task, keys)) for task in tasks]
            await tab.size(1100, 1350)
            await tab.open(url)
            await tab.until("document.querySelectorAll('#jobs a').length", lambda n: n == 2)
            while await tab.value("document.activeElement.textContent") != "shop":
                await tab.press("Tab")
            await tab.press("Enter")
            await tab.until("document.getElementById('name').textContent", lambda it: it == "shop")
            while await tab.value("document.activeElement.id") != "key":
                await tab.press("Tab")
            await tab.type("hello")
            await tab.press("Enter")
            await tab.until(ANSWER, lambda it: "Task 1 may serve it" in it)
            await tab.until("document.querySelectorAll('#lanes .task').length", lambda n: n >= 2)
            denials = "document.getElementById('denials').innerText"
            await tab.until(denials, lambda it: "not-owned" in it)
            await move(caller, term, 2, [[0, [2]], [HALF, [1]]])
            await tab.until(ANSWER, lambda it: "Task 2 may serve it" in it)
            assert "Task 2 owns it in generation 2" in await tab.value(ANSWER)
            assert "Task 1 is denied" not in await tab.value(ANSWER)
            await asyncio.sleep(2)
            await pictures(tab, tmp_path)
            words = f"new URLSearchParams({{job: 'shop', key: {json.dumps(HOSTILE)}}})"
            await tab.value(f"location.hash = '#' + {words}")
            await tab.until(ANSWER, lambda it: HOSTILE in it)
            assert await tab.value("document.title") == "shop - Hourstable"
            assert await tab.value("document.images.length") == 0
            assert tab.faults == []
            for one in asking:
                one.cancel()
            await asyncio.gather(*asking, return_exceptions=True)


async def move(caller: Caller, term: int, generation: int, slices: list[Any]) -> None:
    """Proposes an assignment, and commits it as soon as no lease holds it up."""
    assert (await caller.post(f"propose?term={term}", assignment(generation, slices))).status == 200
    async with asyncio.timeout(30):
        while (await caller.post("commit", {"term": term})).status != 200:
            await asyncio.sleep(0.2)


async def pictures(tab: browser.Tab, folder: Path) -> None:
    """Takes pictures: light, dark, and on a telephone, where nothing is beyond the edge."""
    minutes = "document.getElementById('minutes')"
    await tab.value(f"{minutes}.value = '1', {minutes}.dispatchEvent(new Event('change'))")
    await asyncio.sleep(1)
    await tab.scheme("light")
    light = await tab.value("getComputedStyle(document.body).backgroundColor")
    await picture(tab, folder, "page-light.png")
    await tab.scheme("dark")
    assert await tab.value("getComputedStyle(document.body).backgroundColor") != light
    await picture(tab, folder, "page-dark.png")
    await tab.scheme("light")
    await tab.size(360, 1500, is_phone=True)
    await tab.until("document.querySelector('#lanes svg').clientWidth", lambda wide: wide < 360)
    wide, seen = await tab.value("[document.documentElement.scrollWidth, innerWidth]")
    assert wide <= seen == 360
    await picture(tab, folder, "page-narrow.png")


@needs_browser
async def test_a_person_gives_the_secret(tmp_path: Path) -> None:
    secret = tmp_path / "secret"
    secret.write_text(SECRET + "\n")
    async with served(tmp_path, "--secret-file", str(secret)) as url:
        headers = {"Authorization": f"Bearer {SECRET}"}
        async with aiohttp.ClientSession(headers=headers) as session, browser.browser() as tab:
            assert (await Caller(url, session).create(SLOW)).status == 201
            await tab.open(url)
            note = "document.getElementById('secret-note').textContent"
            await tab.until("document.activeElement.id", lambda it: it == "secret")
            await tab.type("x" * 16)
            await tab.press("Enter")
            await tab.until(note, lambda it: it == "The control plane does not know this secret.")
            await tab.until("document.activeElement.id", lambda it: it == "secret")
            await tab.type(SECRET)
            await tab.press("Enter")
            await tab.until("document.getElementById('name').textContent", lambda it: it == "shop")
            assert await tab.value("document.getElementById('secret-form').hidden")
            assert SECRET not in await tab.value("document.documentElement.outerHTML")


async def test_a_secret_that_may_not_read_the_page(tmp_path: Path) -> None:
    file = tmp_path / "callers.toml"
    file.write_text(
        f'[task]\nrole = "task"\njob = "shop"\nsecret = "{SECRET}"\n[one]\nrole = "read"\nsecret = "{SECRET}-2"\n'
    )
    file.chmod(0o600)
    async with served(tmp_path, "--callers", str(file)) as url, browser.browser() as tab:
        await tab.open(url)
        note = "document.getElementById('secret-note').textContent"
        await tab.until("document.activeElement.id", lambda it: it == "secret")
        await tab.type(SECRET)
        await tab.press("Enter")
        await tab.until(note, lambda it: it == "This secret may not read the page.")
        await tab.until("document.activeElement.id", lambda it: it == "secret")
        await tab.type(f"{SECRET}-2")
        await tab.press("Enter")
        await tab.until("document.getElementById('jobs').textContent", lambda it: it == "There is no job yet.")
        assert await tab.value("document.getElementById('secret-form').hidden")
