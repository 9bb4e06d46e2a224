"""The page that hourstable-show writes, in a headless Chromium: it opens at a fault, zooms, finds and tells."""

from __future__ import annotations

import json
import os
import re
from collections.abc import AsyncIterator, Iterator
from contextlib import asynccontextmanager
from html.parser import HTMLParser
from itertools import chain
from pathlib import Path

import pytest

import needed

needed.library()

import browser  # noqa: E402
from hourstable.library import slice_key  # noqa: E402
from hourstable.show import trace, viewer, views  # noqa: E402
from hourstable.show.trace import (  # noqa: E402
    Call, End, Head, Lease, Members, Owners, Place, Reason, Rule, Trace,
)
from showing import COMMANDS, SCRIPTS, of_logs, of_script, read  # noqa: E402
from test_show import as_written, played  # noqa: E402
from test_show_reasons import random_traces  # noqa: E402

HELLO = slice_key(b"hello")
OF_HELLO = f"--slice-key={HELLO}"
MOVE = ["move-table.jsonl", "move-task-1.jsonl", "move-task-2.jsonl", "move-client.jsonl"]
HOSTILE = "</script><img src=x onerror=document.title='owned'>.jsonl"
JOB = {"redundancy": 1, "skew": 0, "guard": 10_000, "bridge": 10_000, "job": 30_000, "numbers": 1 << 32,
       "assigners": 1, "tasks": 20, "clerks": 1}
MANY = 100_000
FIRST_PICTURE = 2.0  # seconds of one processor, from an empty tab to a picture of MANY calls
FRAME = 0.1  # seconds of one processor for a picture after that


class Loaded(HTMLParser):
    """Finds what a page would load or run that is not in it."""

    def __init__(self) -> None:
        super().__init__()
        self.found: list[str] = []
        self.policy = ""

    def handle_starttag(self, tag: str, attrs: list[tuple[str, str | None]]) -> None:
        names = dict(attrs)
        self.found += [f"{tag} {name}" for name in names if name in ("src", "href", "style") or name.startswith("on")]
        if names.get("http-equiv") == "Content-Security-Policy":
            self.policy = names["content"] or ""


def whole(found: Trace) -> views.Window:
    return views.Window(0, len(found.calls) + len(found.rest))


def page_of(found: Trace) -> str:
    return viewer.page(found, whole(found))


@asynccontextmanager
async def opened(path: Path, text: str) -> AsyncIterator[browser.Tab]:
    """A browser with the page, drawn."""
    path.write_text(text, encoding="utf-8")
    async with browser.browser() as tab:
        await tab.size(1200, 700)
        await tab.open(path.as_uri())
        await tab.until("document.body.dataset.ready === 'yes'")
        yield tab
        assert tab.faults == []


@pytest.fixture(autouse=True)
def has_browser() -> None:
    if browser.missing():
        pytest.fail(browser.missing(), pytrace=False)


async def span(tab: browser.Tab) -> tuple[float, float]:
    """Draws the page, and returns the readings that are in view."""
    await tab.value("draw()")
    found = await tab.value("JSON.stringify(canvas.dataset)")
    return float(json.loads(found)["from"]), float(json.loads(found)["to"])


async def key(tab: browser.Tab, name: str) -> None:
    await tab.do("Input.dispatchKeyEvent", type="keyDown", key=name, text=name if len(name) == 1 else "")
    await tab.do("Input.dispatchKeyEvent", type="keyUp", key=name)


async def mouse(tab: browser.Tab, kind: str, left: float, top: float, **more: object) -> None:
    button = {} if kind == "mouseWheel" else {"button": "left", "buttons": 1, "clickCount": 1}
    await tab.do("Input.dispatchMouseEvent", type=kind, x=left, y=top, **button, **more)


async def told(tab: browser.Tab, part: str) -> str:
    found: str = await tab.value(f"document.getElementById({part!r}).textContent")
    return found


async def links(tab: browser.Tab, words: str) -> None:
    """Follows the link of these words beside what is chosen."""
    found = await tab.value("[...document.querySelectorAll('#links button')].map((it) => it.textContent)")
    assert words in found, found
    await tab.value(f"document.querySelectorAll('#links button')[{found.index(words)}].click()")


async def click(tab: browser.Tab, left: float, top: float) -> None:
    """Clicks on a place of the picture."""
    box = await tab.value("(() => { const box = canvas.getBoundingClientRect(); return [box.left, box.top]; })()")
    await mouse(tab, "mousePressed", box[0] + left, box[1] + top)
    await mouse(tab, "mouseReleased", box[0] + left, box[1] + top)


async def picture(tab: browser.Tab, folder: Path, name: str) -> None:
    """Takes a picture, for the docs if HOURSTABLE_PICTURES names their folder."""
    path = Path(os.environ.get("HOURSTABLE_PICTURES") or folder) / name
    await tab.picture(path)
    assert path.stat().st_size > 10_000


def test_a_page_loads_nothing() -> None:
    text = page_of(read(of_logs(COMMANDS, MOVE, OF_HELLO)))
    page = Loaded()
    page.feed(text)
    assert page.found == []
    policy = page.policy.split("; ")
    assert policy[0] == "default-src 'none'" and len(policy) == 3 and "unsafe" not in page.policy
    assert text == page_of(read(of_logs(COMMANDS, MOVE, OF_HELLO))), "the same trace makes another page"


def test_generations_are_bands_from_one_commit_to_the_next() -> None:
    found = read(of_script(SCRIPTS / "bridge-carries-a-key-over-a-change.json"))
    commits = [it for it in found.calls if it.word == "committed"]
    assert len(commits) > 1
    ends = [*(it.at for it in commits[1:]), None]
    value = viewer.Data(found, whole(found)).value()
    base = int(value["base"])
    assert value["bands"] == [
        [(it.at or 0) - base, None if end is None else end - base, it.reply["generation"]]
        for it, end in zip(commits, ends)
    ]


async def test_it_opens_at_the_fault(tmp_path: Path) -> None:
    found = read(of_logs(COMMANDS, ["served-at-the-deadline.jsonl"], OF_HELLO))
    async with opened(tmp_path / "page.html", page_of(found)) as tab:
        assert await told(tab, "reply") == 'told "served guard 1"; should be "denied ended"'
        why = await told(tab, "why")
        assert why.startswith("The guard lease of grant 1, heard in served-at-the-deadline.jsonl:7, covers the key")
        assert "ended at 95; owners in generation 1" in why
        first, end = await span(tab)
        assert first < 0 and end > 95, "calls near the fault are not in view"
        stored = as_written("audit-served-at-the-deadline")[0]
        assert await told(tab, "report") == stored
        assert await tab.value("chosenGrant") == 1
        await links(tab, "Where it was heard")
        assert (await told(tab, "what")).startswith("hear task 1 grant 1")
        await links(tab, "Who sent this grant")
        assert (await told(tab, "what")).startswith("grant task 1")
        await key(tab, "f")
        assert (await told(tab, "reply")).startswith('told "served guard 1"')


async def test_without_a_fault_there_is_no_button_for_it(tmp_path: Path) -> None:
    async with opened(tmp_path / "page.html", page_of(read(of_logs(COMMANDS, MOVE)))) as tab:
        assert await tab.value("getComputedStyle(document.getElementById('fault')).display") == "none"
        assert await told(tab, "what") == "Nothing is selected"


async def test_it_zooms_and_moves(tmp_path: Path) -> None:
    async with opened(tmp_path / "page.html", page_of(read(of_logs(COMMANDS, MOVE, OF_HELLO)))) as tab:
        first = await span(tab)
        await key(tab, "+")
        nearer = await span(tab)
        assert nearer[1] - nearer[0] == pytest.approx((first[1] - first[0]) / 2)
        await key(tab, "ArrowRight")
        right = await span(tab)
        assert right[0] > nearer[0] and right[1] - right[0] == pytest.approx(nearer[1] - nearer[0])
        await mouse(tab, "mousePressed", 500, 200)
        await mouse(tab, "mouseMoved", 700, 200)
        await mouse(tab, "mouseReleased", 700, 200)
        assert (await span(tab))[0] < right[0]
        before = await span(tab)
        await mouse(tab, "mouseWheel", 500, 200, deltaX=0, deltaY=120)
        after = await span(tab)
        assert after[1] - after[0] > before[1] - before[0]
        await key(tab, "0")
        assert await span(tab) == pytest.approx(first)


async def test_clocks_that_begin_late_fill_the_picture(tmp_path: Path) -> None:
    begun = 1 << 60
    calls = [
        Call(Place(1, 0, 1), "open", {"task": 1, "life": 0}, {"reply": "opened", "life": 0}),
        Call(Place(2, 0, 2), "start", {"task": 1, "life": 1, "at": begun + 1}, {"reply": "started", "life": 1}),
        Call(Place(3, 0, 3), "start", {"task": 1, "life": 2, "at": begun + 101}, {"reply": "started", "life": 2}),
    ]
    page = page_of(Trace(Head(True, JOB, ("task-1.jsonl",)), End(3), calls))
    async with opened(tmp_path / "page.html", page) as tab:
        first, end = await span(tab)
        assert -10 < first <= 0 and 100 < end < 120
        assert await tab.value("data.base") == str(begun + 1)
        await key(tab, "n")
        assert await told(tab, "what") == "open task 1 life 0"
        assert await told(tab, "where") == f"task-1.jsonl:1, at {begun + 1}"


async def test_a_click_tells_the_reason(tmp_path: Path) -> None:
    found = read(of_script(SCRIPTS / "bridge-carries-a-key-over-a-change.json", "hello"))
    async with opened(tmp_path / "page.html", page_of(found)) as tab:
        index = await tab.value("data.columns.kind.indexOf(0)")  # a request that is served
        what = await tab.value(f"data.columns.what[{index}]")
        await click(tab, await tab.value(f"x(data.columns.at[{index}])"), await tab.value(f"middleOf({index})"))
        assert await told(tab, "what") == what
        assert (await told(tab, "reply")).startswith("served ")
        why = await told(tab, "why")
        assert "covers the key until" in why and "owners in generation" in why
        reason = next(it.reason for it in found.calls if it.word == "served")
        assert reason and reason.rule and reason.rule.decides
        assert await tab.value("chosenGrant") == reason.rule.decides.number
        await key(tab, "n")
        assert await told(tab, "what") != what
        await key(tab, "Escape")
        assert await told(tab, "what") == "Nothing is selected" and await tab.value("chosenGrant") == 0


async def test_a_broken_handle_leads_to_the_call_that_broke_it(tmp_path: Path) -> None:
    found = read(of_script(SCRIPTS / "handle-breaks-when-key-left-and-came-back.json", "hello"))
    async with opened(tmp_path / "page.html", page_of(found)) as tab:
        await tab.value("pick(data.columns.reply.indexOf('broken'))")
        assert (await told(tab, "what")).endswith(" key hello at 33")
        assert await told(tab, "where") == f"step 21, slice key {HELLO}, at 33"
        named = re.search(r"just before or just after (step \d+)", await told(tab, "why"))
        assert named
        await links(tab, "Show the other call")
        assert (await told(tab, "where")).startswith(f"{named[1]}, at ")


async def test_a_click_on_a_lease_tells_what_happened_to_it(tmp_path: Path) -> None:
    found = read(of_script(SCRIPTS / "bridge-carries-a-key-over-a-change.json", "hello"))
    grant = next(it for it in found.calls if it.word == "grant" and it.reply["kind"] == "bridge")
    heard = next(it for it in found.calls if it.word == "heard" and it.reply["number"] == grant.reply["number"])
    number, ends = grant.reply["number"], grant.reply["ends"]
    async with opened(tmp_path / "page.html", page_of(found)) as tab:
        y = await tab.value(f"leaseOf({number}).row.y + ROW / 2")
        await click(tab, await tab.value(f"x({heard.at} + 2)"), y)
        assert await told(tab, "what") == f"grant {number}, generation {grant.reply['generation']}"
        why = await told(tab, "why")
        assert f"heard at {heard.at}" in why and f"it ends at {ends} for the task" in why
        assert await tab.value("chosenGrant") == number
        await click(tab, await tab.value(f"x({heard.at} + 2)"), await tab.value("leaseOf(1).lane.y + 4"))
        stretch = next(it for it in found.stretches if it.first <= (heard.at or 0) + 2 < it.end)
        assert await told(tab, "what") == "task 1 may serve the key"
        assert f"from {stretch.first} to {stretch.end}" in await told(tab, "why")
        assert await tab.value("chosenGrant") == stretch.lease["number"]


def test_the_lease_that_is_outlined_is_the_one_that_is_named(tmp_path: Path) -> None:
    second = 0  # how often a lease decides that is not the first one held
    stored = (read(of_script(SCRIPTS / f"{name}.json")) for name in played())
    for found in chain(stored, random_traces(tmp_path)):
        columns = viewer.Data(found, whole(found)).value()["columns"]
        for why, decides in zip(columns["why"], columns["decides"]):
            named = re.search(r" lease of grant (\d+)", why)
            assert decides == (int(named[1]) if named else 0), why
        rules = [it.reason.rule for it in found.calls if it.reason and it.reason.rule]
        second += sum(it.decides is not None and it.decides is not it.leases[0] for it in rules)
    assert second > 0


def test_messages_are_arrows_from_who_sent_them() -> None:
    found = read(of_logs(COMMANDS, MOVE))
    value = viewer.Data(found, whole(found)).value()
    sent = {it.reply["number"]: it.place.call for it in found.calls if it.word == "grant"}
    freed = [it for it in found.calls if it.word == "freed" and it.members["note"]["number"] < trace.ENDED_LIFE]
    released = {(it.task, it.reply["number"]): it.place.call for it in found.calls if it.word == "released"}
    wanted = [(sent[it.reply["number"]], it.place.call, 0) for it in found.calls if it.word == "heard"]
    wanted += [
        (released[it.members["note"]["task"], it.members["note"]["number"]], it.place.call, 1) for it in freed
    ]
    assert len(wanted) > 4
    numbers = value["columns"]["number"]
    told = [(numbers[sender], numbers[receiver], kind) for sender, receiver, kind in value["arrows"] if kind < 2]
    assert sorted(told) == sorted(wanted)


async def test_calls_at_one_reading_stand_apart(tmp_path: Path) -> None:
    calls = [
        Call(Place(it, 0, it), "serve", {"task": 1, "slice_key": it, "at": 5}, {"denied": "down"}, None)
        for it in range(1, 4)
    ]
    page = page_of(Trace(Head(True, JOB, ("task-1.jsonl",)), End(3), calls))
    async with opened(tmp_path / "page.html", page) as tab:
        heights = await tab.value("[0, 1, 2].map(middleOf)")
        assert heights[0] + 4 <= heights[1] and heights[1] + 4 <= heights[2]
        for index, it in enumerate(calls):
            await click(tab, await tab.value(f"x(data.columns.at[{index}])"), heights[index])
            assert await told(tab, "what") == f"serve task 1 slice_key {it.slice_key} at 5"


async def test_it_finds_keys_tasks_tickets_and_refusals(tmp_path: Path) -> None:
    found = read(of_logs(COMMANDS, MOVE))
    keyed = sum(it.slice_key == HELLO for it in found.calls)
    denied = sum(it.word == "denied" for it in found.calls)
    ended = sum(it.ground == "held" for it in found.calls)
    async with opened(tmp_path / "page.html", page_of(found)) as tab:
        wanted = ((str(HELLO), keyed), (": denied ", denied), ("refused held", ended), ("no such call", 0))
        for words, many in wanted:
            await key(tab, "/")
            await tab.value("document.getElementById('words').value = ''")
            await tab.type(words)
            assert await told(tab, "matches") == f"{many} found", words
        await tab.value("document.getElementById('words').value = ''")
        await tab.type("key hello")  # a log has the slice key alone
        await tab.until("document.getElementById('matches').textContent", lambda it: it == f"{keyed} found")
        await tab.value("document.getElementById('words').value = ''")
        await tab.type("key a")
        assert await told(tab, "matches") == "0 found"
        await tab.value("document.getElementById('words').value = ''")
        await tab.type("not-owned task 2")  # in no phrase of its own
        both = sum(it.ground == "not-owned" and it.task == 2 for it in found.calls)
        assert both and await told(tab, "matches") == f"{both} found"
        await tab.value("document.getElementById('words').value = ''")
        await tab.type("denied not-owned")
        await tab.press("Enter")
        assert (await told(tab, "reply")).startswith("denied not-owned")
        assert (await told(tab, "matches")).startswith("1 of ")


async def test_a_number_is_found_whole(tmp_path: Path) -> None:
    async with opened(tmp_path / "page.html", page_of(many_calls(2_000))) as tab:
        for words, wanted in (("task 2", 2), ("task 20", 20)):
            found = await tab.value(f"search({words!r}), matches.map((it) => data.lanes[data.columns.lane[it]])")
            assert set(found) == {f"task {wanted}", "table"}, words  # the table's grants name their tasks
        assert await tab.value("search('ticket 77'), matches.map((it) => data.columns.ticket[it])") == ["77"]


async def test_a_call_that_is_gone_to_is_in_view(tmp_path: Path) -> None:
    async with opened(tmp_path / "page.html", page_of(many_calls(2_000))) as tab:
        last = await tab.value("data.columns.lane.findLastIndex((it) => data.lanes[it] === 'task 20')")
        assert await tab.value(f"middleOf({last}) > box.clientHeight"), "all lanes are in view at once"
        await tab.value(f"pick({last}), draw()")
        assert await tab.value(f"TOP < middleOf({last}) - box.scrollTop && middleOf({last}) - box.scrollTop < high")
        above = await tab.value("box.scrollTop")
        await key(tab, "ArrowUp")
        assert await tab.value("box.scrollTop") < above


async def test_hostile_words_are_text(tmp_path: Path) -> None:
    found = read(of_logs(COMMANDS, ["served-at-the-deadline.jsonl"]))
    found.head = Head(True, found.head.job, (HOSTILE,))
    found.faults = [trace.Fault(it.call, f"served {HOSTILE}") for it in found.faults]
    async with opened(tmp_path / "page.html", page_of(found)) as tab:
        assert "<img src=x" in await told(tab, "where") and "<img src=x" in await told(tab, "reply")
        assert await tab.value("document.images.length") == 0
        assert await tab.value("document.title") != "owned"


async def test_it_is_light_dark_and_printed(tmp_path: Path) -> None:
    pixel = "[...pen.getImageData(3, canvas.height - 3, 1, 1).data].slice(0, 3)"
    found = read(of_script(SCRIPTS / "table-restarts-while-a-lease-is-out.json", "hello"))
    async with opened(tmp_path / "page.html", page_of(found)) as tab:
        await tab.size(1200, 530)
        await tab.value("look(0, 125); pick(data.columns.reply.lastIndexOf('denied ended'))")
        await tab.scheme("light")
        await tab.until(f"{pixel}.every((it) => it > 220)")
        await picture(tab, tmp_path, "trace-light.png")
        await tab.scheme("dark")
        await tab.until(f"{pixel}.every((it) => it < 60)")
        await picture(tab, tmp_path, "trace-dark.png")
        await tab.do("Emulation.setEmulatedMedia", media="print",
                     features=[{"name": "prefers-color-scheme", "value": "dark"}])
        await tab.until(f"{pixel}.every((it) => it > 220)")
        assert await tab.value("getComputedStyle(document.getElementById('search')).display") == "none"


async def test_all_lanes_are_printed(tmp_path: Path) -> None:
    async with opened(tmp_path / "page.html", page_of(many_calls(2_000))) as tab:
        assert await tab.value("high < tall")
        await tab.do("Emulation.setEmulatedMedia", media="print")
        await tab.until("high === tall && canvas.clientHeight === tall")
        await tab.do("Emulation.setEmulatedMedia", media="screen")
        await tab.until("high < tall")


def served(number: int, task: int, at: int, lease: Lease) -> Call:
    """Returns a request, of which one in ten is denied."""
    is_denied = number % 10 == 0
    rule = Rule(True, at - 1, (lease._replace(covers=not is_denied),), None)
    answer: Members = {"denied": "not-owned"} if is_denied else {"reply": "served", "kind": "guard"}
    members = {"task": task, "slice_key": number * 7919, "at": at, "ticket": number}
    reason = Reason(rule=rule._replace(decides=rule.leases[0]), owners=Owners(1, (task,)))
    return Call(Place(number, task, number), "serve", members, {**answer, "generation": 1}, reason)


def granted(number: int, task: int, at: int, grant: int) -> Iterator[Call]:
    """Yields the calls by which a task renews its lease."""
    lease: Members = {"number": grant, "kind": "guard", "generation": 1, "until": at + 10_000, "ends": at + 10_000}
    members: Members = {"task": task, "life": 1, "at": at, "ticket": number}
    yield Call(Place(number, 0, number), "grant", members, {"reply": "grant", **lease})
    heard = {"task": task, "grant": {**lease, "task": task, "life": 1}, "at": at + 5, "ticket": number + 1}
    yield Call(Place(number + 1, task, number), "hear", heard, {"reply": "heard", "number": grant})


def many_calls(many: int) -> Trace:
    """Returns a trace of many calls: requests to 20 tasks, each with a reason, and one call in ten renews a lease."""
    calls: list[Call] = []
    grant = 0
    while len(calls) < many:
        number, at = len(calls) + 1, len(calls) * 3
        task = number // 20 % 20 + 1
        if number % 20 == 1:
            grant += 1
            calls += granted(number, task, at, grant)
        else:
            lease = Lease("guard", max(grant, 1), 1, at + 10_000, True, None)
            calls.append(served(number, number * 7 % 20 + 1, at, lease))
    logs = ("table.jsonl", *(f"task-{it}.jsonl" for it in range(1, 21)))
    return Trace(Head(True, JOB, logs), End(many), calls)


async def spent(tab: browser.Tab) -> float:
    """Returns how many seconds of a processor the page has taken."""
    metrics = (await tab.do("Performance.getMetrics"))["metrics"]
    return float(next(it["value"] for it in metrics if it["name"] == "TaskDuration"))


async def test_many_calls_stay_fluent(tmp_path: Path) -> None:
    path = tmp_path / "page.html"
    path.write_text(page_of(many_calls(MANY)), encoding="utf-8")
    async with browser.browser() as tab:
        await tab.size(1200, 900)
        await tab.do("Performance.setTimeDomain", timeDomain="threadTicks")
        await tab.do("Performance.enable", timeDomain="threadTicks")
        before = await spent(tab)
        await tab.open(path.as_uri())
        await tab.until("document.body.dataset.ready === 'yes'")
        drawn = await spent(tab)
        assert int(await tab.value("canvas.dataset.calls")) == MANY
        moves = ("pan(0.1)", "zoom(0.5)", "lookAtAll()", "search('denied')", "nextMatch(1)", "moveDown(300)")
        for act in moves:
            await tab.value(f"{act}; draw()")
        moved = await spent(tab)
        assert drawn - before < FIRST_PICTURE
        assert (moved - drawn) / (2 * len(moves)) < FRAME  # one that was asked for, and one by the next frame
