"""Planes and callers whose real time is, or was, far ahead: no call and no take-over is refused for its ticket."""

import asyncio
import json
from pathlib import Path

import needed

needed.library()

from hourstable.jobs import Row  # noqa: E402
from hourstable.store import Store  # noqa: E402
from hourstable.system import System  # noqa: E402
from serving import lines_of, running  # noqa: E402
from test_page import begun  # noqa: E402


class Ahead(System):
    """A system whose real time is some seconds ahead."""

    def __init__(self, seconds: int) -> None:
        self.seconds = seconds

    def real_nanoseconds(self) -> int:
        return super().real_nanoseconds() + self.seconds * 1_000_000_000


async def test_no_call_is_refused_for_its_ticket(file: Store, tmp_path: Path) -> None:
    """One of two days ahead is followed; one beyond all clocks is not, and is counted."""
    async with running(file, tmp_path / "logs") as (_, caller):
        await begun(caller)
        await caller.begin(1)
        first = int((await caller.ask("GET", "/healthz")).headers["Hourstable-Ticket"])
        body, days = {"task": 1, "life": 1}, first + (2 * 86_400_000 << 16)
        for ticket, follows in ((days, True), (1 << 63, False), ((1 << 64) - 1, False), (1 << 70, False)):
            told = await caller.ask("POST", "/jobs/shop/grant", body, {"Hourstable-Ticket": str(ticket)})
            assert told.status == 200
            answered = int(told.headers["Hourstable-Ticket"])
            assert answered > ticket if follows else days < answered < 1 << 63
        text = (await caller.ask("GET", "/metrics")).body.decode()
    assert "\nhourstable_tickets_left_out_total 3.0\n" in text


async def test_a_clock_that_was_two_days_ahead_stops_no_job(file: Store, tmp_path: Path) -> None:
    """The plane itself, the one that takes over and all callers go on, also after restarts."""
    ahead = Ahead(2 * 86_400)
    async with running(file, tmp_path / "logs", system=ahead) as (_, caller):
        await begun(caller)
        last = int((await caller.grant(1)).headers["Hourstable-Ticket"])
        ahead.seconds = 0
        assert int((await caller.grant(1)).headers["Hourstable-Ticket"]) > last
    for process in (0, 1):
        async with running(file, tmp_path / "logs", process, shared=True, standby=0.1) as (_, caller):
            await asyncio.sleep(0.2)
            told = await caller.grant(1)
            assert told.status == 200, told
            assert int(told.headers["Hourstable-Ticket"]) > last
            last = int(told.headers["Hourstable-Ticket"])
    tickets = [line["ticket"] for line in lines_of(tmp_path / "logs")]
    assert tickets == sorted(set(tickets)) and len(tickets) >= 8


async def test_a_row_with_a_ticket_beyond_all_clocks(file: Store, tmp_path: Path) -> None:
    """It is taken over all the same, and the next write mends it."""
    async with running(file, tmp_path / "logs") as (_, caller):
        await begun(caller)
    stored = await file.load("shop")
    assert stored is not None and stored.line is not None
    ahead, _, line = stored.line.partition(" ")
    wrong = {**json.loads(line), "ticket": (1 << 63) + 5}
    await file.swap("shop", stored.version, stored.kept, f"{ahead} {json.dumps(wrong, separators=(',', ':'))}")
    async with running(file, tmp_path / "logs", shared=True, standby=0.0) as (plane, caller):
        assert (await caller.grant(1)).status == 200
        assert plane.tickets.left_out >= 1
    stored = await file.load("shop")
    assert stored is not None and Row.read(stored.line or "").ticket() < 1 << 63
