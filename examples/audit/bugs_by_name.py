"""The bugs that are put in on purpose, and what an audit must say of each.

What an audit must say was worked out by hand from the rules of docs/FORMATS.md and docs/AUDIT.md,
and from the story that is played (stories.py). In it, `{mark}` is where the line of that mark
stands, its file and its number, `{above mark}` is the line above it, and `{below mark}` the one
below.
"""

import hashlib
import re
from collections.abc import Callable, Iterable
from dataclasses import dataclass, replace
from typing import Any

import actors
import machines
from actors import ClientActor, Settings, TableActor, TaskActor
from changing import (
    Change, after, after_making, before, during, in_log, instead, late_tickets, lost, moved_clock,
    nothing, only_in, text_of, with_members,
)
from machines import Assignment, Clerk, Grant, Handle, LeaseTable, Policy, Refused, Reply, Slicelet
from sockets import Message
from tickets import CommonClock, Counter, HybridClock, SharedCounter

BESIDE = {"above ": -1, "below ": 1, "": 0}


@dataclass(frozen=True)
class Bug:
    """A bug: what is wrong, the story that is played, what the audit must say of its logs, and the
    changes of the service that are the bug."""

    name: str
    wrong: str
    story: str
    says: str
    changes: tuple[Change, ...]

    def put_in(self, process: str) -> None:
        """Puts the bug in a process."""
        for change in self.changes:
            change(process)

    def says_of(self, places: dict[str, str]) -> str:
        """Returns what the audit must say where the marked lines stand in these places."""

        def place(match: re.Match[str]) -> str:
            file, _, number = places[match[2]].rpartition(":")
            return f"{file}:{int(number) + BESIDE[match[1]]}"

        return re.sub(r"\{(above |below |)([\w-]+)\}", place, self.says)


def told(mark: str, words: str, right: str) -> str:
    """Returns what the audit says of a call whose caller was told these words in place of the right
    ones."""
    return f'{{{mark}}}: told "{words}"; should be "{right}"'


def refused(mark: str, fault: str) -> str:
    """Returns what the audit says of a line that it refuses."""
    return f"hourstable: {{{mark}}}: {fault}"


BUGS: dict[str, Bug] = {}


def bug(name: str, wrong: str, story: str, says: str, *changes: Change) -> None:
    if name in BUGS:
        raise ValueError(f"two bugs are called {name}")
    BUGS[name] = Bug(name, wrong, story, says, changes)


# The lease table: the job lease.


def take_over(table: LeaseTable, **_: Any) -> None:
    if table.term is not None:
        table.term = replace(table.term, until=0)


bug(
    "takes-a-held-lease",
    "An assigner is given the job lease while another one has it.",
    "terms",
    told("held", "term 2 until 1010", "refused job-held 1000"),
    before(LeaseTable, "take", take_over),
)


def with_job_term(table: LeaseTable) -> None:
    table.policy = replace(table.policy, job=100)


bug(
    "other-policy",
    "The table was started with another job term than the first line of its log says.",
    "terms",
    told("take", "term 1 until 100", "term 1 until 1000"),
    after_making(LeaseTable, with_job_term),
)
bug(
    "term-runs-at-its-end",
    "A term still runs at the reading at which it ends.",
    "terms",
    told("late", "renewed 1 until 2500", "refused not-holder 1"),
    instead(LeaseTable, "is_over", lambda table, term, at: at > term.until),
)


def renew_nothing(table: LeaseTable, term: int, at: int) -> Reply:
    table.check_reading(at)
    table.holder(term, at)
    return Reply(f"renewed {term} until {at + table.policy.job}")


bug(
    "renewal-moves-nothing",
    "A renewal is answered, and the end of the term stays where it was.",
    "terms",
    told("moved", "term 2 until 2000", "refused job-held 1500"),
    instead(LeaseTable, "renew", renew_nothing),
)


def whoever_holds(table: LeaseTable, term: int, at: int) -> machines.Term:
    if table.term is None or table.is_over(table.term, at):
        raise Refused(f"not-holder {0 if table.term is None else table.term.number}")
    return table.term


bug(
    "old-term-renews",
    "A term that was taken over may still renew.",
    "terms",
    told("old", "renewed 1 until 2501", "refused not-holder 2"),
    instead(LeaseTable, "holder", whoever_holds),
)
bug(
    "ended-term-proposes",
    "A term that has ended still proposes.",
    "terms",
    told("ended", "proposed 2", "refused not-holder 1"),
    during(LeaseTable, "propose", is_over=lambda table, term, at: False),
)
bug(
    "old-term-commits",
    "A term that was taken over still commits.",
    "terms",
    told("older", "committed 2", "refused not-holder 2"),
    during(LeaseTable, "commit", holder=nothing),
)


def call_it_one(table: LeaseTable, reply: Reply) -> Reply:
    assert table.term is not None
    table.term = replace(table.term, number=1)
    return Reply(f"term 1 until {table.term.until}", table.term)


bug(
    "term-number-stays",
    "Each term has the number of the one before.",
    "terms",
    told("second", "term 1 until 2500", "term 2 until 2500"),
    after(LeaseTable, "take", call_it_one),
)


def name_the_caller(table: LeaseTable, term: int, at: int) -> machines.Term:
    held = table.term
    if held is None or term != held.number or table.is_over(held, at):
        raise Refused(f"not-holder {term}")
    return held


bug(
    "names-the-callers-term",
    "A refusal names the term of the caller, and not the last one.",
    "terms",
    told("old", "refused not-holder 1", "refused not-holder 2"),
    instead(LeaseTable, "holder", name_the_caller),
)


def tell_how_long(take: Callable[..., Reply]) -> Callable[..., Reply]:
    def told_how_long(table: LeaseTable, assigner: int, at: int) -> Reply:
        try:
            return take(table, assigner, at)
        except Refused:
            raise Refused(f"job-held {table.term.until - at if table.term else 0}") from None

    return told_how_long


bug(
    "tells-how-long",
    "A refused assigner is told for how long the job lease is held, and not until when.",
    "terms",
    told("held", "refused job-held 990", "refused job-held 1000"),
    instead(LeaseTable, "take", tell_how_long(LeaseTable.take)),
)

# The lease table: proposals and commits.


def propose_the_committed(table: LeaseTable, **_: Any) -> None:
    table.proposed = table.proposed or table.committed


bug(
    "commits-nothing",
    "A commit is accepted although nothing is proposed.",
    "terms",
    told("nothing", "committed 2", "refused nothing-pending"),
    before(LeaseTable, "commit", propose_the_committed),
)


def check_base_by(is_right: Callable[[int, int], bool]) -> Change:
    def check(table: LeaseTable, generation: int) -> None:
        if not is_right(generation, table.committed.generation):
            raise Refused(f"stale-base {table.committed.generation}")

    return instead(LeaseTable, "check_base", check)


bug(
    "generation-used-twice",
    "The generation that is committed may be proposed once more.",
    "terms",
    told("stale", "proposed 2", "refused stale-base 2"),
    check_base_by(lambda generation, committed: generation in (committed, committed + 1)),
)
bug(
    "generation-left-out",
    "A proposal may leave generations out.",
    "terms",
    told("skipped", "proposed 4", "refused stale-base 2"),
    check_base_by(lambda generation, committed: generation > committed),
)
bug(
    "two-owners",
    "A slice may have more owners than the job allows.",
    "terms",
    told("many", "proposed 3", "refused too-many-owners-for-job"),
    instead(LeaseTable, "check_owners", nothing),
)
bug(
    "proposal-replaced",
    "A proposal takes the place of the one that waits.",
    "terms",
    told("again", "proposed 3", "refused pending"),
    instead(LeaseTable, "check_no_other", nothing),
)
bug(
    "checks-in-another-order",
    "Whether a proposal waits is checked before the generation is.",
    "terms",
    told("both", "refused pending", "refused stale-base 2"),
    before(LeaseTable, "check_base", lambda table, generation: table.check_no_other()),
)
bug(
    "phase-hides-the-proposal",
    "The phase is told as steady while a proposal waits.",
    "terms",
    told("phase", "phase steady 2", "phase bridging 2 3"),
    instead(LeaseTable, "phase", lambda table: Reply(f"phase steady {table.committed.generation}")),
)
bug(
    "commit-tells-the-old-generation",
    "A commit is answered with the generation before it.",
    "commits",
    told("first-commit", "committed 0", "committed 1"),
    after(
        LeaseTable,
        "commit",
        lambda table, reply: Reply(f"committed {table.committed.generation - 1}", reply.made),
    ),
)
bug(
    "commits-over-guards",
    "A commit looks at no row, while guard leases of the old generation run.",
    "commits",
    told("guard", "committed 2", "refused held 1 guard 1"),
    instead(LeaseTable, "holds_up", lambda table, row, at: False),
)
OLDER = LeaseTable.holds_up
bug(
    "commits-over-bridges",
    "A commit looks at guard leases alone.",
    "commits",
    told("bridge", "committed 3", "refused held 1 bridge 3"),
    instead(
        LeaseTable,
        "holds_up",
        lambda table, row, at: row.kind == "guard" and OLDER(table, row, at),
    ),
)
bug(
    "waits-for-new-bridges",
    "A commit waits for the bridge leases of the generation that it commits.",
    "commits",
    told("free", "refused held 1 bridge 3", "committed 2"),
    instead(LeaseTable, "holds_up", lambda table, row, at: table.is_open(row, at)),
)
bug(
    "names-the-last-row",
    "A commit that is held up names the last row, and not the first.",
    "commits",
    told("guard", "refused held 2 guard 2", "refused held 1 guard 1"),
    instead(LeaseTable, "row_told", lambda table, rows: rows[-1]),
)
bug(
    "row-lasts-a-tick-more",
    "A row is still open at its deadline.",
    "commits",
    told("over", "refused held 1 bridge 3", "committed 3"),
    instead(LeaseTable, "is_open", lambda table, row, at: at <= row.until),
)
bug(
    "row-ends-with-the-lease",
    "A row ends at the deadline of the task, and not at that of the table.",
    "waiting",
    told("first", "refused held 2 guard 2", "refused held 1 guard 1"),
    instead(LeaseTable, "is_open", lambda table, row, at: at < row.ends),
)
bug(
    "lists-ended-rows",
    "The rows that are told are all that were never freed.",
    "waiting",
    told("rows", "rows [1:1:1:guard:1:105 2:2:1:guard:1:107]", "rows []"),
    instead(LeaseTable, "open_rows", lambda table: table.rows_out),
)


def keep_old_slices(table: LeaseTable, **_: Any) -> None:
    if table.proposed is not None and table.committed.generation > 0:
        table.proposed = replace(table.proposed, slices=table.committed.slices)


bug(
    "commit-keeps-the-old-owners",
    "A commit raises the generation, and keeps the slices of the old one.",
    "move",
    told("moved", "denied not-owned 2", "served guard 2"),
    before(LeaseTable, "commit", keep_old_slices),
)

# The lease table: readings.


def move_at_once(table: LeaseTable, at: int) -> None:
    if at < table.last:
        raise Refused("clock-back")
    table.last = at


bug(
    "refused-call-moves-the-clock",
    "The last reading of the table is that of its last call, also of a refused one.",
    "readings",
    told("after", "refused clock-back", "grant 1 guard 1 until 140 130"),
    instead(LeaseTable, "check_reading", move_at_once),
)


def check_range(table: LeaseTable, at: int) -> None:
    if at >= machines.READINGS:
        raise Refused("reading-range")


bug(
    "table-goes-back",
    "The table accepts a reading below its last one.",
    "readings",
    told("back", "renewed 1 until 1039", "refused clock-back"),
    instead(LeaseTable, "check_reading", check_range),
)


def check_order(table: LeaseTable, at: int) -> None:
    if at < table.last:
        raise Refused("clock-back")


bug(
    "reading-too-great",
    "The table accepts readings of 2^62 and more.",
    "readings",
    told("range", "term 2 until 4611686018427388904", "refused reading-range"),
    instead(LeaseTable, "check_reading", check_order),
)

# The lease table: grants.

bug(
    "grants-before-any-assignment",
    "A task gets a lease before there is an assignment.",
    "grants",
    told("early", "grant 1 guard 0 until 100 90", "refused no-assignment"),
    instead(LeaseTable, "check_assignment", nothing),
)
bug(
    "guards-in-every-phase",
    "A task gets a guard lease while a proposal waits.",
    "grants",
    told("empty", "grant 1 guard 1 until 101 91", "grant 1 bridge 1 until 81 71"),
    instead(LeaseTable, "kind_now", lambda table: "guard"),
)
bug(
    "no-skew",
    "A lease ends for its task when it ends for the table.",
    "grants",
    told("empty", "grant 1 bridge 1 until 81 81", "grant 1 bridge 1 until 81 71"),
    instead(LeaseTable, "end_for_task", lambda table, until: until),
)
bug(
    "one-term-for-both-kinds",
    "A bridge lease lasts as long as a guard lease.",
    "grants",
    told("empty", "grant 1 bridge 1 until 101 91", "grant 1 bridge 1 until 81 71"),
    instead(Policy, "term_of", lambda policy, kind: policy.guard),
)
bug(
    "number-given-twice",
    "A grant has the number of the one before.",
    "grants",
    told("guard", "grant 1 guard 1 until 103 93", "grant 2 guard 1 until 103 93"),
    instead(LeaseTable, "next_number", lambda table: max(1, table.granted)),
)
bug(
    "numbers-without-end",
    "The table gives more grants than the job allows.",
    "grants",
    told("spent", "grant 5 bridge 2 until 108 98", "refused numbers-spent"),
    instead(LeaseTable, "check_numbers", nothing),
)
bug(
    "bridge-of-all-old-keys",
    "A bridge lease is sent with all keys that the task owned.",
    "move-whole",
    told("bridge", "heard 4", "refused not-sent"),
    instead(
        LeaseTable,
        "keys_for",
        lambda table, task: machines.keys_of(table.committed.slices, task),
    ),
)
bug(
    "bridge-of-all-old-keys-unlogged",
    "The same, and the lines of the tasks leave the ranges of grants out.",
    "move",
    told("beyond", "served bridge 3", "denied not-owned 3"),
    instead(
        LeaseTable,
        "keys_for",
        lambda table, task: machines.keys_of(table.committed.slices, task),
    ),
)
bug(
    "bridge-of-the-new-keys",
    "A bridge lease has keys that the task will own, before they are committed.",
    "bridge",
    told(
        "other",
        "served bridge 2",
        "denied not-owned 2",
    ),
    instead(
        LeaseTable,
        "keys_for",
        lambda table, task: machines.keys_of((table.proposed or table.committed).slices, task),
    ),
)
bug(
    "grant-of-an-older-life",
    "The table sends a grant of another life than the one that was asked for.",
    "notes",
    told(
        "hear", "refused other-life", "refused not-sent"
    ),
    after(
        LeaseTable,
        "grant",
        lambda table, reply: Reply(reply.words, replace(reply.made, life=1)),
    ),
)

# The lease table: notes.

bug(
    "free-forgets",
    "A note is answered, and its rows stay.",
    "commits",
    told("other", "refused held 1 guard 1", "refused held 2 guard 2"),
    instead(LeaseTable, "drop", nothing),
)
bug(
    "frees-one-number-alone",
    "A note frees the row of its number, and no older one.",
    "grants",
    told("freed", "freed 1", "freed 2"),
    instead(LeaseTable, "frees", lambda table, note, row: note.number == row.number),
)
bug(
    "frees-both-kinds",
    "A note of a guard lease frees the bridge leases too.",
    "grants",
    told("freed", "freed 3", "freed 2"),
    instead(LeaseTable, "frees", lambda table, note, row: row.number <= note.number),
)


def free_gladly(free: Callable[..., Reply]) -> Callable[..., Reply]:
    def free_any(table: LeaseTable, note: machines.Note, at: int) -> Reply:
        try:
            return free(table, note, at)
        except Refused:
            return Reply("freed 0")

    return free_any


bug(
    "frees-none",
    "A note that closes no row is answered with `freed 0`.",
    "grants",
    told("again", "freed 0", "refused no-row"),
    instead(LeaseTable, "free", free_gladly(LeaseTable.free)),
)
bug(
    "rows-in-another-order",
    "The rows are not told in the order of their grants.",
    "grants",
    told(
        "rows",
        "rows [4:1:1:bridge:2:101 1:1:1:bridge:1:81]",
        "rows [1:1:1:bridge:1:81 4:1:1:bridge:2:101]",
    ),
    after(LeaseTable, "open_rows", lambda table, rows: rows[::-1]),
)


def drop_older(table: LeaseTable, task: int, life: int, at: int) -> None:
    kind = table.kind_now()
    table.rows_out = [row for row in table.rows_out if (row.task, row.kind) != (task, kind)]


bug(
    "renewal-frees-the-old-row",
    "When a task asks again, its older row is dropped, though no note came.",
    "grants",
    told("freed", "freed 1", "freed 2"),
    before(LeaseTable, "grant", drop_older),
)


def make_up_a_note(table: TableActor, call: Message, ticket: int) -> None:
    rows = table.machine.rows_out
    if call["do"] == "grant" and any(row.task == call["task"] for row in rows):
        of_task = {name: call[name] for name in ("task", "life")}
        note = {**of_task, "kind": "guard", "number": rows[0].number}
        table.make({"do": "free", "note": note, "at": call["at"]}, table.tickets.draw(call["at"]))


bug(
    "makes-up-a-note",
    "When a task asks again, the table frees its older row by a note that nobody sent.",
    "renewal",
    told("above grant", "freed 1", "refused not-sent"),
    before(TableActor, "make", make_up_a_note),
)
bug(
    "frees-newer-rows",
    "A note frees the rows of newer leases too.",
    "notes",
    told("first", "freed 2", "freed 1"),
    instead(
        LeaseTable,
        "frees",
        lambda table, note, row: (note.task, note.kind) == (row.task, row.kind),
    ),
)
bug(
    "frees-other-lives",
    "A note frees the rows of other lives.",
    "notes",
    told("life", "freed 2", "freed 1"),
    instead(
        LeaseTable,
        "frees",
        lambda table, note, row: (
            (note.task, note.kind) == (row.task, row.kind) and row.number <= note.number
        ),
    ),
)
bug(
    "frees-ended-rows",
    "A note frees a row that has ended.",
    "notes",
    told("over", "freed 1", "refused no-row"),
    during(LeaseTable, "free", is_open=lambda table, row, at: True),
)

# The lease table: restarts.


def lose_nothing(table: LeaseTable) -> Reply:
    table.grace = table.deadline
    return Reply(f"lost {len(table.open_rows())}")


bug(
    "lose-keeps-rows",
    "A table that says it lost its rows still has them.",
    "loss",
    told("rows", "rows [1:1:1:guard:1:105 2:2:1:guard:1:107]", "rows []"),
    instead(LeaseTable, "lose", lose_nothing),
)
bug(
    "counts-rows-after-the-loss",
    "A table that lost its rows counts them when they are gone.",
    "loss",
    told("lose", "lost 0", "lost 2"),
    after(LeaseTable, "lose", lambda table, reply: Reply(f"lost {len(table.open_rows())}")),
)


def forget_numbers(table: LeaseTable, reply: Reply) -> Reply:
    table.granted = 0
    return reply


bug(
    "lose-forgets-numbers",
    "A table that lost its rows numbers its grants from 1 again.",
    "loss",
    told("grant", "grant 1 bridge 2 until 104 94", "grant 3 bridge 2 until 104 94"),
    after(LeaseTable, "lose", forget_numbers),
)
bug(
    "no-grace",
    "A table that lost its rows commits at once.",
    "loss",
    told("grace", "committed 2", "refused grace 107"),
    instead(LeaseTable, "check_grace", nothing),
)


def wait_a_tick_more(table: LeaseTable, at: int) -> None:
    if at <= table.grace:
        raise Refused(f"grace {table.grace}")


bug(
    "grace-lasts-a-tick-more",
    "A commit is refused at the end of the grace.",
    "loss",
    told("end", "refused grace 107", "committed 2"),
    instead(LeaseTable, "check_grace", wait_a_tick_more),
)


def save_later(save: Callable[..., None]) -> tuple[Change, ...]:
    waiting: list[Callable[[], None]] = []

    def save_next(table: TableActor, line: Message) -> None:
        kept = actors.kept_of(table.machine)
        table.stored = kept
        waiting[:] = [lambda: save_values(table, kept, line)]

    def write(table: TableActor, asked: Message) -> None:
        while waiting:
            waiting.pop()()

    return instead(TableActor, "save", save_next), before(TableActor, "answer", write)


def save_values(table: TableActor, kept: Message, line: Message) -> None:
    """Stores values as `TableActor.save` does."""
    actors.store_text(table.store, text_of({**kept, "line": line}))


bug(
    "answers-before-it-stores",
    "The table answers, and stores before its next call; then it is killed.",
    "kept",
    told(
        "restore",
        "restored generation 1 grace 107",
        "refused less-than-log last 20 granted 2 deadline 107",
    ),
    *save_later(TableActor.save),
)
bug(
    "deadline-not-stored",
    "The greatest deadline is not stored.",
    "kept",
    told(
        "restore",
        "restored generation 1 grace 0",
        "refused less-than-log last 20 granted 2 deadline 107",
    ),
    after(TableActor, "ahead", lambda table, kept: {**kept, "deadline": 0}),
)
bug(
    "tells-another-grace",
    "A restored table tells a grace that is not its own.",
    "kept",
    told("restore", "restored generation 1 grace 0", "restored generation 1 grace 107"),
    in_log("table", "restore", 1, with_members(reply="restored generation 1 grace 0")),
)
bug(
    "proposal-not-stored",
    "The assignment that is proposed is not stored.",
    "kept",
    told("phase", "phase steady 1", "phase bridging 1 2"),
    after(TableActor, "ahead", lambda table, kept: {**kept, "proposed": None}),
)
bug(
    "term-not-stored",
    "The term of the job lease is not stored.",
    "kept",
    told("renew", "refused not-holder 0", "renewed 1 until 1035"),
    after(TableActor, "ahead", lambda table, kept: {**kept, "term": None}),
)


def restored_with(**values: int) -> Change:
    def change(table: TableActor, answer: Message) -> Message:
        for name, value in values.items():
            setattr(table.machine, name, value)
        return answer

    return after(TableActor, "restore", change)


bug(
    "restored-without-grace",
    "A restored table commits at once.",
    "kept",
    told("grace", "committed 2", "refused grace 107"),
    restored_with(grace=0),
)
bug(
    "restored-without-numbers",
    "A restored table numbers its grants from 1 again.",
    "kept",
    told("grant", "grant 1 bridge 2 until 116 106", "grant 3 bridge 2 until 116 106"),
    restored_with(granted=0),
)
bug(
    "restore-not-logged",
    "A table is restored, and its log does not say so.",
    "kept",
    told("free", "refused no-row", "freed 1"),
    lost("table", "restore", 1),
)
bug(
    "stores-a-later-deadline",
    "A deadline is stored that no grant has, now or after more grants.",
    "kept",
    told(
        "restore",
        "restored generation 1 grace 607",
        "refused not-ahead last 20 granted 2 deadline 107",
    ),
    after(TableActor, "ahead", lambda table, kept: {**kept, "deadline": kept["deadline"] + 500}),
)
bug(
    "saves-too-far-ahead",
    "The table saves 100,000 grants ahead.",
    "kept-far",
    told(
        "restore",
        "restored generation 1 grace 107",
        "refused far-ahead last 20 granted 2 deadline 107",
    ),
    after(TableActor, "ahead", lambda table, kept: {**kept, "granted": kept["granted"] + 100_000}),
)
bug(
    "saves-ahead-without-deadline",
    "Readings and numbers are saved ahead, and the deadline is not.",
    "ahead",
    told(
        "restore",
        "restored generation 1 grace 112",
        "refused not-ahead last 12 granted 3 deadline 112",
    ),
    after(TableActor, "ahead", lambda table, kept: {**kept, "deadline": table.machine.deadline}),
)
bug(
    "goes-on-before-the-stored-reading",
    "A restored table accepts readings below the one that was saved ahead.",
    "ahead",
    told("early", "grant 8 guard 1 until 116 106", "refused clock-back"),
    restored_with(last=12),
)
bug(
    "gives-saved-numbers-again",
    "A restored table gives the numbers of grants that were saved ahead.",
    "ahead",
    told("grant", "grant 4 guard 1 until 121 111", "grant 8 guard 1 until 121 111"),
    restored_with(granted=3),
)
bug(
    "grace-of-what-was-granted",
    "The grace of a restored table leaves out what was saved ahead.",
    "ahead",
    told("grace", "refused held 1 guard 8", "refused grace 120"),
    restored_with(grace=112),
)
bug(
    "two-tables",
    "A second process of the table begins while the first one still answers.",
    "two-tables",
    told("old", "grant 3 guard 1 until 123 113", "grant 4 guard 1 until 123 113"),
)

# A task: hearing and releasing.

bug(
    "hears-a-stale-number",
    "A task hears a grant that is older than the one it holds.",
    "renewal",
    told("older", "heard 1", "refused old 3"),
    instead(Slicelet, "is_old", lambda task, grant: task.greatest.get(grant.kind) == grant.number),
)
bug(
    "hears-a-grant-twice",
    "A task hears a grant that it has heard.",
    "renewal",
    told("same", "heard 1", "refused old 1"),
    instead(
        Slicelet,
        "is_old",
        lambda task, grant: grant.number < task.greatest.get(grant.kind, 0),
    ),
)
OLD = Slicelet.is_old
bug(
    "hears-again-after-a-release",
    "A task hears a grant again that it gave back.",
    "move",
    told("again", "heard 1", "refused old 1"),
    instead(Slicelet, "is_old", lambda task, grant: grant.kind in task.held and OLD(task, grant)),
)
bug(
    "one-number-for-both-kinds",
    "A guard lease is taken for old after a bridge lease with a greater number.",
    "bridge",
    told("late", "refused old 1", "heard 3"),
    instead(
        Slicelet,
        "is_old",
        lambda task, grant: grant.number <= max(task.greatest.values(), default=0),
    ),
)


def check_life_alone(task: Slicelet, grant: Grant) -> None:
    if grant.life != task.life:
        raise Refused("other-life")


def check_task_alone(task: Slicelet, grant: Grant) -> None:
    if grant.task != task.task:
        raise Refused("other-task")


bug(
    "hears-for-others",
    "A task hears a grant of another task.",
    "denials",
    told("foreign", "heard 2", "refused other-task"),
    instead(Slicelet, "check_receiver", check_life_alone),
)
bug(
    "hears-other-lives",
    "A task hears a grant of an earlier life.",
    "denials",
    told("lived", "heard 1", "refused other-life"),
    instead(Slicelet, "check_receiver", check_task_alone),
)
bug(
    "hears-too-late",
    "A task hears a grant at the end of its lease.",
    "denials",
    told("late", "heard 3", "refused too-late"),
    instead(Slicelet, "check_in_time", nothing),
)
bug(
    "hears-before-it-starts",
    "A task that was not started looks at the grants that it gets.",
    "denials",
    told("unheard", "refused other-life", "refused not-started"),
    instead(Slicelet, "check_up", nothing),
)
bug(
    "idle-told-as-nothing-held",
    "A release by a task that was not started is told to have found no lease.",
    "denials",
    told("idle", "refused nothing-held", "refused not-started"),
    during(Slicelet, "release", check_up=nothing),
)
bug(
    "releases-nothing",
    "A task that holds no lease gives one back.",
    "denials",
    told("nothing", "released life 1 number 0", "refused nothing-held"),
    instead(Slicelet, "check_held", nothing),
    instead(Slicelet, "number_released", lambda task, kind: task.greatest.get(kind, 0)),
    instead(Slicelet, "remove", lambda task, kind: task.held.pop(kind, None)),
)
bug(
    "accepts-a-clock-behind",
    "A task accepts calls with a reading below its last one.",
    "denials",
    told("back", "released life 1 number 1", "refused clock-back"),
    instead(Slicelet, "check_reading", nothing),
)


def drop_ended(task: Slicelet, kind: str, at: int) -> None:
    if kind in task.held and not task.is_live(task.held[kind], at):
        del task.held[kind]


bug(
    "ended-lease-is-not-held",
    "A lease that has ended cannot be given back.",
    "notes",
    told("late", "refused nothing-held", "released life 1 number 2"),
    before(Slicelet, "release", drop_ended),
)
bug(
    "releases-the-last-grant",
    "A note has the greatest number that was heard, of any kind.",
    "bridge",
    told("release", "released life 1 number 4", "released life 1 number 3"),
    instead(Slicelet, "number_released", lambda task, kind: max(task.greatest.values())),
)


def put_alone(task: Slicelet, grant: Grant) -> None:
    task.held = {grant.kind: grant}
    task.greatest[grant.kind] = grant.number


bug(
    "holds-one-lease",
    "A task drops its lease of one kind when it hears one of the other kind.",
    "bridge",
    told(
        "other",
        "denied not-owned 1",
        "denied not-owned 2",
    ),
    instead(Slicelet, "put", put_alone),
)
bug(
    "serves-after-a-release",
    "A task keeps the lease that it gave back.",
    "move",
    told("left", "served guard 1", "denied no-lease"),
    instead(Slicelet, "remove", nothing),
)

# A task: serving.

bug(
    "serves-at-the-deadline",
    "A task serves at the deadline of its lease.",
    "renewal",
    told("ended", "served guard 1", "denied ended"),
    instead(Slicelet, "is_live", lambda task, lease, at: at <= lease.ends),
)
bug(
    "serves-till-the-tables-deadline",
    "A task serves until its lease ends for the table.",
    "renewal",
    told("ended", "served guard 1", "denied ended"),
    instead(Slicelet, "is_live", lambda task, lease, at: at < lease.until),
)
bug(
    "serves-for-ever",
    "A lease never ends for its task, whose log has words and slice keys alone.",
    "edges",
    told("ended", "served", "denied ended"),
    instead(Slicelet, "is_live", lambda task, lease, at: True),
)
bug(
    "serves-before-it-hears",
    "A task serves as soon as it is started, before it hears of a lease.",
    "denials",
    told("asked", "served guard 1", "denied no-lease"),
    after(
        Slicelet,
        "verdict",
        lambda task, words: "served guard 1" if words == "denied no-lease" else words,
    ),
)
VERDICT = Slicelet.verdict
bug(
    "serves-with-a-clock-behind",
    "A task serves at a reading below its last one.",
    "denials",
    told("behind", "served guard 1", "denied clock-back"),
    instead(Slicelet, "verdict", lambda task, key, at: VERDICT(task, key, max(at, task.last))),
)
bug(
    "never-down",
    "A task that was not started tells that it holds no lease.",
    "denials",
    told("down", "denied no-lease", "denied down"),
    after(Slicelet, "verdict", lambda task, words: words.replace("down", "no-lease")),
)
HAS = Slicelet.has_key
bug(
    "bridge-beyond-its-keys",
    "A task serves any key by its bridge lease.",
    "move",
    told("beyond", "served bridge 3", "denied not-owned 3"),
    instead(
        Slicelet,
        "has_key",
        lambda task, lease, key: lease.kind == "bridge" or HAS(task, lease, key),
    ),
)
bug(
    "bridge-before-guard",
    "A key that both leases have is served by the bridge lease.",
    "bridge",
    told("both", "served bridge 2", "served guard 1"),
    after(Slicelet, "leases", lambda task, leases: leases[::-1]),
)
bug(
    "end-of-a-range-served",
    "A range has its end too.",
    "edges",
    told("next", "served", "denied not-owned 1"),
    instead(
        Slicelet,
        "has_key",
        lambda task, lease, key: any(start <= key <= end for start, end in lease.ranges),
    ),
)
bug(
    "start-of-a-range-denied",
    "A range does not have its start.",
    "edges",
    told("first", "denied", "served guard 1"),
    instead(
        Slicelet,
        "has_key",
        lambda task, lease, key: any(start < key < end for start, end in lease.ranges),
    ),
)


def hash_otherwise(key: str) -> int:
    digest = hashlib.sha256(key.encode()).digest()
    return int.from_bytes(digest[:8], "big") & (machines.KEYS - 1)


bug(
    "hashes-otherwise",
    "The tasks drop the first bit of a hash in place of the last.",
    "bridge",
    told(
        "other",
        "served guard 1",
        "denied not-owned 2",
    ),
    instead(actors, "slice_key", hash_otherwise),
)


def ground_by(live: Callable[[Slicelet, int], Iterable[int]]) -> Change:
    """The generation of a denial as `not-owned` is the greatest of these."""

    def ground(task: Slicelet, key: int, at: int) -> str:
        if any(task.has_key(lease, key) for lease in task.leases()):
            return "ended"
        generations = list(live(task, at))
        return f"not-owned {max(generations)}" if generations else "no-lease"

    return instead(Slicelet, "ground", ground)


bug(
    "no-lease-told-as-not-owned",
    "A task with a lease that has ended says that it does not own the key.",
    "renewal",
    told("nothing", "denied not-owned 1", "denied no-lease"),
    ground_by(lambda task, at: (lease.generation for lease in task.leases())),
)
bug(
    "generation-of-the-guard",
    "A denial names the generation of the guard lease, though the bridge is newer.",
    "bridge",
    told(
        "other",
        "denied not-owned 1",
        "denied not-owned 2",
    ),
    ground_by(
        lambda task, at: [it.generation for it in task.leases() if task.is_live(it, at)][:1],
    ),
)
bug(
    "ended-told-as-no-lease",
    "A task says of a lease that has ended that it has none.",
    "renewal",
    told("ended", "denied no-lease", "denied ended"),
    after(Slicelet, "ground", lambda task, words: words.replace("ended", "no-lease")),
)

# A task: handles.

bug(
    "position-counts-refused-calls",
    "The position of a handle counts the calls that were refused, too.",
    "renewal",
    told("again", "handle life 1 position 5", "handle life 1 position 3"),
    before(Slicelet, "start", lambda task, **_: setattr(task, "calls", 1)),
    before(Slicelet, "hear", lambda task, **_: setattr(task, "calls", task.calls + 1)),
    instead(Slicelet, "position", lambda task: task.calls),
)


def hold_any(task: Slicelet, key: int, at: int) -> Reply:
    handle = Handle(task.task, task.life, key, task.position())
    return Reply(f"handle life {handle.life} position {handle.position}", handle)


bug(
    "handle-on-any-key",
    "A task gives a handle on a key that it may not serve.",
    "renewal",
    told("other", "handle life 1 position 2", "denied not-owned 1"),
    instead(Slicelet, "hold", hold_any),
)


def keep_nothing(task: Slicelet, reply: Reply) -> Reply:
    task.kept[-1] = []
    return reply


bug(
    "handle-breaks-at-a-renewal",
    "A handle is broken as soon as its lease is renewed.",
    "renewal",
    told("check", "broken", "continuous"),
    after(Slicelet, "hear", keep_nothing),
)
bug(
    "handle-breaks-at-a-release",
    "A handle is broken when its guard lease is given back under a bridge.",
    "bridge",
    told("check", "broken", "continuous"),
    after(Slicelet, "release", keep_nothing),
)
bug(
    "handle-outlives-its-lease",
    "A handle is continuous although the lease has ended.",
    "renewal",
    told("broken", "continuous", "broken"),
    during(Slicelet, "check", verdict=lambda task, key, at: "served"),
)
bug(
    "handle-survives-a-gap",
    "A handle is continuous if the task may serve its key now, though the key was away.",
    "move",
    told("gap", "continuous", "broken"),
    instead(
        Slicelet,
        "is_continuous",
        lambda task, handle, at: task.verdict(handle.slice_key, at).startswith("served"),
    ),
)
CONTINUOUS = Slicelet.is_continuous
bug(
    "handle-survives-a-life",
    "A handle of an earlier life is continuous.",
    "move",
    told("life", "continuous", "broken"),
    instead(
        Slicelet,
        "is_continuous",
        lambda task, handle, at: handle.life < task.life or CONTINUOUS(task, handle, at),
    ),
)
bug(
    "handle-with-a-clock-behind",
    "A handle is continuous at a reading below the last one.",
    "denials",
    told("early", "continuous", "broken"),
    instead(
        Slicelet,
        "is_continuous",
        lambda task, handle, at: CONTINUOUS(task, handle, max(at, task.last)),
    ),
)
bug(
    "handle-of-another-task",
    "A task judges the handle that another one gave.",
    "renewal",
    told("stranger", "broken", "refused stranger"),
    instead(Slicelet, "is_stranger", lambda task, handle: handle.life > task.life),
)
bug(
    "handle-of-an-earlier-process",
    "A task judges a handle that its process before gave.",
    "lives",
    told("stranger", "broken", "refused stranger"),
    instead(Slicelet, "is_stranger", lambda task, handle: handle.life > task.life),
)


HELLO = machines.slice_key("hello")


def change_the_handle(task: TaskActor, call: Message) -> None:
    if call["do"] == "check":
        call["handle"]["slice_key"] += 1


bug(
    "handle-of-another-key",
    "A handle is changed on its way, and asked of another key.",
    "renewal",
    told(
        "check", "continuous", "refused not-sent",
    ),
    before(TaskActor, "play", change_the_handle),
)

# A task: lives and processes.


def life_not_below(task: Slicelet, life: int) -> None:
    if life < task.life:
        raise Refused("old-life")


bug(
    "starts-a-life-twice",
    "A task starts its life once more.",
    "denials",
    told("same", "started 1", "refused old-life"),
    instead(Slicelet, "check_life", life_not_below),
)
bug(
    "starts-with-a-clock-behind",
    "A life starts at a reading below the last one.",
    "denials",
    told("begun", "started 2", "refused clock-back"),
    during(Slicelet, "start", check_reading=nothing),
)
bug(
    "start-keeps-leases",
    "A new life has the leases of the one before.",
    "denials",
    told("kept", "served guard 1", "denied no-lease"),
    during(Slicelet, "start", forget_leases=nothing),
)
bug(
    "start-keeps-the-greatest-number",
    "A new life takes grants for old by the numbers that the last one heard.",
    "lives",
    told("older", "refused old 4", "heard 3"),
    during(Slicelet, "start", forget_leases=lambda task: task.held.clear()),
)
bug(
    "lives-not-stored",
    "The lives of a task are not stored, so its next process begins with none.",
    "lives",
    told("open", "opened 0", "refused old-life"),
    instead(TaskActor, "store", nothing),
)
bug(
    "life-stored-too-late",
    "A life is stored when the next one begins.",
    "lives",
    told("open", "opened 1", "refused old-life"),
    instead(TaskActor, "store", lambda task, life: task.lives.write_text(str(life - 1))),
)
bug(
    "life-of-an-earlier-process",
    "A new process of a task starts the last life of the one before.",
    "lives",
    told("twice", "started 2", "refused old-life"),
    instead(Slicelet, "check_life", life_not_below),
)
bug(
    "open-not-logged",
    "A new process of a task begins, and its log does not say so.",
    "lives",
    told("down", "denied down", "denied clock-back"),
    lost("task-1", "open", 1),
)
bug(
    "positions-go-on",
    "A new process of a task counts the calls of the one before, too.",
    "lives",
    told("hold", "handle life 3 position 7", "handle life 3 position 2"),
    instead(Slicelet, "position", lambda task: len(task.kept) + (5 if task.opened else 0)),
)
bug(
    "history-without-end",
    "A slicelet accepts more than 65,536 calls.",
    "history",
    told("full", "started 65537", "refused history-full"),
    instead(Slicelet, "check_room", nothing),
)

# Clients.


bug(
    "names-owners-before-it-learns",
    "A client that has learnt nothing names an owner.",
    "clerks",
    told("unknown", "found generation 0 owners 1", "refused unknown"),
    before(
        Clerk,
        "look",
        lambda clerk, key: setattr(clerk, "known", clerk.known or Assignment(0, [(0, [1])])),
    ),
)
bug(
    "learns-older",
    "A client learns an assignment that is older than the one it has.",
    "clerks",
    told("older", "learnt 1", "refused old 2"),
    instead(
        Clerk,
        "is_newer",
        lambda clerk, assignment, known: assignment.generation != known.generation,
    ),
)
bug(
    "learns-the-same",
    "A client learns the assignment once more that it has.",
    "clerks",
    told("same", "learnt 2", "refused old 2"),
    instead(
        Clerk,
        "is_newer",
        lambda clerk, assignment, known: assignment.generation >= known.generation,
    ),
)


def learn_once(learn: Callable[..., Reply]) -> Callable[..., Reply]:
    def learn_first(clerk: Clerk, assignment: Assignment) -> Reply:
        known = clerk.known
        reply = learn(clerk, assignment)
        clerk.known = known or assignment
        return reply

    return learn_first


bug(
    "learns-once",
    "A client says that it learnt an assignment, and keeps the first one.",
    "clerks",
    told("older", "refused old 1", "refused old 2"),
    instead(Clerk, "learn", learn_once(Clerk.learn)),
)
bug(
    "forgets-nothing",
    "A client that forgot still names owners.",
    "clerks",
    told("forgotten", "found generation 2 owners 2", "refused unknown"),
    instead(Clerk, "forget", lambda clerk: Reply("forgotten")),
)
bug(
    "learns-a-proposal",
    "A client learns an assignment that is proposed, and not committed.",
    "clerks",
    told(
        "proposed", "learnt 2", "refused not-sent",
    ),
    after(LeaseTable, "propose", lambda table, reply: Reply(reply.words, table.proposed)),
)


def lose_slices(client: ClientActor, call: Message) -> None:
    if call["do"] == "learn":
        call["slices"] = call["slices"][:1]


bug(
    "slices-lost-on-the-way",
    "A client gets the first slice of an assignment alone.",
    "clerks",
    told(
        "learn", "learnt 1", "refused not-sent"
    ),
    before(ClientActor, "play", lose_slices),
)
bug(
    "client-hashes-otherwise",
    "The clients drop the first bit of a hash in place of the last.",
    "clerks",
    told("upper", "found generation 1 owners 1", "found generation 1 owners 2"),
    instead(actors, "slice_key", hash_otherwise),
)
bug(
    "looks-at-the-slice-before",
    "A client names the owner of the slice before for the first key of a slice.",
    "edges",
    told("look", "found generation 1 owners 1", "found generation 1 owners 2"),
    instead(
        machines,
        "owners_of",
        lambda slices, key: [owners for start, owners in slices if start < key or start == 0][-1],
    ),
)

# What is logged.

bug(
    "grant-not-logged",
    "A line of the table is lost: that of a grant.",
    "move",
    told("hear-2", "heard 2", "refused not-sent"),
    lost("table", "grant", 2),
)
bug(
    "release-not-logged",
    "A line of a task is lost: that of a release.",
    "move",
    told("free-1", "freed 1", "refused not-sent"),
    lost("task-1", "release", 1),
)
bug(
    "commit-not-logged",
    "A line of the table is lost: that of a commit.",
    "move",
    told("grant", "grant 3 guard 2 until 126 116", "grant 3 bridge 2 until 106 96"),
    lost("table", "commit", 2),
)
bug(
    "propose-not-logged",
    "A line of the table is lost: that of a proposal.",
    "move",
    told("commit", "committed 2", "refused nothing-pending"),
    lost("table", "propose", 2),
)
bug(
    "free-not-logged",
    "A line of the table is lost: that of a note.",
    "move",
    told("commit", "committed 2", "refused held 1 guard 1"),
    lost("table", "free", 1),
)
bug(
    "start-not-logged",
    "A line of a task is lost: that of a start.",
    "move",
    told("hear-2", "heard 2", "refused not-started"),
    lost("task-2", "start", 1),
)
bug(
    "hear-not-logged",
    "A line of a task is lost: that of a grant that it heard.",
    "move",
    told("release-2", "released life 1 number 2", "refused nothing-held"),
    lost("task-2", "hear", 1),
)
bug(
    "task-not-logged",
    "The lines of a task are lost, all of them.",
    "edges",
    "no calls of task 2",
    only_in("task-2", instead(actors.Log, "put", nothing)),
)
bug(
    "reading-altered",
    "A line has another reading than the call had.",
    "move",
    told("moved", "served guard 2", "denied ended"),
    in_log("task-2", "serve", 1, with_members(at=128)),
)
bug(
    "key-altered",
    "A line has another key than the call had.",
    "move",
    told("served", "served guard 3", "denied not-owned 3"),
    in_log("task-1", "serve", 2, with_members(key="abc")),
)
bug(
    "reply-altered",
    "A line has another reply than the caller was told.",
    "move",
    told("moved", "served guard 1", "served guard 2"),
    in_log("task-2", "serve", 1, with_members(reply="served guard 1")),
)
bug(
    "reply-in-too-few-words",
    "A line has one word of a reply that must be told whole.",
    "move",
    told("grant-1", "grant", "grant 1 guard 1 until 105 95"),
    in_log("table", "grant", 1, with_members(reply="grant")),
)


def raise_the_end(task: TaskActor, call: Message) -> None:
    if call["do"] == "hear":
        call["grant"]["ends"] += 50


bug(
    "grant-changed-on-the-way",
    "The end of a lease is changed between the table and the task.",
    "move",
    told("hear-1", "heard 1", "refused not-sent"),
    before(TaskActor, "play", raise_the_end),
)
bug(
    "other-skew",
    "The first line of the log has another skew than the table keeps.",
    "move",
    told("grant-1", "grant 1 guard 1 until 105 95", "grant 1 guard 1 until 105 100"),
    after(Settings, "job", lambda settings, job: {**job, "skew": 5}),
)
bug(
    "too-few-tasks",
    "The first line of the log has fewer tasks than the service.",
    "move",
    told("open-2", "opened 0", "refused no-actor"),
    after(Settings, "job", lambda settings, job: {**job, "tasks": 1}),
)

# Lines that are no calls.

bug(
    "line-cut-off",
    "A line is cut off in its middle.",
    "move",
    refused("moved", "not JSON: column 20: EOF while parsing"),
    in_log("task-2", "serve", 1, lambda line: '{"ticket": 27, "do":\n'),
)
bug(
    "unknown-member",
    "A line has a member that its call does not have.",
    "move",
    refused("moved", 'serve: unknown member "host"; the members are ticket, reply, task, key, at'),
    in_log("task-2", "serve", 1, with_members(host="a")),
)
bug(
    "no-reading",
    "A line lacks the reading of its call.",
    "move",
    refused("moved", 'serve: "at" is missing; the members are ticket, reply, task, key, at'),
    in_log("task-2", "serve", 1, with_members(at=None)),
)
bug(
    "reading-in-words",
    "A reading is no number.",
    "move",
    refused(
        "moved",
        'serve: "at" is a string; it must be a whole number below 18446744073709551616',
    ),
    in_log("task-2", "serve", 1, with_members(at="soon")),
)
bug(
    "two-replies",
    "A line has two replies.",
    "move",
    refused("moved", 'member "reply" is written twice'),
    in_log("task-2", "serve", 1, lambda line: '{"reply": "served", ' + text_of(line)[1:]),
)
bug(
    "unknown-call",
    "A line has a call that there is not.",
    "move",
    refused("moved", 'unknown call "steal"'),
    in_log("task-2", "serve", 1, with_members(do="steal")),
)
bug(
    "no-such-task",
    "A line has a task that no job can have.",
    "move",
    refused("grant-1", 'grant: "task" is 65; it must be a whole number from 1 to 64'),
    in_log("table", "grant", 1, with_members(task=65)),
)
bug(
    "last-line-torn",
    "A process is stopped while it writes its last line.",
    "move",
    refused("below life", "a last line without its end was left out"),
    in_log("task-1", "check", 2, lambda line: text_of(line)[:-4]),
)

# Tickets.


def next_again(counter: Counter) -> int:
    again = counter.last == 12 and not hasattr(counter, "again")
    if again:
        setattr(counter, "again", True)
    return counter.last + (not again)


bug(
    "ticket-drawn-twice",
    "The counter gives a number to two callers.",
    "move",
    "{learn}: ticket 12 is also at {hold}",
    instead(Counter, "next", next_again),
)
bug(
    "ticket-drawn-too-late",
    "The table draws the ticket of a grant after it has answered.",
    "move",
    told(
        "hear-1", "heard 1", "refused not-sent",
    ),
    late_tickets(["grant"]),
)


def draw_in_stock(draw: Callable[..., int]) -> Callable[..., int]:
    stock: list[int] = []

    def draw_last(counter: SharedCounter, now: int | None, many: int = 1) -> int:
        if not stock:
            first = draw(counter, now, 2)
            stock[:] = [first, first + 1]
        return stock.pop()

    return draw_last


bug(
    "tickets-in-stock",
    "A task draws tickets ahead, and uses the last one first.",
    "move",
    told("open-1", "opened 0", "refused old-life"),
    only_in("task-1", instead(SharedCounter, "draw", draw_in_stock(SharedCounter.draw))),
)
bug(
    "clock-not-common",
    "The table's common clock is 50 ms ahead, and the tasks do not wait.",
    "move-clock",
    told(
        "hear-1", "heard 1", "refused not-sent",
    ),
    only_in("table", instead(CommonClock, "read", lambda clock, now: (now + 50) * 1_000_000)),
    instead(CommonClock, "observe", nothing),
)
DRAW = CommonClock.draw
bug(
    "tickets-without-processes",
    "Tickets of a common clock leave the number of the process out.",
    "move-clock",
    "{moved}: ticket 448000000 is also at {left}",
    instead(CommonClock, "draw", lambda clock, *given: DRAW(clock, *given) - clock.process),
)
bug(
    "message-not-observed",
    "A task with a hybrid clock does not look at the tickets of messages.",
    "move-hybrid",
    told(
        "hear-1", "heard 1", "refused not-sent",
    ),
    only_in("task-1", instead(HybridClock, "observe", nothing)),
)
bug(
    "place-not-kept",
    "A hybrid clock begins anew with its process.",
    "lives-hybrid",
    "{open}: ticket 17 is also at {open-1}",
    instead(HybridClock, "kept", lambda clock: 0),
)

# Clocks.

bug(
    "task-clock-slow",
    "The clock of a task runs at half the speed.",
    "move",
    "timely no: {release-2} read 11, {free-1} read 22 before it, skew 10",
    moved_clock("task-2", lambda now: now // 2),
)
bug(
    "task-clock-stops",
    "The clock of a task stops at 8.",
    "move",
    "timely no: {release-2} read 8, {free-1} read 22 before it, skew 10",
    moved_clock("task-2", lambda now: min(now, 8)),
)
bug(
    "task-clock-jumps-back",
    "The clock of a task jumps back by 20 ticks.",
    "move",
    "timely no: {hear} read 7, {grant} read 26 before it, skew 10",
    moved_clock("task-2", lambda now: now if now < 27 else now - 20),
)
bug(
    "table-clock-ahead",
    "The clock of the table is ahead by 15 ticks.",
    "move",
    "timely no: {start-1} read 3, {first-commit} read 17 before it, skew 10",
    moved_clock("table", lambda now: now + 15),
)
