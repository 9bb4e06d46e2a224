"""What happens in the demo, and what is said about it."""

import time
from collections import Counter
from collections.abc import Callable, Iterable

from hourstable.demo.processes import Ended
from hourstable.demo.service import LEASE, PATIENCE, SESSIONS, TASKS, Service
from hourstable.demo.view import Part, Screen, Seen, TaskSeen

FIRST, KILLED, ADDED, DRAINED = range(1, 4), 2, 4, 1
AWAY = 2.0  # seconds from the end of the control plane to its next start
SHOWN = 0.2  # seconds between two looks
KILL_AT, ADD_AT, DRAIN_AT, AWAY_AT = 0.29, 0.47, 0.62, 0.74  # of the seconds of the demo


def listed(tasks: Iterable[int]) -> str:
    """Returns tasks in words."""
    names = [str(task) for task in tasks]
    if len(names) < 2:
        return f"task {''.join(names)}"
    return f"tasks {', '.join(names[:-1])} and {names[-1]}"


def counted(count: int, word: str) -> str:
    return f"{count} {word}" if count == 1 else f"{count} {word}s"


class Story:
    """The demo as it goes on."""

    def __init__(self, service: Service, screen: Screen, seconds: float) -> None:
        self.service, self.screen, self.seconds = service, screen, seconds
        self.states = {task: "answers" if task in FIRST else "not there" for task in TASKS}
        self.is_begun = False
        self.begun = self.since = time.monotonic()

    def play(self) -> None:
        """Lets everything happen. Raises Ended if something does not happen in time."""
        self.wait(self.is_running, "the tasks did not answer for their keys")
        self.is_begun, self.begun = True, time.monotonic()
        self.rest(KILL_AT)
        self.kill_task()
        self.rest(ADD_AT)
        self.add_task()
        self.rest(DRAIN_AT)
        self.drain_task()
        self.rest(AWAY_AT)
        self.take_plane_away()
        self.rest(1.0)

    def is_running(self) -> bool:
        """Whether all tasks that are there at first own keys, and clients get answers."""
        service = self.service
        return service.heard.answered > 0 and all(service.plane.share(task) for task in FIRST)

    # Time. --------------------------------------------------------------------------------------

    def now(self) -> float:
        """Returns the seconds since the first answer."""
        return time.monotonic() - self.begun

    def rest(self, part: float) -> None:
        """Lets the service run until a part of the demo's seconds has passed."""
        while self.now() < part * self.seconds:
            self.look()

    def wait(self, holds: Callable[[], bool], failure: str, seconds: float = PATIENCE) -> None:
        """Lets the service run until something holds. Raises Ended, with the failure, if it does
        not in time."""
        end = time.monotonic() + seconds
        while not holds():
            if time.monotonic() > end:
                raise Ended(f"{failure} within {seconds:.0f} s")
            self.look()

    def look(self) -> None:
        """Looks whether all processes run, shows what is known, and waits a moment."""
        self.service.check()
        if self.is_begun:
            self.screen.show(self.seen())
        time.sleep(SHOWN)

    def seen(self) -> Seen:
        plane, sessions = self.service.plane, self.service.sessions()
        requests, denied = self.service.heard.last_second()
        tasks = [
            TaskSeen(task, state, sessions[task], plane.share(task))
            for task, state in self.states.items()
        ]
        parts = [
            Part(begin, end, owner, self.states[owner] == "killed")
            for begin, end, owner in plane.slices
        ]
        return Seen(
            self.now(), self.seconds, plane.url, plane.is_there, plane.generation, tasks, parts,
            requests, denied,
        )

    # What happens. ------------------------------------------------------------------------------

    def begin(self, text: str) -> Counter[int]:
        """Says that something happens now, and returns how many sessions each task owns."""
        self.screen.say(text, self.now())
        self.service.heard.forget_waits()
        self.since = time.monotonic()
        return self.service.sessions()

    def end(self, text: str) -> None:
        """Waits until no client waits because of what happened, and says what came of it."""
        took = time.monotonic() - self.since
        self.calm()
        self.screen.say(f"{text.format(took=took)} {self.waits()}", self.now())

    def calm(self) -> None:
        """Waits until clients have told twice that no request waits."""
        heard, last, calm = self.service.heard, self.service.heard.lines, 0

        def is_calm() -> bool:
            nonlocal last, calm
            if heard.lines > last:
                last, calm = heard.lines, 0 if heard.waiting else calm + 1
            return calm >= 2

        self.wait(is_calm, "clients still wait for an answer")

    def waits(self) -> str:
        """Returns in words how long clients waited."""
        sessions, longest = self.service.heard.waits()
        if not sessions:
            return "No client was denied."
        return f"Clients were denied for {sessions} of {SESSIONS} sessions, for {longest:.1f} s at most."

    def kill_task(self) -> None:
        owned = self.begin(f"Task {KILLED} is killed (kill -9).")
        self.service.tasks[KILLED].kill()
        self.states[KILLED] = "killed"
        self.wait(
            lambda: not self.service.plane.share(KILLED),
            f"the keys of task {KILLED} got no other owner",
        )
        others = listed(task for task in FIRST if task != KILLED)
        self.end(
            f"Its {counted(owned[KILLED], 'session')} went to {others} after {{took:.1f}} s. A"
            " silent task may be dead or only slow, so nobody else answers for its keys until its"
            " lease has ended."
        )

    def add_task(self) -> None:
        self.begin(f"Task {ADDED} is started.")
        self.service.tasks[ADDED].start()
        self.states[ADDED] = "starts"
        self.wait(lambda: self.service.plane.share(ADDED) > 0, f"task {ADDED} got no keys")
        self.states[ADDED] = "answers"
        self.end(
            f"It owned {counted(self.service.sessions()[ADDED], 'session')} after {{took:.1f}} s."
            " The other tasks stopped answering for these keys and handed them over, so nobody had"
            " to wait for a lease to end."
        )

    def drain_task(self) -> None:
        owned = self.begin(f"Task {DRAINED} is drained: it shall give up all keys and end.")
        self.states[DRAINED] = "drains"
        self.service.drain(DRAINED)
        self.wait(
            lambda: not self.service.plane.share(DRAINED), f"task {DRAINED} did not give up its keys"
        )
        self.end(
            f"It handed over its {counted(owned[DRAINED], 'session')} in {{took:.1f}} s, again"
            " without a wait for a lease to end: do so before each deployment."
        )
        process = self.service.tasks[DRAINED]
        if process.end(20.0) != 0:
            raise process.failed("did not end well")
        self.states[DRAINED] = "has ended"

    def take_plane_away(self) -> None:
        control = self.service.control
        self.begin(f"The control plane is killed, and started again after {AWAY:.0f} s.")
        control.kill()
        self.wait_away()
        control.start()
        self.wait(lambda: self.service.plane.is_there, "the control plane did not come back")
        self.end(
            f"It was gone for {{took:.1f}} s. Tasks go on without it while their leases of"
            f" {LEASE:.0f} s last; then they deny their keys, so that no key ever has two owners."
        )

    def wait_away(self) -> None:
        self.service.plane.is_there = False
        while time.monotonic() < self.since + AWAY:
            self.look()
