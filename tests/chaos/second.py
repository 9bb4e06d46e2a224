"""Second processes of tasks: one elsewhere, which is let in once no lease of the first one lasts, and one with the
folder of state of the first, which ends with why."""

import time
from functools import partial
from typing import TYPE_CHECKING

from bugs import LET_IN_EARLY, RELEASED_LATE
from healed import heard_by
from world import GUARD

if TYPE_CHECKING:
    from faults import Chaos

LEASE = GUARD / 1000  # seconds
LOOKED = 0.2  # seconds between two looks
LONGEST = 30.0  # seconds in which a second process is let in, and a process ends that must
HERE = "second"  # what is busy while there is a second process elsewhere
KILLED, ENDS, FROZEN, CUT, WELL = "is killed", "ends", "is frozen", "is cut off", "is well"
HOW = {LET_IN_EARLY: CUT, RELEASED_LATE: ENDS}  # with a bug: it serves beside the second one, or gives up late
LOST = (KILLED, ENDS, FROZEN, FROZEN)  # what the first process may be, so that the second one must be let in


class Seconds:
    """The second processes of a run, those elsewhere one at a time, and what they did that they must not."""

    def __init__(self, chaos: "Chaos") -> None:
        self.chaos, self.world = chaos, chaos.world
        self.begun = self.let_in = self.beside = 0
        self.faults: list[str] = []

    # Elsewhere. ---------------------------------------------------------------------------------

    def begin_elsewhere(self) -> None:
        """Starts a second process of a task, which clients reach as the first one."""
        chaos = self.chaos
        if HERE in chaos.busy or "disk-task-" in chaos.busy:
            return  # a process that ends while its disk is full cannot say what its log lacks
        name = chaos.one_of("task-")
        if name is not None:
            chaos.busy.add(HERE)
            self.begun += 1
            self.world.start_second(name)
            chaos.happened["second processes elsewhere"] += 1
            self.look_second(name, time.monotonic() + LONGEST)

    def look_second(self, name: str, end: float) -> None:
        """Waits until the second process asks to be let in, and then for no time, or for a while."""
        self.start_overtaken(name)
        chaos, second = self.chaos, self.world.seconds[name]
        if heard_by(self.world.second_address(name)) is None and second.is_alive() and time.monotonic() < end:
            chaos.after(LOOKED, partial(self.look_second, name, end))
        else:
            chaos.after(chaos.random.choice((0.0, chaos.random.uniform(0, LEASE))), partial(self.lose_first, name))

    def lose_first(self, name: str) -> None:
        """Kills the first process, lets it end or stand still, cuts it off from all planes, or does nothing."""
        first, chaos = self.world.processes[name], self.chaos
        how = chaos.random.choice(LOST if self.begun == 1 else (*LOST, CUT, CUT, WELL))
        how = HOW.get(self.world.words.bug, how)
        if how == KILLED:
            first.kill()
        elif how == ENDS:
            first.ask_to_end()
        elif how == FROZEN:
            first.stop()
        elif how == CUT:
            chaos.cut_caller(name)
        chaos.happened[f"second processes while the first one {how}"] += 1
        seconds = chaos.random.uniform(1.5 * LEASE, 3 * LEASE)
        chaos.after(seconds, partial(self.mend_first, name, how, time.monotonic() + LONGEST))

    def mend_first(self, name: str, how: str, end: float) -> None:
        """Lets the first process go on, or starts it again, once the second one is let in if the first is lost."""
        self.start_overtaken(name)
        first, second, is_late = self.world.processes[name], self.world.seconds[name], time.monotonic() > end
        is_let_in = (heard_by(self.world.second_address(name)) or 0) > 0
        is_lost = how in LOST
        if not is_late and (is_lost and not is_let_in or how == ENDS and first.is_alive()):
            self.chaos.after(LOOKED, partial(self.mend_first, name, how, end))
            return
        self.let_in += is_let_in
        if is_lost and not is_let_in:
            self.faults.append(f"{second.name} was not let in, though the first one {how}")
        overtaken = self.world.overtaken[name] + (is_let_in and how == FROZEN)
        first.go_on()
        self.world.start(name)
        self.end_second(name, overtaken, time.monotonic() + LONGEST)

    def start_overtaken(self, name: str) -> None:
        """Starts the second process again, as its supervisor does, if the first one began another life while it
        waited: then it was overtaken."""
        second = self.world.seconds[name]
        if self.world.was_overtaken(second):
            self.world.start_process(second)
            self.chaos.happened["second processes overtaken while they waited"] += 1

    def end_second(self, name: str, overtaken: int, end: float) -> None:
        """Kills the second process, or lets it end, once the first one has ended so often as it was overtaken."""
        world, chaos, second = self.world, self.chaos, self.world.seconds[name]
        if world.overtaken[name] < overtaken:
            if time.monotonic() < end:
                chaos.after(LOOKED, partial(self.end_second, name, overtaken, end))
                return
            if not world.waits(name):  # as one that drew a later life than the second one
                self.faults.append(f"{name} went on after it was frozen and {second.name} was let in")
        if second.has_ended() and not world.was_overtaken(second):
            self.faults.append(f"{second.name} ended by itself")
        if chaos.random.random() < 0.5:
            second.kill()
        else:
            second.ask_to_end()
        world.send_to_first(name)
        chaos.busy.discard(HERE)
        chaos.look(name)

    # With the folder of the first. --------------------------------------------------------------

    def begin_beside(self) -> None:
        """Starts a second process of a task with the folder of state of the first one, which runs or stands still."""
        name = self.chaos.one_of("task-")
        if name is not None:
            if self.chaos.random.random() < 0.5:
                self.world.processes[name].stop()
            self.beside += 1
            self.world.start_beside(name)
            self.chaos.happened["second processes with the folder of the first"] += 1
            self.look_beside(name, time.monotonic() + LONGEST)

    def look_beside(self, name: str, end: float) -> None:
        """Looks whether it has ended with why."""
        beside = self.world.beside[name]
        if beside.is_alive() and time.monotonic() < end:
            self.chaos.after(LOOKED, partial(self.look_beside, name, end))
            return
        said = self.world.said(beside).strip()
        if f"another process of {name.replace('-', ' ')} runs here: it has locked the file" not in said:
            self.faults.append(f"{beside.name} says {said[-200:]!r} in place of that the folder is locked")
        beside.kill()
        self.chaos.again(name)
