"""What a trace warns of, the stretches of a key and the ends of handles, as calls are played."""

from __future__ import annotations

from .machines import Machines
from .reasons import Refer
from .tasks import Members

TABLE_CLOCK = frozenset("take renew propose commit grant free restore".split())
TASK_CLOCK = frozenset("start hear release serve hold check".split())
FIRST: tuple[int, int | None] = (0, None)


class Watch:
    """The readings so far, and the first that is not timely."""

    def __init__(self, skew: int) -> None:
        self.skew, self.greatest = skew, FIRST
        self.table: list[tuple[int, int]] = []  # readings of the table's clock that are above all before
        self.untimely: Members | None = None

    def see(self, number: int, do: str, at: int, refer: Refer) -> int | None:
        """Sees the reading of a call. Returns the table's greatest reading if that of a task is not timely."""
        if do in TABLE_CLOCK:
            if at > self.greatest[0]:
                self.greatest = (at, number)
                self.table.append((at, number))
            return None
        if do not in TASK_CLOCK or self.greatest[0] - self.skew <= at:
            return None
        if self.untimely is None:
            first = next(it for it in self.table if it[0] > at + self.skew)
            found = {"task": (at, number), "first": first, "greatest": self.table[-1]}
            self.untimely = {name: {"at": str(read), **refer(call)} for name, (read, call) in found.items()}
        return self.greatest[0]


def not_owner(machines: Machines, task: int, slice_key: int) -> int | None:
    """Returns the committed generation if a task does not own a key in it."""
    generation, owners = machines.owners(slice_key)
    return None if task in owners else generation


class Stretches:
    """The readings at which each process of each task may serve a key."""

    def __init__(self, machines: Machines, slice_key: int) -> None:
        self.machines, self.slice_key = machines, slice_key
        self.pieces: dict[tuple[int, int], list[tuple[int, int, Members]]] = {}
        self.seen: dict[tuple[int, int], int] = {}  # how many calls of a process were seen

    def see(self, number: int) -> None:
        """Sees what a task knows after a call of it."""
        task = self.machines.tasks.get(number)
        if task is None or not task.accepted or task.accepted[-1].do == "open":
            return
        which = (number, task.process)
        if self.seen.get(which) == len(task.accepted):
            return
        self.seen[which] = len(task.accepted)
        kept = [(first, min(end, task.last), lease) for first, end, lease in self.pieces.get(which, [])]
        at = task.last
        while found := task.served_until(self.slice_key, at):
            kept.append((at, found[0], found[1]))
            at = found[0]
        self.pieces[which] = [it for it in kept if it[0] < it[1]]

    def all(self) -> list[Members]:
        """Returns the stretches: pieces that touch and have one lease are one."""
        found: list[Members] = []
        for (task, process), pieces in sorted(self.pieces.items()):
            joined: list[tuple[int, int, Members]] = []
            for first, end, lease in pieces:
                if joined and joined[-1][1] == first and joined[-1][2] == lease:
                    joined[-1] = (joined[-1][0], end, lease)
                else:
                    joined.append((first, end, lease))
            found += [
                {"task": task, "process": process, "from": str(first), "to": str(end), "lease": lease}
                for first, end, lease in joined
            ]
        return found


class Handles:
    """The first reading at which each handle is broken, by the calls of the process that gave it."""

    def __init__(self, machines: Machines) -> None:
        self.machines = machines
        self.breaks: list[int] = []
        self.taken: list[tuple[int, int]] = []  # by which process, at which reading
        self.is_broken: list[bool] = []

    def hold(self, at: int) -> None:
        """Sees that the last handle was taken at a reading."""
        handle = self.machines.handles[-1]
        task = self.machines.tasks[handle["task"]]
        self.taken.append((task.process, at))
        self.breaks.append(task.serving_end(int(handle["slice_key"]), at))
        self.is_broken.append(False)

    def see(self, number: int) -> None:
        """Sees what a task knows after it accepted a call."""
        task = self.machines.tasks[number]
        for index, handle in enumerate(self.machines.handles):
            process, taken = self.taken[index]
            if self.is_broken[index] or handle["task"] != number or process != task.process:
                continue
            first = max(taken, task.last)
            if task.keeps(handle, first):
                self.breaks[index] = task.serving_end(int(handle["slice_key"]), first)
            else:
                self.breaks[index] = min(self.breaks[index], task.last)
                self.is_broken[index] = True

    def all(self) -> list[Members]:
        """Returns when each handle breaks, in the order of the tasks that gave them."""
        order = sorted(range(len(self.breaks)), key=lambda it: int(self.machines.handles[it]["task"]))
        return [{"handle": index + 1, "breaks": str(self.breaks[index])} for index in order]
