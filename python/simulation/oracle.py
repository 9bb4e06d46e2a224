"""Who held a key when, as the application saw it. It knows nothing of the library.

A block of `serving` that was entered at one moment and checked with success at a later one says that
its process held the key all the time between. So where a key has one owner, no two such stretches of
different processes may overlap, be they of one task or of two. And at random moments all processes
are asked for a key at one moment, also those that stand still, since they may go on now.
"""

from dataclasses import dataclass, field

from hourstable.task import Denied, Lease, LeaseLost, Task

from .world import SECOND, Process, World

KEPT = 64  # stretches of a key that are compared


@dataclass(eq=False)
class Block:
    """A block of `serving`: from when on it is open, and until when it was seen to hold."""

    key: str
    process: Process
    lease: Lease
    since: int
    until: int = -1


@dataclass
class Oracle:
    world: World
    owners: dict[str, int]  # keys, and how many may own each
    faults: list[str] = field(default_factory=list)
    blocks: dict[str, list[Block]] = field(default_factory=dict)
    open: dict[str, dict[Block, None]] = field(default_factory=dict)
    checked: int = 0
    probed: int = 0

    def enter(self, key: str, process: Process, lease: Lease) -> Block:
        block = Block(key, process, lease, self.world.now)
        others = self.open.setdefault(key, {})
        self._probe(block, list(others))
        others[block] = None
        return block

    def leave(self, block: Block) -> None:
        self.open[block.key].pop(block, None)

    def _probe(self, block: Block, others: list[Block]) -> None:
        """Asks all blocks of a key at one moment whether their check succeeds."""
        asked = [it for it in others if it.process is not block.process and _may_go_on(it.process)]
        if not asked:
            return
        self.probed += 1
        holders = [it for it in (block, *asked) if self._holds(it)]
        if len({it.process for it in holders}) > self.owners[block.key]:
            self._fault(block.key, "blocks are open and", [it.process for it in holders])

    def _holds(self, block: Block) -> bool:
        try:
            with self.world.inside(block.process):
                block.lease.check()
            return True
        except LeaseLost:
            return False

    def hold(self, block: Block, at: int) -> None:
        """Notes that the block was checked with success; `at` is when the check was begun."""
        self.checked += 1
        block.until = at
        known = self.blocks.setdefault(block.key, [])
        over = [
            it for it in known if it.process is not block.process
            and max(it.since, block.since) < min(it.until, block.until)
        ]
        if self._most_at_once([*over, block]) > self.owners[block.key]:
            self._fault(block.key, f"until {at / SECOND:.6f}", [it.process for it in (*over, block)])
        if block not in known:
            known.append(block)
            if len(known) > KEPT:
                self.blocks[block.key] = known[-KEPT // 2:]

    @staticmethod
    def _most_at_once(blocks: list[Block]) -> int:
        """Returns by how many processes a key was held at the begin of one of the stretches."""
        return max(
            len({it.process for it in blocks if it.since <= begin.since < max(it.until, it.since + 1)})
            for begin in blocks
        )

    def scan(self, tasks: list[tuple[Process, Task]], key: str) -> None:
        """Asks all processes for a key at one moment."""
        self.probed += 1
        holders = []
        for process, task in tasks:
            if not _may_go_on(process):
                continue
            with self.world.inside(process):
                try:
                    task.ask(key).check()
                    holders.append(process)
                except (Denied, LeaseLost, OSError):
                    pass
        if len(holders) > self.owners[key]:
            self._fault(key, "asked at once", holders)

    def _fault(self, key: str, how: str, holders: list[Process]) -> None:
        names = " and ".join(sorted({f"{it.name}/{it.number}" for it in holders}))
        self.faults.append(f"{self.world.now / SECOND:.6f}: {key}: {how} {names} serve it")
        self.world.tell(f"UNSAFE {self.faults[-1]}")


def _may_go_on(process: Process) -> bool:
    return not (process.is_dead or process.is_stalled)
