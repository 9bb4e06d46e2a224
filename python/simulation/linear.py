"""Whether the history of each key is linearizable: a search for each key over the operations that may
come next, with the states that were seen."""

from hourstable.demo.shelf import IDS, NOTHING

from .example import FOR_EVER, Operation, Shelf

MOST_STATES = 200_000  # of the search for a key
NAMED = 6  # operations of a history that is not linearizable that are named


def faults(shelf: Shelf) -> list[str]:
    """Returns what is wrong in what clients were told, and on the shelf: a write that came late and was taken."""
    found = []
    for key, row in sorted(shelf.rows.items()):
        for before, after in zip((NOTHING, *row), row):
            if (after.version, after.ids[1:]) != (before.version + 1, before.ids[: IDS - 1]):
                found.append(f"{key}: version {after.version} is not made of version {before.version}")
    for key, history in sorted(shelf.history.items()):
        made = {session.ids[0] for session in shelf.rows.get(key, [])}
        lost = [it for it in history if it.write and it.ended < FOR_EVER and it.write not in made]
        found += [f"{key}: acknowledged, and not on the shelf: {it}" for it in lost]
        stuck = search(history)
        if stuck is not None:
            found.append(f"{key}: not linearizable after {', '.join(map(str, stuck[-NAMED:]))}")
    return found


def search(history: list[Operation]) -> list[Operation] | None:
    """Returns None if an order of the operations explains all that was read: one in which each comes
    between its begin and its end, and a read finds the last write and the number of writes before
    it. Else it returns the longest beginning of such an order. A write whose caller was told nothing
    may be left out."""
    operations = sorted(history)
    must = sum(1 << at for at, it in enumerate(operations) if it.ended < FOR_EVER)
    seen: set[tuple[int, str]] = set()
    longest: list[int] = []
    stack: list[tuple[int, str, list[int]]] = [(0, "", [])]
    while stack:
        done, last, order = stack.pop()
        if done & must == must:
            return None
        if (done, last) in seen:
            continue
        seen.add((done, last))
        if len(seen) > MOST_STATES:
            return None  # not decided
        if len(order) > len(longest):
            longest = order
        written = sum(operations[at].write is not None for at in order)
        for at in reversed(_next(operations, done)):
            it = operations[at]
            if it.write is not None:
                stack.append((done | 1 << at, it.write, [*order, at]))
            elif (it.version, it.found) == (written, last):
                stack.append((done | 1 << at, last, [*order, at]))
    return [operations[at] for at in longest]


def _next(operations: list[Operation], done: int) -> list[int]:
    """Returns the operations that may come next: those that began before each other one ended."""
    left = [at for at in range(len(operations)) if not done >> at & 1]
    end = min(operations[at].ended for at in left)
    return [at for at in left if operations[at].begun <= end]
