"""How much a process keeps: the lengths of the containers that its program reaches.

Only objects of the package, the values of its metrics, locks of asyncio and containers of Python are looked into. So
the lengths are those of what the package keeps, and not of what the simulator or the library keeps for it.
"""

from collections import Counter as Counts
from collections import deque
from collections.abc import Iterable, Mapping
from functools import lru_cache, partial
from types import MethodType
from typing import Any

OWN = ("hourstable.", "asyncio.locks")  # modules whose objects are looked into
METRICS, VALUES = "prometheus_client.", ("_metrics",)  # a module of which only these attributes are looked into
LISTS = (list, set, deque)
PLAIN = (int, float, str, bytes, bool, type(None))
Found = tuple[str, Any]  # a place, and what stands there


def sizes_of(program: object) -> Counts[str]:
    """Returns the lengths of the containers that a program reaches, summed up by where they stand: the class, and the
    attribute."""
    made: Counts[str] = Counts()
    seen: set[int] = set()
    left: list[Found] = [("", program)]
    while left:
        place, it = left.pop()
        kind: type = type(it)
        looks, counts = _looks_into(kind)
        if not looks or id(it) in seen:
            continue
        seen.add(id(it))
        if counts:
            made[place] += len(it)
        left += _parts(place, it)
    return made


@lru_cache(4096)
def _looks_into(kind: type) -> tuple[bool, bool]:
    """Returns whether objects of a class may have parts, and whether they are containers that count."""
    counts = issubclass(kind, (Mapping, *LISTS))
    is_known = kind.__module__.startswith((*OWN, METRICS))
    has_parts = counts or is_known or issubclass(kind, (tuple, partial, MethodType))
    return has_parts and not issubclass(kind, PLAIN), counts


def _parts(place: str, it: Any) -> Iterable[Found]:
    """Returns what an object has, each with its place."""
    if isinstance(it, Mapping):
        return [(place, part) for pair in list(it.items()) for part in pair]
    if isinstance(it, (*LISTS, tuple)):
        return [(place, part) for part in list(it)]
    if isinstance(it, partial):
        return [(place, part) for part in (it.func, *it.args, *it.keywords.values())]
    if isinstance(it, MethodType):
        return [(place, it.__self__)]
    kind = type(it)
    if isinstance(it, type) or not kind.__module__.startswith((*OWN, METRICS)):
        return ()
    named = dict(getattr(it, "__dict__", {}))
    named |= {name: getattr(it, name, None) for base in kind.__mro__ for name in getattr(base, "__slots__", ())}
    if kind.__module__.startswith(METRICS):
        named = {name: named[name] for name in VALUES if name in named}
    return [(f"{kind.__qualname__}.{name}", part) for name, part in named.items()]
