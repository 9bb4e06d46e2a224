"""Faults of the network."""

from ..connections import End
from ..world import SECOND
from .base import Strike, kind


def _cut(strike: Strike, links: set[tuple[str, str]]) -> None:
    network = strike.cluster.network
    strike.tell(f"{sorted(links)[:3]}{' ..' if len(links) > 3 else ''}")
    network.cut |= links
    strike.lasts(strike.leases(4), lambda: network.mend(links))


@kind
def strike_cut(strike: Strike) -> None:
    """Two hosts hear no more of each other."""
    here, there = strike.any().host.address, strike.any("plane", "task").host.address
    _cut(strike, {(here, there), (there, here)})


@kind
def strike_one_way(strike: Strike) -> None:
    """A host hears no more of another one, or of all others."""
    here, there = strike.any(), strike.any("plane", "task")
    others = [there.host.address]
    if strike.rng.random() < 0.5:
        others = list(strike.cluster.network.hosts)
    links = {(here.host.address, it) for it in others}
    _cut(strike, links if strike.rng.random() < 0.5 else {link[::-1] for link in links})


@kind
def strike_pair(strike: Strike) -> None:
    """A plane hears no more of another plane or of a task, or they of it; or it does not reach the store."""
    cluster, plane = strike.cluster, strike.any("plane").host.address
    seconds = strike.rng.uniform(1, strike.leases(3))
    if strike.rng.random() < 0.25:
        strike.tell(f"{plane} does not reach the store")
        cluster.engine.frozen[plane] = strike.world.now + int(seconds * SECOND)
        strike.lasts_for(seconds, lambda: cluster.engine.frozen.pop(plane, None))
        return
    others = [it.host.address for it in (*cluster.of("plane"), *cluster.of("task")) if it.host.address != plane]
    link = plane, strike.rng.choice(others)
    links = {link if strike.rng.random() < 0.5 else link[::-1]}
    strike.tell(f"{sorted(links)}")
    cluster.network.cut |= links
    strike.lasts_for(seconds, lambda: cluster.network.mend(links))


@kind
def strike_part(strike: Strike) -> None:
    """The network falls in two parts, or one of them does not hear the other."""
    addresses = list(strike.cluster.network.hosts)
    left = {it for it in addresses if strike.rng.random() < 0.5}
    right = set(addresses) - left
    both = strike.rng.random() < 0.7
    _cut(strike, {link for a in left for b in right for link in ((a, b), (b, a) if both else (a, b))})


@kind
def strike_slow(strike: Strike) -> None:
    """A host is far away for a while."""
    network, address = strike.cluster.network, strike.any().host.address
    times = strike.rng.choice((30.0, 300.0, 3000.0))
    links = {link for it in network.hosts for link in ((it, address), (address, it))}
    network.slow.update(dict.fromkeys(links, times))
    strike.tell(f"{address} is {times} times slower to reach")

    def mend() -> None:
        for link in links:
            network.slow.pop(link, None)

    strike.lasts(strike.leases(3), mend)


@kind
def strike_slow_reader(strike: Strike) -> None:
    """A process reads none of its connections for a while. Of exchanges all are slow."""
    service, network = strike.any(), strike.cluster.network
    if not strike.cluster.scene.is_whole:
        strike_slow(strike)
        return
    until = strike.world.now + int(strike.rng.uniform(0, strike.leases(2)) * SECOND)
    for one in network.traffic:
        if isinstance(one, End) and one.process is service.process:
            one.reads_after = until
    strike.tell(f"{service.name} until {until / SECOND:.3f}")


@kind
def strike_reset(strike: Strike) -> None:
    """Connections of a host are reset, or turn into black holes."""
    address = strike.any("plane", "task").host.address
    how = strike.rng.choice(("reset", "lost", "half"))
    for one in strike.cluster.network.between(address):
        if strike.rng.random() < 0.5:
            if how == "reset":
                one.break_off()
            else:
                one.lose(both=how == "lost")
    strike.tell(f"{address}: {how}")
