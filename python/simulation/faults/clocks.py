"""Faults of clocks."""

from ..world import SECOND
from .base import Strike, kind

DAYS = 2 * 86_400 * SECOND


@kind
def strike_set_clock(strike: Strike) -> None:
    """The real time of a host is set."""
    host = strike.any("plane", "task").host
    by = int(strike.rng.gauss(0, 30) * SECOND)
    host.wall += by
    strike.tell(f"{host.address} by {by / SECOND:.3f} s")


@kind
def strike_wrong_day(strike: Strike) -> None:
    """The real time of a host is two days ahead for a while, as after a boot with a bad clock."""
    host = strike.any("plane", "task").host
    host.wall += DAYS
    strike.tell(host.address)
    strike.lasts(4, lambda: setattr(host, "wall", host.wall - DAYS))


@kind
def strike_wrong_rate(strike: Strike) -> None:
    """The clocks of a host run faster or slower than any drift allows, until the last fault of them ends."""
    host = strike.any("plane", "task").host
    drift = strike.cluster.scene.drift
    host.set_rate(strike.rng.choice((-drift, -drift // 10, drift // 10, drift)))
    host.wrong_rates += 1
    strike.tell(f"{host.address} runs at {host.ppm} ppm")

    def mend() -> None:
        host.wrong_rates -= 1
        if not host.wrong_rates:
            host.set_rate(host.own_rate)

    strike.lasts(strike.leases(4), mend)


@kind
def strike_jump(strike: Strike) -> None:
    """The clocks of a host jump ahead, which those of Linux do not."""
    host = strike.any("plane", "task").host
    by = int(strike.rng.choice((0.1, 1.0, strike.leases(1))) * SECOND)
    host.jump(by)
    strike.tell(f"{host.address} by {by / SECOND} s")
