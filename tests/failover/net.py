"""Hosts of a test, each a namespace of the network, and links between them that lose all packets while they are
cut."""

import os
import re
import subprocess
from collections.abc import Iterator, Sequence
from contextlib import contextmanager, suppress
from itertools import combinations

PREFIX = "hst"  # of the names of namespaces, before the process that made them
NAME = re.compile(rf"{PREFIX}(\d+)-")


class NoNamespaces(Exception):
    """This process may not make namespaces, or `ip` is missing."""


def ip(*words: str, of: str = "") -> None:
    """Runs `ip`, in a namespace if one is given."""
    within = ["-n", of] if of else []
    subprocess.run(["ip", *within, *words], check=True, capture_output=True, text=True)


class Net:
    """Hosts, each with an address, and a link between each two of them: a bridge to which both are tied. A link that
    is cut is untied at the bridge, so no host is told of it, and packets are lost both ways."""

    def __init__(self, number: int, hosts: Sequence[str]) -> None:
        self.hosts, self.name = list(hosts), f"{PREFIX}{os.getpid()}-{number}"
        self.addresses = {host: f"10.{200 + number}.0.{at + 1}" for at, host in enumerate(hosts)}
        self._hub = f"{self.name}-hub"

    def space(self, host: str) -> str:
        """Returns the name of the namespace of a host."""
        return f"{self.name}-{host}"

    def make(self) -> None:
        for space in (self._hub, *map(self.space, self.hosts)):
            ip("netns", "add", space)
            ip("link", "set", "lo", "up", of=space)
        for host, address in self.addresses.items():
            ip("address", "add", f"{address}/32", "dev", "lo", of=self.space(host))
        for at, (one, other) in enumerate(combinations(self.hosts, 2)):
            self._link(at, one, other)

    def _link(self, at: int, one: str, other: str) -> None:
        bridge = f"br{at}"
        ip("link", "add", bridge, "type", "bridge", of=self._hub)
        ip("link", "set", bridge, "up", of=self._hub)
        for side, (here, there) in enumerate(((one, other), (other, one))):
            port, card = self._port(here, there), f"to-{there}"
            ip("link", "add", port, "type", "veth", "peer", "name", card, of=self._hub)
            own, peer = (f"02:00:00:00:{at:02x}:{it:02x}" for it in (side, 1 - side))
            ip("link", "set", card, "address", own, "netns", self.space(here), of=self._hub)
            ip("link", "set", port, "master", bridge, "up", of=self._hub)
            ip("link", "set", card, "up", of=self.space(here))
            ways = [f"{self.addresses[there]}/32", "dev", card, "src", self.addresses[here]]
            ip("route", "add", *ways, of=self.space(here))
            known = ["lladdr", peer, "dev", card, "nud", "permanent"]  # else a cut link is told after a while
            ip("neigh", "add", self.addresses[there], *known, of=self.space(here))

    def _port(self, here: str, there: str) -> str:
        return f"{here}-{there}"

    def cut(self, one: str, other: str) -> None:
        for port in (self._port(one, other), self._port(other, one)):
            ip("link", "set", port, "nomaster", of=self._hub)

    def mend(self, one: str, other: str) -> None:
        at = [set(it) for it in combinations(self.hosts, 2)].index({one, other})
        for port in (self._port(one, other), self._port(other, one)):
            ip("link", "set", port, "master", f"br{at}", of=self._hub)

    def remove(self) -> None:
        for space in (self._hub, *map(self.space, self.hosts)):
            with suppress(subprocess.CalledProcessError):
                ip("netns", "delete", space)


def remove_left() -> None:
    """Removes the namespaces of runs that were killed."""
    listed = subprocess.run(["ip", "netns", "list"], check=False, capture_output=True, text=True).stdout
    for space in (line.split()[0] for line in listed.splitlines() if line):
        found = NAME.match(space)
        if found is not None and not os.path.exists(f"/proc/{found[1]}"):
            with suppress(subprocess.CalledProcessError):
                ip("netns", "delete", space)


@contextmanager
def net_of(number: int, hosts: Sequence[str]) -> Iterator[Net]:
    """A net, which is removed at the end. Raises NoNamespaces."""
    made = Net(number, hosts)
    try:
        made.make()
    except (OSError, subprocess.CalledProcessError) as why:
        made.remove()
        told = why.stderr.strip() if isinstance(why, subprocess.CalledProcessError) else str(why)
        raise NoNamespaces(f"no namespaces of the network can be made: {told}") from why
    try:
        yield made
    finally:
        made.remove()
