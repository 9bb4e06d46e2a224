"""Members of an etcd that tests start and stop."""

from collections.abc import Iterator
from concurrent.futures import ThreadPoolExecutor
from contextlib import ExitStack, contextmanager

from conftest import folder_for_engines
from hourstable.demo import engines


@contextmanager
def members_of_etcd() -> Iterator[tuple[list[engines.Engine], str]]:
    """Three members of one etcd, which have started, and the URL of all of them."""
    with folder_for_engines() as top, ExitStack() as stack:
        members = engines.etcd_members(top / "etcd", 3)
        for member in members:
            stack.callback(member.kill)
        with ThreadPoolExecutor(len(members)) as pool:
            list(pool.map(engines.Engine.start, members))
        hosts = ",".join(member.url.removeprefix("etcd://") for member in members)
        yield members, f"etcd://{hosts}"
