"""What the benches of bench/ send to a plane is answered: they are run by hand, and show it late if it is not."""

import asyncio
import importlib.util
from pathlib import Path
from types import ModuleType
from urllib.parse import urlsplit

import needed

needed.library()

from hourstable.store import Store  # noqa: E402
from serving import POLICY, running  # noqa: E402

CALLERS = Path(__file__).resolve().parents[2] / "bench/service_in/callers.py"


def callers_of_benches() -> ModuleType:
    spec = importlib.util.spec_from_file_location("callers_of_benches", CALLERS)
    assert spec is not None and spec.loader is not None
    module = importlib.util.module_from_spec(spec)
    spec.loader.exec_module(module)
    return module


async def test_the_requests_of_benches_are_answered(file: Store, tmp_path: Path) -> None:
    request_of = callers_of_benches().request_of
    async with running(file, tmp_path / "logs") as (_, caller):
        at = urlsplit(caller.url)
        reader, writer = await asyncio.open_connection(at.hostname, at.port)
        for method, path, body, status in (
            ("PUT", "/jobs/shop", POLICY, 201), ("GET", "/jobs/shop/phase", None, 200),
            ("POST", "/jobs/shop/tasks/1/life", None, 200), ("POST", "/jobs/shop/take", {"assigner": 1}, 200),
            ("POST", "/jobs/shop/grant", {"task": 1, "life": 1}, 409),  # nothing is assigned yet
        ):
            writer.write(request_of(method, path, body))
            head = await asyncio.wait_for(reader.readuntil(b"\r\n\r\n"), 20.0)
            assert head.startswith(b"HTTP/1.1 %d " % status), (path, head)
            length = int(head.lower().partition(b"content-length: ")[2].split(b"\r\n")[0])
            await reader.readexactly(length)
        writer.close()
