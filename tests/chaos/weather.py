"""The network of a run: a proxy that delays, loses and repeats messages, and cuts links."""

import json
import time
import urllib.request
from pathlib import Path

from hourstable.demo import engines
from hourstable.demo.processes import Process

HERE = Path(__file__).resolve().parent


class Weather:
    """The proxy, and how messages fare on its links."""

    def __init__(self, folder: Path, seed: int, links: dict[str, str], streams: dict[str, str]) -> None:
        self.ports = {name: engines.free_port() for name in (*links, *streams)}
        self.settings: dict[str, dict[str, object]] = {name: {} for name in self.ports}
        self.links = list(links)
        self.port = engines.free_port()
        words = [str(HERE / "proxy.py"), "--port", str(self.port), "--seed", str(seed)]
        for word, targets in (("--links", links), ("--streams", streams)):
            words += [word, json.dumps({str(self.ports[name]): target for name, target in targets.items()})]
        self.process = Process("proxy", words, folder)

    def url(self, name: str) -> str:
        return f"http://127.0.0.1:{self.ports[name]}"

    def change(self, names: list[str], **settings: object) -> None:
        """Sets how messages fare on links; those settings that are not named stay."""
        for name in names:
            self.settings[name] = {**self.settings[name], **settings}
        told = {str(self.ports[name]): it for name, it in self.settings.items()}
        url = f"http://127.0.0.1:{self.port}/settings"
        request = urllib.request.Request(url, json.dumps(told).encode(), method="POST")
        urllib.request.urlopen(request, timeout=10).close()

    def start(self) -> None:
        self.process.start()
        end = time.monotonic() + engines.PATIENCE
        while True:
            try:
                self.change([])
                return
            except OSError:
                if time.monotonic() > end:
                    raise
                time.sleep(0.05)
