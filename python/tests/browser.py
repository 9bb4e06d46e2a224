"""A headless Chromium of Debian for tests, by its protocol of development tools."""

import asyncio
import base64
import itertools
import json
import os
import shutil
import subprocess
import tempfile
from collections.abc import AsyncIterator, Callable
from contextlib import asynccontextmanager
from pathlib import Path
from typing import Any

import aiohttp

PATIENCE = 30.0
KEYS = {"Enter": ("Enter", 13, "\r"), "Tab": ("Tab", 9, "\t"), "Space": (" ", 32, " ")}


def missing() -> str:
    """Says why there is no browser, nothing if there is one."""
    return "" if shutil.which("chromium") else "there is no chromium (tools/setup tests)"


class Tab:
    """A page of the browser."""

    def __init__(self, socket: aiohttp.ClientWebSocketResponse) -> None:
        self._socket, self._numbers = socket, itertools.count(1)
        self.faults: list[str] = []  # what the console and the policy of the page complain of

    async def do(self, method: str, **given: object) -> dict[str, Any]:
        number = next(self._numbers)
        await self._socket.send_json({"id": number, "method": method, "params": given})
        async with asyncio.timeout(PATIENCE):
            while True:
                told = await self._socket.receive_json()
                if told.get("id") == number:
                    assert "error" not in told, told
                    result: dict[str, Any] = told["result"]
                    return result
                self._note(told)

    def _note(self, told: dict[str, Any]) -> None:
        if told.get("method") == "Runtime.exceptionThrown":
            self.faults.append(json.dumps(told["params"]["exceptionDetails"])[:500])
        elif told.get("method") == "Log.entryAdded":
            entry = told["params"]["entry"]
            if entry["level"] == "error":
                self.faults.append(f"{entry['source']}: {entry['text']}")

    async def open(self, url: str) -> None:
        await self.do("Page.navigate", url=url)

    async def value(self, expression: str) -> Any:
        """Returns the value of an expression in the page."""
        told = await self._evaluated(expression)
        assert "exceptionDetails" not in told, told
        return told["result"].get("value")

    async def _evaluated(self, expression: str) -> dict[str, Any]:
        return await self.do("Runtime.evaluate", expression=expression, returnByValue=True)

    async def until(self, expression: str, holds: Callable[[Any], object] = bool) -> Any:
        """Returns the value of an expression as soon as it is as wanted. It may fail before, as
        while the page is loaded."""
        found = None
        try:
            async with asyncio.timeout(PATIENCE):
                while True:
                    told = await self._evaluated(expression)
                    found = told["result"].get("value")
                    if "exceptionDetails" not in told and holds(found):
                        return found
                    await asyncio.sleep(0.1)
        except TimeoutError:
            raise AssertionError(f"{expression} stays {found!r}") from None

    async def press(self, name: str) -> None:
        """Presses a key of the keyboard."""
        key, code, text = KEYS[name]
        given = {"key": key, "code": name, "windowsVirtualKeyCode": code}
        await self.do("Input.dispatchKeyEvent", type="keyDown", text=text, **given)
        await self.do("Input.dispatchKeyEvent", type="keyUp", **given)

    async def type(self, text: str) -> None:
        await self.do("Input.insertText", text=text)

    async def size(self, width: int, height: int, is_phone: bool = False) -> None:
        await self.do(
            "Emulation.setDeviceMetricsOverride", width=width, height=height, deviceScaleFactor=1,
            mobile=is_phone,
        )

    async def scheme(self, name: str) -> None:
        """Prefers a light or a dark page."""
        feature = {"name": "prefers-color-scheme", "value": name}
        await self.do("Emulation.setEmulatedMedia", features=[feature])

    async def picture(self, path: Path) -> None:
        """Writes what is seen as a PNG file."""
        told = await self.do("Page.captureScreenshot", format="png")
        path.write_bytes(base64.b64decode(told["data"]))


@asynccontextmanager
async def browser() -> AsyncIterator[Tab]:
    """A browser with one page, which ends with the block."""
    folder = tempfile.mkdtemp(prefix="hourstable-browser.")
    words = [
        "chromium", "--headless", "--no-sandbox", "--disable-gpu", "--no-first-run",
        "--disable-dev-shm-usage", "--remote-debugging-port=0", f"--user-data-dir={folder}",
        "about:blank",
    ]
    quiet, home = subprocess.DEVNULL, {**os.environ, "HOME": folder, "TMPDIR": folder}
    running = subprocess.Popen(words, stdout=quiet, stderr=quiet, env=home)
    try:
        port = await _port(Path(folder) / "DevToolsActivePort", running)
        async with aiohttp.ClientSession() as session:
            async with session.get(f"http://127.0.0.1:{port}/json/list") as answer:
                pages = [it for it in await answer.json() if it["type"] == "page"]
            async with session.ws_connect(
                pages[0]["webSocketDebuggerUrl"], max_msg_size=1 << 26
            ) as socket:
                tab = Tab(socket)
                for name in ("Page", "Runtime", "Log"):
                    await tab.do(f"{name}.enable")
                yield tab
    finally:
        running.terminate()
        await asyncio.to_thread(running.wait)
        shutil.rmtree(folder, ignore_errors=True)


async def _port(path: Path, running: "subprocess.Popen[bytes]") -> int:
    """Returns the port that the browser tells in a file."""
    async with asyncio.timeout(PATIENCE):
        while not (path.exists() and "\n" in path.read_text()):
            assert running.poll() is None, "chromium ended"
            await asyncio.sleep(0.05)
    return int(path.read_text().split("\n")[0])
