"""A plugin of pytest that records which functions of the package each test calls, and for how long it runs.

The file that RECORDED names gets JSON: `calls` has of each file the names of its functions, each with tests, and
`seconds` has each test. What other processes call is not in it.
"""

import json
import os
import sys
import threading
import time
from collections import defaultdict
from collections.abc import Generator
from types import FrameType
from typing import Any

import pytest

PACKAGE = f"{os.sep}hourstable{os.sep}"

calls: dict[str, dict[str, set[str]]] = defaultdict(lambda: defaultdict(set))
seconds: dict[str, float] = {}
called: set[Any] = set()  # codes


def profile(frame: FrameType, event: str, _: object) -> None:
    if event == "call":
        called.add(frame.f_code)


def pytest_runtest_protocol(item: pytest.Item) -> Generator[None, Any, None]:
    called.clear()
    begun = time.monotonic()
    threading.setprofile(profile)
    sys.setprofile(profile)
    yield
    sys.setprofile(None)
    threading.setprofile(None)
    seconds[item.nodeid] = round(time.monotonic() - begun, 2)
    for code in list(called):
        folder, package, file = code.co_filename.rpartition(PACKAGE)
        if package:
            calls[file][code.co_name].add(item.nodeid)


pytest.hookimpl(hookwrapper=True)(pytest_runtest_protocol)


def pytest_sessionfinish() -> None:
    told = {file: {name: sorted(tests) for name, tests in of.items()} for file, of in calls.items()}
    with open(os.environ["RECORDED"], "w", encoding="utf-8") as out:
        json.dump({"calls": told, "seconds": seconds}, out)
