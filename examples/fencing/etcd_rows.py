"""Rows in etcd that refuse late writers, by its JSON gateway: for each key two, the value and the fence.

A transaction compares values byte by byte, as tokens are compared. It has no "at most", but a value is below the
token with a byte of zero after it exactly if it is at most the token. A fence that is not there is looked for first,
and compared in a transaction inside that one.
"""

import base64
import json
import urllib.request
from typing import Any

from late import Late

Members = dict[str, Any]


class Rows:
    """The rows of a server, below a prefix."""

    def __init__(self, url: str, prefix: str = "/rows/", wait: float = 5.0) -> None:
        self._url, self._prefix, self._wait = url.rstrip("/"), prefix, wait

    def take(self, key: str, token: bytes) -> bytes | None:
        """Raises the fence of a key, and returns its value then, in one transaction: what a new owner does first.
        Raises Late."""
        found, _ = self._fenced(key, token, {"requestRange": {"key": self._value(key)}})
        rows = found[-1]["response_range"].get("kvs", [])
        return base64.b64decode(rows[0].get("value", "")) if rows else None

    def put(self, key: str, token: bytes, value: bytes | None) -> int:
        """Writes a value, and returns its revision; None deletes the value, and keeps the fence. Raises Late."""
        if value is None:
            request: Members = {"requestDeleteRange": {"key": self._value(key)}}
        else:
            request = {"requestPut": {"key": self._value(key), "value": _text(value)}}
        _, revision = self._fenced(key, token, request)
        return revision

    def _fenced(self, key: str, token: bytes, request: Members) -> tuple[list[Members], int]:
        """Raises the fence and does a request, or neither. Returns the responses, and the revision of the
        transaction. Raises Late."""
        fence = _text(f"{self._prefix}fence/{key}".encode())
        done = [{"requestPut": {"key": fence, "value": _text(token)}}, request]
        is_new = {"key": fence, "target": "CREATE", "result": "EQUAL", "createRevision": "0"}
        is_up_to = {"key": fence, "target": "VALUE", "result": "LESS", "value": _text(token + b"\0")}
        inner = {"compare": [is_up_to], "success": done}
        told = self._post({"compare": [is_new], "success": done, "failure": [{"requestTxn": inner}]})
        revision = int(told["header"]["revision"])
        if not told.get("succeeded"):
            told = told["responses"][0]["response_txn"]
            if not told.get("succeeded"):
                raise Late(key)
        responses: list[Members] = told["responses"]
        return responses, revision

    def _value(self, key: str) -> str:
        return _text(f"{self._prefix}value/{key}".encode())

    def _post(self, body: Members) -> Members:
        asked = urllib.request.Request(f"{self._url}/v3/kv/txn", json.dumps(body).encode())
        with urllib.request.urlopen(asked, timeout=self._wait) as answer:
            told: Members = json.load(answer)
        return told


def _text(some: bytes) -> str:
    return base64.b64encode(some).decode()
