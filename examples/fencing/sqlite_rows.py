"""Rows in SQLite that refuse late writers. SQLite compares blobs byte by byte, as tokens are compared.

A row that was deleted has no value and keeps its fence.
"""

import sqlite3
from pathlib import Path

from late import Late

TABLE = """
CREATE TABLE IF NOT EXISTS rows (
    key TEXT PRIMARY KEY, value BLOB, fence BLOB NOT NULL, revision INTEGER NOT NULL DEFAULT 0
) WITHOUT ROWID
"""
TAKE = """
INSERT INTO rows (key, fence) VALUES (?, ?)
ON CONFLICT (key) DO UPDATE SET fence = excluded.fence WHERE fence <= excluded.fence
RETURNING value
"""
PUT = """
INSERT INTO rows (key, value, fence) VALUES (?, ?, ?)
ON CONFLICT (key) DO UPDATE
SET value = excluded.value, fence = excluded.fence, revision = rows.revision + 1 WHERE fence <= excluded.fence
RETURNING revision
"""


class Rows:
    """The rows of a file. One thread uses it."""

    def __init__(self, path: Path, wait: float = 5.0) -> None:
        self._file = sqlite3.connect(path, timeout=wait, isolation_level=None)
        self._file.execute("PRAGMA journal_mode = WAL")
        self._file.execute(TABLE)

    def take(self, key: str, token: bytes) -> bytes | None:
        """Raises the fence of a key, and returns its value then, in one statement: what a new owner does first.
        Raises Late."""
        found = self._file.execute(TAKE, (key, token)).fetchall()
        if not found:
            raise Late(key)
        value: bytes | None = found[0][0]
        return value

    def put(self, key: str, token: bytes, value: bytes | None) -> int:
        """Writes a value, and returns its revision; None deletes the value, and keeps the fence. Raises Late."""
        found = self._file.execute(PUT, (key, value, token)).fetchall()
        if not found:
            raise Late(key)
        revision: int = found[0][0]
        return revision

    def close(self) -> None:
        self._file.close()
