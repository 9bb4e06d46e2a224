"""Rows in PostgreSQL that refuse late writers. It compares values of bytea byte by byte, as tokens are compared.

A row that was deleted has no value and keeps its fence. At READ COMMITTED, the default, a statement that meets a row
which another transaction has locked waits for it, and compares with the fence that is committed then.
"""

import psycopg

from late import Late

TABLE = """
CREATE TABLE IF NOT EXISTS rows (
    key text PRIMARY KEY, value bytea, fence bytea NOT NULL, revision bigint NOT NULL DEFAULT 0
)
"""
TAKE = """
INSERT INTO rows (key, fence) VALUES (%s, %s)
ON CONFLICT (key) DO UPDATE SET fence = excluded.fence WHERE rows.fence <= excluded.fence
RETURNING value
"""
PUT = """
INSERT INTO rows (key, value, fence) VALUES (%s, %s, %s)
ON CONFLICT (key) DO UPDATE
SET value = excluded.value, fence = excluded.fence, revision = rows.revision + 1 WHERE rows.fence <= excluded.fence
RETURNING revision
"""


class Rows:
    """The rows of a database. One thread uses it."""

    def __init__(self, url: str) -> None:
        self._base = psycopg.connect(url, autocommit=True)
        self._base.execute(TABLE)

    def take(self, key: str, token: bytes) -> bytes | None:
        """Raises the fence of a key, and returns its value then, in one statement: what a new owner does first.
        Raises Late."""
        found = self._base.execute(TAKE, (key, token)).fetchall()
        if not found:
            raise Late(key)
        value: bytes | None = found[0][0]
        return value

    def put(self, key: str, token: bytes, value: bytes | None) -> int:
        """Writes a value, and returns its revision; None deletes the value, and keeps the fence. Raises Late."""
        found = self._base.execute(PUT, (key, value, token)).fetchall()
        if not found:
            raise Late(key)
        revision: int = found[0][0]
        return revision

    def close(self) -> None:
        self._base.close()
