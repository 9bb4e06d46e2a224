"""Rows in Redis that refuse late writers: a hash for each key, with the value and the fence.

A script compares two texts by the locale of the server, so a fence is in hexadecimal, whose order is that of the
tokens in each locale. Redis may lose its last writes at a crash, and the fence with them: with `appendfsync always`
it answers after they are on the disk, and a replica that takes over may still lack them.
"""

from typing import Protocol

from late import Late

TAKE = """
local fence = redis.call('HGET', KEYS[1], 'fence')
if fence and fence > ARGV[1] then return redis.error_reply('LATE') end
redis.call('HSET', KEYS[1], 'fence', ARGV[1])
return redis.call('HGET', KEYS[1], 'value')
"""
PUT = """
local fence = redis.call('HGET', KEYS[1], 'fence')
if fence and fence > ARGV[1] then return redis.error_reply('LATE') end
redis.call('HSET', KEYS[1], 'fence', ARGV[1], 'value', ARGV[2])
return redis.call('HINCRBY', KEYS[1], 'revision', 1)
"""
DELETE = """
local fence = redis.call('HGET', KEYS[1], 'fence')
if fence and fence > ARGV[1] then return redis.error_reply('LATE') end
redis.call('HSET', KEYS[1], 'fence', ARGV[1])
redis.call('HDEL', KEYS[1], 'value')
return redis.call('HINCRBY', KEYS[1], 'revision', 1)
"""


class Redis(Protocol):
    """A client, such as redis.Redis of redis-py."""

    def eval(self, script: str, numkeys: int, *keys_and_args: str | bytes) -> bytes | int | None:
        """Runs a script. Raises an exception with the text of its error."""


class Rows:
    """The rows of a server."""

    def __init__(self, redis: Redis) -> None:
        self._redis = redis

    def take(self, key: str, token: bytes) -> bytes | None:
        """Raises the fence of a key, and returns its value then, in one script: what a new owner does first. Raises
        Late."""
        value = self._run(TAKE, key, token.hex())
        assert value is None or isinstance(value, bytes)
        return value

    def put(self, key: str, token: bytes, value: bytes | None) -> int:
        """Writes a value, and returns its revision; None deletes the value, and keeps the fence. Raises Late."""
        if value is None:
            revision = self._run(DELETE, key, token.hex())
        else:
            revision = self._run(PUT, key, token.hex(), value)
        assert isinstance(revision, int)
        return revision

    def _run(self, script: str, key: str, *given: str | bytes) -> bytes | int | None:
        try:
            return self._redis.eval(script, 1, key, *given)
        except Exception as why:
            if "LATE" in str(why):
                raise Late(key) from why
            raise
