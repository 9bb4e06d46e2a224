"""Stores that tests open."""

from collections.abc import AsyncIterator
from contextlib import asynccontextmanager

from hourstable.store import DEADLINE, Store, open_store


@asynccontextmanager
async def opened(url: str, deadline: float = DEADLINE) -> AsyncIterator[Store]:
    """The store of a URL, which is closed at the end."""
    store = await open_store(url, deadline)
    try:
        yield store
    finally:
        await store.close()
