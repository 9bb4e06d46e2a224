"""A client of the service that counts: adds to the counts of sixty keys, and says whether one went back.

usage: ask.py TASK=HOST:PORT..
"""
import asyncio
import sys

import aiohttp

from hourstable.client import Again, Router

TASKS = {int(task): address for task, _, address in (it.partition("=") for it in sys.argv[1:])}


async def add(router: Router, session: aiohttp.ClientSession, key: str) -> int:
    async def attempt(task: int) -> int:
        try:
            async with session.post(f"http://{TASKS[task]}/counts/{key}") as answer:
                if answer.status != 200:
                    raise Again
                return int(await answer.text())
        except aiohttp.ClientError as why:
            raise Again from why

    return await router.send(key, attempt, patience=30)


async def main() -> None:
    keys = [f"key-{it}" for it in range(60)]
    async with Router("http://127.0.0.1:8070", "shop") as router, aiohttp.ClientSession() as session:
        first = await asyncio.gather(*(add(router, session, it) for it in keys))
        second = await asyncio.gather(*(add(router, session, it) for it in keys))
    rose = sum(one < other for one, other in zip(first, second))
    print(f"{len(first) + len(second)} answers, {rose} of {len(keys)} counts rose")


asyncio.run(main())
