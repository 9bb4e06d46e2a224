"""A task in Python that answers GET /KEY with the number of the task, or 503 where it may not serve
the key. It prints its port, and ends at SIGTERM."""

import asyncio
import signal
import sys

from aiohttp import web

from hourstable.task import Denied, LeaseLost, Task


async def main(control: str, job: str, number: int, folder: str) -> None:
    ended = asyncio.Event()
    asyncio.get_running_loop().add_signal_handler(signal.SIGTERM, ended.set)
    async with Task(control, job, number, logs=folder, report=0.5) as task:

        async def answer(request: web.Request) -> web.Response:
            try:
                async with task.serving(request.match_info["key"]):
                    return web.Response(text=str(number))
            except (Denied, LeaseLost):
                return web.Response(status=503)

        app = web.Application()
        app.add_routes([web.get("/{key}", answer)])
        runner = web.AppRunner(app)
        await runner.setup()
        await web.TCPSite(runner, "127.0.0.1", 0, shutdown_timeout=0.1).start()
        print(runner.addresses[0][1], flush=True)
        await ended.wait()
        await runner.cleanup()


asyncio.run(main(sys.argv[1], sys.argv[2], int(sys.argv[3]), sys.argv[4]))
