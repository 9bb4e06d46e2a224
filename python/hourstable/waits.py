"""GETs of a control plane that wait until something is due."""

from collections.abc import Callable

from aiohttp import web

from hourstable import beats
from hourstable.answers import failure
from hourstable.connections import end_if_unheard
from hourstable.jobs import Job
from hourstable.tickets import Tickets

LONGEST_WAIT = 30.0  # seconds
CUT_OFF = "the plane does not reach its store, and others may know more"


class Waits:
    """The calls of a plane that wait. A caller that left is noticed after a beat, and so is that the plane is cut off
    from its store: others may do its jobs then, and their callers are to ask those."""

    def __init__(self, tickets: Tickets, now: Callable[[], float], is_cut_off: Callable[[], bool]) -> None:
        self._tickets, self._now, self._is_cut_off = tickets, now, is_cut_off
        self.is_closing = False  # whether nothing is waited for any more
        self.waiting = 0  # calls

    async def get(
        self, request: web.Request, job: Job, is_due: Callable[[], bool], answer: Callable[[], web.Response]
    ) -> web.StreamResponse:
        """Waits until something is due of a job, for LONGEST_WAIT seconds at most, and answers. Nobody waits at a
        plane that is cut off."""
        assert job.policy is not None
        beat = job.policy.guard / 1000 / beats.PART
        takes_beats = request.headers.get(beats.HEADER) == beats.TAKES
        stream: web.StreamResponse | None = None
        until = self._now() + LONGEST_WAIT
        self.waiting += 1
        try:
            while not (is_due() or self._is_to_end()) and (left := until - self._now()) > 0:
                if request.transport is None:
                    return web.Response(status=204)  # nobody reads it
                if stream is not None:
                    await stream.write(beats.BEAT)
                elif takes_beats:
                    stream = await _begun(request, beat)
                await job.changed(min(left, beat))
            made = answer() if is_due() or not self._is_cut_off() else failure(503, CUT_OFF, 1, refused="store")
            if stream is None:
                made.headers[beats.HEADER] = _milliseconds(beat)
                return made
            await stream.write(self._later(made).packed())
        except ConnectionError:
            return web.Response(status=204)  # nobody reads it
        finally:
            self.waiting -= 1
        return stream

    def _is_to_end(self) -> bool:
        """Whether nothing is waited for any more."""
        return self.is_closing or self._is_cut_off()

    def _later(self, made: web.Response) -> beats.Later:
        """Returns an answer with its ticket, which is drawn after what it tells."""
        try:
            ticket = self._tickets.draw()
        except (OSError, OverflowError) as error:
            made, ticket = failure(503, f"no ticket can be drawn: {error}", 1, refused="disk"), 0
        body = made.body if isinstance(made.body, bytes) else b""
        return beats.Later(made.status, str(ticket), body)


async def _begun(request: web.Request, beat: float) -> web.StreamResponse:
    """Begins to answer, and lets the kernel notice a peer that is silent."""
    headers = {
        beats.HEADER: _milliseconds(beat), "Content-Type": beats.KIND, "Cache-Control": "no-store",
        "X-Accel-Buffering": "no",  # a proxy that keeps beats back takes them away
    }
    stream = web.StreamResponse(headers=headers)
    end_if_unheard(request.transport, beats.silence(beat) + beat)
    await stream.prepare(request)
    return stream


def _milliseconds(beat: float) -> str:
    return str(max(1, round(1000 * beat)))
