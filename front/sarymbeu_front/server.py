"""Routes, and one run of the front from the first to the last request."""
import asyncio
import json
import logging
import signal
import time
from collections.abc import Awaitable, Callable

from aiohttp import web

from .bodies import MAX_BODY
from .child import Child, lock_folder
from .faults import Fault, unavailable
from .housekeeping import Housekeeping
from .limits import AllLimits, read_limits
from .metrics import Metrics
from .pushes import Pushes
from .queries import Queries
from .resent import Resent
from .settings import Settings
from .stamps import SECOND

log = logging.getLogger("front")
# How long a start waits for the folder that another front, or the program it left, still has; in seconds.
LOCK_WAIT = 60.0
# The front's own statuses: it could not start, and it has a fault.
BAD_SETTINGS, FAULT = 2, 70
Handler = Callable[[web.Request], Awaitable[web.Response]]


class Front:
    """One run of the program, and what answers requests by it."""

    def __init__(self, settings: Settings, limits: AllLimits):
        self.settings = settings
        self.metrics = Metrics(lambda: self.child.pid)
        self.child = Child([settings.program, settings.settings_file, settings.folder], self.metrics, settings.channels)
        self.housekeeping = Housekeeping(self.child, self.metrics, settings)
        self.resent = Resent(self.child.ask, self.housekeeping.checkpoint)
        self.pushes = Pushes(self.child, limits, self.resent, self.metrics, settings)
        self.queries = Queries(self.child.ask, settings)
        self.counting = asyncio.Lock()
        self.ready = False
        self.stopping = False
        self.active = 0

    def application(self) -> web.Application:
        """All routes."""
        application = web.Application(middlewares=[self._outcome], client_max_size=MAX_BODY)
        waits = self._when_ready
        application.add_routes(
            [
                web.post("/loki/api/v1/push", waits(self.pushes.handle)),
                web.get("/loki/api/v1/query_range", waits(self.queries.range)),
                web.get("/loki/api/v1/query", waits(self.queries.instant)),
                web.get("/loki/api/v1/labels", waits(self.queries.labels)),
                web.get("/loki/api/v1/label", waits(self.queries.labels)),
                web.get("/loki/api/v1/label/{name}/values", waits(self.queries.values)),
                web.get("/loki/api/v1/series", waits(self.queries.series)),
                web.post("/flush", waits(self._flush)),
                web.get("/ready", waits(self._ready)),
                web.get("/metrics", self._metrics),
                web.get("/config", self._config),
                web.get("/services", self._services),
            ]
        )
        return application

    @web.middleware
    async def _outcome(self, request: web.Request, handler: Handler) -> web.StreamResponse:
        """Turns a Fault into its answer, and counts requests."""
        self.active += 1
        status = 500
        try:
            response = await handler(request)
            status = response.status
            return response
        except Fault as fault:
            status = fault.status
            headers = {} if fault.retry_after is None else {"Retry-After": str(fault.retry_after)}
            return web.Response(status=fault.status, text=fault.text, headers=headers)
        except web.HTTPException as answer:
            status = answer.status
            raise
        finally:
            self.active -= 1
            route = request.match_info.route.resource
            self.metrics.requests.labels(route.canonical if route is not None else "other", status).inc()

    def _when_ready(self, handler: Handler) -> Handler:
        """The handler, with 503 in its place before the program has answered once, and when the front or the program ends."""

        async def answer(request: web.Request) -> web.Response:
            if self.stopping or self.child.ended.is_set():
                raise unavailable("the front is ending\n")
            if not self.ready:
                raise unavailable("not ready: the program reads its folder\n")
            return await handler(request)

        return answer

    async def _ready(self, _: web.Request) -> web.Response:
        return web.Response(text="ready\n")

    async def _metrics(self, _: web.Request) -> web.Response:
        if self.ready and not self.child.ended.is_set():
            # One at a time: of two channels the later reply could have the earlier counts, and these never fall.
            async with self.counting:
                reply = await self.child.ask({"cmd": "board"})
            self.metrics.board.shards = reply.get("board", [])
        return web.Response(body=self.metrics.page(), headers={"Content-Type": "text/plain; version=0.0.4; charset=utf-8"})

    async def _flush(self, _: web.Request) -> web.Response:
        reply = await self.housekeeping.flush(forced=True)
        failed = "error" in reply or reply["flush"]["failed"] > 0
        return web.json_response(reply, status=500 if failed else 200)

    async def _config(self, _: web.Request) -> web.Response:
        return web.Response(text=self.settings.page())

    async def _services(self, _: web.Request) -> web.Response:
        state = "Running" if self.ready else "Starting"
        state = "Stopping" if self.stopping or self.child.ended.is_set() else state
        return web.Response(text=f"ingestd => {state}\nhousekeeping => {state}\n")

    async def run(self) -> None:
        """Waits for the first reply, which comes behind recovery, then keeps house until it is cancelled.

        Raises Fault where the program ends.
        """
        began = time.monotonic()
        reply = await self.child.begin()
        # Where no shard has an entry, nothing that is sent can have been taken before.
        self.resent.fresh = not any(shard.get("accepted", 1) for shard in reply.get("board", [{}]))
        self.ready = True
        log.info("ready after %.3f seconds: %s", time.monotonic() - began, json.dumps(reply))
        await self.housekeeping.run()

    async def drain(self) -> None:
        """Takes nothing more in, and waits for the requests that are being answered, as long as the settings say."""
        self.stopping = True
        until = time.monotonic() + self.settings.shutdown_timeout / SECOND
        while self.active and time.monotonic() < until:
            await asyncio.sleep(0.01)
        if self.active:
            log.warning("%d requests were not answered in time", self.active)

    async def flush_at_the_end(self) -> None:
        """A forced flush, of which the log tells."""
        try:
            log.info("flush at the end: %s", json.dumps(await self.housekeeping.flush(forced=True)))
        except Fault as fault:
            log.error("no flush at the end: %s", fault.text.rstrip())


def stopper() -> asyncio.Event:
    """What SIGTERM and SIGINT set from now on."""
    stop = asyncio.Event()
    for number in (signal.SIGTERM, signal.SIGINT):
        asyncio.get_running_loop().add_signal_handler(number, stop.set)
    return stop


async def serve(settings: Settings) -> int:
    """Runs the front until a signal or the end of the program, and gives the status to end with."""
    try:
        limits = read_limits(settings.settings_file)
        handle = lock_folder(settings.folder, LOCK_WAIT)
        front = Front(settings, limits)
        stop = stopper()
        await front.child.start((handle,))
    except (OSError, ValueError) as fault:
        log.error("no start: %s", fault)
        return BAD_SETTINGS
    # The front unpacks bodies itself, so that none grows beyond its bound.
    runner = web.AppRunner(front.application(), access_log=log if settings.access_log else None, auto_decompress=False)
    await runner.setup()
    site = web.TCPSite(runner, settings.listen_address, settings.listen_port)
    try:
        await site.start()
    except OSError as fault:
        log.error("no start: %s", fault)
        await front.child.end()
        return BAD_SETTINGS
    log.info("listening on %s, port %d", settings.listen_address, settings.listen_port)
    try:
        return await _until_the_end(front, site, stop)
    finally:
        await runner.cleanup()


async def _until_the_end(front: Front, site: web.TCPSite, stop: asyncio.Event) -> int:
    """Waits for a signal or the end of the program, ends in order, and gives the program's status."""
    work = asyncio.create_task(front.run())
    waits = [asyncio.create_task(stop.wait()), asyncio.create_task(front.child.ended.wait()), work]
    await asyncio.wait(waits, return_when=asyncio.FIRST_COMPLETED)
    if not front.child.ended.is_set():
        await site.stop()
        await front.drain()
        work.cancel()
        if front.settings.flush_on_shutdown and front.ready:
            await front.flush_at_the_end()
    else:
        log.error("the program has ended by itself")
    status = await front.child.end()
    log.info("report: %s, status %d", json.dumps(front.child.report), status)
    for task in waits:
        task.cancel()
    ended = (await asyncio.gather(*waits, return_exceptions=True))[-1]
    if not isinstance(ended, (Fault, asyncio.CancelledError)):
        log.error("housekeeping ended by a fault of the front", exc_info=ended)
        return status or FAULT
    return status
