"""The cluster over HTTP: `POST /documents`, `POST /queries`, `GET /status` and `GET /metrics`, each by a router of its own thread."""
import asyncio
import contextlib
import json
import signal
import sys
import time
from concurrent.futures import ThreadPoolExecutor

from earlybird_web import limits
from earlybird_web.server import Fault, Server

from . import machine, names, status
from .lines import blocks_of, count_of
from .router import ENTRY, LOST, OtherInput, Router

THREADS = 8  # requests that are worked on at once; further ones wait
SMALL = 1 << 16  # bytes of a body that always has room
LARGE = 32  # larger bodies that are kept at once: those that come, and those that are worked on or wait for that
PACE = 1 << 18  # bytes a second with which a larger one has to come, after its first second, where others wait for room
LOOK = 0.25  # seconds between two looks for one that is slower
TOLD = 10000  # lines that one answer tells of as refused or pending
QUERIES = 1000  # lines of one request
IDS = 100000  # ids, and numbers of counts, that they may ask for together
LINES = "application/x-ndjson"


class Service:
    """Answers requests for one cluster."""

    def __init__(self, url, name, patience, guard):
        self._url, self._name, self._patience, self._guard = url, name, patience, guard
        self._threads = ThreadPoolExecutor(THREADS)
        self._room = asyncio.Semaphore(LARGE)
        self._coming = {}  # requests whose larger bodies aren't whole yet, and since when they come
        self._idle = []  # routers

    async def handle(self, request):
        """Answers one request."""
        self._guard.stop_strangers(request)
        if not self._guard.bears(request):
            raise Fault(401, "the token is needed")
        routes = {("/documents", "POST"): self._documents, ("/queries", "POST"): self._queries, ("/status", "GET"): self._status, ("/metrics", "GET"): self._metrics}
        route = routes.get((request.path, request.method))
        if route is None:
            known = any(request.path == path for path, _ in routes)
            raise Fault(405 if known else 404, "there is no %s %s" % (request.method[:20], request.path[:100]))
        try:
            await route(request)
        except names.NotSetUp as fault:
            raise Fault(503, str(fault)) from fault
        except LOST as lost:
            raise Fault(503, "Redis: %s" % lost) from lost

    @contextlib.asynccontextmanager
    async def _body(self, request):
        """The body of a request, which has its room until nothing more is done with it."""
        large = SMALL < request.length <= limits.BODY
        if large:
            await self._make_room()
        try:
            if large:
                self._coming[request] = time.monotonic()
            try:
                text = b"".join([piece async for piece in request.pieces()])
            finally:
                self._coming.pop(request, None)
            yield text
        finally:
            if large:
                self._room.release()

    async def _make_room(self):
        """Waits for room for a larger body. Those who send slowly don't hold it: the slowest is ended."""
        turn = asyncio.ensure_future(self._room.acquire())
        try:
            while not (await asyncio.wait((turn,), timeout=LOOK))[0]:
                self._end_slowest()
        except asyncio.CancelledError:
            if not turn.cancel():
                self._room.release()
            raise

    def _end_slowest(self):
        """Ends the larger body that comes with the least bytes a second, where these are less than PACE."""
        now = time.monotonic()
        paces = {each: (each.length - each.left) / (now - since) for each, since in self._coming.items() if now - since > 1}
        slowest = min(paces, key=paces.get, default=None)
        if slowest is not None and paces[slowest] < PACE:
            del self._coming[slowest]
            slowest.connection.server.ended["room"] += 1
            slowest.connection.abort()

    async def _in_thread(self, act, *given):
        return await asyncio.get_running_loop().run_in_executor(self._threads, act, *given)

    def _with_router(self, act):
        """Does something with a router that nobody else uses. One whose Redis went away isn't used again."""
        try:
            router = self._idle.pop()
        except IndexError:
            router = Router(machine.connect(self._url), self._name, self._patience)
        try:
            found = act(router)
        except BaseException:
            router.close()
            raise
        self._idle.append(router)
        return found

    # ---- what is asked

    async def _documents(self, request):
        client, first = request.query.get("client"), request.query.get("first", "1")
        if client is not None and not names.NAME.match(client):
            raise Fault(400, "a client's name has 1 to 64 letters, digits, and . _ -")
        if not (first.isascii() and first.isdigit() and len(first) < 16 and int(first) > 0):
            raise Fault(400, "first is a number from 1 on")
        async with self._body(request) as text:
            if text and not text.endswith(b"\n"):
                text += b"\n"
            code, told = await self._in_thread(self._with_router, lambda router: add(router, text, client, int(first)))
        await request.answer_json(code, told)

    async def _queries(self, request):
        if request.length > ENTRY * 4:
            raise Fault(413, "queries have at most %d bytes" % (ENTRY * 4))
        async with self._body(request) as text:
            lines = text.split(b"\n")
            lines = lines if lines[-1] else lines[:-1]
            if len(lines) > QUERIES or sum(map(count_of, lines)) > IDS:
                raise Fault(413, "at most %d queries, which ask for at most %d ids and numbers" % (QUERIES, IDS))
            answers = await self._in_thread(self._with_router, lambda router: list(router.ask_many(lines, cut=True)))
        if any(each.text is None for each in answers):
            raise Fault(503, "no partition answered")
        await request.answer(200, b"".join(map(as_json, range(1, len(lines) + 1), answers)), LINES)

    async def _status(self, request):
        await request.answer_json(200, await self._in_thread(self._gather))

    async def _metrics(self, request):
        await request.answer(200, status.prometheus(await self._in_thread(self._gather)).encode(), "text/plain; version=0.0.4")

    def _gather(self):
        return status.gather(machine.connect(self._url), self._name)


def add(router, text, client, first):
    """Adds the lines of a request: the status of its answer, and what it tells."""
    code, fault, rows, more = 200, None, [], 0
    try:
        for number, what, why in router.add_blocks(blocks_of(text, ENTRY), client=client, first=first):
            if len(rows) < TOLD:
                rows.append({"line": number, what.decode(): why.decode("utf-8", "replace")})
            else:
                more += 1
    except OtherInput as other:
        code, fault = 409, str(other)
    except LOST as lost:
        code, fault = 503, "Redis: %s" % lost
    told = {"read": text.count(b"\n"), "client": router.adder.name, "settled": router.settled, "known": router.adder.known, "told": rows, "more": more}
    if fault:
        told["error"] = fault
    return code, told


def as_json(number, answer):
    """An answer as a line of JSON, as the program prints it with `--json`."""
    text, missing = answer
    if text.startswith(b"refused: "):
        name, at, column = text[len(b"refused: "):].decode("utf-8", "replace").partition(" at ")
        told = {"line": number, "refused": name, **({"column": int(column)} if at else {})}
    else:
        head, _, rest = text.partition(b":")
        what, seen = head.split()
        numbers = [int(each) for each in rest.split()]
        told = {"line": number, "seen": int(seen)}
        if what == b"seen":
            told["ids"] = numbers
        else:
            told.update(count=numbers[0], **({"buckets": numbers[1:]} if numbers[1:] else {}))
    return json.dumps({**told, **({"missing": missing} if missing else {})}, separators=(",", ":")).encode() + b"\n"


async def serve(url, name, patience, host, port, guard):
    """Listens until a signal ends it. Raises OSError where it can't."""
    loop, stop = asyncio.get_running_loop(), asyncio.Event()
    for number in (signal.SIGINT, signal.SIGTERM):
        loop.add_signal_handler(number, stop.set)
    server = Server(Service(url, name, patience, guard).handle)
    port = await server.start(host, port)
    print("earlybird-cluster: http://%s:%d/" % ("[%s]" % host if ":" in host else host, port), file=sys.stderr, flush=True)
    await stop.wait()
    await server.close()
