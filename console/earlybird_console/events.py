"""Readers of events. Each has room for so much that it hasn't read; one that is slower is dropped."""
import asyncio
import json
import socket

from earlybird_web.server import Fault

from . import limits
from .documents import key_of
from .shown import for_page, for_programs

# for a page: seconds without matches after some, and how much of those that come meanwhile is sent, the newest
PAUSE = 0.1
# seconds after which a reader is told that the console is there
SILENCE = 15
MOST = 50
BYTES = 1 << 18


def event(data, name=None):
    """One server-sent event; the data has no line's end."""
    return (("event: %s\n" % name if name else "") + "data: %s\n\n" % data).encode("utf-8", "replace")


class Reader:
    """A program that reads the messages that meet a query."""

    def __init__(self, console, writer, number, asked):
        self.number = number
        self.asked = asked
        self._console = console
        self.gone = asyncio.Event()
        self._writer = writer
        # (what the kernel holds for it is bounded too)
        writer.get_extra_info("socket").setsockopt(socket.SOL_SOCKET, socket.SO_SNDBUF, limits.KERNEL_EVENTS)

    def send(self, data):
        """Sends bytes, or drops the reader where too many are unread."""
        transport = self._writer.transport
        if self.gone.is_set() or transport.is_closing():
            self.gone.set()
        elif transport.get_write_buffer_size() + len(data) > limits.UNREAD_EVENTS:
            transport.abort()
            self.gone.set()
        else:
            self._writer.write(data)

    def meet(self, messages):
        """Tells of messages that meet the query, in the order in which they were accepted."""
        for each in messages:
            each.event = each.event or event(for_programs(*self._row(each)))
        self.send(b"".join(each.event for each in messages))

    def _row(self, message):
        return key_of(message.at, message.seq), message.at, self._console.texts.sources[message.source], message.raw

    def close(self):
        """Ends it."""
        self.gone.set()


class PageReader(Reader):
    """A page: it gets the newest of what came in a moment, and how many came. `marking` is held by one page at a time, so that what many
    pages want to have marked leaves others the event loop."""

    def __init__(self, console, writer, number, asked, marking):
        super().__init__(console, writer, number, asked)
        self._marking = marking
        self._count = 0
        self._newest = []
        self._telling = None

    def meet(self, messages):
        """Tells of messages that meet the query, at once or a moment later."""
        self._count += len(messages)
        self._newest = (self._newest + messages)[-MOST:]
        if self._telling is None:
            self._telling = asyncio.ensure_future(self._tell())

    async def _tell(self):
        while self._count and not self.gone.is_set():
            async with self._marking:
                count, self._count, newest, self._newest = self._count, 0, self._newest, []
                shown, size, marker = [], 0, self._console.asking.marker(self.asked)
                for each in reversed(newest):
                    shown.append(for_page(marker, *self._row(each)))
                    size += len(shown[-1])
                    if size > BYTES:
                        break
                    await marker.rest()
            self.send(event('{"count":%d,"matches":[%s]}' % (count, ",".join(shown)), "matches"))
            await asyncio.sleep(PAUSE)
        self._telling = None

    def close(self):
        """Ends it."""
        if self._telling is not None:
            self._telling.cancel()
        super().close()


class Streams:
    """What answers requests for events."""

    def __init__(self, console, told):
        self._console = console
        self._told = told
        self._readers = set()
        self._pages = set()
        self._marking = asyncio.Lock()

    async def answer(self, request):
        """Tells of what comes, until one side ends it."""
        if len(self._readers) >= limits.READERS:
            raise Fault(503, "too many readers of events")
        asked = self._console.asking.read(request.query.get("q", ""))
        page, writer = request.query.get("for") == "page", request.connection.writer
        reader = await self._console.standing.begin_reading(
            asked, lambda number: PageReader(self._console, writer, number, asked, self._marking) if page else Reader(self._console, writer, number, asked))
        self._readers.add(reader)
        try:
            request.begin("text/event-stream")
            reader.send(b"retry: 1000\n\n" + event("{}", "begun"))
            if page:
                reader.send(event(json.dumps(self._told(), ensure_ascii=False), "figures"))
                self._pages.add(reader)
            await self._until_gone(reader, request)
        finally:
            reader.close()
            self._readers.discard(reader)
            self._pages.discard(reader)
            self._console.standing.end_reading(reader)

    @staticmethod
    async def _until_gone(reader, request):
        """Waits until the reader is dropped or has gone; says something now and then, so that it is known."""
        closing = asyncio.ensure_future(request.connection.closed())
        gone = asyncio.ensure_future(reader.gone.wait())
        try:
            while not (await asyncio.wait((closing, gone), timeout=SILENCE, return_when=asyncio.FIRST_COMPLETED))[0]:
                reader.send(b": \n\n")
        finally:
            closing.cancel()
            gone.cancel()

    async def tell_pages(self):
        """Tells all pages the figures, once a second."""
        while True:
            await asyncio.sleep(1)
            if self._pages:
                data = event(json.dumps(self._told(), ensure_ascii=False), "figures")
                for reader in list(self._pages):
                    reader.send(data)
