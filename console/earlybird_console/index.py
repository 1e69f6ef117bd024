"""One run of the index program over pipes. Lines go in and are answered in one order, so once a line is answered all lines before it
are settled: a message of which nothing was printed is accepted."""
import asyncio
import collections
import os
import signal
import time

from .lines import PROBE, read_printed

# what is sent at once, and what may be unsettled before more is sent: lines and bytes
LINES = 512
BYTES = 1 << 18
UNSETTLED = 1 << 18
PIECE = 1 << 18


class Message:
    """A message on its way: the document that the index gets, the line as it came, its number among all, its time in milliseconds, and the
    number of its source. `again` is whether it was accepted by an earlier run of the program, `in_cluster` whether a cluster took it."""

    __slots__ = ("line", "raw", "group", "seq", "at", "source", "again", "tries", "event", "in_cluster")

    def __init__(self, line, raw, group, seq, at, source, again=None):
        self.line = line
        self.raw = raw
        self.group = group
        self.seq = seq
        self.at = at
        self.source = source
        self.again = again
        self.tries = 0
        self.in_cluster = False
        # what readers of events are told of it, once one wants it
        self.event = None


class Order:
    """A query, or a line that sets or removes a watch. Its outcome comes once: what `read_printed` tells, or ("done", None) for a line that
    prints nothing. `again` is whether it is for this run of the program alone."""

    def __init__(self, line, again=None):
        self.line = line
        self.outcome = asyncio.get_running_loop().create_future()
        self.again = again


class Probe:
    """A line that settles those before it."""

    line = PROBE


class Index:
    """The program. `taken` is called with what each piece of its output settles: the accepted messages in order, the refused ones with their
    refusals, and (watch's number, message) for each that was met."""

    def __init__(self, taken):
        self._taken = taken
        self._process = None
        self._waiting = collections.deque()
        # (what is asked stands before messages that aren't sent yet, so that it doesn't wait for a flood of them)
        self._orders = collections.deque()
        self._sent = collections.deque()
        self._unsettled = 0
        self._number = 0
        self._wake = asyncio.Event()
        self._tasks = []
        self.answered = False
        self.begun = None

    async def start(self, words):
        """Starts the program, in a process group of its own."""
        self._process = await asyncio.create_subprocess_exec(
            *words, stdin=asyncio.subprocess.PIPE, stdout=asyncio.subprocess.PIPE, limit=PIECE, start_new_session=True)
        self.begun = time.monotonic()
        self._tasks = [asyncio.ensure_future(self._send()), asyncio.ensure_future(self._receive())]

    @property
    def pid(self):
        """The number of the process."""
        return self._process.pid

    def send(self, what):
        """Puts a message after those that are to be sent, and an order before them, unless it is of this run's beginning."""
        (self._orders if isinstance(what, Order) and not what.again else self._waiting).append(what)
        self._wake.set()

    def _next_part(self):
        part, size = [], 0
        while (self._orders or self._waiting) and len(part) < LINES and size < BYTES:
            part.append((self._orders or self._waiting).popleft())
            size += len(part[-1].line)
        if isinstance(part[-1], Message) or part[-1].line.startswith(b"!"):
            part.append(Probe)
        return part

    async def _send(self):
        try:
            while True:
                while not (self._orders or self._waiting) or self._unsettled > UNSETTLED:
                    self._wake.clear()
                    await self._wake.wait()
                part = self._next_part()
                data = b"".join([each.line + b"\n" for each in part])
                self._sent.extend(part)
                self._unsettled += len(data)
                self._process.stdin.write(data)
                await self._process.stdin.drain()
        except (BrokenPipeError, ConnectionResetError):
            pass

    async def _receive(self):
        rest = b""
        while True:
            piece = await self._process.stdout.read(PIECE)
            if not piece:
                return
            self.answered = True
            *lines, rest = (rest + piece).split(b"\n")
            self._settle(lines)
            # (so that no flood of answers holds those who wait for the loop)
            await asyncio.sleep(0)

    def _settle(self, lines):
        accepted, refused, met, orders = [], [], [], []
        for line in lines:
            printed = read_printed(line)
            if not printed:
                continue
            number, kind, value = printed
            while self._number < number and self._sent:
                self._number += 1
                what = self._sent.popleft()
                self._unsettled -= len(what.line) + 1
                last = self._number == number
                if isinstance(what, Message):
                    if last and kind == "refused":
                        refused.append((what, value))
                    else:
                        accepted.append(what)
                        met.extend((each, what) for each in (value if last else ()))
                elif isinstance(what, Order):
                    orders.append((what, (kind, value) if last else ("done", None)))
        self._wake.set()
        for order, outcome in orders:
            if not order.outcome.done():
                order.outcome.set_result(outcome)
        self._taken(accepted, refused, met)

    async def ended(self):
        """Waits for the end of the program, and gives its status."""
        try:
            await self._tasks[1]
        except BaseException:
            self._process.kill()
            raise
        finally:
            self._tasks[0].cancel()
        return await self._process.wait()

    def unsettled(self):
        """The messages and orders of which nothing is known, in order, once the program ended."""
        return [each for each in [*self._sent, *self._orders, *self._waiting]
                if each is not Probe and each.again is None]

    async def close(self):
        """Ends the program: its input ends, and where that isn't enough, signals end it."""
        self._process.stdin.close()
        for name in (signal.SIGTERM, signal.SIGKILL):
            try:
                await asyncio.wait_for(asyncio.shield(asyncio.ensure_future(self._process.wait())), 5)
                break
            except asyncio.TimeoutError:
                try:
                    os.killpg(self._process.pid, name)
                except ProcessLookupError:
                    pass
        self._tasks[0].cancel()
