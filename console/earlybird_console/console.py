"""The console: it makes messages of lines, hands them to the index, keeps what is accepted, tells who waits for messages, and starts the
index again where it ended."""
import asyncio
import collections
import itertools
import sys
import time

from earlybird_logs import message
from earlybird_logs.pieces import apart

from . import documents, limits
from .asking import Asking
from .counts import Counts
from .figures import Figures
from .index import Index, Message, Order
from .keys import Keys
from .marking import in_pieces
from .names import Names
from .standing import Standing
from .turns import Turn

# the status of a program that doesn't take its words
USAGE = 2
# bytes of messages on their way, beyond which no line is taken from a source, and what a message counts for besides
ROOM = 1 << 22
EACH = 256
# as many numbers as can be given to messages that are on their way
ON_WAY = ROOM // EACH * 2
# texts that are read at once for a new index, and that are dropped at once
PAGE = 500
# how often a text that is too long is halved
TRIES = 9


class Stopped(Exception):
    """The index program can't be started."""


class Group:
    """Lines of one source that are settled together; `place` tells how far a file is read with them."""

    def __init__(self, source, place=None):
        self.source = source
        self.place = place
        self.left = 1
        self.taken = 0
        self.refused = 0
        self.refusals = []
        self.done = asyncio.get_running_loop().create_future()

    def settle(self):
        """Counts a line as settled; whether it was the last."""
        self.left -= 1
        return self.left == 0

    def refuse(self, text, name):
        """Counts a refused line, and keeps the first of them."""
        self.refused += 1
        if len(self.refusals) < limits.REFUSALS:
            self.refusals.append((text, name))


class Console:
    """All of it but the requests. `drops` is whether the index drops its oldest messages where it has no room; `parts`, whether the console
    has to part the words that are put together of others, since the index doesn't; `words_only` are names of members whose values are no fields. `make_index` makes
    one run of the index of what takes its outcomes, and `keeps` is whether a new run has the messages of the one before."""

    def __init__(self, program, texts, alerts, drops=True, parts=False, words_only=(), make_index=Index, keeps=False):
        self.texts = texts
        self.figures = Figures()
        self.names = Names(texts.names, words_only)
        # what texts are for the index, and for the marks
        self.cut, self.fold = (apart, apart) if parts else (str, in_pieces)
        self.asking = Asking(self, parts)
        self.counts = Counts(self)
        self.standing = Standing(self, alerts)
        self.state = {"index": "starting", "starts": 0, "fed": 0, "of": texts.count, "at": None}
        self._program = program
        self._drops = drops
        self._make_index, self._keeps = make_index, keeps
        self._full = False
        self._index = None
        self._ready = asyncio.Event()
        self._held = collections.deque()
        self._on_way = 0
        self._roomy = asyncio.Event()
        self._roomy.set()
        self._ending = False
        # (an index that keeps may have messages that were on their way when a console was killed: no other message gets their numbers)
        self._seq = texts.newest + (ON_WAY if keeps and texts.newest else 0)
        # by source: the time of its last message that has one
        self._times = {}
        self._keys = Keys(documents.key_of(at, seq) for seq, at in texts.times())

    # the index's life

    async def run(self):
        """Keeps an index running until `end`. Raises Stopped where it can't be started."""
        pause = 0.1
        while not self._ending:
            index, status = await self._run_once()
            if self._ending:
                return
            if not self._ready.is_set() and not index.answered:
                raise Stopped("the index program ended with the status %d%s" % (status, ": its words" if status == USAGE else ""))
            print("earlybird-console: the index ended with the status %d and is started again" % status, file=sys.stderr, flush=True)
            await asyncio.sleep(pause)
            pause = 0.1 if time.monotonic() - index.begun > 10 else min(pause * 2, 5)

    async def _run_once(self):
        self.state.update(index="starting", fed=0, of=self.texts.count)
        index = self._make_index(self._settled)
        try:
            await index.start(self._program)
        except OSError as fault:
            raise Stopped("the index program can't be started: %s" % (fault.strerror or fault)) from fault
        self._index = index
        feeding = asyncio.ensure_future(self._feed(index))
        try:
            status = await index.ended()
        finally:
            feeding.cancel()
        self.state["index"] = "starting"
        self._held.extendleft(reversed(index.unsettled()))
        return index, status

    async def _feed(self, index):
        """Feeds a new index: the texts that are kept, where it hasn't them, the watches, and what waited meanwhile."""
        last, now, turn = 0, int(time.time() * 1000), Turn()
        while True:
            rows = [] if self._keeps else self.texts.after(last, PAGE)
            group = Group("the texts")
            for seq, at, source, raw in rows:
                group.left += 1
                made = documents.document(documents.key_of(at, seq), message.read(raw, now), self.texts.sources[source], self.names.words_only, self.cut)
                index.send(Message(made, raw, group, seq, at, source, again=True))
                await turn.rest()
            order = Order(b"?1 a", again=True)
            index.send(order)
            await order.outcome
            if not rows:
                break
            last = rows[-1][0]
            self.state["fed"] += len(rows)
        for line in self.standing.lines():
            index.send(Order(line, again=True))
        self.state.update(index="running", starts=self.state["starts"] + 1, at=int(time.time() * 1000))
        while self._held:
            index.send(self._held.popleft())
        self._ready.set()

    def send(self, what):
        """Sends a message or an order to the index, or once there is one."""
        if self.state["index"] == "running":
            self._index.send(what)
        else:
            self._held.append(what)

    async def end(self):
        """Ends the index, and with it `run`."""
        self._ending = True
        if self._index:
            await self._index.close()

    # messages

    @property
    def keys(self):
        """The ids of the messages that are kept, in order."""
        return self._keys.all()

    async def hand_in(self, lines, source, place=None):
        """Hands in lines of a source, without their ends, once there is room; gives their group, whose `done` comes when all are settled."""
        while not self._roomy.is_set():
            await self._roomy.wait()
        group, turn = Group(source, place), Turn()
        now, of = int(time.time() * 1000), self.texts.source(source)
        for line in lines:
            if line.strip():
                self._hand_in_one(group, line, now, of)
            await turn.rest()
        if self._on_way > ROOM:
            self._roomy.clear()
        if group.settle():
            self.texts.add([], [place] if place else [])
            group.done.set_result(None)
        return group

    def _hand_in_one(self, group, line, now, of):
        # (a number more, and two messages could have one id)
        if not self._drops and (self._full or self._seq - self.texts.oldest >= documents.SPAN - ON_WAY):
            self._refuse(group, line, "full")
            return
        said = message.read(line, now)
        when = said.when
        if when is not None:
            self._times[of] = when
        elif line.startswith(b"{"):
            when = now
        else:
            # (a line of text without a time is of the message before it, as those of a stack are)
            when = self._times.get(of, now)
        self.names.note(said.fields)
        found = self.names.found()
        if found:
            self.standing.set_anew(found)
        self._seq += 1
        made = documents.document(documents.key_of(when, self._seq), said, group.source, self.names.words_only, self.cut)
        group.left += 1
        self._on_way += len(line) + EACH
        self.send(Message(made, line, group, self._seq, when, of))

    def _refuse(self, group, line, name):
        text = line[:300].decode("utf-8", "replace")
        group.refuse(text, name)
        self.figures.refuse(group.source, text, name)

    def _settled(self, accepted, refused, met):
        """Takes in what a piece of the index's output settles."""
        new = [each for each in accepted if each.again is None]
        for each in new:
            each.group.taken += 1
        settled = list(new)
        for each, name in refused:
            if name == "too long" and each.tries < TRIES:
                each.tries += 1
                each.line = documents.shorter(each.line)
                self.send(each)
            elif each.again is None:
                self._full = self._full or name == "full" and not self._drops
                self._refuse(each.group, each.raw, name)
                settled.append(each)
            else:
                self.texts.drop_one(each.seq)
                self._keys.drop([documents.key_of(each.at, each.seq)])
        groups = [each.group for each in settled if each.group.settle()]
        places = [group.place for group in groups if group.place]
        if new or places:
            self.texts.add([(each.seq, each.at, each.source, each.raw) for each in new], places, self.names.changed())
            self.figures.accept(len(new))
            self._keys.add(documents.key_of(each.at, each.seq) for each in new)
        for group in groups:
            group.done.set_result(None)
        self._on_way -= sum(len(each.raw) + EACH for each in settled)
        if self._on_way <= ROOM:
            self._roomy.set()
        self.standing.tell(met)

    async def texts_of(self, ids):
        """(id, time, source, line) of each id, and how many are left out where all would be too many bytes."""
        found, size, turn = [], 0, Turn()
        for place, key in enumerate(ids):
            row = self.row(key)
            # (one that was dropped since the answer has no text any more)
            if row is None:
                continue
            size += len(row[3])
            if size > limits.ANSWER and found:
                return found, len(ids) - place
            found.append((key, row[1], self.texts.sources[row[2]], row[3]))
            await turn.rest()
        return found, 0

    def size_of(self, ids):
        """The bytes of the messages of these ids."""
        return self.texts.size([documents.number_of(key, self._seq) for key in ids])

    def row(self, key):
        """The message of an id, (number, time, source, line), or None."""
        found = self.texts.one(documents.number_of(key, self._seq))
        return found if found and documents.key_of(found[1], found[0]) == key else None

    # what the index dropped

    async def drop_gone(self):
        """Drops, once a second, the texts of messages that the feed has dropped."""
        while True:
            await asyncio.sleep(1)
            if not self._drops:
                continue
            await self._ready.wait()
            most = documents.SPAN - 2 * ON_WAY
            if self.texts.newest - self.texts.oldest > most:
                await self._drop_below(self.texts.newest - most)
            oldest = self.texts.from_here(0)
            if not oldest or not await self._gone(*oldest):
                continue
            low, high = oldest[0], self.texts.newest + 1
            while low + 1 < high:
                row = self.texts.from_here((low + high) // 2)
                if row and row[0] < high and await self._gone(*row):
                    low = row[0]
                else:
                    high = (low + high) // 2
            await self._drop_below(low + 1)

    async def _drop_below(self, seq):
        while True:
            gone = self.texts.drop(seq, PAGE)
            self._keys.drop(documents.key_of(at, each) for each, at in gone)
            if len(gone) < PAGE:
                return
            await asyncio.sleep(0)

    async def _gone(self, seq, at):
        """Whether the index doesn't have a message any more."""
        key = documents.key_of(at, seq)
        order = Order(b"?1 since:%d -since:%d" % (key - 1, key))
        self.send(order)
        kind, value = await order.outcome
        return kind == "seen" and not value[1]

    def told(self):
        """The figures of each second."""
        sources = list(itertools.islice(self.texts.sources.values(), limits.SOURCES_TOLD))
        return {
            **self.figures.told(),
            "kept": self.texts.count,
            "state": self.state,
            "sources": sources,
            "words_only": sorted(self.names.words_only)[:limits.SOURCES_TOLD],
            **self.standing.told(),
        }
