"""A worker: one of a partition's. It reads the partition's log, hands its lines to its index program, and publishes what the
program says to the routers that the entries name; and so it answers queries."""
import heapq
import itertools
import os
import socket
import sys
import time
import zlib
from bisect import bisect_right
from collections import OrderedDict

import redis as client

from . import image, names, scripts
from .entries import after, documents_of, entry_key, text_of
from .life import Life, Rates
from .lines import BATCH, LONGEST, QUERY, lines_of
from .program import ANSWER, MARK, Program, ProgramEnded
from .replies import Replies
from .wire import LOST, Push, Wire, pack

READ = 4  # entries that are read, and put into the program, at once, where they are large
MANY = 64  # where they are small
LARGE = 131072  # bytes of entries that are read at once, about
HELD = 1024  # batches of queries that may wait for their place in the log
REFUSED = 4 << 20  # bytes of refusals that are kept for routers who ask for them
CUT_STEP = 1000  # documents by which a log is cut at once, at least

__all__ = ["Worker", "ProgramEnded"]


def kept_documents(words):
    """The most documents that a feed of these words keeps, or None where the words are no feed's."""
    if not words or words[0] != "feed":
        return None
    values = {"--keep": 4, "--segments": 12, "--docs": 4096}
    rest = [piece for word in words[1:] for piece in word.split("=", 1)]
    for name, value in zip(rest, rest[1:]):
        if name in values:
            values[name] = int(value)
    return values["--keep"] * values["--segments"] * values["--docs"]


class Worker:
    """One worker of a partition, for as long as the process lives."""

    def __init__(self, redis, name, part, program, replica=0, images=None):
        self.redis, self.name, self.part, self.replica = redis, name, part, replica
        found = names.read_config(redis, name)
        if not 0 <= part < len(found.tags):
            raise names.NotSetUp("the partitions of '%s' are 0 to %d" % (name, len(found.tags) - 1))
        self.tag = found.tags[part]
        self.log = names.log(self.tag).encode()
        self.words, self.images = [program, *found.words], images
        kept = kept_documents(found.words)
        self.keep = None if kept is None and found.retain == 0 else max(kept or 0, found.retain)
        self.program = self.broken = self._generation = self._wire = None
        self.ready, self._cut = False, None
        self.last, self.last_sum, self.entries = b"0-0", 0, 0  # of the entries that the program was given
        self.documents, self.queries, self.foreign = 0, 0, 0
        self._held, self._order = [], itertools.count()
        self._refused, self._refused_bytes, self._forgotten = OrderedDict(), 0, b"0-0"
        self._marks = []
        self._replies = Replies(redis, names.log(self.tag))
        self._rates = Rates()
        Life(redis, self.tag, replica, self.says).start()

    def says(self):
        """What `status` tells of this worker."""
        documents, queries = self._rates.of(self.documents, self.queries)
        return {"pid": os.getpid(), "host": socket.gethostname(), "ready": self.ready, "documents": self.documents, "entries": self.entries,
                "last": self.last.decode(), "queries": self.queries, "foreign": self.foreign, "documents_a_second": documents,
                "queries_a_second": queries, "program_pid": self.program.pid if self.program else 0,
                "program_bytes": self.program.memory() if self.program else 0,
                "newest_image": self._newest_image()}

    def _newest_image(self):
        """The last entry in the newest image that this worker could start from."""
        found = image.newest(self.images, self.name, self.part)
        return found and found.last.decode()

    def tell(self, text):
        """A line on standard error."""
        print("%s partition %d: %s" % (time.strftime("%Y-%m-%d %H:%M:%S"), self.part, text), file=sys.stderr, flush=True)

    # ---- the log

    def serve(self):
        """Works until the program ends. Where Redis goes away, or answers anything but what was asked, it waits, and goes on
        where it was; where the log lost entries that were read, the index is built anew from it."""
        told = None
        while True:
            try:
                self._begin()
                if told:
                    self.tell("goes on")
                told = None
                while True:
                    self._step()
            except LOST as lost:
                if str(lost) != told:
                    told = str(lost)
                    self.tell(told)
                self.ready = False
                time.sleep(0.2)

    def _begin(self):
        if hasattr(self.redis, "nodes_manager"):
            self.redis.nodes_manager.initialize()
        if self._wire is not None:
            self._wire.close()
        self._wire, self._held = Wire(self.redis, self.log, pushes=True), []
        self._wire.call(b"SCRIPT", b"LOAD", scripts.CUT)
        cut = self.redis.hget(names.end(self.tag), "cut")
        if self.program is not None and not self._stands():
            self.tell("the log lost entries, the index is built anew")
            self.program.close()
            self.program = None
        if self.program is None:
            self._build(cut)
        last = self.redis.xrevrange(self.log, count=1)
        self._end = entry_key(last[0][0]) if last else (0, 0)
        self.ready, self._more = False, READ
        self._next()

    def _build(self, cut):
        """Starts the program, with the newest image where there is one that the log goes on from."""
        words, found = self.words, image.newest(self.images, self.name, self.part)
        self.last, self.last_sum, self.entries, self.documents = b"0-0", 0, 0, 0
        if found is not None and not image.is_good(found):
            self.tell("the image %s is damaged; it is named %s.bad now" % (found.path, found.path))
            os.replace(found.path, found.path + ".bad")
            found = None
        if found is not None:
            self.last, self.last_sum = found.last, found.sum
            if self._stands():
                words = [self.words[0], *image.words_for(self.words[1:], "load")]
            else:
                self.tell("the image %s isn't one of this log" % found.path)
                self.last, self.last_sum, found = b"0-0", 0, None
        if cut is not None and entry_key(self.last) < entry_key(cut):
            raise ProgramEnded("the log begins after entry %s: an image of it is needed (--images)" % cut.decode())
        self._cut = None
        self._marks, self._refused, self._refused_bytes, self._forgotten = [], OrderedDict(), 0, self.last
        generation = self._generation = object()
        self.program = Program(words, lambda *said: self._settled(generation, *said), lambda why: self._died(generation, why), found and found.path)
        self.program.put(MARK, 1, [])

    def _stands(self):
        """Whether the last entry that was read is in the log, with the same lines. Its id alone doesn't tell: a Redis that lost
        it may have taken others since."""
        if self.last == b"0-0":
            return True
        found = self.redis.xrange(self.log, self.last, self.last)
        return bool(found) and zlib.crc32(found[0][1].get(b"d", b"")) == self.last_sum

    def _died(self, generation, why):
        if generation is self._generation:
            self.broken = ProgramEnded(why)

    def _next(self):
        """Asks Redis for the next entries; it works on that while the program works on the last ones. Who has read the log, as
        it was at the begin, takes queries."""
        if not self.ready and entry_key(self.last) >= self._end:
            self.ready = True
            self._wire.send(pack(b"SSUBSCRIBE", names.questions(self.tag, self.replica)))
        self._wire.send(pack(b"XREAD", b"COUNT", b"%d" % self._more, *((b"BLOCK", b"1000") if self.ready else ()), b"STREAMS", self.log, self.last))

    def _step(self):
        """Takes one thing that Redis sends. A query that is published comes on the same connection as the log, in order: at
        that moment no entry was read that is behind the query's place, so its answer covers exactly the log up to there."""
        if self.broken is None and self.program.ended():
            self._died(self._generation, self.program.ended())
        if self.broken:
            raise self.broken
        if self._cut:
            cut, self._cut = self._cut, None
            self._wire.send(pack(*scripts.call(scripts.CUT, [names.log(self.tag), names.end(self.tag)], [cut, b""])))
        found = self._wire.read()
        if isinstance(found, Exception):
            raise found
        if found is None:
            self._next()
        elif isinstance(found, Push):
            self._message(found)
        elif isinstance(found, list):
            entries = found[0][1]
            self.last = entries[-1][0]
            size = sum(len(text_of(fields)) for _, fields in entries) // len(entries)
            self._more = max(READ, min(MANY, LARGE // (size + 1)))
            self._next()
            self._documents(entries)

    def _documents(self, entries):
        """Hands entries to the program, and queries whose place in the log is between two of them there."""
        texts, items, lines = [], [], 0
        for entry, fields in entries:
            found = documents_of(fields)
            if not found:
                self.foreign += 1
                if self.foreign == 1:
                    self.tell("entry %s was put into the log by no router; it is passed over" % entry.decode())
                continue
            if self._held and self._held[0][0] < entry_key(entry):
                if texts:
                    self.program.put(b"".join([*texts, MARK]), lines + 1, items)
                    texts, items, lines = [], [], 0
                self._release(entry_key(entry))
            text, number, channel, request, self.entries = found
            items.append((lines, entry, channel, request))
            texts.append(text)
            lines += number
        if texts:
            self.program.put(b"".join([*texts, MARK]), lines + 1, items)
        self.last_sum = zlib.crc32(text_of(entries[-1][1]))
        self._release(after(entries[-1][0]))

    def _release(self, key):
        """Hands queries to the program whose place in the log is before this one."""
        while self._held and self._held[0][0] < key:
            _, _, channel, request, lines, text = heapq.heappop(self._held)
            if lines:
                self.program.put(text, lines, (channel, request, lines))
            else:
                self.program.put(MARK, 1, (channel, request, text))

    # ---- queries

    def _message(self, found):
        """Takes what was published: `PLACE CHANNEL REQUEST LINES` and the lines; without lines it asks what became of the entry
        PLACE. What is of another form isn't ours."""
        if found[0] == b"sunsubscribe":
            raise client.exceptions.ConnectionError("the partition has moved to another node")
        if found[0] != b"smessage":
            return
        try:
            head, text = found[2].split(b"\n", 1)
            place, channel, request, lines = head.split(b" ")
            lines = int(lines)
            if lines == 0:
                text = place
            elif lines_of(text, *QUERY) != lines or lines > BATCH or len(text) > LONGEST + 1:
                raise ValueError("another number of query lines, or more than go together")
            if len(self._held) >= HELD:
                raise ValueError("more than a worker can hold")
            place = entry_key(place)
            heapq.heappush(self._held, (place, next(self._order), channel, int(request), lines, text))
        except (ValueError, TypeError):
            self.foreign += 1
            return
        self._release(after(self.last))

    # ---- what the program says

    def _settled(self, generation, first, what, out):
        """Takes the program's output for what was put in at once; on the thread that follows the program."""
        if generation is not self._generation:
            return
        if isinstance(what, tuple):
            channel, request, asked = what
            if isinstance(asked, int):
                self.queries += asked
                self._replies.say(channel, b"q %d %d\n%b" % (self.part, request, out))
            else:
                self._replies.say(channel, self._became(asked, request))
        else:
            self._documents_settled(first, what, out)
        self._rates.note(self.documents, self.queries)

    def _documents_settled(self, first, items, out):
        rows = out.split(b"\n")
        documents = self.documents
        self.documents = int(ANSWER.match(rows[-2])[1])
        refused, begins = {}, [item[0] for item in items]
        ends = [*begins[1:], int(rows[-2].split(b" ", 1)[0]) - first - 1]
        for row in rows[:-2]:
            number, text = row.split(b" ", 1)
            place = int(number) - first - 1
            item = bisect_right(begins, place) - 1
            refused.setdefault(item, []).append(b"%d %b\n" % (place - begins[item] + 1, text))
        replies = {}
        for place, (_, entry, channel, request) in enumerate(items):
            said = refused.get(place, [])
            documents += ends[place] - begins[place] - len(said)
            if said:
                self._remember(entry, said)
            if self.keep is not None:
                self._mark(entry, documents)
            if channel:
                replies.setdefault(channel, []).append(b"d %d %d %d\n%b" % (self.part, request, len(said), b"".join(said)))
        for channel, texts in replies.items():
            self._replies.say(channel, b"".join(texts))

    def _remember(self, entry, said):
        self._refused[entry] = said
        self._refused_bytes += sum(map(len, said))
        while self._refused_bytes > REFUSED:
            self._forgotten, old = self._refused.popitem(last=False)
            self._refused_bytes -= sum(map(len, old))

    def _became(self, entry, request):
        """What became of the lines of an entry that the program has settled."""
        said = self._refused.get(entry)
        if said is None and entry_key(entry) <= entry_key(self._forgotten):
            return b"d %d %d -\n" % (self.part, request)
        return b"d %d %d %d\n%b" % (self.part, request, len(said or ()), b"".join(said or ()))

    def _mark(self, entry, documents):
        """Notes places at which the log may be cut, and has it cut where it is longer than it has to be."""
        if not self._marks or documents - self._marks[-1][0] >= CUT_STEP:
            self._marks.append((documents, entry))
        while self._marks and self.documents - self._marks[0][0] >= self.keep:
            self._cut = self._marks.pop(0)[1]
