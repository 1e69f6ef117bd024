"""The thread that reads sources and hands their lines to the index, and that goes on as files grow."""
import os
import threading
import time
from concurrent.futures import ThreadPoolExecutor

from earlybird_logs.pieces import Asked

from .blocks import Blocks, lines_of
from .documents import MOST_FIELDS, Documents, fields_of
from .parts import Gone, Parts, Refused
from .sources import PAUSE, Source

# for a line, the bytes of an index by which the first program is sized; the least and the most for one program
FOR_A_LINE, LEAST, MOST_PART = 1500, 16 << 20, 256 << 20
# seconds for which a question waits for the first lines
PATIENCE = 2


def as_bytes(query):
    """A query for the index: bytes that are no text are what they were."""
    return query.encode("utf-8", "surrogateescape")


class Loader(threading.Thread):
    """It owns the index. `asked` are the command's words, and `program` begins those of the index program. `fields` are the names, or None
    where the first lines are still to tell them."""

    def __init__(self, paths, descriptor, asked, program):
        super().__init__(daemon=True)
        self.follow = asked.follow
        self.sources = [Source(path, None, self.follow) for path in paths] or [Source(None, descriptor, self.follow)]
        self.blocks = Blocks()
        self.fields = tuple(asked.fields.split(",")) if asked.fields else None
        # whether the file of a line is a field of it, where there is room for one more
        self.with_source = len(self.sources) > 1
        self.text = asked.text
        self.read = self.lost = 0
        self.sized = sum(source.size or 0 for source in self.sources)
        self.begun = time.monotonic()
        # whether all that was there is read; whether the index can be asked; whether nothing will come any more
        self.loaded = threading.Event()
        self.ready = threading.Event()
        self.ended = threading.Event()
        self.fault = None
        self.took = 0.0
        self.parts = None
        self.documents = None
        # called without words after lines came, and at the end
        self.grown = []
        self._most = asked.memory
        self._program = program
        self._part = None
        # (programs begin and end while no query is asked; a thread of its own asks, so that Ctrl-C ends the waiting and not half a question)
        self._lock = threading.Lock()
        self._asking = ThreadPoolExecutor(1)

    # what others ask

    def ask(self, query, count, before=None, behind=None):
        """Parts.ask, of a query as it was typed; a refusal's column is counted in its characters."""
        return self._answered(lambda line: self.parts.ask(line, count, before, behind), query) or (0, [])

    def count(self, query, behind=None):
        """Parts.count, of a query as it was typed."""
        return self._answered(lambda line: self.parts.count(line, behind), query) or (0, 0)

    def _answered(self, call, query):
        """What comes of a query as it was typed, or None where no index is there."""
        place = next((query.find(end) for end in "\n\r" if end in query), None)
        if place is not None:
            raise Refused("a query is one line", place + 1)
        if not self._is_there():
            return None
        asked = Asked(query, self.fields)
        line = as_bytes(asked.text)
        try:
            return self._locked(call, line)
        except Refused as fault:
            column = fault.column and asked.column(len(line[:fault.column - 1].decode("utf-8", "ignore")) + 1)
            raise Refused(fault.name, column) from None

    def pages(self, query, behind=None):
        """Parts.pages, of a query as it was typed. A program that is dropped meanwhile has no more pages."""
        if not self._is_there():
            return
        walk = self.parts.pages(as_bytes(Asked(query, self.fields).text), behind)
        while True:
            page = self._locked(next, walk, None)
            if page is None:
                return
            yield page

    def _locked(self, call, *words):
        """Calls by the thread that asks, while no program begins or ends."""
        def work():
            with self._lock:
                return call(*words)

        return self._asking.submit(work).result()

    def _is_there(self):
        """Whether the index is there, which is waited for a little: it begins with the first lines."""
        self.ready.wait(PATIENCE)
        if self.fault:
            raise Gone(self.fault)
        return self.parts is not None

    def share(self):
        """How much of the files is read, from 0 to 1; None where nobody knows."""
        return min(1.0, self.read / self.sized) if self.sized and all(source.size is not None for source in self.sources) else None

    @property
    def cut(self):
        """How many lines are found by their beginning alone."""
        return self.documents.cut if self.documents else 0

    # its own work

    def run(self):
        try:
            self._load()
        except (OSError, Gone, Refused) as fault:
            self.fault = str(fault)
        except BaseException as fault:
            self.fault = "the lines can't be read: %r" % fault
            raise
        finally:
            for event in (self.ended, self.ready, self.loaded):
                event.set()
            self._tell()

    def _tell(self):
        for each in list(self.grown):
            each()

    def _start(self, lines):
        """Begins the index; where no fields are named, the first lines tell them."""
        if self.fields is None:
            heads = [lines] + [source.head().split(b"\n")[:200] for source in self.sources[1:9]]
            found = fields_of([line for head in heads for line in head[:max(1, 200 // len(heads))]])
            self.fields = tuple(found[:MOST_FIELDS - self.with_source])
        if self.with_source:
            others = [it for it in self.fields if it != "file"]
            self.with_source = len(others) < MOST_FIELDS
            self.fields = (*others, "file") if self.with_source else tuple(others)
        self.documents = Documents(self.fields, self.text, self.with_source)
        self.parts = Parts([*self._program, "run", "--json", "--counts"] + (["--fields=" + ",".join(self.fields)] if self.fields else []), self._most)
        mean = max(1, sum(map(len, lines)) / max(1, len(lines)))
        self._expected = self.sized / mean if self.sized else 0
        self._begin(self.blocks.next)

    def _size(self):
        """The memory of the next program: the first is small, so that it is there at once, and each has more than the one before."""
        lines = self._expected - self.blocks.next if self._expected else 1 << 18
        return min(MOST_PART, LEAST << 2 * min(self.parts.begun, 4), max(LEAST, int(max(lines, 0) * FOR_A_LINE)), self._most)

    def _begin(self, first):
        """Begins a program whose first line has this number."""
        with self._lock:
            self._part = self.parts.begin(self._size(), first)
            oldest = self.parts.oldest()
        self.blocks.forget(oldest)
        if self._expected * FOR_A_LINE > self._part.memory:
            self.parts.prepare(self._size())
        self.ready.set()

    def _load(self):
        growing = []
        for source in list(self.sources):
            while True:
                piece = source.piece()
                if not piece:
                    break
                self._take(source, source.blocks(piece), len(piece))
            if piece is not None and not (source.can_grow and source.is_file):
                self._take(source, source.last())
            elif source.can_grow:
                growing.append(source)
        if self.parts is None and not growing:
            self._start([])
        self._settle()
        self.took = time.monotonic() - self.begun
        self.loaded.set()
        self._tell()
        while growing:
            growing = self._grow(growing)

    def _grow(self, growing):
        """Takes what came, waits where nothing did, and gives the sources that may grow further."""
        came, left = False, []
        for source in growing:
            piece = source.piece()
            if piece:
                came = True
                self._take(source, source.blocks(piece), len(piece))
            elif piece is not None and not source.is_file:
                # a pipe ended
                came = True
                self._take(source, source.last())
                continue
            elif source.is_file and source.was_replaced():
                try:
                    new = Source(source.path, None, True)
                except OSError:
                    # (it went again)
                    left.append(source)
                    continue
                came = True
                self._take(source, source.last())
                self.sources.append(new)
                source = new
            left.append(source)
        if came:
            self._settle()
            self._tell()
        elif any(source.is_file for source in left):
            time.sleep(PAUSE)
        return left

    def _take(self, source, blocks, length=0):
        """Hands blocks of lines to the index."""
        self.read += length
        for place, data in blocks:
            lines = lines_of(data)
            if self.parts is None:
                self._start(lines)
            first = self.blocks.add(source, place, data, len(lines))
            rows, numbers = self.documents.of_block(data, lines, first, os.path.basename(source.name))
            if self._part.full:
                self._settle()
            if len(numbers):
                self._part.send(rows, numbers)

    def _settle(self):
        """Waits until each line that was sent is taken or refused. Those for which there was no room go to another program, and those that were
        refused for something else go again as their beginning alone."""
        while self._part:
            part = self._part
            part.settle()
            refused, part.refused = part.refused, []
            if not refused:
                return
            full = [number for number, why in refused if why == "full"]
            others = [number for number, why in refused if why != "full"]
            if full:
                self._begin(full[0])
                self._send_again(full, lambda line, number, source: self.documents.of_line(line, number, os.path.basename(source.name)))
            if others:
                self.documents.cut += len(others)
                self._send_again(others, lambda line, number, _: self.documents.shortest(line, number))
                part = self._part
                part.late += len(others)
                part.first = min(part.first, others[0])
                part.settle()
                self.lost += sum(why != "full" for _, why in part.refused)
                part.refused = [it for it in part.refused if it[1] == "full"]

    def _send_again(self, numbers, document):
        # (a line whose file was changed meanwhile is an empty one)
        rows = [(number, document(line or b"", number, source)) for number, source, _, line in self.blocks.lines(numbers)]
        for at in range(0, len(rows), 1000):
            self._part.send(b"".join(row for _, row in rows[at:at + 1000]), [number for number, _ in rows[at:at + 1000]])
