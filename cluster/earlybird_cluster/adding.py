"""Documents: blocks of lines go into the logs, once each, and the workers say what became of them. Each client numbers its lines;
a log keeps which of a client's lines it has, so blocks that are put again after a fault are known there."""
import heapq
import itertools
import time
import uuid
import zlib
from collections import OrderedDict, deque, namedtuple

import redis as client

from . import names, scripts
from .lines import all_begin, refusal_of, whole_line
from .wire import LOST

ENTRY = 65536  # bytes of lines in one entry of a log, at most, but for one line that is longer by its LF
AHEAD = 8 << 20  # bytes of lines that may wait for a worker's word
MOST = 4096  # blocks that may
TELL = 100000  # refused lines that may wait for the word of those before them
TOGETHER = 4  # blocks that go to Redis at once
GROUPS = 2  # of them whose replies needn't be there before further ones go
NUDGE = 1.0  # seconds without a word after which is asked again what became of a block
KEPT = 7 * 86400  # seconds for which a client's name is kept after its last block

Told = namedtuple("Told", "number what why")
Told.__doc__ = """What became of a line that isn't simply accepted: its number; `refused` or `pending`; and why. A pending line
may be in the log: its worker may take it yet. Repeated under the same client's name it is put at most once."""


class OtherInput(Exception):
    """The client's name belongs to another input, or another process goes on under it."""


class Block:
    """Lines that go into one log at once. `numbers` are those of its lines, `first` and `last` those of the range that it is
    known by. `id` is its entry's, where the log has it."""

    __slots__ = ("part", "first", "last", "numbers", "text", "request", "id", "said", "previous", "wait")

    def __init__(self, first, last, numbers, text):
        self.first, self.last, self.numbers, self.text = first, last, numbers, text
        self.part = self.request = self.id = self.said = self.previous = None
        self.wait = True


class Known(Block):
    """A block that a log has of an earlier session; its lines' numbers come as the input is read again."""

    def __init__(self, part, first, last, entry):
        super().__init__(int(first), int(last), [], b"")
        self.part, self.id = part, entry


class Adder:
    """The documents of one client, whose lines are numbered from `first` on."""

    def __init__(self, hub, name=None, first=1):
        self._hub, self._named = hub, name is not None
        self.name, self._first = name or uuid.uuid4().hex, first
        self._session, self._mark = uuid.uuid4().hex.encode(), b""
        self._last = {}  # part: number of the last line that was given to it
        self._sent = deque()  # blocks whose logs haven't said that they have them, with what the hub sent
        self._blocks = OrderedDict()  # request: block that waits for a worker's word
        self._fresh = deque()  # blocks that weren't sent
        self._held = 0  # bytes of them
        self.waiting = 0  # bytes of lines that wait for a worker's word
        self._told, self._pending = [], None
        self._before, self._known, self._zone = 0, deque(), 0  # what earlier sessions put
        self.settled = first - 1  # up to this line all are accepted or refused
        self.known = self.unknown = 0  # lines that were in the logs; those of them of which nobody knows any more what became
        hub.takers[b"d"] = self._word

    # ---- the session

    def _begin(self, parts, how):
        commands = []
        for part in parts:
            tag = self._hub.config.tags[part]
            commands.append((part, scripts.call(scripts.BEGIN, [names.client(tag, self.name), names.blocks(tag, self.name)],
                                                [self._session, b"%d" % KEPT, self._mark, how])))
        found = self._hub.run(commands)
        for each in found:
            if isinstance(each, Exception):
                raise each
            if each == b"f":
                raise OtherInput("another process adds as the client '%s'" % self.name)
            if self._mark and each[2] != self._mark:
                raise OtherInput("the client '%s' added another input before: its first line isn't the same" % self.name)
        return found

    def _join(self):
        """Begins the session at partitions where it hasn't, and learns what earlier ones of the client put there."""
        parts = [part for part in range(self._hub.config.parts) if part not in self._last]
        for part, (last, settled, _, blocks) in zip(parts, self._begin(parts, b"begin") if parts else ()):
            self._last[part] = int(last)
            self._before = max(self._before, int(settled))
            self._known += [Known(part, *each.split(b" ")) for each in blocks]
        self._known = deque(sorted((each for each in self._known if each.last > self._before), key=lambda each: each.first))
        self._zone = max((each.last for each in self._known), default=self._before)

    def _start(self, line):
        """With the first line of the input."""
        if self._named and self._first == 1:
            self._mark = b"%08x" % zlib.crc32(line)
        self._patiently(self._join)

    def _finish(self):
        """After the last line: where all is settled, what Redis keeps of a client is little, or nothing."""
        if self._pending is not None or not self._last:
            return  # it is asked for again
        commands = []
        for part in self._last:
            tag = self._hub.config.tags[part]
            commands.append((part, scripts.call(scripts.END, [names.client(tag, self.name), names.blocks(tag, self.name)],
                                                [self._session, b"%d" % self.settled, b"keep" if self._named else b"forget"])))
        try:
            self._hub.run(commands)
        except LOST:
            pass  # it is kept for a while, then

    def _patiently(self, act):
        """Does what needs Redis. After a fault it is tried again, within the patience, on new connections."""
        begun = None
        while True:
            try:
                if begun is not None:
                    self._hub.connect()
                    self._resume()
                return act()
            except LOST:
                begun = begun or time.monotonic()
                if time.monotonic() - begun > self._hub.patience:
                    raise
                time.sleep(0.1)

    def _resume(self):
        """After a fault: puts all blocks again of which no worker said what became of them. The logs drop those that they have."""
        self._sent.clear()
        parts = list(self._last)
        if parts:
            self._begin(parts, b"resume")
        self._send([block for block in self._blocks.values() if block.previous is not None])
        self._nudge(self._blocks.values())

    # ---- from lines to blocks

    def _take(self, text, number):
        """Makes blocks of the lines of a text, the first of which has the number after this one. Gives how many there are."""
        lines = text.count(b"\n")
        if number + lines <= self._before:
            self.known += lines
        elif number >= self._zone and len(text) <= ENTRY and all_begin(text, lines, b"{"):
            self._queue(Block(number + 1, number + lines, range(number + 1, number + lines + 1), text))
        else:
            self._take_each(text, number)
        return lines

    def _take_each(self, text, number):
        rows, numbers, size = [], [], 0

        def cut():
            nonlocal rows, numbers, size
            if rows:
                self._queue(Block(numbers[0], numbers[-1], numbers, b"\n".join(rows) + b"\n"))
            rows, numbers, size = [], [], 0

        for each, line in enumerate(text.split(b"\n")[:-1], number + 1):
            why = refusal_of(line, b"{") if line else None
            if each <= self._before:
                self.known += 1
                continue
            known = self._known[0] if self._known and self._known[0].first <= each else None
            if known:
                cut()
                self.known += 1
            if why:
                heapq.heappush(self._told, Told(each, b"refused", why))
            elif line and known:
                known.numbers.append(each)
            elif line:
                if size + len(line) >= ENTRY:
                    cut()
                rows.append(line)
                numbers.append(each)
                size += len(line) + 1
            if known and each == known.last:
                self._queue(self._known.popleft())
        cut()

    def _queue(self, block):
        self._fresh.append(block)
        self._held += len(block.text)

    # ---- from blocks to the logs

    def _put(self, wait):
        """Puts the blocks that weren't into the logs, each into one in turn."""
        blocks, self._fresh, self._held = self._fresh, deque(), 0
        self._patiently(self._look)
        adds = self._hub.config.add
        for block in blocks:
            block.request = next(self._hub.requests)
            if block.part is None:
                block.part = adds[next(self._hub.turns) % len(adds)]
                block.previous, self._last[block.part] = self._last[block.part], block.last
            block.wait = wait
            self._blocks[block.request] = block
            self.waiting += len(block.text)
        fresh = [block for block in blocks if block.previous is not None]
        self._patiently(lambda: self._send([block for block in fresh if block.id is None], GROUPS if wait else 0))
        self._patiently(lambda: self._nudge([block for block in blocks if block.previous is None]))
        if not wait:
            for block in fresh:
                self._settled(block, [])

    def _look(self):
        self._hub.look()
        self._join()

    def _send(self, blocks, groups=0):
        """Has the logs take blocks; the replies to the last `groups` groups of them are read later."""
        for place in range(0, len(blocks), TOGETHER):
            together = blocks[place:place + TOGETHER]
            self._sent.append((self._hub.send(self._commands(together)), together))
            self._confirm(groups)

    def _commands(self, blocks):
        hub, commands = self._hub, []
        for block in blocks:
            tag = hub.config.tags[block.part]
            keys = [names.log(tag), names.end(tag), names.client(tag, self.name), names.blocks(tag, self.name)]
            words = [self._session, b"%d" % block.previous, b"%d" % block.first, b"%d" % block.last, b"%d" % self.settled, b"%d" % KEPT, block.text,
                     b"%d" % len(block.numbers), names.replies(tag, hub.id) if block.wait else b"", b"%d" % block.request]
            commands.append((block.part, scripts.call(scripts.ADD, keys, words)))
        if hub.config.safe:
            nodes = {hub.node.get(block.part): block.part for block in blocks}
            commands += [(part, (b"WAIT", b"%d" % hub.config.safe, b"%d" % (1000 * hub.patience))) for part in nodes.values()]
        return commands

    def _confirm(self, groups=0):
        """Reads what the logs said of blocks, but of the last groups. A fault is raised."""
        safe = self._hub.config.safe
        while len(self._sent) > groups:
            ticket, blocks = self._sent.popleft()
            found = self._hub.finish(ticket)
            for said in found:
                if isinstance(said, Exception):
                    raise said
                if said == b"f":
                    raise client.exceptions.ConnectionError("the client's session isn't there any more")
                if isinstance(said, bytes) and said.startswith(b"g"):
                    raise client.exceptions.ConnectionError("lines that were in the log before aren't there")
                if isinstance(said, int) and said < safe:
                    raise client.exceptions.ConnectionError("fewer than %d replicas of Redis have the lines" % safe)
            for block, said in zip(blocks, found):
                block.id = said[2:]
                if block.said is not None:  # the worker was quicker
                    self._settled(block, block.said)

    # ---- what became of them

    def _word(self, message):
        """Takes a worker's word: for each block `d PARTITION REQUEST REFUSED`, and a line `PLACE refused: WHY` for each
        refused line of it; `-` for their number where the worker doesn't know any more."""
        rows, place = message.split(b"\n"), 0
        while place < len(rows) - 1:
            _, _, request, number = rows[place].split(b" ")
            refused = None if number == b"-" else rows[place + 1:place + 1 + int(number)]
            place += 1 + len(refused or [])
            block = self._blocks.get(int(request))
            if block is None:
                continue
            block.said = []
            for row in refused or []:
                each, _, why = row.split(b" ", 2)
                block.said.append((block.numbers[int(each) - 1], why))
            if refused is None:
                self.unknown += len(block.numbers)
            if block.id is not None:
                self._settled(block, block.said)

    def _settled(self, block, said):
        if self._blocks.pop(block.request, None) is not None:
            self.waiting -= len(block.text)
            for number, why in said:
                heapq.heappush(self._told, Told(number, b"refused", why))

    def _nudge(self, blocks):
        """Asks the workers what became of blocks that are in their logs."""
        hub, commands = self._hub, []
        for block in itertools.islice(blocks, 64 * hub.config.parts):
            if block.id:
                tag = hub.config.tags[block.part]
                channels = [names.questions(tag, (block.request + place) % hub.config.replicas) for place in range(hub.config.replicas)]
                commands.append((block.part, scripts.call(scripts.ASK, [names.end(tag), names.epoch(tag)], [
                    b"9007199254740992", b"%d" % hub.config.replicas, block.id, b"", b"%b %d 0" % (names.replies(tag, hub.id), block.request), *channels])))
        hub.run(commands)

    def _settle(self, most, blocks):
        """Waits until at most `most` bytes, and `blocks` blocks, wait for a worker's word; for the patience at most without one."""
        self._patiently(self._confirm)
        last = nudged = time.monotonic()
        while self.waiting > most or len(self._blocks) > blocks:
            if self._patiently(lambda: self._hub.receive(0.2)):
                last = time.monotonic()
                continue
            now = time.monotonic()
            if now - last > self._hub.patience:
                self._leave(b"")
            elif now - nudged > NUDGE:
                nudged = now
                self._patiently(lambda: self._nudge(self._blocks.values()))

    def _leave(self, why):
        """Tells all lines that wait for a worker's word as pending; with a reason, those that weren't put into a log, too."""
        living = {}
        for block in [*self._blocks.values(), *(self._fresh if why else ())]:
            if not why and block.part not in living:
                living[block.part] = self._patiently(lambda part=block.part: self._hub.lives(part))
            reason = why or b"in the log; partition %d %s" % (block.part, b"hasn't said what became of it" if living[block.part] else b"has no worker")
            for number in block.numbers:
                heapq.heappush(self._told, Told(number, b"pending", reason))
            self._pending = min(block.first, self._pending or block.first)
        self._blocks.clear()
        self.waiting = 0
        if why:
            self._fresh.clear()
            self._held = 0

    def _tell(self, number):
        """What became of lines, in order, up to the first one that isn't settled; `number` lines were taken."""
        there = [next(iter(self._blocks.values())).first] if self._blocks else []
        there += [self._fresh[0].first] if self._fresh else []
        there += [self._known[0].first] if self._known else []
        front = min([number, *[each - 1 for each in there]])
        self.settled = front if self._pending is None else min(front, self._pending - 1)
        while self._told and self._told[0].number <= front:
            yield heapq.heappop(self._told)

    # ---- all of it

    def add_blocks(self, texts, wait=True, progress=None):
        """Adds texts of whole lines, each with its LF, and yields Told. An empty text says that no line is there at the moment."""
        number, begun = self._first - 1, False
        try:
            for text in itertools.chain(texts, [b""]):
                if text and not begun:
                    self._start(text[:text.index(b"\n")])
                    begun = True
                number += self._take(text, number) if text else 0
                if self._fresh and (not text or self._held >= TOGETHER * ENTRY or len(self._fresh) > MOST):
                    self._put(wait)
                if begun:
                    self._patiently(lambda: self._hub.receive(0))
                if not text:
                    self._settle(0, 0)
                elif len(self._told) > TELL:
                    self._put(wait)
                    self._settle(0, 0)
                elif self.waiting > AHEAD or len(self._blocks) > MOST:
                    self._settle(AHEAD // 2, MOST // 2)
                yield from self._tell(number)
                if progress:
                    progress(self.settled)
        except LOST:
            self._leave(b"it may be in the log, or not")
            yield from self._tell(number)
            raise
        self._finish()

    def add(self, lines, wait=True, progress=None):
        """As `add_blocks`, of lines."""
        return self.add_blocks(self._texts(lines), wait, progress)

    def _texts(self, lines):
        held, size = [], 0
        for given in lines:
            line = None if given is None else whole_line(given)
            if given is not None and line is None:
                line = b"!"  # more than one line: whatever it begins with, it is a bad one
            if line is None or size + len(line) >= ENTRY:
                if held:
                    yield b"\n".join(held) + b"\n"
                held, size = [], 0
                if line is None:
                    yield b""
                    continue
            held.append(line)
            size += len(line) + 1
        if held:
            yield b"\n".join(held) + b"\n"
