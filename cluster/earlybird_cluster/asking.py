"""Queries: a batch goes to one worker of every partition, and their answers are blended."""
import itertools
import time
from collections import deque, namedtuple

from . import names, scripts
from .lines import BATCH, QUERY, blend, count_of, refusal_of, whole_line
from .wire import LOST, is_cluster

BYTES = 65536  # of query lines that go together, at most, but for one longer line by its LF
WINDOW = 16  # batches that may wait for their answers
IDS = 65536  # ids, and numbers of counts, that may be asked for by the queries that wait, but for those of one batch
GLANCE = 0.02  # seconds without a word after which is looked whether a worker that was asked is gone
HEDGE = 0.25  # seconds of a worker's silence after which another replica is asked, too; twice as long with each try
SAME = 2.0  # seconds of it after which the same one is asked again, where there is no other: the answer may have been lost
GRACE = 1.0  # seconds for which a partition is waited for of which no worker lives: it may be about to start, or to connect again
AVOID = 5.0  # seconds for which a worker that was too slow is asked last

Answer = namedtuple("Answer", "text missing")
Answer.__doc__ = """The blended answer as the program prints it after the line's number (bytes), or None where no partition
answered; and the partitions that are missing in it, rising."""


class Batch:
    """Queries under way. Each try asks all partitions at one moment; the first one whose answers are all there is taken."""

    def __init__(self, lines):
        self.lines, self.text = lines, b"\n".join(lines) + b"\n"
        self.counts = [count_of(line) for line in lines]
        self.tries, self.asked, self.replicas = {}, {}, {}
        self.begun = self.last = time.monotonic()
        self.times = 0  # of the hub's connections, when it was asked
        self.whole = None

    def best(self):
        """What the partitions said in the try in which most of them answered."""
        return self.whole or max(self.tries.values(), key=len, default={})


class Asker:
    """The queries of one client."""

    def __init__(self, hub):
        self._hub = hub
        self._tries = {}  # request: batch
        self._slow = {}  # (part, replica): until when it is asked last
        self._gone = {}  # part: since when no worker of it lives
        self._heard = {}  # part, and (part, replica): when an answer of it came
        hub.takers[b"q"] = self._answered

    # ---- a batch

    def _answered(self, message):
        head, text = message.split(b"\n", 1)
        _, part, request = head.split(b" ")
        batch = self._tries.get(int(request))
        if batch is None:
            return
        if text.count(b"\n") != len(batch.lines) or not 0 <= int(part) < self._hub.config.parts:
            raise ValueError("not an answer to this batch")
        came, part = batch.tries[int(request)], int(part)
        came.setdefault(part, text)
        self._heard[part] = self._heard[part, batch.replicas[int(request)].get(part)] = time.monotonic()
        if len(came) == self._hub.config.parts:
            batch.whole = came

    def send(self, lines):
        """Sends query lines, without their LF, and gives the batch that they are."""
        batch = Batch(lines)
        try:
            self._try(batch)
        except LOST as lost:
            self._again(lost)
        return batch

    def _order(self, part, turn):
        replicas, now = self._hub.config.replicas, time.monotonic()
        turned = [(turn + part + place) % replicas for place in range(replicas)]
        return sorted(turned, key=lambda each: self._slow.get((part, each), 0) > now)

    def _try(self, batch):
        """Asks all partitions. One Redis runs one script for all, so their places in the logs are one cut over all
        partitions; of a Redis Cluster each partition is asked at a moment of its own."""
        hub = self._hub
        while True:
            request, config = next(hub.requests), hub.config
            asked = {}
            for part in range(config.parts):
                asked.setdefault(part if is_cluster(hub.redis) else 0, []).append((part, self._order(part, request)))
            commands = []
            for several in asked.values():
                keys, words = [], [b"%d" % config.epoch, b"%d" % config.replicas, b"", batch.text]
                for part, order in several:
                    tag = config.tags[part]
                    keys += [names.end(tag), names.epoch(tag)]
                    words.append(b"%b %d %d" % (names.replies(tag, hub.id), request, len(batch.lines)))
                    words += [names.questions(tag, each) for each in order]
                commands.append((several[0][0], scripts.call(scripts.ASK, keys, words)))
            batch.tries[request], batch.last, batch.times = {}, time.monotonic(), hub.times
            batch.asked = batch.replicas[request] = {}
            self._tries[request] = batch
            stale = False
            for several, said in zip(asked.values(), hub.run(commands)):
                if isinstance(said, Exception) and not is_cluster(hub.redis):
                    raise said
                stale = stale or said == -1
                for place, (part, order) in enumerate(several):
                    there = isinstance(said, list) and said[place] > 0
                    batch.asked[part] = order[said[place] - 1] if there else None
            if not stale or time.monotonic() - batch.begun > hub.patience:
                return
            hub.learn()  # the cluster has grown
            if hub.config.epoch == config.epoch:
                time.sleep(GLANCE)

    def _look_after(self, batch):
        """Asks again where a worker that was asked is gone or slow, and another one may answer. True while a partition may."""
        hub, now = self._hub, time.monotonic()
        hub.reach_again()
        came, again, may = batch.best(), batch.times != hub.times, False
        for part in range(hub.config.parts):
            if part in came:
                continue
            tag, asked = hub.config.tags[part], batch.asked.get(part)
            there = [each for each in range(hub.config.replicas) if hub.listens(part, names.questions(tag, each))]
            if there or part in hub.node and hub.lives(part):
                self._gone.pop(part, None)
                may = True
            else:
                may = may or now - self._gone.setdefault(part, now) < GRACE
            if asked not in there:
                again = again or bool(there)
                continue
            silence = (now - max(batch.last, self._heard.get((part, asked), 0.0))) / 2 ** (len(batch.tries) - 1)
            if silence > HEDGE:
                self._slow[part, asked] = now + AVOID
                again = again or silence > SAME or any(self._slow.get((part, each), 0) <= now for each in there)
        if again:
            self._try(batch)
        return may

    def receive(self, batch):
        """Waits for the partitions that have a worker, for the patience at most without an answer of theirs; the others are
        missing. A loss of Redis is raised where it lasts longer."""
        while batch.whole is None:
            try:
                if self._hub.receive(GLANCE) and not self._over(batch):
                    continue
                for other in {id(each): each for each in self._tries.values()}.values():
                    may = self._look_after(other) if other.whole is None else True
                    if other is batch and (not may or self._over(batch)):
                        return
            except LOST as lost:
                self._again(lost)

    def _over(self, batch):
        """Whether the patience with some partition is over."""
        came, since = batch.best(), time.monotonic() - self._hub.patience
        return any(max(batch.begun, self._heard.get(part, 0.0)) < since for part in range(self._hub.config.parts) if part not in came)

    def _again(self, lost):
        """After a fault: asks all batches again, on new connections, as soon as that goes within the patience."""
        begun = time.monotonic()
        while True:
            time.sleep(0.1)
            try:
                self._hub.connect()
                for other in {id(each): each for each in self._tries.values()}.values():
                    if other.whole is None:
                        self._try(other)
                return
            except LOST:
                if time.monotonic() - begun > self._hub.patience:
                    raise lost

    def take(self, batch):
        """The blended answers of what came, which is then forgotten."""
        came = batch.best()
        for request in batch.tries:
            self._tries.pop(request, None)
        missing = [part for part in range(self._hub.config.parts) if part not in came]
        if not came:
            return [Answer(None, missing)] * len(batch.lines)
        texts = blend([came[part] for part in sorted(came)], batch.counts)
        return [Answer(text, missing) for text in texts]

    # ---- a stream of lines

    def ask_many(self, lines, cut=False):
        """Answers to the query lines and count lines of an iterable of bytes, in order. None among them says that no line is there at the
        moment: all before it are then answered. With `cut` no line has a LF."""
        under_way, held, refused, size, weight = deque(), [], [], 0, 0
        for line in itertools.chain(lines, [None]):
            if line is not None:
                if not cut:
                    line = whole_line(line)
                why = b"bad line" if line is None else refusal_of(line, QUERY)
                if why is None and held and size + len(line) >= BYTES:
                    weight = yield from self._room(under_way, weight, held)
                    weight += self._send(under_way, held, refused)
                    held, refused, size = [], [], 0
                refused.append(why)
                if why is None:
                    held.append(line)
                    size += len(line) + 1
                if len(refused) < BATCH:
                    continue
            if refused:
                weight = yield from self._room(under_way, weight, held)
                weight += self._send(under_way, held, refused)
                held, refused, size = [], [], 0
            self._listen()
            while under_way and (line is None or under_way[0][0] is None or under_way[0][0].whole is not None):
                weight -= sum(under_way[0][0].counts) if under_way[0][0] else 0
                yield from self._first(under_way)

    def _listen(self):
        try:
            self._hub.receive(0)
        except LOST:
            pass  # `receive` of the oldest batch finds it, and waits for Redis

    def _room(self, under_way, weight, held):
        new = sum(map(count_of, held))
        while under_way and (len(under_way) >= WINDOW or weight + new > IDS):
            weight -= sum(under_way[0][0].counts) if under_way[0][0] else 0
            yield from self._first(under_way)
        return weight

    def _send(self, under_way, held, refused):
        batch = self.send(held) if held else None
        under_way.append((batch, refused))
        return sum(batch.counts) if batch else 0

    def _first(self, under_way):
        batch, refused = under_way.popleft()
        answers = iter(())
        if batch is not None:
            self.receive(batch)
            answers = iter(self.take(batch))
        return [next(answers) if why is None else Answer(b"refused: " + why, []) for why in refused]
