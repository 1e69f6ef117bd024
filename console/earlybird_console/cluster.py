"""A cluster in place of one index program: its router takes the messages and answers the queries, on threads of their own. A cluster has no
watches, so those are of a small program beside it: it gets each message that the cluster took, and keeps the newest few.

What the cluster has and this console's texts are one: a mark that both have tells that."""
import asyncio
import collections
import os
import sys
import threading
import time
import uuid
from concurrent.futures import ThreadPoolExecutor

from .console import Stopped
from .documents import SLOTS
from .index import BYTES, LINES, Index, Message, Order
from .lines import read_printed

ROOT = os.path.dirname(os.path.dirname(os.path.dirname(os.path.abspath(__file__))))
# the words of the program beside it
WATCHING = ("feed", "--keep", "2", "--segments", "1", "--docs", "4096", "--terms", "65536", "--watch", "--fields", ",".join(SLOTS))
# threads that ask, queries that one of them has asked together, and seconds between two tries of an add that failed
ASKERS = 3
TOGETHER = 16
PAUSE = 0.5
# how a cluster is set up for a console, but for the names of the fields
SET_UP = "earlybird-cluster --name NAME up N -- run --counts --fields"
# where the texts have the mark
PLACE = "the cluster %s"


def modules():
    """The cluster's own modules. Raises Stopped where Redis's module isn't there."""
    sys.path.append(os.path.join(ROOT, "cluster"))
    try:
        import redis  # noqa: F401
        import earlybird_cluster
        from earlybird_cluster import machine, names, words
    except ModuleNotFoundError as missing:
        if missing.name != "redis":
            raise
        raise Stopped("this Python has no module 'redis' (Debian's package python3-redis is for /usr/bin/python3)") from missing
    return earlybird_cluster, machine, names, words


class Client:
    """The router of one thread at a time, made anew after a fault."""

    def __init__(self, make):
        self._make = make
        self._router = None

    def __call__(self, act):
        try:
            if self._router is None:
                self._router = self._make()
            return act(self._router)
        except BaseException:
            if self._router is not None:
                self._router.close()
            self._router = None
            raise


class Cluster:
    """The cluster of this name, for as long as the console lives. Without a URL it is in the Redis that `earlybird-cluster up` starts. Raises
    Stopped where it can't be used, in words."""

    def __init__(self, url, name):
        package, machine, self._names, words = modules()
        self._url = url or os.environ.get("EARLYBIRD_REDIS") or "unix://" + machine.socket_of(words.default_folder())
        self.name, self.lost, self._other = name, package.LOST, package.OtherInput
        self._make = lambda: package.Router(machine.connect(self._url), name)
        self._connect = machine.connect
        self._client = "console-" + uuid.uuid4().hex
        self._first = 1
        self._told = None
        self._adder = Client(self._make)
        self.closing = threading.Event()
        self.words = self._read_words()

    def _read_words(self):
        try:
            words = self._names.read_config(self._connect(self._url), self.name).words
        except self.lost as fault:
            raise Stopped("Redis: %s" % fault) from fault
        except (self._names.NotSetUp, ValueError) as fault:
            raise Stopped(str(fault)) from fault
        wanted = ",".join(SLOTS)
        if not any(pair == ("--fields", wanted) for pair in zip(words, words[1:])) and "--fields=" + wanted not in words:
            raise Stopped("the cluster '%s' hasn't the console's fields: %s %s" % (self.name, SET_UP, wanted))
        if "--counts" not in words:
            raise Stopped("the programs of the cluster '%s' don't count: %s %s" % (self.name, SET_UP, wanted))
        return words

    @property
    def drops(self):
        """Whether its programs drop their oldest messages."""
        return self.words[:1] == ["feed"]

    @property
    def has_pieces(self):
        """Whether its programs find words by their pieces."""
        return "--words" in self.words or "--words=pieces" in self.words

    def meet(self, texts):
        """Sees that the cluster has the messages of these texts, and no others; marks both where neither has any yet."""
        redis, key = self._connect(self._url), "%s:console" % self.name
        try:
            config = self._names.read_config(redis, self.name)
            there, (kept, _) = redis.get(key), texts.place(PLACE % self.name) or ("", 0)
            if there is None and not kept:
                if texts.count:
                    raise Stopped("the --texts file has messages that the cluster '%s' doesn't have: take another file" % self.name)
                if any(redis.xlen(self._names.log(tag)) for tag in config.tags):
                    raise Stopped("the cluster '%s' has messages that this console didn't add: set up another one" % self.name)
                kept = uuid.uuid4().hex
                texts.add([], [(PLACE % self.name, kept, 0)])
                redis.set(key, kept, nx=True)
                there = redis.get(key)
            if there is None or there.decode("utf-8", "replace") != kept:
                raise Stopped("the cluster '%s' and this --texts file don't belong together: each was begun with another one" % self.name)
        except self.lost as fault:
            raise Stopped("Redis: %s" % fault) from fault

    def client(self):
        """One that asks."""
        return Client(self._make)

    def ask(self, client, lines):
        """What comes of query lines: (kind, value) of each, as of a printed line; ("missing", why) where a partition doesn't answer."""
        try:
            answers = client(lambda router: list(router.ask_many(lines, cut=True)))
        except self.lost as fault:
            return [("missing", "Redis: %s" % fault)] * len(lines)
        except self._names.NotSetUp as fault:
            return [("missing", str(fault))] * len(lines)
        return [self._outcome(*answer) for answer in answers]

    @staticmethod
    def _outcome(text, missing):
        if text is None:
            return "missing", "no partition of the cluster answers"
        if missing:
            return "missing", "the cluster's partition %s doesn't answer" % ", ".join(map(str, missing))
        return read_printed(b"1 " + text)[1:]

    def add(self, lines):
        """Adds messages, however long that takes: a thread of its own calls it. Gives why lines are refused, by their places; None where the
        console ends before. A try after a fault is under the same numbers of the same client, so no line is there twice."""
        while not self.closing.is_set():
            try:
                told = self._adder(lambda router: list(router.add(lines, client=self._client, first=self._first)))
                waits = next((each.why for each in told if each.what == b"pending"), None)
                if waits is None:
                    self._tell(None)
                    found = {each.number - self._first: each.why.decode("utf-8", "replace") for each in told}
                    self._first += len(lines)
                    return found
                self._tell("messages wait: " + waits.decode("utf-8", "replace"))
            except self.lost as fault:
                self._tell("Redis: %s" % fault)
            except (self._other, self._names.NotSetUp) as fault:
                raise Stopped(str(fault)) from fault
            self.closing.wait(PAUSE)
        return None

    def _tell(self, text):
        if text != self._told:
            print("earlybird-console: the cluster %s" % ("goes on" if text is None else "doesn't take messages: " + text), file=sys.stderr, flush=True)
        self._told = text


class ClusterIndex:
    """One run of it, used as `Index` is. It ends where the program beside it does, and where the cluster isn't there any more."""

    def __init__(self, cluster, taken):
        self._cluster = cluster
        self._taken = taken
        self._watching = Index(self._watched)
        self._messages, self._orders = collections.deque(), collections.deque()
        self._adding, self._asked = [], []
        self._came = asyncio.Event()
        self._ends = False
        self._threads = ThreadPoolExecutor(ASKERS + 1)
        self._tasks = []
        self.answered = True
        self.begun = None

    async def start(self, words):
        """Starts the program beside it."""
        await self._watching.start(words)
        self.begun = time.monotonic()
        self._tasks = [asyncio.ensure_future(self._add()), *(asyncio.ensure_future(self._ask()) for _ in range(ASKERS))]

    def send(self, what):
        """Puts a message or an order on its way."""
        if isinstance(what, Message):
            if what.in_cluster:
                self._watching.send(what)
            else:
                self._messages.append(what)
        elif what.line.startswith(b"!"):
            self._watching.send(what)
        else:
            self._orders.append(what)
        self._came.set()

    def _watched(self, accepted, refused, met):
        # (what the cluster took is accepted, whatever the program beside it can't hold)
        self._taken(accepted + [each for each, _ in refused], [], met)

    async def _in_thread(self, act, *given):
        return await asyncio.get_running_loop().run_in_executor(self._threads, act, *given)

    async def _until_came(self, waiting):
        while not waiting and not self._ends:
            self._came.clear()
            await self._came.wait()

    async def _add(self):
        while not self._ends:
            await self._until_came(self._messages)
            part, size = [], 0
            while self._messages and len(part) < LINES and size < BYTES:
                part.append(self._messages.popleft())
                size += len(part[-1].line)
            self._adding = part
            refused = await self._in_thread(self._cluster.add, [each.line for each in part]) if part else {}
            if refused is None:
                return
            self._adding = []
            for place, each in enumerate(part):
                if place not in refused:
                    each.in_cluster = True
                    self._watching.send(each)
            if refused:
                self._taken([], [(part[place], why) for place, why in sorted(refused.items())], [])

    async def _ask(self):
        client = self._cluster.client()
        while not self._ends:
            await self._until_came(self._orders)
            part = [self._orders.popleft() for _ in range(min(TOGETHER, len(self._orders)))]
            self._asked += part
            outcomes = await self._in_thread(self._cluster.ask, client, [each.line for each in part]) if part else []
            for each, outcome in zip(part, outcomes):
                self._asked.remove(each)
                if not each.outcome.done():
                    each.outcome.set_result(outcome)

    async def ended(self):
        """Waits for its end, and gives the status of the program beside it. What is being added is settled by then, or the console ends."""
        watching = asyncio.ensure_future(self._watching.ended())
        try:
            done, _ = await asyncio.wait((watching, *self._tasks), return_when=asyncio.FIRST_COMPLETED)
            self._ends = True
            self._came.set()
            await self._tasks[0]
            for each in done - {watching}:
                each.result()
            return watching.result() if watching.done() else 0
        finally:
            self._ends = True
            for each in (watching, *self._tasks):
                each.cancel()

    def unsettled(self):
        """The messages and orders of which nothing is known."""
        left = [*self._adding, *self._watching.unsettled(), *self._asked, *self._orders, *self._messages]
        return [each for each in left if each.again is None]

    async def close(self):
        """Ends it."""
        self._cluster.closing.set()
        await self._watching.close()
        self._threads.shutdown(wait=False)
