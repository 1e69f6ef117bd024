"""What is asked of the index: which messages match, the newest first by their own times."""
import bisect
import time

from . import limits
from .index import Order
from .lines import refused_at
from .marking import Marker
from .queries import Asked, Refused

# the most ids of an answer of the index
MOST = 1000


class Asking:
    """Queries to the index of a console."""

    def __init__(self, console, parts):
        self._console = console
        self._parts = parts
        self._waiting = 0
        # answers that are made, and that wait to be
        self.making = 0

    def read(self, query):
        """A query as the console reads it. Raises Refused."""
        return Asked(query.strip(), self._console.names, int(time.time() * 1000), self._parts)

    async def order(self, line):
        """What comes of a line. Raises Refused where too many wait, and where a partition of a cluster doesn't answer."""
        if self._waiting >= limits.WAITING:
            raise Refused("busy", None, "too many queries wait")
        order = Order(line)
        self._waiting += 1
        try:
            self._console.send(order)
            kind, value = await order.outcome
        finally:
            self._waiting -= 1
        if kind == "missing":
            # (an answer without some of the messages isn't shown as one)
            raise Refused("missing", None, value)
        return kind, value

    async def begin_watch(self, number, asked):
        """Has the index watch a query. Raises Refused where it refuses that."""
        head = b"!%d " % number
        kind, value = await self.order(head + asked.text.encode())
        if kind == "refused":
            raise asked.refusal(*refused_at(value, len(head)))

    async def found(self, asked, low, high, most):
        """How many messages the index has seen, and the ids of the last `most` that came of those that match and are above `low` and up to
        `high`. Raises Refused where the index refuses the query."""
        return await self.answered(b"?%d " % most, asked, low, high)

    async def answered(self, head, asked, low, high):
        """What the index answers to a line that begins with `head` and asks for matches that are above `low` and up to `high`, as `read_printed`
        tells it. Raises Refused where the index refuses the query."""
        kind, value = await self.order(head + asked.within(low, high).encode())
        if kind != "refused":
            return value
        if (low, high) != (None, None):
            # (so that the column is that of the query alone)
            kind, told = await self.order(head + asked.text.encode())
            value = told if kind == "refused" else "query too large"
        raise asked.refusal(*refused_at(value, len(head)))

    async def newest(self, asked, low, high, most):
        """How many messages were seen, and the ids of the newest matches of a range by the time of the messages, whatever the order in which
        they came. The index gives those that came last, so it is asked for all from the least of these on; where they are too many, a bound
        is sought."""
        begun = time.monotonic()
        seen, ids = await self.found(asked, low, high, most)
        self._console.figures.answer(time.monotonic() - begun)
        if len(ids) >= most:
            least = min(ids)
            seen, more = await self.found(asked, least - 1, high, MOST)
            ids = more if len(more) < MOST else await self._narrowed(asked, least - 1, high, most)
        return seen, sorted(ids, reverse=True)[:most]

    async def _narrowed(self, asked, low, high, most):
        """The ids of at least as many matches as are asked for, and fewer than an answer has. The bound is sought among the ids of all
        messages: from one to the next at most one match more is above it, so there is one."""
        keys = self._console.keys
        fewest, enough = bisect.bisect_right(keys, low), len(keys) if high is None else bisect.bisect_right(keys, high)
        while True:
            middle = (fewest + enough) // 2
            _, ids = await self.found(asked, keys[middle] - 1, high, MOST)
            if most <= len(ids) < MOST or enough - fewest < 2:
                return ids
            if len(ids) < most:
                enough = middle
            else:
                fewest = middle

    def marker(self, asked):
        """One that marks the messages of one answer: where many answers are made it has less time for each."""
        return Marker(asked, self._console.fold, limits.MARKING / max(self.making, 1))
