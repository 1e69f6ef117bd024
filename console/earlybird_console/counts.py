"""How many messages match, in all and in each bar of a time axis, exactly: a count line of the index has both (docs/FORMATS.md, "Count lines"), since
a bar of time is a bucket of ids. One line walks all matches, so few are asked at once, and other queries come between them."""
import asyncio
import bisect
import itertools

from . import limits
from .documents import first_key


def runs(edges):
    """Neighbouring bars of one length, as (where the first begins, the length, how many), for the edges of all bars."""
    begin = edges[0]
    for length, bars in itertools.groupby(other - one for one, other in zip(edges, edges[1:])):
        count = len(list(bars))
        yield begin, length, count
        begin += length * count


class Counts:
    """Counts over the index of a console."""

    def __init__(self, console):
        self._console = console
        self._turns = asyncio.Semaphore(limits.COUNTING)

    async def bars(self, asked, edges):
        """How many matches there are from each edge, a time in milliseconds, to below the next one. The bars between have one length, and the
        first and the last may be shorter: they are lines of their own then, since bounds of ids would cost more. Raises Refused where the
        index refuses the query."""
        if asked.everything:
            # (the ids of all messages are here, in order)
            places = [bisect.bisect_left(self._console.keys, first_key(edge)) for edge in edges]
            return [other - one for one, other in zip(places, places[1:])]
        heads = ["#%d+%d*%d " % (first_key(begin), first_key(length), count) for begin, length, count in runs(edges)]
        async with self._turns:
            told = await asyncio.gather(*(self._console.asking.answered(head.encode(), asked, None, None) for head in heads))
        return [count for _, _, counts in told for count in counts]

    async def total(self, asked, low, high):
        """How many matches have an id above `low` and up to `high`, either of which may be None."""
        async with self._turns:
            _, total, _ = await self._console.asking.answered(b"# ", asked, low, high)
            return total
