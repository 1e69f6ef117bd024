"""Requests that bring something: messages and watches."""
import asyncio
import json

from earlybird_web.server import Fault

from . import limits
from .lines import Splitter

# characters of a name
LONGEST = 100


class Posts:
    """What answers them."""

    def __init__(self, console):
        self._console = console

    async def messages(self, request):
        """Takes the lines of a body, of a source, and tells once all are settled."""
        source = request.query.get("source", "a request").strip()[:LONGEST] or "a request"
        known = self._console.texts.sources.values()
        if source not in known and len(known) >= limits.SOURCES:
            raise Fault(400, "there are %d sources already" % limits.SOURCES)
        splitter, groups, refusals = Splitter(), [], []
        told = {"read": 0, "taken": 0, "refused": 0, "first": refusals}

        async def settle(group):
            await group.done
            told["taken"] += group.taken
            told["refused"] += group.refused
            refusals.extend({"text": text, "refused": name} for text, name in group.refusals[:limits.REFUSALS - len(refusals)])

        over = False
        async for piece in request.pieces():
            whole = splitter.take(piece)
            lines = whole[:limits.LINES - told["read"]]
            told["read"] += len(lines)
            groups.append(await self._console.hand_in(lines, source))
            if len(groups) > 4:
                await settle(groups.pop(0))
            if told["read"] >= limits.LINES:
                over = len(lines) < len(whole) or bool(request.left or splitter.rest)
                break
            await asyncio.sleep(0)
        else:
            lines = splitter.last()
            told["read"] += len(lines)
            groups.append(await self._console.hand_in(lines, source))
        for group in groups:
            await settle(group)
        if over:
            raise Fault(413, "a body has at most %d lines: none behind these is taken" % limits.LINES, **told)
        await request.answer_json(200, told)

    async def add_watch(self, request):
        """Adds a watch: the body is its query, or an object with more."""
        body = await request.body()
        try:
            asked = json.loads(body) if body.lstrip().startswith("{") else {"query": body}
            query, name = asked["query"], asked.get("name", "")
            most, seconds = asked.get("most", 0), asked.get("seconds", 60)
        except (ValueError, KeyError, RecursionError) as fault:
            raise Fault(400, "a watch is {query, name, most, seconds}") from fault
        if not (isinstance(query, str) and isinstance(name, str) and type(most) is int and type(seconds) is int):
            raise Fault(400, "a watch has a query and a name, and whole numbers")
        if not query.strip() or not 0 <= most < 10 ** 9 or not 1 <= seconds <= limits.LONGEST_SPAN:
            raise Fault(400, "a watch has a query, a threshold from 0, and 1 to %d seconds" % limits.LONGEST_SPAN)
        number = await self._console.standing.add_watch(query.strip(), name.strip()[:LONGEST], most, seconds)
        await request.answer_json(200, {"number": number})

    async def remove_watch(self, request):
        """Removes the watch of a number."""
        number = request.path.rpartition("/")[2]
        if not (number.isascii() and number.isdigit() and len(number) < 11 and self._console.standing.remove_watch(int(number))):
            raise Fault(404, "no watch")
        await request.answer_json(200, {})
