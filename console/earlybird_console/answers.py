"""Requests that ask for messages: matches, their time axis, their fields, the lines around one, an export."""
import asyncio
import collections
import contextlib
import json
import time

from earlybird_logs import message
from earlybird_web.server import PIECE, Fault

from . import documents, limits, ranges
from .asking import MOST
from .shown import as_csv, for_page, for_programs
from .turns import Turn

SECOND, MINUTE, HOUR, DAY = 1000, 60_000, 3_600_000, 86_400_000
# the lengths of bars, in milliseconds
STEPS = (1, 2, 5, 10, 20, 50, 100, 200, 500, *(each * SECOND for each in (1, 2, 5, 10, 15, 30)), *(each * MINUTE for each in (1, 2, 5, 10, 15, 30)),
         *(each * HOUR for each in (1, 2, 3, 6, 12)), *(each * DAY for each in (1, 2, 7, 14, 30, 90, 365, 3650)))
# the fields that an answer has, and the values of each
FIELDS, VALUES = 100, 8
# seconds of the processor in which the fields of matches are read
READING = 0.5
# the most lines around a message, before it and behind it
AROUND = 200


def axis(begin, end, bars):
    """The time axis of a range in milliseconds, in at most `bars` bars, from 2: where the first bar begins, the length of each, and the bounds, of
    which the outer ones are those of the range. Bars begin at whole times of this machine's zone at the begin."""
    step = next((each for each in STEPS if (end - begin) / each <= bars - 1), STEPS[-1] * (1 + (end - begin) // (STEPS[-1] * (bars - 1))))
    shift = time.localtime(begin / 1000).tm_gmtoff * 1000
    first = (begin + shift) // step * step - shift
    edges = [first + place * step for place in range((end - first + step - 1) // step + 1)]
    return first, step, [max(edges[0], begin), *edges[1:-1], min(edges[-1], end)]


class Answers:
    """What answers them; large answers one after the other, so that what many ask for isn't in memory at once, and leaves others their turn."""

    def __init__(self, console):
        self._console = console
        self._asking = console.asking
        self._large = asyncio.Lock()

    def _query(self, request):
        return self._asking.read(request.query.get("q", ""))

    @staticmethod
    def _range(request):
        """The range of time, and of ids: above the one, up to the other."""
        now, found = int(time.time() * 1000), []
        for name in ("from", "to"):
            word = request.query.get(name, "")
            when = ranges.of_word(word, now) if word else None
            if word and when is None:
                raise Fault(400, "%s is a time, as 15m, 12:00 or 2026-11-30T12:00" % name)
            found += [when, None if when is None else documents.first_key(when) - 1]
        begin, low, end, high = found
        return begin, end, low, high

    @staticmethod
    def _number(request, name, usual, most, least=1):
        word = request.query.get(name, str(usual))
        if not (word.isascii() and word.isdigit() and len(word) < 7 and least <= int(word) <= most):
            raise Fault(400, "%s is a number from %d to %d" % (name, least, most))
        return int(word)

    async def search(self, request):
        """The newest matches of a range."""
        asked = self._query(request)
        _, _, low, high = self._range(request)
        most = self._number(request, "k", 50, limits.MATCHES)
        seen, ids = await self._asking.newest(asked, low, high, most)
        self._asking.making += 1
        try:
            # (so a small one doesn't wait for a crowd of large ones)
            async with self._large if self._console.size_of(ids) >= limits.LARGE else contextlib.AsyncExitStack():
                pieces, left = await self._shown(asked, ids, request.query.get("for") == "page")
                hints = json.dumps(asked.hints, ensure_ascii=False)
                head = '{"seen":%d,"left":%d,"hints":%s,"matches":[' % (seen, left, hints)
                await request.answer_pieces(200, [head.encode("utf-8", "replace"), *pieces, b"]}"])
        finally:
            self._asking.making -= 1

    async def _shown(self, asked, ids, page):
        """The messages as JSON with commas between, in pieces of bytes, and how many are left out."""
        found, left = await self._console.texts_of(ids)
        marker, pieces, piece = self._asking.marker(asked), [], bytearray()
        for place, row in enumerate(found):
            piece += b"," if place else b""
            piece += (for_page(marker, *row) if page else for_programs(*row)).encode("utf-8", "replace")
            if len(piece) >= PIECE:
                pieces.append(piece)
                piece = bytearray()
            await marker.rest()
        return [*pieces, piece], left

    async def histogram(self, request):
        """How many matches there are, in all and in each bar of a time axis."""
        asked = self._query(request)
        since, until, _, _ = self._range(request)
        bars = self._number(request, "bars", 60, limits.BARS, 2)
        keys, begin, end = self._console.keys, since, until
        if begin is None:
            begin = documents.time_of(keys[0]) if keys else int(time.time() * 1000)
        if end is None:
            end = (documents.time_of(keys[-1]) if keys else begin) + 1
        end = max(end, begin + 1)
        first, step, edges = axis(begin, end, bars)
        # (nothing is asked for to be left out there)
        if since is None:
            edges[0] = max(first, 0)
        if until is None:
            edges[-1] = first + step * (len(edges) - 1)
        counts = await self._console.counts.bars(asked, edges)
        await request.answer_json(200, {"from": begin, "to": end, "first": first, "step": step, "counts": counts, "total": sum(counts)})

    async def _sample(self, asked, low, high):
        """The fields of the last matches, at most as many as an answer of the index has: how many were read, and by name the values."""
        _, ids = await self._asking.found(asked, low, high, MOST)
        values, size, spent, turn = {}, 0, 0.0, Turn()
        async with self._large:
            found, _ = await self._console.texts_of(ids)
            for _, at, source, raw in found:
                size += 1
                # (neither a wait for other large answers nor what comes between counts)
                begun = time.thread_time()
                fields = message.read(raw, at).fields
                fields["source"] = source
                for name, each in fields.items():
                    values.setdefault(name, collections.Counter())[each] += 1
                spent += time.thread_time() - begun
                await turn.rest()
                if spent > READING:
                    break
        return size, values

    async def fields(self, request):
        """The fields of the last 1,000 matches, with their most frequent values there."""
        asked = self._query(request)
        _, _, low, high = self._range(request)
        size, values = await self._sample(asked, low, high)
        order = {"level": 0, "source": 1}
        named = sorted(values.items(), key=lambda each: (order.get(each[0], 2), -sum(each[1].values()), each[0]))
        await request.answer_json(200, {"of": size, "fields": [
            {"name": name, "in": sum(found.values()), "distinct": len(found), "values": found.most_common(VALUES)} for name, found in named[:FIELDS]]})

    async def values(self, request):
        """The most frequent values of a field in the last 1,000 matches, with how many of all matches have them."""
        query, name = request.query.get("q", "").strip(), request.query.get("name", "")
        asked = self._asking.read(query)
        _, _, low, high = self._range(request)
        _, values = await self._sample(asked, low, high)
        told = []
        for value, _ in values.get(name, collections.Counter()).most_common(VALUES):
            if '"' in value or any(each in name for each in ' \t()"'):
                continue
            with_value = self._asking.read(("(%s) " % query if query else "") + '%s:"%s"' % (name, value))
            told.append([value, await self._console.counts.total(with_value, low, high)])
        await request.answer_json(200, {"values": sorted(told, key=lambda each: -each[1])})

    async def context(self, request):
        """A message as it came, and the lines of its source around it."""
        word = request.query.get("id", "")
        row = self._console.row(int(word)) if word.isascii() and word.isdigit() and len(word) < 20 else None
        if row is None:
            raise Fault(404, "this message isn't kept (any more)")
        seq, at, source, raw = row
        marker, around, size = self._asking.marker(self._asking.read("")), [], 0
        sources = self._console.texts.sources
        for each in self._console.texts.around(seq, source, self._number(request, "n", 10, AROUND)):
            around.append(for_page(marker, documents.key_of(each[1], each[0]), each[1], sources[each[2]], each[3]))
            size += len(around[-1])
            await marker.rest()
            if size > limits.ANSWER:
                break
        told = {"id": word, "at": at, "line": raw.decode("utf-8", "replace"), "source": sources[source]}
        head = json.dumps(told, ensure_ascii=False)[:-1]
        await request.answer(200, ('%s,"around":[%s]}' % (head, ",".join(around))).encode("utf-8", "replace"))

    async def export(self, request):
        """All matches of a range, the newest first, as lines of JSON or as CSV."""
        asked = self._query(request)
        _, _, low, high = self._range(request)
        most, kind = self._number(request, "most", 10_000, limits.EXPORTED), request.query.get("as", "jsonl")
        if kind not in ("jsonl", "csv"):
            raise Fault(400, "as is jsonl or csv")
        begun = False
        while most > 0:
            _, ids = await self._asking.newest(asked, low, high, min(most, limits.MATCHES))
            if not begun:
                begun = True
                request.begin("text/csv; charset=utf-8" if kind == "csv" else "application/x-ndjson",
                              'Content-Disposition: attachment; filename="messages.%s"\r\n' % kind)
                if kind == "csv":
                    await request.more(b"time,source,level,text,id\r\n")
            wanted = ids
            while wanted:
                rows, left = await self._console.texts_of(wanted)
                turn, data = Turn(), bytearray()
                for row in rows:
                    data += as_csv(row) if kind == "csv" else for_programs(*row).encode("utf-8", "replace") + b"\n"
                    if len(data) >= PIECE:
                        await request.more(data)
                        data = bytearray()
                    await turn.rest()
                if data:
                    await request.more(data)
                wanted = wanted[len(wanted) - left:] if left else []
            most -= len(ids)
            if len(ids) < limits.MATCHES:
                break
            high = ids[-1] - 1
