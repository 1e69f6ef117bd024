"""A query that is made of another one, lexeme by lexeme, and the columns of the one in the other: what is made is what the index gets, and what it
says of a column is about what was written."""
import bisect

from .query import LEXEME


class Rewritten:
    """`text` is what is made of a query, from left to right, once, without recursion. Time and size are linear in the query. What a class doesn't
    make anew stays as it is."""

    def __init__(self, query):
        self._query = query
        # where parts begin in the text, and where each comes from
        self._begins, self._from = [0], [0]
        self._out = []
        self._length = 0
        self._read()
        self.text = "".join(self._out)

    def _put(self, text, place):
        """Adds a part that comes from a place of the query."""
        self._begins.append(self._length)
        self._from.append(place)
        self._out.append(text)
        self._length += len(text)

    def _read(self):
        query, place = self._query, 0
        while True:
            found = LEXEME.match(query, place)
            if not found:
                break
            begin, end = found.start(), found.end()
            _, quoted, _, bare = found.groups()
            if bare is not None:
                word = found.start(4)
                self._put(query[begin:word], begin)
                end = self._bare(bare, word, end)
            elif quoted is not None:
                self._quoted(query[begin:end], quoted, begin)
            else:
                self._put(query[begin:end], begin)
            place = end
        self._put(query[place:], place)

    def _quoted(self, lexeme, quoted, place):
        """Adds what is made of a quoted text: the lexeme, from this place on, with the quotes and what belongs to it outside of them."""
        del quoted
        self._put(lexeme, place)

    def _bare(self, bare, place, end):
        """Adds what is made of a run without blanks, which stands from this place on to `end`; gives the place behind all that belongs to it."""
        self._put(bare, place)
        return end

    def column(self, column):
        """The column of the query, from 1, for one of the text. A part that is longer than what it comes from ends where that does."""
        at = bisect.bisect_right(self._begins, column - 1) - 1
        end = self._from[at + 1] if at + 1 < len(self._from) else len(self._query)
        return min(self._from[at] + column - 1 - self._begins[at], end) + 1
