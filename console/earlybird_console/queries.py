"""Queries as operators write them, as the index gets them: times become ids, and `name:value` a value of the field that the name chooses. All
is read from left to right, once, without recursion."""
import collections
import re

from earlybird_logs import pieces
from earlybird_logs.fields import value_asked
from earlybird_logs.hints import meant
from earlybird_logs.rewriting import Rewritten
from earlybird_logs.words import words

from . import limits, ranges
from .documents import LONGEST_NAME, SLOTS, first_key, slot_of, term_of

ALL = "since:0 OR -since:0"
DEEP = {"query too deep": "at most 16 parentheses and minuses are open at once", "query too large": "it has at most 64 parts, and 60 beside a range of time"}


class Refused(Exception):
    """What is asked can't be done: its name, the column of a query, from 1, or None, and what can be done about it."""

    def __init__(self, name, column=None, why=""):
        super().__init__(name)
        self.name = name
        self.column = column
        self.why = why


class Named(Rewritten):
    """A query without names and times of its own. `fields` are the (name, value) that it asks for."""

    def __init__(self, query, names, now):
        self.fields = []
        self.hints = meant(query)
        self._known = names
        self._now = now
        self._repeated = collections.Counter()
        super().__init__(query)

    def _quoted(self, lexeme, quoted, place):
        self._put(lexeme, place)
        self._bound_work(quoted, place)

    def _bound_work(self, text, place):
        found = [word for _, _, word in words(pieces.apart(text))]
        for word in found if len(found) > 1 else ():
            self._repeated[word] += 1
            if self._repeated[word] > limits.REPEATED:
                raise Refused("query too large", place + 1, "“%s” stands in its phrases more than %d times" % (word[:20], limits.REPEATED))

    def _bound(self, bare, place):
        """A bound of ids for a bound of time."""
        if bare == "since:0":
            return bare
        when = ranges.of_word(bare[6:], self._now)
        if when is None:
            raise Refused("bad query", place + 7, "%s takes 15m, 2h, 3d, 12:00, 2026-11-30 or 2026-11-30T12:00" % bare[:6])
        return "%ssince:%d" % ("-" if bare.startswith("until") else "", first_key(when) - 1)

    def _bare(self, bare, begin, end):
        """A bound of time, a word, or a field where a known name stands before a colon."""
        if bare.startswith(("since:", "until:")):
            self._put(self._bound(bare, begin), begin)
            return end
        name = self._name_of(bare)
        if name is None:
            self._put(bare, begin)
            self._bound_work(bare, begin)
            before, sign, _ = bare.partition("=")
            if sign and before.casefold() in self._known.known:
                self.hints.append("%s asks for these words in a row; the field is %s" % (bare, bare.replace("=", ":", 1)))
            return end
        value, end = self._value(bare[len(name) + 1:], begin + len(name) + 1, end)
        self.fields.append((name, value.casefold()))
        if name in self._known.words_only:
            self._put('"%s %s"' % (name, value), begin)
        else:
            self._put('%s:"%s"' % (slot_of(name), term_of(name, value)), begin)
        return end

    def _value(self, rest, place, end):
        """A value as it is written, and the place behind it."""
        if not rest and not self._query.startswith('"', end):
            raise Refused("bad query", place + 1, "a value has to stand right behind the colon")
        if not rest and self._query.find('"', end + 1) < 0:
            raise Refused("bad query", end + 1, "this quote isn't closed")
        _, behind = value_asked(self._query, end, rest)
        return rest or self._query[end + 1:behind - 1], behind

    def _name_of(self, bare):
        """The longest known name that stands before a colon."""
        end = bare.rfind(":", 0, LONGEST_NAME + 1)
        while end > 0:
            name = bare[:end].casefold()
            if name in self._known.known and len(name) == end:
                return name
            end = bare.rfind(":", 0, end)
        return None


class Asked:
    """A query: `text` is what the index gets, `fields` are the (name, value) that it asks for, `hints` what its writer may have meant. Where
    `parts` is set, the parts of words are words of their own in the index's texts, by the console's doing. Raises Refused."""

    def __init__(self, query, names, now, parts=True):
        self.query = query
        ends = [query.find(each) for each in "\n\r" if each in query]
        if ends:
            raise Refused("bad query", min(ends) + 1, "a query is one line")
        self._named = Named(query, names, now)
        self._parts = pieces.Asked(self._named.text, SLOTS) if parts else self._named
        self.fields, self.hints = self._named.fields, self._named.hints
        self.text = self._parts.text or ALL
        # whether it asks for all messages, and so marks nothing
        self.everything = self.text == ALL

    def within(self, low, high):
        """The query for ids above `low` and up to `high`, either of which may be None."""
        if low is None and high is None:
            return self.text
        found = [] if self.everything else ["(%s)" % self.text]
        if low is not None:
            found.append("since:%d" % low)
        if high is not None:
            found.append("-since:%d" % high)
        return " ".join(found)

    def column(self, place):
        """The column of the query, from 1, for a place, from 0, in `text`."""
        column = place + 1
        if self._parts is not self._named:
            column = self._parts.column(column)
        return self._named.column(column)

    def refusal(self, name, before=None):
        """What the index refuses it for, with `before` bytes of `text` before the place that it names."""
        if before is None:
            return Refused(name, None, DEEP.get(name, ""))
        column = self.column(len(self.text.encode()[:before].decode("utf-8", "ignore")))
        return Refused(name, column, why(self.query, column))


def why(query, column):
    """Why a query is refused at a column, in words."""
    if column > len(query):
        opened = []
        for found in re.finditer(r'"[^"]*"|[()]', query):
            if found.group() == "(":
                opened.append(found.start() + 1)
            elif found.group() == ")" and opened:
                opened.pop()
        return "the ( at %d isn't closed" % opened[-1] if opened else "something has to follow here"
    here = query[column - 1]
    if here == '"':
        closed = query.find('"', column)
        if closed < 0:
            return "this quote isn't closed"
        if query[closed + 1:closed + 2] == "~":
            return "after ~ comes a number of words from 1 to 1023"
        return "there is no word between these quotes"
    if here == ")":
        return "nothing stands before this ), or no ( belongs to it"
    if query[column - 1:column + 1] == "OR":
        return "OR wants something on both sides"
    return "there is no word here: “%s”" % query[column - 1:].strip()[:20].partition(" ")[0]
