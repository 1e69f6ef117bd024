"""The names of members that messages have had, which a query may ask for.

Of a name whose values hardly ever come again, as traces and durations have, each value would be a word of its own in the index, beside the one
that it is in the text. Its values are found by the text alone: `trace_id:7f3a` asks for these words in a row."""
from .documents import LONGEST_NAME

MOST = 1000
# a name with at least DIFFERENT values among its first LOOKED_AT ones has a value for each message
LOOKED_AT, DIFFERENT = 512, 450
# these the console finds in lines that don't name them
ALWAYS = frozenset(("level", "source", "host", "program", "pid"))


class Names:
    """Those that are known, in small letters. `words_only` are those whose values are found by their words alone; some of these are given."""

    def __init__(self, kept, given=()):
        self.known = {name for name, _ in kept} | {"source"}
        self.words_only = {name for name, only in kept if only} | {name.casefold() for name in given}
        self._values = {}
        self._counts = {}
        self._changed, self._found = set(), set()
        # (spellings that were looked at, so that most are told by one look)
        self._seen = {}

    def note(self, fields):
        """Takes note of a message's fields."""
        for spelled, value in fields.items():
            name = self._seen.get(spelled)
            if name is None:
                name = self._learn(spelled)
            if name in self._values:
                self._look(name, value)

    def _learn(self, spelled):
        name = spelled.casefold()
        if name not in self.known and len(self.known) < MOST and len(name) <= LONGEST_NAME:
            self.known.add(name)
            self._changed.add(name)
            if name not in ALWAYS and name not in self.words_only:
                self._values[name], self._counts[name] = set(), 0
        if len(self._seen) < 4 * MOST:
            self._seen[spelled] = name
        return name

    def _look(self, name, value):
        self._values[name].add(hash(value))
        self._counts[name] += 1
        if self._counts[name] == LOOKED_AT:
            if len(self._values[name]) >= DIFFERENT:
                self.words_only.add(name)
                self._changed.add(name)
                self._found.add(name)
            del self._values[name], self._counts[name]

    def found(self):
        """The names that were found to have a value for each message since the last call."""
        found, self._found = self._found, set()
        return found

    def changed(self):
        """What is to be kept since the last call: (name, whether its words alone are found)."""
        changed, self._changed = self._changed, set()
        return [(name, name in self.words_only) for name in changed]
