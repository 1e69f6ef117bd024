"""Words that are put together of others, as a.b.c, a_b and a:b. In logs their parts are what is asked for, so the index gets texts in which
the parts are words of their own, and a query for the whole asks for its parts in a row."""
from .fields import begun_name, value_asked
from .rewriting import Rewritten


def apart(text):
    """A text with the parts of its words apart; each character keeps its place."""
    return text.replace(".", " ").replace("_", " ").replace(":", " ")


class Asked(Rewritten):
    """A query for such texts, where these names are those of fields."""

    def __init__(self, query, names=()):
        self._names = names
        super().__init__(query)

    def _quoted(self, lexeme, quoted, place):
        self._put(apart(lexeme), place)

    def _bare(self, bare, place, end):
        name = begun_name(bare, self._names)
        if bare == "OR" or bare.startswith("since:") and bare[6:].isdigit():
            self._put(bare, place)
        elif name is not None:
            _, end = value_asked(self._query, end, bare[len(name) + 1:])
            self._put(self._query[place:end], place)
        elif apart(bare) == bare:
            self._put(bare, place)
        else:
            self._put('"', place)
            self._put(apart(bare), place)
            self._put('"', end - 1)
        return end
