"""What a query asks for, as a tree: for the marks in a shown message. The index reads a query first and refuses a bad one, also one that is
too deep or too large, so what can't be read here is passed over."""
import re

from .fields import begun_name, value_asked
from .words import words

LEXEME = re.compile(r'[ \t]*(?:([()-])|"([^"]*)"(?:~([0-9]+))?|([^ \t()"]+))')


class Reader:
    """The grammar of docs/FORMATS.md over the lexemes of a query, in which these names are those of fields; `fold` makes of a text the one
    whose words count."""

    def __init__(self, query, names, fold):
        self._fold = fold
        self._query = query
        self._names = names
        self._place = 0
        self._next = self._lexeme()

    def _lexeme(self):
        found = LEXEME.match(self._query, self._place)
        if not found:
            return ("end", None)
        self._place = found.end()
        sign, quoted, window, bare = found.groups()
        if sign:
            return (sign, None)
        if quoted is not None:
            return ("text", (quoted, int(window) if window else None))
        if bare == "OR":
            return ("OR", None)
        if bare.startswith("since:") and bare[6:].isdigit():
            return ("since", int(bare[6:]))
        name = begun_name(bare, self._names)
        if name is not None:
            value, self._place = value_asked(self._query, self._place, bare[len(name) + 1:])
            return ("field", (name, value))
        return ("text", (bare, None))

    def _step(self):
        taken, self._next = self._next, self._lexeme()
        return taken

    def either(self):
        """One or several parts with OR between them."""
        parts = [self.all()]
        while self._next[0] == "OR":
            self._step()
            parts.append(self.all())
        return ("or", parts) if len(parts) > 1 else parts[0]

    def all(self):
        """One or several parts side by side."""
        parts = []
        while self._next[0] in ("-", "(", "text", "since", "field"):
            parts.append(self.one())
        return parts[0] if len(parts) == 1 else ("and", parts)

    def one(self):
        """A part: negated, in parentheses, a bound, a field or a text."""
        kind, value = self._step()
        if kind == "-":
            return ("not", self.one())
        if kind == "(":
            inner = self.either()
            if self._next[0] == ")":
                self._step()
            return inner
        if kind != "text":
            return (kind, value)
        return ("text", ([word for _, _, word in words(self._fold(value[0]))], value[1]))


def read(query, names=(), fold=str):
    """The query as a tree, where these names are those of fields; `fold` makes of a text the one whose words count, as pieces.apart."""
    return Reader(query, names, fold).either()
