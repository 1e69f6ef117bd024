"""What the index gets of a line: a document with the line's number, its text (the parts of its words apart), and the members that are fields."""
import json
import re

from earlybird_logs.message import LEVELS, TEXTS, TIMES, members_of, read_members
from earlybird_logs.pieces import apart

try:
    from _json import encode_basestring as quoted
except ImportError:
    from json.encoder import py_encode_basestring as quoted

# members that are fields before others
USUAL = ("level", "severity", "lvl", "service", "host", "user", "from", "room", "unit", "status", "logger", "app", "method", "code", "type")
MOST_FIELDS = 8
NAME = re.compile("[a-z0-9_]{1,32}")
WORD = re.compile(r"[A-Za-z0-9]+|[^\x00-\x7f]")
# letters that are found of a text with more words or bytes than a message may have: so few never have too many
CUT = 1000
MOST_WORDS, MOST_BYTES, MOST_VALUES, LONGEST_VALUE = 1024, 16384, 16, 128


def fields_of(lines):
    """The names of members that serve as fields, from the first lines: at most 8, the usual ones and those with few values first."""
    values = {}
    for line in lines[:200]:
        for name, value in (members_of(line) or {}).items():
            if name in ("id", "since", *(set(TEXTS) | set(TIMES)) - set(LEVELS)) or not NAME.fullmatch(name):
                continue
            if isinstance(value, (bool, int)) or isinstance(value, str) and len(value.encode("utf-8", "replace")) <= 64:
                values.setdefault(name, []).append(value)
    rank = lambda name: (name not in USUAL, len(set(values[name])) / len(values[name]))
    return sorted(values, key=rank)[:MOST_FIELDS]


def fits(text):
    """Whether a text has at most as many words and bytes as a message may have, by a bound: what the index refuses loses its place among the
    other lines."""
    if len(text) <= CUT:
        return True
    if len(text) > MOST_BYTES or not text.isascii() and len(text.encode("utf-8", "replace")) * 3 > MOST_BYTES:
        return False
    return sum(1 for _ in WORD.finditer(text)) <= MOST_WORDS


def is_value(value):
    """Whether the index takes a member as it is: one that is no field's value is passed over there, and one that is too long is refused."""
    if type(value) is str and len(value) <= 32 or type(value) is int:
        return True
    values = value if isinstance(value, list) else [value]
    return len(values) <= MOST_VALUES and all(
        isinstance(it, int) or isinstance(it, str) and (len(it) <= 32 or len(it.casefold().encode("utf-8", "replace")) <= LONGEST_VALUE) for it in values)


class Documents:
    """Makes documents, with these fields, of which `file` may be the name of the line's source; `text` names the member that is the text. `cut`
    counts the texts of which only the beginning is found."""

    def __init__(self, fields, text=None, with_source=False):
        self.fields = fields
        self.cut = 0
        self._text = text
        self._with_source = with_source
        # the fields that are members of a line
        self._own = [name for name in fields if name != "file" or not with_source]

    def _tail(self, source):
        return ',"file":%s}\n' % quoted(source) if self._with_source else "}\n"

    def of_block(self, data, lines, first, source):
        """The documents of a block, whose first line has this number, and the number of each: blank lines have none."""
        tail = self._tail(source)
        if data.startswith(b"{") or b"\n{" in data:
            numbers = [number for number, line in enumerate(lines, first) if line.strip()]
            rows = [self._of_line(lines[number - first], number, tail) for number in numbers]
            return "".join(rows).encode("utf-8", "replace"), numbers
        texts = apart(data.decode("utf-8", "replace")).split("\n")
        if not texts[-1]:
            texts.pop()
        if len(max(lines, key=len)) > CUT:
            texts = [self._fitted(text) for text in texts]
        numbers = [number for number, line in enumerate(lines, first) if line.strip()]
        rows = ['{"id":%d,"text":%s%s' % (number, quoted(texts[number - first]), tail) for number in numbers]
        return "".join(rows).encode("utf-8", "replace"), numbers if len(numbers) < len(lines) else range(first, first + len(lines))

    def of_line(self, line, number, source):
        """The document of one line."""
        return self._of_line(line, number, self._tail(source)).encode("utf-8", "replace")

    def shortest(self, line, number):
        """A document that has the beginning of a line alone."""
        return ('{"id":%d,"text":%s}\n' % (number, quoted(apart(line[:CUT].decode("utf-8", "replace"))))).encode("utf-8", "replace")

    def _fitted(self, text):
        if fits(text):
            return text
        self.cut += 1
        return text[:CUT]

    def _of_line(self, line, number, tail):
        members = members_of(line)
        if members is None:
            return '{"id":%d,"text":%s%s' % (number, quoted(self._fitted(apart(line.decode("utf-8", "replace")))), tail)
        own = ""
        for name in self._own:
            if name in members and is_value(members[name]):
                value = members[name]
                own += ',"%s":%s' % (name, quoted(value) if isinstance(value, str) else json.dumps(value, ensure_ascii=False))
        return '{"id":%d,"text":%s%s%s' % (number, quoted(self._fitted(apart(read_members(members, self._text).text))), own, tail)
