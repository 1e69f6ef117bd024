"""Matches as lines: for people with marks, for a pipe as they came, and as JSON."""
import json
import re
import time

from earlybird_logs.marks import marks
from earlybird_logs.message import members_of, read_members
from earlybird_logs.pieces import apart
from earlybird_logs.query import read
from earlybird_logs.times import stamp, told

# what no terminal should get: controls, and signs that turn the direction of letters
CONTROL = re.compile("[\x00-\x08\x0a-\x1f\x7f-\x9f\u2028\u2029\u202a-\u202e\u2066-\u2069]")
BOLD, DIM, PLACE, END = "\x1b[1;31m", "\x1b[2m", "\x1b[35m", "\x1b[0m"
# characters of a line that a terminal gets
LONGEST = 4000
GONE = "(the file was changed: this line is gone)"


def tree_of(query, names):
    """A query that the index took, as it is read for the marks; or what marks nothing."""
    try:
        return read(query, names, apart)
    except (IndexError, ValueError, RecursionError):
        return ("and", [])


def seen_safely(text):
    """A text as a terminal may get it, on one line."""
    return CONTROL.sub("\ufffd", text.replace("\n", " "))


class Shown:
    """Writes matches to a stream of bytes: as JSON, else for people, with colour or without, else as they came. Where there are several files,
    each line has its file's name before it."""

    def __init__(self, loader, out, for_people, colour, as_json):
        self._loader = loader
        self._out = out
        self._for_people = for_people
        self._colour = colour
        self._json = as_json

    def put(self, numbers, tree):
        """Writes the matches of these numbers, the newest last."""
        rows = []
        for number, source, line, data in self._loader.blocks.lines(sorted(numbers)):
            if self._json:
                row = self._as_json(source, line, data).encode("utf-8", "replace")
            elif self._for_people:
                row = self._as_shown(number, source, line, data, tree).encode("utf-8", "replace")
            else:
                row = (source.name.encode("utf-8", "surrogateescape") + b":" if len(self._loader.sources) > 1 else b"") + (data or b"")
            rows.append(row + b"\n")
        self._out.write(b"".join(rows))
        self._out.flush()

    def _as_json(self, source, line, data):
        members = members_of(data or b"")
        row = {"file": source.name, "line": line}
        when = self._time_of(data, members)
        if when is not None:
            row["time"] = told(when)
        row.update({"gone": True} if data is None else {"text": data.decode("utf-8", "replace")} if members is None else {"message": members})
        return json.dumps(row, ensure_ascii=False)

    @staticmethod
    def _time_of(data, members):
        if members is not None:
            return read_members(members).when
        return stamp(data[:400].decode("utf-8", "replace"), time.time() * 1000)[0] if data else None

    def _paint(self, how, text):
        return how + text + END if self._colour and how and text else text

    def _marked(self, text, places, begin, end, dim):
        """A part of a text with its marks."""
        out, last = [], begin
        for first, behind in places:
            if begin <= first and behind <= end:
                out += [self._paint(DIM if dim else "", seen_safely(text[last:first])), self._paint(BOLD, seen_safely(text[first:behind]))]
                last = behind
        out.append(self._paint(DIM if dim else "", seen_safely(text[last:end])))
        return "".join(out)

    def _as_shown(self, number, source, line, data, tree):
        """A line as a terminal shows it: its place, the time of a JSON message, the message, and its other members."""
        place = self._paint(PLACE, seen_safely("%s%d:" % (source.name + ":" if len(self._loader.sources) > 1 else "", line)))
        if data is None:
            return place + " " + self._paint(DIM, GONE)
        members = members_of(data)
        if members is None:
            text, main, head = data.decode("utf-8", "replace"), None, ""
        else:
            said = read_members(members, self._loader.text)
            text, main = said.text, said.main
            head = self._paint(DIM, time.strftime("%Y-%m-%d %H:%M:%S", time.localtime(said.when / 1000))) + "  " if said.when else ""
        more = len(text) > LONGEST
        text = text[:LONGEST]
        places = marks(tree, text, number, dict(members or {}, file=source.name.rsplit("/", 1)[-1]), apart) or []
        main = len(text) if main is None else min(main, len(text))
        return "%s %s%s%s%s" % (place, head, self._marked(text, places, 0, main, False), self._marked(text, places, main, len(text), True), " .." if more else "")
