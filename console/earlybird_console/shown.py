"""Messages as JSON: for programs, and for the page with marks. Ids are texts, since a browser's numbers have 53 bits."""
import csv
import io
import json

from earlybird_logs import message
from earlybird_logs.times import told


def refuse(name):
    """NaN and its like, which Python's JSON has and JSON hasn't."""
    raise ValueError(name)


def shown_line(raw):
    """A line as a value within JSON: the object that it is, or a text."""
    if raw.startswith(b"{"):
        try:
            json.loads(raw, parse_constant=refuse)
            return raw.decode().replace("\r", " ").strip()
        except (ValueError, RecursionError):
            pass
    return json.dumps(raw.decode("utf-8", "replace"), ensure_ascii=False)


def for_programs(key, at, source, raw):
    """A match for a program: the message as it came."""
    return '{"id":"%d","time":"%s","source":%s,"message":%s}' % (key, told(at), json.dumps(source, ensure_ascii=False), shown_line(raw))


def for_page(marker, key, at, source, raw):
    """A match for the page."""
    said = message.read(raw, at)
    return json.dumps({"id": str(key), "at": at, "source": source, "level": said.level, "text": said.text, "main": said.main,
                       "marks": marker.mark(key, said, source), "fields": said.fields}, ensure_ascii=False)


def as_csv(row):
    """A match as a line of CSV: a cell that a spreadsheet would run is a text there."""
    key, at, source, raw = row
    said, out = message.read(raw, at), io.StringIO()
    cells = [source, said.level or "", said.text]
    csv.writer(out).writerow([told(at), *("'" + cell if cell[:1] in ("=", "+", "@", "-", "\t", "\r") else cell for cell in cells), str(key)])
    return out.getvalue().encode("utf-8", "replace")
