"""Checks without a process: lines, figures, texts, times, queries, documents, names. Words and marks are checked by logs/check."""
import json
import os
import random
import sqlite3

from comparing import check
from earlybird_console import limits
from earlybird_console.alerts import Watch
from earlybird_console.answers import axis
from earlybird_console.counts import runs
from earlybird_console.documents import LOW, SLOTS, SPAN, document, first_key, key_of, number_of, shorter, slot_of, time_of
from earlybird_console.figures import Seconds, nearest
from earlybird_console.keys import Keys
from earlybird_console.lines import LONGEST, Splitter, read_printed, refused_at
from earlybird_console.names import DIFFERENT, LOOKED_AT, MOST, Names
from earlybird_console.queries import ALL, Asked, Refused
from earlybird_console.ranges import of_word
from earlybird_console.shown import as_csv, shown_line
from earlybird_console.texts import BEFORE, Texts, TextsFault
from earlybird_logs import message


# 2026-11-30 12:00 UTC
NOW = 1796040000000


def check_lines():
    """Lines in pieces, lines out, columns."""
    splitter = Splitter()
    check("lines of pieces", [[], [b"ab"], [b"", b"c"], []], [splitter.take(piece) for piece in (b"a", b"b\n", b"\nc\r\nd", b"")])
    check("the line without an end", ([b"d"], 1), (splitter.last(), splitter.behind))
    splitter = Splitter()
    long = b"a" * LONGEST
    check("a long line is cut", [[], [], [long, b"x"]], [splitter.take(piece) for piece in (b"a" * (LONGEST + 1), b"b" * 9, b"c\nx\n")])
    check("a long line at the end", ([], [long]), (splitter.take(b"a" * (LONGEST + 1)), splitter.last()))
    check("nothing at the end", [], Splitter().last())
    chance, lines = random.Random(3), [b"x" * length for length in (0, 1, 70000, 3, 65536, 65537, 2)]
    data, splitter, got = b"\n".join(lines) + b"\n", Splitter(), []
    while data:
        size = chance.randrange(1, 40000)
        got, data = got + splitter.take(data[:size]), data[size:]
    check("lines of any pieces", [line[:LONGEST] for line in lines], got)
    for most in (3, 9, 200000):
        lines = [b"x" * chance.choice((0, 1, 2, 5, 70000)) + chance.choice((b"", b"\r")) for _ in range(60)]
        data, splitter, got = b"\n".join(lines) + b"\n", Splitter(), []
        if most < 10:
            data = data.replace(b"x" * 70000, b"yy")
        wanted = [line[:LONGEST] for line in data.split(b"\n")[:-1]]
        while data:
            size = chance.randrange(1, most + 1)
            got, data = got + splitter.take(data[:size]), data[size:]
        check("lines of pieces of up to %d bytes, some with CR" % most, [line[:-1] if line.endswith(b"\r") else line for line in wanted], got)
    check("an answer", (3, "seen", (2, [102, 101])), read_printed(b"3 seen 2: 102 101"))
    check("an answer of nothing", (4, "seen", (4, [])), read_printed(b"4 seen 4:"))
    check("a count", (7, "count", (5, 2, [])), read_printed(b"7 count 5: 2"))
    check("a count of buckets", (8, "count", (5, 2, [1, 0, 1])), read_printed(b"8 count 5: 2 1 0 1"))
    check("no count", None, read_printed(b"8 count 5:"))
    check("watches", (12, "watch", [3, 7]), read_printed(b"12 watch: 3 7"))
    check("a refusal", (8, "refused", "not rising after 9"), read_printed(b"8 refused: not rising after 9"))
    check("the summary", None, read_printed(b"end: documents 1, queries 0, refused 0, kept 1"))
    check("a place", ("bad query", 8), refused_at("bad query at 12", 3))
    check("no place", ("query too deep", None), refused_at("query too deep", 3))


def check_figures():
    """Counts by the second, and times; thresholds of watches."""
    cases = [([], 50, None), ([1], 99, 1), ([3, 2, 1], 50, 2), ([3, 2, 1], 99, 3), (range(1, 101), 50, 50), (range(1, 101), 99, 99)]
    check("parts of 100", [want for _, _, want in cases], [nearest(times, part) for times, part, _ in cases])
    now = [10.0]
    seconds = Seconds(lambda: now[0])
    seconds.add(3)
    now[0] = 12.5
    seconds.add()
    check("counts of a minute", [0] * 57 + [3, 0, 1], seconds.counts())
    now[0] = 13.1
    check("the rate of whole seconds", 0.8, seconds.rate())
    now[0] = 500
    check("counts that are over", [0] * 60, seconds.counts())

    class Came:
        """A message that came at a second."""
        def __init__(self, second):
            self.at = second * 1000

    watch = Watch(1, "a", "", 3, 10)
    rows = [(100, [100], False), (105, [105], False), (109, [109], True), (110, [110, 110, 110], False), (119, [119], True), (300, [300], False), (301, [1, 2, 3], False)]
    check("a threshold is reached", [want for _, _, want in rows], [watch.add([Came(each) for each in came], now) for now, came, _ in rows])
    check("what it has met", (11, 2), (watch.met, watch.alarms))
    watch = Watch(1, "a", "b", 2, 3600)
    for second in range(20000):
        watch.add([Came(second / 10)] * 10, second / 10)
    check("its times are bounded", True, len(watch._times) <= 3602)  # pylint: disable=protected-access


def check_texts(folder):
    """What is kept and dropped, and what a file of the form before becomes."""
    texts = Texts()
    check("sources", [1, 2, 1], [texts.source(name) for name in ("a", "b", "a")])
    rows = [(1, 70, 1, b"a"), (2, 60, 2, b"b"), (4, 60, 1, b"d"), (3, 90, 1, b"c")]
    texts.add(rows, [("file", "1:2", 9)], [("level", False), ("trace", True)])
    check("kept", (4, 4, 1, ("1:2", 9)), (texts.count, texts.newest, texts.oldest, texts.place("file")))
    check("one", (rows[3], None), (texts.one(3), texts.one(9)))
    check("around", [rows[0], rows[3], rows[2]], texts.around(3, 1, 5))
    check("around, one each", [rows[3], rows[2]], texts.around(4, 1, 1))
    check("sizes", (2, 0), (texts.size([1, 4, 77]), texts.size([])))
    check("dropped, at most as many as asked", [[(1, 70), (2, 60)], [(3, 90)], []], [texts.drop(4, 2), texts.drop(4, 2), texts.drop(4, 2)])
    check("what is left", (1, 4, 4, [(4, 60, 1, b"d")]), (texts.count, texts.newest, texts.oldest, texts.after(0, 9)))
    texts.close()
    path = os.path.join(folder, "before.sqlite")
    before = sqlite3.connect(path)
    before.executescript("""CREATE TABLE messages (seq INTEGER PRIMARY KEY, id INTEGER NOT NULL, at INTEGER NOT NULL, line BLOB NOT NULL);
        CREATE INDEX messages_by_id ON messages (id, seq); CREATE TABLE watches (number INTEGER PRIMARY KEY, query TEXT NOT NULL);
        CREATE TABLE places (path TEXT PRIMARY KEY, file TEXT NOT NULL, place INTEGER NOT NULL);
        INSERT INTO watches VALUES (7, 'late'); INSERT INTO places VALUES ('/a', '1:2', 30); PRAGMA user_version = 1;""")
    before.execute("INSERT INTO messages VALUES (5, 1, 1700000000000, ?)", (b'{"id":1,"text":"rain","User":"mara"}',))
    before.execute("INSERT INTO messages VALUES (6, 2, 1700000000000, ?)", (b'{"id":2,"text":"sun","ts":1796040000}',))
    before.commit()
    before.close()
    for _ in range(2):
        texts = Texts(path)
        check("a file of the form before", [(5, 1700000000000, 1, b'{"id":1,"text":"rain","User":"mara"}'), (6, NOW, 1, b'{"id":2,"text":"sun","ts":1796040000}')], texts.after(0, 9))
        check("its watches and places", ([(7, "late", "late", 0, 60)], ("1:2", 30), {1: BEFORE}, True), (texts.watches(), texts.place("/a"), texts.sources, ("user", False) in texts.names))
        texts.close()
    for name, data in (("nothing of SQLite", b"x" * 5000), ("another form", None)):
        path = os.path.join(folder, "none.sqlite")
        if data:
            with open(path, "wb") as file:
                file.write(data)
        else:
            os.unlink(path)
            other = sqlite3.connect(path)
            other.execute("PRAGMA user_version = 9")
            other.execute("CREATE TABLE x (y)")
            other.close()
        try:
            Texts(path)
            check(name, "a refusal", None)
        except TextsFault as fault:
            check(name, True, "not a database" in str(fault) or "no file of texts" in str(fault))


def check_times():
    """Times of ranges, and the axis."""
    cases = [("15m", NOW - 900000), ("2h", NOW - 7200000), ("1w", NOW - 604800000), ("now", NOW), ("2026-11-30T12:00Z", NOW), ("2026-11-30T13:00+01:00", NOW), ("2026-11-30 12:00:00.5Z", NOW + 500),
             (str(NOW), NOW), (str(NOW // 1000), NOW), ("0", None), ("x", None), ("", None), ("99999999h", None), ("25:00", None), ("2026-13-01", None), ("9" * 30, None), ("\u0661m", None), ("x" * 5000, None)]
    check("times that people write", [want for _, want in cases], [of_word(word, NOW) for word, _ in cases])
    check("times of today and days", True, None not in (of_word("00:00", NOW), of_word("2026-11-30", NOW)) and of_word("12:30", NOW) - of_word("12:00", NOW) == 1800000)
    check("bars of one length", [[(10, 5, 3)], [(12, 3, 1), (15, 5, 2)], [(12, 3, 1), (15, 5, 1), (20, 1, 1)], [(1, 4, 1)]],
          [list(runs(edges)) for edges in ([10, 15, 20, 25], [12, 15, 20, 25], [12, 15, 20, 21], [1, 5])])
    chance = random.Random(4)
    for _ in range(2000):
        begin = chance.randrange(1, 1 << 42)
        end, bars = min(begin + chance.randrange(1, 10 ** chance.randrange(1, 13)), (1 << 42) - 1), chance.randrange(2, 301)
        if end <= begin:
            continue
        first, step, edges = axis(begin, end, bars)
        good = edges[0] == begin and edges[-1] == end and len(edges) <= bars + 1 and all(one < other for one, other in zip(edges, edges[1:])) and first <= begin < first + step
        if not good or any(edge != first + place * step for place, edge in enumerate(edges[1:-1], 1)):
            check("the axis from %d to %d in %d" % (begin, end, bars), "good", (first, step, edges[:3], edges[-3:]))
    check("axes were made", True, True)


def check_documents():
    """Ids by time, and what the index gets."""
    chance = random.Random(2)
    for _ in range(2000):
        when, newest = chance.randrange(1, 1 << 42), chance.randrange(1, 1 << 40)
        number = max(newest - chance.randrange(SPAN), 1)
        key = key_of(when, number)
        if (time_of(key), number_of(key, newest)) != (when, number) or not first_key(when) <= key < first_key(when + 1) or key >= 1 << 63:
            check("the id of %d, %d" % (when, number), (when, number), (time_of(key), number_of(key, newest)))
    check("ids were made", 21, LOW)
    said = message.read(b'{"ts":1796040000,"msg":"com.acme.Billing late","User":"Mara","trace":"a7","deep":{"x":1},"long":"%s","q":"say \\"a\\""}' % (b"x" * 90), NOW)
    made = json.loads(document(5, said, "a.log", ("trace",)))
    check("the text has the parts of words", True, made["text"].startswith("com acme Billing late User=Mara trace=a7 deep x=1"))
    wanted = {"user:Mara", "deep.x:1", "long:" + "x" * 90, "q:say 'a'", "source:a.log"}
    check("members are values", wanted, {value for slot in SLOTS for value in made.get(slot, ())})
    check("each in the field of its name", True, "user:Mara" in made[slot_of("user")])
    halves, line = 0, document(5, message.read(b"a " * 4000, NOW), "x")
    while len(line) > 200:
        line, halves = shorter(line), halves + 1
    check("a text that is too long is halved", (True, 5), (halves < 9, json.loads(line)["id"]))
    check("lines within JSON", ['{"a": 1}', '"{\\"a\\":NaN}"', '"x\ufffd"', '"{"', '"\\"quoted\\""'], [shown_line(line) for line in (b'{"a":\r1}', b'{"a":NaN}', b"x\xff", b"{", b'"quoted"')])
    check("cells that a spreadsheet would run", b"1970-01-01T00:00:00.001Z,'@b,,'=1+1,9\r\n", as_csv((9, 1, "@b", b"=1+1")))


def check_keys():
    """Ids in order, however they come and go."""
    chance, keys, there = random.Random(8), Keys([5, 3, 9]), {5, 3, 9}
    for step in range(400):
        new = [chance.randrange(1, 1 << 62) if chance.randrange(3) else (1 << 62) + step * 100 + place for place in range(chance.choice((1, 3, 90)))]
        keys.add(new)
        there.update(new)
        gone = chance.sample(sorted(there), min(chance.choice((0, 1, 80)), len(there)))
        keys.drop(gone)
        there -= set(gone)
        if step % 3 == 0 and list(keys.all()) != sorted(there):
            check("ids in order, step %d" % step, sorted(there), list(keys.all()))
    check("ids in order", sorted(there), list(keys.all()))


def check_names():
    """Names, and those that have a value for each message."""
    names = Names([("old", False), ("only", True)], ("Given",))
    for number in range(LOOKED_AT):
        names.note({"Level": "x%d" % number, "trace": "t%d" % number, "user": "u%d" % (number % 400), "pid": str(number)})
    check("names that have a value each", {"only", "given", "trace"} if DIFFERENT > 400 else None, names.words_only - {"level"})
    check("what is kept of them", True, {("trace", True), ("user", False)} <= set(names.changed()))
    check("and nothing twice", [], names.changed())
    for number in range(3 * MOST):
        names.note({"n%d" % number: "1", "x" * 65 + str(number): "1"})
    check("names have a bound", (True, False), (len(names.known) <= MOST + 2, any(len(name) > 64 for name in names.known)))


def asked(query, names=None, parts=True):
    """The text of a query, or its refusal."""
    try:
        return Asked(query, names or Names([("user", False), ("http.status", False), ("trace_id", True), ("a:b", False)]), NOW, parts).text
    except Refused as refused:
        return refused.name, refused.column


def check_queries():
    """Queries as the index gets them."""
    user, status, both = slot_of("user"), slot_of("http.status"), slot_of("a:b")
    cases = [
        ("", ALL), ("rain", "rain"), ("a.b", '"a b"'), ("user:mara x", '%s:"user:mara" x' % user), ('-USER:"north gate"', '-%s:"user:north gate"' % user), ("other:x", '"other x"'),
        ("http.status:500", '%s:"http.status:500"' % status), ("a:b:c", '%s:"a:b:c"' % both), ("trace_id:7f.3", '"trace id 7f 3"'), ('(user:a OR "x_y"~3)', '(%s:"user:a" OR "x y"~3)' % user),
        ("since:15m", "since:%d" % (first_key(NOW - 900000) - 1)), ("-until:%d" % NOW, "--since:%d" % (first_key(NOW) - 1)), ("since:0", "since:0"), ("user:x\"y\"", '%s:"user:x""y"' % user),
        ("since:x", ("bad query", 7)), ("é until:", ("bad query", 9)), ("user:", ("bad query", 6)), ('x user:"open', ("bad query", 8)), ("a\nb", ("bad query", 2)),
    ]
    check("queries for the index", [want for _, want in cases], [asked(query) for query, _ in cases])
    check("where the program parts words", ['a.b %s:"user:x.y"' % user, "com.acme"], [asked(query, None, False) for query in ("a.b user:x.y", "com.acme")])
    one = Asked("rain", Names([]), NOW)
    check("within a range", ["rain", "(rain) since:5", "(rain) since:5 -since:9", "-since:9"], [one.within(None, None), one.within(5, None), one.within(5, 9), Asked("", Names([]), NOW).within(None, 9)])
    refusals = [("(rain", 5, 6, "the ( at 1 isn't closed"), ("a.b ) x", 6, 5, "nothing stands before this ), or no ( belongs to it"), ('user:mara "x', len(asked('user:mara "x')) - 2, 11, "this quote isn't closed")]
    for query, before, column, why in refusals:
        refusal = Asked(query, Names([("user", False)]), NOW).refusal("bad query", before)
        check("why %r is refused" % query, (column, why), (refusal.column, refusal.why))
    check("a name that is asked for as a sign", True, any("the field is user:x" in hint for hint in Asked("user=x", Names([("user", False)]), NOW).hints))
    check("a word too often in phrases", ("query too large", 1), asked('"%s"~9' % " ".join(["a"] * (limits.REPEATED + 1))))
    check("and not too often", str, type(asked(" OR ".join('"a b%d"' % number for number in range(limits.REPEATED)))))
    chance, lexemes = random.Random(6), ["user:", "user:a.b", "trace_id:", '"', '"a_b"', "~3", "(", ")", "-", "OR", " ", "since:1h", "until:", "a.b", "é:", ":", "::", "\u0130:x"]
    for _ in range(4000):
        query = "".join(chance.choices(lexemes, k=chance.randrange(9)))
        try:
            one = Asked(query, Names([("user", False), ("trace_id", True)]), NOW)
        except Refused as refused:
            if not 1 <= (refused.column or 1) <= len(query) + 1:
                check("the column of %r" % query, "within it", refused.column)
            continue
        columns = [one.column(place) for place in range(len(one.text) + 1)]
        if columns != sorted(columns) or not all(1 <= column <= len(query) + 1 for column in columns):
            check("the columns of %r" % query, "rising", columns)
        for before in (0, len(one.text)):
            one.refusal("bad query", before)
    check("random queries were read", True, True)


def check_plain(folder):
    """All of them."""
    check_lines()
    check_figures()
    check_texts(folder)
    check_times()
    check_documents()
    check_keys()
    check_names()
    check_queries()
