"""Lines, files and queries that mean harm."""
import os
import random

from comparing import check
from earlybird_live import sources
from earlybird_live.blocks import Blocks, lines_of
from earlybird_live.documents import Documents, fields_of
from earlybird_live.parts import Gone, Refused
from earlybird_live.sources import LONGEST, Source, Spool

from .loads import lines_at, loaded, write

HARMFUL = [
    b"\x00" * 100, b"\x00w1", b"\x1b[31mw1\x07", b"\xff\xfe w1", b'{"id":1,"text":"w1"} x', b'{"text":"w1","text":"w2"}', b'{"text":"\\ud800 w1"}', b"[" * 9000, b'{"a":' * 9000,
    b'{"message":"w1","level":"' + b"x" * 9000 + b'"}', b'{"message":"w1","level":["a",{"b":1}]}', b'{"message":"w1","level":' + b"9" * 5000 + b"}", b'{"message":"w1","level":[' + b"1," * 99 + b"1]}",
    b"{", b"{}", b'{"message":null}', b'{"message":"w1","level":NaN}', b'{"message":"w1","level":18446744073709551616}', b"?5 w1", b"!1 w1", "w1 \u2028 \u202e\u2066".encode(),
    b'{"message":"w1\\nw2\\u001b[2J"}', b"w1 " * 5000, "ß".encode() * 30000, b"\r", b" ", b"\t", b"w1\r\r", b'{"w":"' + b"w1 " * 30000 + b'"}',
]


def lines(folder):
    """Each line has its number, whatever it is; none is lost, and none ends the index."""
    path = write(os.path.join(folder, "harmful\nname.log"), b'{"message":"w1","level":"info"}\n' + b"\n".join(HARMFUL) + b"\nlast w1\n")
    with loaded([path]) as loader:
        count = len(HARMFUL) + 2
        check("harmful lines: no fault, and none is lost", (None, 0, count), (loader.fault, loader.lost, loader.blocks.next - 1))
        blank = sum(not it.strip() for it in HARMFUL)
        check("harmful lines: all but blank ones are there", count - blank, loader.ask("w1", 1)[0])
        check("harmful lines: the last one, and a field", (count, [1]), (loader.ask("last", 1)[1][0], loader.ask("level:info", 5)[1]))
        check("harmful lines: they are what they were", [it[:-1] if it.endswith(b"\r") else it for it in HARMFUL], lines_at(loader, range(2, count)))
    chance = random.Random(3)
    data = bytes(chance.randrange(256) for _ in range(100000))
    with loaded([write(os.path.join(folder, "random"), data)]) as loader:
        check("bytes that are no text", (None, len(lines_of(data))), (loader.fault, loader.blocks.next - 1))
    for name, data in (("bad.gz", b"no gzip"), ("half.gz", b"\x1f\x8b\x08\x00\x00\x00\x00\x00\x00\x03KL"), ("noise.gz", b"\x1f\x8b\x08\x00\x00\x00\x00\x00\x00\x03" + b"\xff" * 99)):
        with loaded([write(os.path.join(folder, name), data)]) as loader:
            check("%s: it says which file" % name, True, name in (loader.fault or ""))
            try:
                check("%s: a query" % name, "a refusal", loader.ask("a", 1))
            except Gone:
                pass
    with loaded([write(os.path.join(folder, "empty"), b"")]) as loader:
        check("an empty file", (None, (0, [])), (loader.fault, loader.ask("a", 1)))


def blocks(folder):
    """Blocks of random pieces are the lines of the whole; of a long line a bounded part is kept, in bounded work."""
    chance = random.Random(4)
    for _ in range(30):
        data = b"".join(b"x" * chance.choice([0, 1, 5, 70, LONGEST - 1, LONGEST, LONGEST + 1, 3 * LONGEST]) + b"\n" for _ in range(chance.randrange(8))) + b"y" * chance.choice([0, 3, LONGEST + 5])
        source, found, place = Source(write(os.path.join(folder, "b"), data)), [], 0
        while place < len(data):
            step = chance.choice([1, 100, 65536, 65536, 300000]) if len(data) < 1000000 else 65536
            found += source.blocks(data[place:place + step])
            place += step
        found += source.last()
        got = [line[:LONGEST] for _, block in found for line in lines_of(block)]
        check("blocks: the lines", [line[:LONGEST] for line in lines_of(data)], got)
        check("blocks: their places", [block for _, block in found], [source.at(place, len(block)) for place, block in found])
        source.close()
    source = Source(os.path.join(folder, "b"))
    held = []
    for _ in range(200):
        source.blocks(b"z" * 65536)
        held.append(len(source._rest))
    check("blocks: of a line without an end no more than that is held", True, max(held) <= LONGEST)
    source.close()
    before, sources.CHUNK = sources.CHUNK, 1000
    spool, data = Spool(), bytes(chance.randrange(256) for _ in range(10000))
    for at in range(0, len(data), 777):
        spool.write(at, data[at:at + 777])
    check("a spool: any part", True, all(spool.read(at, 1500) == data[at:at + 1500] for at in range(0, 8500, 311)))
    spool.forget(4500)
    check("a spool: what is given back", (b"", data[4500:6000], 6), (spool.read(0, 1000), spool.read(4500, 1500), len(spool._files)))
    sources.CHUNK = before
    check("fields of lines that are none", [], fields_of([b"{", b"[1]", b"x", b'{"a b":1}', b'{"since":1}', b'{"A":1}']))
    rows, numbers = Documents(("level",)).of_block(b"a\n\n{\n", [b"a", b"", b"{"], 5, "x")
    check("documents of a block", (b'{"id":5,"text":"a"}\n{"id":7,"text":"{"}\n', [5, 7]), (rows, list(numbers)))
    check("a block that isn't there", [], list(Blocks().lines([0, 1, 5])))


def queries(folder):
    """A query is one line, and a refusal names its column, with bounds as without."""
    with loaded([write(os.path.join(folder, "q.log"), "é w1\n" * 50)]) as loader:
        for query, name, column in (("(w1", "bad query", 4), ("w1)", "bad query", 3), ("é (", "bad query", 4), ('"w1', "bad query", 1), ("w1 OR", "bad query", 6), ("", "bad query", 1), ("a.b x_y )", "bad query", 9), ("a.b .", "bad query", 5),
                                    ('w1\n{"id":1,"text":"w1"}', "a query is one line", 3), ("\udcff", "bad line", None), ("(" * 17 + "w1" + ")" * 17, "query too deep", None)):
            for bounds in ((), (40,), (None, 3)):
                try:
                    check("a bad query %r" % query, "a refusal", loader.ask(query, 5, *bounds))
                except Refused as fault:
                    check("a bad query %r %s" % (query, bounds), name, fault.name)
                    if not bounds and name == "bad query":
                        check("a bad query %r: its column" % query, column, fault.column)
        check("after them", [50, 49], loader.ask("w1", 2)[1])
