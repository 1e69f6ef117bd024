"""How lines and texts are read: by each type of index, beside the program, and said badly."""
import itertools
import os
import pathlib
import subprocess
import unittest

from earlybird import BadDocument, BadQuery, BadReading, Full, Index, Leader, Refused, Writer

CHECKOUT = pathlib.Path(__file__).resolve().parents[2]
PROGRAM = os.environ.get("EARLYBIRD", str(CHECKOUT / "earlybird"))
LINES = CHECKOUT / "examples" / "embed" / "fields.jsonl"
SETTING = (2, 100, 1024)


class Shared:
    """A writer and a reader of it, as one index."""

    def __init__(self, *setting, **reading):
        self.writer = Writer(*setting, **reading)
        self.add_line, self.search_line = self.writer.add_line, self.writer.reader().search_line


class Feed:
    """A leader and a follower of it, as one index."""

    def __init__(self, *setting, **reading):
        self.leader = Leader(*setting, **reading)
        self.add_line, self.search_line = self.leader.add_line, self.leader.follower().search_line


def printed(index, lines):
    """What `earlybird run` prints of these lines but for the last, said by an index."""
    for number, line in enumerate(lines, 1):
        try:
            if line.startswith(b"?"):
                answer = index.search_line(line)
                yield "%d seen %d:%s" % (number, answer.seen, "".join(" %d" % id for id in answer))
            else:
                index.add_line(line)
        except Refused as why:
            yield "%d refused: %s" % (number, why)


class Readings(unittest.TestCase):
    def test_as_the_program(self):
        if not os.path.exists(PROGRAM):
            self.skipTest("there is no program")
        text = LINES.read_bytes()
        numbers = [word for name, number in zip(("segments", "docs", "terms"), SETTING) for word in ("--" + name, str(number))]
        for reading in (
            {},
            {"fields": ["user", "room", "n", "ok"]},
            {"fields": ("user", "room"), "words": "pieces"},
            {"words": "pieces"},
        ):
            options = [word for name, value in reading.items() for word in ("--" + name, value if isinstance(value, str) else ",".join(value))]
            want = subprocess.run([PROGRAM, "run", *numbers, *options], input=text, stdout=subprocess.PIPE).stdout.decode().splitlines()
            self.assertIn("end: documents 6, queries", want[-1])
            for kind in (Index, Shared, Feed):
                with self.subTest(kind=kind.__name__, **reading):
                    self.assertEqual(want[:-1], list(printed(kind(*SETTING, **reading), text.splitlines())))

    def test_members_by_other_names(self):
        for kind in (Index, Shared, Feed):
            index = kind(*SETTING, id="key", text="message", fields=["key"])
            index.add_line(b'{"key":"042","message":"a train","text":7}')
            index.add_line(b'{"key":7,"message":"late"}')
            self.assertEqual([42], index.search_line(b"?9 train"))
            self.assertEqual([42], index.search_line(b"?9 key:042"))
            self.assertEqual([7], index.search_line(b"?9 key:7"))
            self.assertRaises(BadDocument, index.add_line, b'{"id":7,"text":"late"}')
            self.assertRaises(BadDocument, index.add_line, b'{"key":"4.2","message":"late"}')

    def test_texts_and_counts(self):
        index = Index(1, 2, 1024, fields=["room"], words="pieces")
        index.add(7, "com.acme.billing failed")
        index.add_line(b'{"id":8,"text":"dinner","room":"Kitchen"}')
        self.assertEqual([7], index.search("billing"))
        self.assertEqual((1, 2), index.count("room:kitchen"))
        self.assertEqual(([0, 1], 1, 2), index.histogram("room:kitchen", 7, 1, 2))
        self.assertRaises(BadQuery, index.search, "room:")
        self.assertRaises(Full, index.add, 9, "more")

    def test_readers_read_as_their_writer(self):
        writer, leader = Writer(1, 9, 1024, words="pieces"), Leader(1, 9, 1024, 2, words="pieces")
        for adds in (writer, leader):
            adds.add(7, "com.acme.billing failed")
        for asks in (writer.reader(), writer.reader().reader(), leader.follower()):
            self.assertEqual([7], asks.search("acme"))
            self.assertEqual((1, 1), asks.count("billing"))

    def test_names(self):
        for good in ([], ["a"], ["_", "0"], list("abcdefgh"), ["a" * 32], ["id", "text"], iter(["a", "b"])):
            Index(1, 1, 1024, fields=good)
        for bad in ([""], ["a,b"], ["A"], ["a b"], ["ä"], ["since"], ["a", "a"], list("abcdefghi"), ["a" * 33], ["\ud800"], ["a\0"], itertools.repeat("a")):
            for kind in (Index, Writer, Leader):
                self.assertRaises(BadReading, kind, 1, 1, 1024, fields=bad if isinstance(bad, list) else itertools.repeat("a"))
        for reading in ({"words": "words"}, {"words": ""}, {"words": 1}, {"id": ""}, {"text": ""}, {"id": "\ud800"}, {"text": "\udfff"}):
            self.assertRaises(BadReading, Index, 1, 1, 1024, **reading)
        for reading in ({"fields": "user"}, {"fields": b"user"}, {"fields": [1]}, {"fields": None}, {"id": 7}, {"text": b"text"}):
            self.assertRaises(TypeError, Index, 1, 1, 1024, **reading)


if __name__ == "__main__":
    unittest.main()
