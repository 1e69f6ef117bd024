"""Each call of the package, and each refusal by its name."""
import copy
import doctest
import pathlib
import pickle
import threading
import unittest

import earlybird
from earlybird import (
    BadDocument,
    BadHandle,
    BadLine,
    BadNumber,
    BadQuery,
    BadSetting,
    BadText,
    Full,
    Index,
    LongLine,
    QueryTooDeep,
    QueryTooLarge,
    Refused,
    Segment,
    TooLong,
)


def load_tests(loader, tests, pattern):
    tests.addTests(doctest.DocTestSuite(earlybird, optionflags=doctest.IGNORE_EXCEPTION_DETAIL))
    for module in (earlybird._index, earlybird.refusals, earlybird.shared, earlybird.stream):
        tests.addTests(doctest.DocTestSuite(module, optionflags=doctest.IGNORE_EXCEPTION_DETAIL))
    return tests


class Calls(unittest.TestCase):
    def setUp(self):
        self.index = Index(segments=2, docs=2, terms=1024)

    def test_newest_first(self):
        for id in (5, 3, 9):
            self.index.add(id, "rain in Berlin")
        answer = self.index.search("BERLIN", 2)
        self.assertEqual(([9, 3], 3), (list(answer), answer.seen))
        self.assertEqual((3, 2), (len(self.index), self.index.segments))

    def test_full_changes_nothing(self):
        self.assertEqual([(4, "full")], [(at, str(why)) for at, why in self.index.add_all((id, "rain") for id in range(5))])
        self.assertEqual([3, 2, 1, 0], self.index.search("rain", 1000))
        with self.assertRaises(Full):
            self.index.add(6, "rain")
        self.assertEqual(4, len(self.index))

    def test_batch_of_queries(self):
        self.index.add(7, "hello world")
        first, second, third = self.index.search_all(["hello", "(hello", "rain"], 5)
        self.assertEqual(([7], []), (first, third))
        self.assertIsInstance(second, BadQuery)

    def test_last_segment(self):
        self.assertEqual(Segment(0, 0, 0, 0, 0, 0, 0), self.index.last_segment)
        self.index.add(7, "a b a")
        # two words of a letter each, of two words of text; each has a slice of the first pool
        self.assertEqual(Segment(1, 2, 4, 2, 0, 0, 0), self.index.last_segment)

    def test_counts(self):
        for id in (100, 160, 230, 100):
            self.index.add(id, "error: timeout")
        self.assertEqual((4, 4), self.index.count("timeout"))
        self.assertEqual(([2, 1, 1], 4, 4), self.index.histogram("error", 100, 60, 3))
        self.assertEqual(([0], 4, 4), self.index.histogram("error", 101, 59, 1))
        self.assertEqual(([0], 4, 4), self.index.histogram("error", 2**64 - 1, 2**64 - 1, 1))
        for why, call in [
            (BadNumber, lambda: self.index.histogram("error", 0, 0, 1)),
            (BadNumber, lambda: self.index.histogram("error", 0, 1, 0)),
            (BadNumber, lambda: self.index.histogram("error", 0, 1, 1_000_001)),
            (BadNumber, lambda: self.index.histogram("error", -1, 1, 1)),
            (BadNumber, lambda: self.index.histogram("error", 0, 2**64, 1)),
            (BadQuery, lambda: self.index.count("(error")),
            (BadText, lambda: self.index.count("\ud800")),
        ]:
            self.assertRaises(why, call)

    def test_closed(self):
        with self.index as index:
            index.add(7, "hello")
        for call in (lambda: index.add(8, "x"), lambda: index.search("hello"), lambda: index.count("hello"), lambda: index.add_line(b"{}")):
            self.assertRaises(BadHandle, call)
        self.assertEqual((0, 0), (len(index), index.segments))
        index.close()

    def test_no_copies(self):
        for call in (copy.copy, copy.deepcopy, pickle.dumps):
            self.assertRaises(TypeError, call, self.index)

    def test_names(self):
        self.assertEqual(10, len(earlybird.__all__))
        for module in (earlybird.refusals, earlybird.shared, earlybird.stream):
            for name in module.__all__:
                self.assertIs(getattr(module, name), getattr(earlybird, name))

    def test_version(self):
        self.assertRegex((pathlib.Path(__file__).parent.parent / "pyproject.toml").read_text(), 'version = "%s"' % earlybird.__version__)

    def test_lines(self):
        self.index.add_line(b'{"id":7,"text":"hello"}')
        self.assertEqual([7], self.index.search_line(b"?5 hello"))


class Refusals(unittest.TestCase):
    def setUp(self):
        self.index = Index(segments=1, docs=8, terms=1024)

    def test_column(self):
        with self.assertRaises(BadQuery) as caught:
            self.index.search("ü (train")
        # after eight letters, of which one has two bytes
        self.assertEqual((10, "bad query at 10"), (caught.exception.column, str(caught.exception)))

    def test_by_name(self):
        for why, call in [
            (BadDocument, lambda: self.index.add(-1, "x")),
            (BadDocument, lambda: self.index.add(2**64, "x")),
            (BadDocument, lambda: self.index.add_line(b"{}")),
            (BadLine, lambda: self.index.add_line(b"x")),
            (LongLine, lambda: self.index.add_line(b"{" + 65536 * b" ")),
            (TooLong, lambda: self.index.add(1, 1025 * "x ")),
            (BadText, lambda: self.index.add(1, "\ud800")),
            (TypeError, lambda: self.index.add(1, b"x")),
            (TypeError, lambda: self.index.search(None)),
            (BadNumber, lambda: self.index.search("x", 0)),
            (BadNumber, lambda: self.index.search("x", 1001)),
            (BadNumber, lambda: self.index.search("x", 2**32 + 1)),
            (QueryTooDeep, lambda: self.index.search(17 * "(" + "x" + 17 * ")")),
            (QueryTooLarge, lambda: self.index.search(65 * "x ")),
            (BadSetting, lambda: Index(segments=0)),
            (BadSetting, lambda: Index(terms=1000)),
            (BadSetting, lambda: Index(segments=2**32 + 1)),
        ]:
            with self.subTest(why.__name__), self.assertRaises(why):
                call()
        self.assertEqual(0, len(self.index))


    def test_details(self):
        for detail, call in [
            ("id is -1, and not a whole number from 0 to 18446744073709551615", lambda: self.index.add(-1, "x")),
            ("id is a str, and not a whole number from 0 to 18446744073709551615", lambda: self.index.add("7", "x")),
            ("id is a number of 3000001 bits, and not a whole number from 0 to 18446744073709551615", lambda: self.index.add(1 << 3_000_000, "x")),
            ("k is 1001, and not a whole number from 1 to 1000", lambda: self.index.search("x", 1001)),
            ("width is 0, and not a whole number from 1 to 18446744073709551615", lambda: self.index.histogram("x", 0, 0, 1)),
            ("the number of buckets is 0, and not a whole number from 1 to 1000000", lambda: self.index.histogram("x", 0, 1, 0)),
            ("segments is 0, docs is 4096, terms is 8192", lambda: Index(segments=0)),
            ("segments is 12, docs is a float, terms is 8192", lambda: Index(docs=1.5)),
            ("a half of a surrogate pair stands at 2", lambda: self.index.add(1, "ab\ud800")),
            ("", lambda: self.index.add_line(b"{}")),
        ]:
            with self.subTest(detail), self.assertRaises(Refused) as caught:
                call()
            why = caught.exception
            self.assertEqual((detail, why.name), (why.detail, str(why)))
            for again in (copy.copy(why), pickle.loads(pickle.dumps(why))):
                self.assertEqual((type(why), detail, str(why)), (type(again), again.detail, str(again)))
        again = pickle.loads(pickle.dumps(BadQuery(7)))
        self.assertEqual((7, "bad query at 7"), (again.column, str(again)))


class Threads(unittest.TestCase):
    def test_one_adds_and_others_search(self):
        index, found = Index(), [[] for _ in range(3)]

        def search(seen):
            while not seen or seen[-1] < 2000:
                answer = index.search("rain", 3)
                # all messages match, so the newest three are the last of those seen
                self_check = list(range(answer.seen - 1, max(answer.seen - 4, -1), -1))
                seen.append(answer.seen if answer == self_check else -1)
                if seen[-1] < 0:
                    return

        threads = [threading.Thread(target=search, args=(it,)) for it in found]
        for it in threads:
            it.start()
        for id in range(2000):
            index.add(id, "rain")
        for it in threads:
            it.join()
        for seen in found:
            self.assertEqual((2000, sorted(seen)), (seen[-1], seen))


if __name__ == "__main__":
    unittest.main()
