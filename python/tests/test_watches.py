"""Watches: what a message tells, and each refusal."""
import doctest
import threading
import unittest

import earlybird._watches
from earlybird import (
    BadDocument,
    BadHandle,
    BadJson,
    BadLine,
    BadNumber,
    BadQuery,
    BadReading,
    BadText,
    Index,
    NoWatch,
    QueryTooDeep,
    TooLong,
    Watches,
    WatchesFull,
    WatchTaken,
)


def load_tests(loader, tests, pattern):
    tests.addTests(doctest.DocTestSuite(earlybird._watches, optionflags=doctest.IGNORE_EXCEPTION_DETAIL))
    return tests


class Telling(unittest.TestCase):
    def setUp(self):
        self.watches = Watches()

    def test_rising_and_each_once(self):
        for number, query in ((9, "train"), (2, '"train train"'), (2**32 - 1, "-bus"), (0, "bus"), (5, "since:100"), (4, '"night train"')):
            self.watches.set(number, query)
        self.assertEqual([4, 5, 9, 2**32 - 1], self.watches.tell(101, "Night train"))
        self.assertEqual([0], self.watches.tell(100, "a bus"))
        self.assertEqual([2, 9, 2**32 - 1], self.watches.tell(1, "train train"))
        self.assertEqual([4, 5, 9, 2**32 - 1], self.watches.tell_line(b'{"id":101,"text":"Night train"}'))

    def test_as_a_search_of_the_message_alone(self):
        queries = ["train", "-train", "a OR b", '"a b"', '"a b"~2', "since:4", "(a -b) OR train", "a a"]
        for number, query in enumerate(queries):
            self.watches.set(number, query)
        for id, text in enumerate(["", "a", "b a", "a b", "a x b", "train", "a a train", "x"]):
            index = Index(1, 1, 1024)
            index.add(id, text)
            self.assertEqual([number for number, query in enumerate(queries) if index.search(query)], self.watches.tell(id, text))

    def test_fields_and_pieces(self):
        watches = Watches(fields=["room"], words="pieces", id="key")
        watches.set(1, "room:kitchen acme")
        self.assertEqual([1], watches.tell_line(b'{"key":"7","text":"com.acme.billing","room":"Kitchen"}'))
        self.assertEqual([], watches.tell(7, "room:kitchen acme"))
        self.assertRaises(BadQuery, watches.set, 2, "room:")
        self.assertRaises(BadReading, Watches, fields=["Room"])

    def test_refusals_change_nothing(self):
        self.watches.set(7, "train")
        for why, call in [
            (WatchTaken, lambda: self.watches.set(7, "bus")),
            (WatchTaken, lambda: self.watches.set(7, "train")),
            (NoWatch, lambda: self.watches.remove(8)),
            (BadNumber, lambda: self.watches.set(-1, "bus")),
            (BadNumber, lambda: self.watches.set(2**32, "bus")),
            (BadNumber, lambda: self.watches.remove("7")),
            (BadQuery, lambda: self.watches.set(8, "(bus")),
            (BadQuery, lambda: self.watches.set(8, "  ")),
            (QueryTooDeep, lambda: self.watches.set(8, "(" * 17 + "bus" + ")" * 17)),
            (BadText, lambda: self.watches.set(8, "\ud800")),
            (TypeError, lambda: self.watches.set(8, b"bus")),
            (BadDocument, lambda: self.watches.tell(-1, "bus")),
            (TooLong, lambda: self.watches.tell(1, "a " * 1025)),
            (BadLine, lambda: self.watches.tell_line(b"?1 bus")),
            (BadJson, lambda: self.watches.tell_line(b"{")),
        ]:
            self.assertRaises(why, call)
        self.assertEqual([7], self.watches.tell(1, "bus train"))
        with self.assertRaises(BadQuery) as caught:
            self.watches.set(8, "a -")
        self.assertEqual(4, caught.exception.column)

    def test_removed(self):
        for number in (1, 2, 3):
            self.watches.set(number, "train")
        self.watches.remove(2)
        self.assertEqual([1, 3], self.watches.tell(1, "train"))
        self.watches.set(2, "train -late")
        self.assertEqual([1, 2, 3], self.watches.tell(1, "train"))
        self.assertEqual([1, 3], self.watches.tell(1, "late train"))

    def test_the_most(self):
        for number in range(10_000):
            self.watches.set(number, "train" if number % 2 else "bus")
        self.assertRaises(WatchesFull, self.watches.set, 10_000, "train")
        self.assertRaises(WatchTaken, self.watches.set, 9_999, "train")
        self.assertEqual(list(range(10_000)), self.watches.tell(1, "train bus"))
        self.watches.remove(0)
        self.watches.set(10_000, "train")
        self.assertEqual(list(range(1, 10_000, 2)) + [10_000], self.watches.tell(1, "train"))

    def test_threads_and_an_end(self):
        self.watches.set(1, "train")
        seen = []
        threads = [threading.Thread(target=lambda: seen.extend(self.watches.tell(1, "train") for _ in range(200))) for _ in range(4)]
        for thread in threads:
            thread.start()
        for thread in threads:
            thread.join()
        self.assertEqual([[1]] * 800, seen)
        with self.watches:
            pass
        self.assertRaises(BadHandle, self.watches.tell, 1, "train")
        self.assertRaises(BadHandle, self.watches.set, 2, "train")


if __name__ == "__main__":
    unittest.main()
