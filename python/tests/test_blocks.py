"""Many messages in few calls: as one call for each of them would have it."""
import itertools
import threading
import unittest

from earlybird import BadDocument, BadHandle, BadText, Full, Index, Leader, TooLong, Writer
from earlybird._blocks import MOST_BYTES, MOST_MESSAGES


def names(refused):
    return [(at, type(why)) for at, why in refused]


class Blocks(unittest.TestCase):
    def test_as_one_by_one(self):
        long = " ".join("w%d" % n for n in range(1025))
        texts = ["a b", "", "nul \0 in it", "half \ud800", "more words", long, "\U0001f600 smile", "x " * MOST_BYTES, "last"]
        for ids in (range(1, 10), [1, -1, 3, 2**64, 5, "6", 7, None, True]):
            messages = list(zip(ids, texts))
            index, writer, leader = Index(1, 5, 1024), Writer(1, 5, 1024), Leader(1, 5, 1024)
            want = names(index.add_all(messages))
            self.assertEqual(want, names(writer.add_all(iter(messages))))
            self.assertEqual([it for it in want if it[1] is not Full], names(leader.add_all(messages)))
            for query in ("a", "-zzz", "nul", "smile", "last OR words"):
                self.assertEqual(index.search(query), writer.reader().search(query))

    def test_places_over_many_blocks(self):
        number = 3 * MOST_MESSAGES + 5
        bad = {0, 1, MOST_MESSAGES - 1, MOST_MESSAGES, 2 * MOST_MESSAGES + 7, number - 1}
        kinds = itertools.cycle([(-1, "a", BadDocument), (1, "\udfff", BadText), (1, "w " * 1025, TooLong)])
        want, messages = [], []
        for at in range(number):
            id, text, why = next(kinds) if at in bad else (at, "all", None)
            messages.append((id, text))
            want += [(at, why)] if why else []
        writer, leader = Writer(1, 4096, 1024), Leader(1, 1000, 1024, keep=4)
        reader, follower = writer.reader(), leader.follower()
        self.assertEqual(want, names(writer.add_all(messages)))
        self.assertEqual(want, names(leader.add_all(messages)))
        newest = [at for at in range(number - 1, -1, -1) if at not in bad]
        for asked in (reader, follower):
            answer = asked.search("all", 1000)
            self.assertEqual((newest[:1000], len(newest)), (list(answer), answer.seen))

    def test_none_and_closed(self):
        writer = Writer(1, 5, 1024)
        self.assertEqual([], writer.add_all([]))
        writer.close()
        self.assertEqual([(0, BadHandle), (1, BadDocument), (2, BadHandle)], names(writer.add_all([(1, "a"), (-1, "a"), (2, "a")])))

    def test_what_came_before_an_exception_is_added(self):
        class Over(Exception):
            pass

        def messages():
            yield 1, "a"
            yield 2, "a"
            raise Over

        for bad, why in ((messages(), Over), ([(1, "a"), (2, "a"), (3, 4)], TypeError), ([(1, "a"), (2, "a"), 3], TypeError)):
            writer = Writer(1, 5, 1024)
            self.assertRaises(why, lambda: writer.add_all(bad))
            self.assertEqual([2, 1], writer.reader().search("a"))

    def test_without_end_and_in_bounded_memory(self):
        class Over(Exception):
            pass

        def messages():
            for id in itertools.count():
                if follower.search("a", 1).seen < id - MOST_MESSAGES:
                    raise AssertionError("held back")
                if id == 20 * MOST_MESSAGES:
                    raise Over
                yield id, "a"

        leader = Leader(1, 1000, 1024, keep=2)
        follower = leader.follower()
        self.assertRaises(Over, lambda: leader.add_all(messages()))
        self.assertEqual(20 * MOST_MESSAGES, follower.search("a", 1).seen)

    def test_beside_searches(self):
        writer, over, wrong = Writer(12, 1000, 1024), threading.Event(), []

        def search(reader):
            while not over.is_set():
                answer = reader.search("all", 3)
                if list(answer) != [n for n in range(answer.seen, answer.seen - 3, -1) if n > 0]:
                    wrong.append(answer)

        threads = [threading.Thread(target=search, args=(writer.reader(),)) for _ in range(2)]
        for it in threads:
            it.start()
        self.assertEqual([], writer.add_all((n, "all") for n in range(1, 10001)))
        over.set()
        for it in threads:
            it.join()
        self.assertEqual((wrong, writer.reader().search("all", 1)), ([], [10000]))


if __name__ == "__main__":
    unittest.main()
