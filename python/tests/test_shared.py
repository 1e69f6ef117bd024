"""The index that threads share: what its objects answer and refuse, and a search beside a writer."""
import os
import subprocess
import sys
import threading
import unittest

from earlybird import BadDocument, BadHandle, BadNumber, BadQuery, BadSetting, BadText, Full, Reader, Writer


class Shared(unittest.TestCase):
    def test_answers_over_what_was_added(self):
        writer = Writer(segments=2, docs=2, terms=1024)
        reader = writer.reader()
        self.assertEqual(reader.seen, 0)
        for id in (7, 8, 9):
            writer.add(id, "night train")
        answer = reader.search("train", 2)
        self.assertEqual((list(answer), answer.seen, reader.seen), ([9, 8], 3, 3))
        self.assertEqual(list(reader.search_line(b"?5 night -day")), [9, 8, 7])
        self.assertEqual(reader.reader().seen, 3)

    def test_a_converter_changes_no_answer(self):
        writer = Writer(segments=3, docs=1, terms=1024)
        for id in (1, 2, 3):
            writer.add_line(b'{"id":%d,"text":"a b"}' % id)
        reader = writer.reader()
        self.assertEqual([writer.converter.convert() for _ in range(3)], [1, 2, 2])
        self.assertEqual(list(reader.search('"a b"')), [3, 2, 1])

    def test_without_the_library_one_error_alone_is_told(self):
        words = [sys.executable, "-c", "from earlybird import Writer; Writer()"]
        done = subprocess.run(words, env={**os.environ, "EARLYBIRD_LIBRARY": "/nowhere/libearlybird.so"}, stderr=subprocess.PIPE)
        self.assertEqual((1, False, True), (done.returncode, b"Exception ignored" in done.stderr, b"/nowhere/libearlybird.so" in done.stderr))

    def test_refusals_change_nothing(self):
        writer = Writer(segments=1, docs=1, terms=1024)
        writer.add(1, "a")
        reader = writer.reader()
        for refusal, call in (
            (Full, lambda: writer.add(2, "b")), (BadDocument, lambda: writer.add(-1, "b")), (BadText, lambda: writer.add(2, "\ud800")),
            (BadNumber, lambda: reader.search("a", 0)), (BadQuery, lambda: reader.search("(a")),
            (BadSetting, lambda: Writer(segments=0)), (BadSetting, lambda: Writer(docs=2**32)),
        ):
            self.assertRaises(refusal, call)
        self.assertEqual((list(reader.search("a")), reader.seen), ([1], 1))

    def test_what_is_closed_is_refused(self):
        with Writer(segments=1, docs=1, terms=1024) as writer:
            reader, converter = writer.reader(), writer.converter
            writer.add(1, "a")
        for call in (lambda: writer.add(2, "b"), writer.reader, lambda: Reader().search("a")):
            self.assertRaises(BadHandle, call)
        self.assertEqual(list(reader.search("a")), [1])
        self.assertEqual(converter.convert(), 0)
        for it in (reader, converter, reader):
            it.close()
        self.assertRaises(BadHandle, lambda: reader.seen)

    def test_a_search_sees_all_that_was_added_before(self):
        writer, added, wrong = Writer(segments=12, docs=1000, terms=1024), [0], []

        def search(reader):
            while added[0] < 5000:
                before = max(added[0], reader.seen)
                answer = reader.search("all", 3)
                if answer.seen < before or list(answer) != [n for n in range(answer.seen, answer.seen - 3, -1) if n > 0]:
                    wrong.append(answer)

        threads = [threading.Thread(target=search, args=(writer.reader(),)) for _ in range(2)]
        for it in threads:
            it.start()
        for n in range(1, 5001):
            writer.add(n, "all")
            added[0] = n
        for it in threads:
            it.join()
        self.assertEqual(wrong, [])


if __name__ == "__main__":
    unittest.main()
