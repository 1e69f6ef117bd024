"""Images: what is written and read again, what no image is, and what a reader of the path finds meanwhile."""
import doctest
import os
import tempfile
import unittest
from unittest import mock

import earlybird
from earlybird import BadHandle, BadImage, BadJson, BadReading, BadSetting, BadText, Full, Index, Writer, _images


def load_tests(loader, tests, pattern):
    tests.addTests(doctest.DocTestSuite(earlybird._images, optionflags=doctest.IGNORE_EXCEPTION_DETAIL))
    return tests


HEAD = b"EBIMAGE1" + bytes((0, 0, 0, 1, 0, 0, 0, 2, 0, 0, 4, 0))
TRAIN = bytes((1, 0, 0, 0, 0, 0, 0, 0, 7, 0, 2)) + b"\0\5night\0\5train"
EMPTY = bytes((1, *bytes(7), 8, 0, 0))


class Images(unittest.TestCase):
    def setUp(self):
        folder = tempfile.TemporaryDirectory()
        self.addCleanup(folder.cleanup)
        self.folder, self.path = folder.name, os.path.join(folder.name, "messages.image")

    def bytes_of(self, path=None):
        with open(path or self.path, "rb") as file:
            return file.read()

    def write(self, *parts):
        with open(self.path, "wb") as file:
            file.write(b"".join(parts))

    def test_the_bytes(self):
        for kind in (Index, Writer):
            with kind(1, 2, 1024, image=self.path) as index:
                index.add(7, "Night train")
                self.assertRaises(BadText, index.add, 8, "\ud800")
                self.assertRaises(BadJson, index.add_line, b"{")
                index.add_line(b'{"id":8,"text":""}')
                self.assertRaises(Full, index.add, 9, "late")
            self.assertEqual(HEAD + TRAIN + EMPTY + b"\0", self.bytes_of())
            self.assertRaises(BadHandle, index.add, 9, "late")
            self.assertEqual(["messages.image"], os.listdir(self.folder))

    def test_what_is_loaded_is_found_in_any_pieces(self):
        with Index(2, 100, 1024, image=self.path) as index:
            self.assertEqual([], index.add_all((id, "train %d " % id + "on" * 1500) for id in range(150)))
        self.assertGreater(os.path.getsize(self.path), 20 * _images.LONGEST_PART)
        for piece in (1 << 20, _images.LONGEST_PART):
            with mock.patch.object(_images, "PIECE", piece):
                index, writer = Index.load(self.path), Writer.load(self.path)
            self.assertEqual((150, 2, "Index(segments=2, docs=100, terms=1024)"), (len(index), index.segments, repr(index)))
            for it in (index, writer.reader()):
                self.assertEqual(([149, 148, 147], [33]), (list(it.search("train", 3)), list(it.search("train 33"))))
            writer.add(999, "train")
            self.assertEqual(151, writer.reader().seen)

    def test_a_reading_is_given_again(self):
        how = {"fields": ["room"], "words": "pieces", "id": "n", "text": "said"}
        with Index(1, 10, 1024, image=self.path, **how) as index:
            index.add_line(b'{"n":7,"said":"com.acme failed","room":"kitchen"}')
        again = Index.load(self.path, **how)
        self.assertEqual([7], list(again.search("room:kitchen acme")))
        again.add_line(b'{"n":8,"said":"acme"}')
        self.assertRaises(BadReading, Index.load, self.path, fields=["Room"])

    def test_an_image_in_the_place_of_the_one_that_was_loaded(self):
        self.write(HEAD, TRAIN, b"\0")
        for kind in (Index, Writer):
            index = kind.load(self.path, image=self.path)
            self.assertEqual(HEAD + TRAIN + b"\0", self.bytes_of())
            index.add(8, "")
            index.close()
            self.assertEqual(HEAD + TRAIN + EMPTY + b"\0", self.bytes_of())
            self.write(HEAD, TRAIN, b"\0")

    def test_what_is_no_image(self):
        whole = HEAD + TRAIN + EMPTY + b"\0"
        more = HEAD + TRAIN + TRAIN + TRAIN + b"\0"
        wrong = [whole[:cut] for cut in range(len(whole))] + [whole + b"\n", b"F" + whole[1:], HEAD + b"\2" + whole[21:], more]
        wrong += [HEAD + TRAIN[:9] + b"\x04\x01" + bytes(3000), HEAD + TRAIN[:9] + b"\0\1\x40\1" + bytes(20000)]
        for data in wrong:
            self.write(data)
            for kind in (Index, Writer):
                with self.subTest(data=data[:60]), self.assertRaises(BadImage) as found:
                    kind.load(self.path, image=os.path.join(self.folder, "again"))
                self.assertTrue(found.exception.detail)
        self.assertEqual(["messages.image"], os.listdir(self.folder))
        self.assertRaises(FileNotFoundError, Index.load, os.path.join(self.folder, "none"))

    def test_the_path_has_whole_images_alone(self):
        self.write(b"before")
        index = Index(1, 2, 1024, image=self.path)
        index.add(7, "night train")
        self.assertEqual(b"before", self.bytes_of())
        index.save()
        self.assertEqual(HEAD + TRAIN + b"\0", self.bytes_of())
        index.add(8, "")
        index.save()
        self.assertEqual(HEAD + TRAIN + EMPTY + b"\0", self.bytes_of())
        index.close()
        index.close()
        self.assertEqual(HEAD + TRAIN + EMPTY + b"\0", self.bytes_of())
        self.assertRaises(ValueError, index.save)
        self.assertRaises(ValueError, Index(1, 2, 1024).save)

    def test_what_was_left_by_a_crash_is_written_over(self):
        for name in (".adding", ".new"):
            with open(self.path + name, "wb") as file:
                file.write(b"left " * 1000)
        with Index(1, 2, 1024, image=self.path) as index:
            index.add(7, "night train")
            index.save()
        self.assertEqual(HEAD + TRAIN + b"\0", self.bytes_of())
        self.assertEqual(["messages.image"], os.listdir(self.folder))

    def test_a_link_is_followed(self):
        link = os.path.join(self.folder, "link")
        os.symlink(self.path, link)
        with Index(1, 2, 1024, image=link) as index:
            index.add(7, "night train")
        self.assertTrue(os.path.islink(link))
        self.assertEqual(HEAD + TRAIN + b"\0", self.bytes_of())

    def test_where_writing_fails_the_old_image_stays(self):
        self.write(b"before")
        for kind in (Index, Writer):
            for text in ("", "on" * 8000):
                os.symlink("/dev/full", self.path + ".adding")
                index = kind(1, 3, 1024, image=self.path)
                index.add(7, "night train")
                if text:
                    self.assertRaises(OSError, index.add, 8, text)
                    index.add(9, "late")
                self.assertRaises(OSError, index.save)
                self.assertRaises(OSError, index.close)
                self.assertEqual((b"before", ["messages.image"]), (self.bytes_of(), os.listdir(self.folder)))
                self.assertRaises(BadHandle, index.add, 7, "night train")
                index.close()
        self.assertRaises(OSError, Index, 1, 2, 1024, image=os.path.join(self.folder, "none", "messages.image"))

    def test_no_setting_leaves_no_file(self):
        self.assertRaises(BadSetting, Index, 0, image=self.path)
        self.assertRaises(BadReading, Index, fields=["A"], image=self.path)
        self.assertRaises(BadSetting, Writer, 0, image=self.path)
        self.assertEqual([], os.listdir(self.folder))
