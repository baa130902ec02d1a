"""How tools begin and end, and what they write."""

import argparse
import lzma
import os
import signal
import tempfile
import unittest

import places  # First, since it says where the tools are.
from gfxtools import entry, fields, held, limits, toml, written


class Words(unittest.TestCase):
    def test_numbers(self):
        read = entry.number_of(1, 9)
        self.assertEqual([read("1"), read("9")], [1, 9])
        for word in "0", "10", "-1", "x", "", "1.5":
            with self.assertRaises(argparse.ArgumentTypeError):
                read(word)

    def test_faults_in_words(self):
        for error, wanted in ((entry.Wrong("why"), ("why", 1)), (entry.WrongWords("why"), ("why", 2)),
                              (entry.Signalled(signal.SIGINT), ("interrupted", 130)),
                              (entry.Signalled(signal.SIGTERM), ("ended by a signal", 143)),
                              (KeyboardInterrupt(), ("interrupted", 130)), (MemoryError(), ("no memory is left", 1)),
                              (OSError(2, "No such file or directory", "x"), ("x: No such file or directory", 1))):
            self.assertEqual(entry.fault_of(error), wanted)


class Files(unittest.TestCase):
    def setUp(self):
        folder = tempfile.TemporaryDirectory()
        self.addCleanup(folder.cleanup)
        self.folder = folder.name
        read = set(entry.READ)
        self.addCleanup(lambda: entry.READ.intersection_update(read))

    def file(self, name, data):
        path = os.path.join(self.folder, name)
        with open(path, "wb") as file:
            file.write(data)
        return path

    def test_inputs_are_read_packed_or_not(self):
        for name, data in ("a", b"text"), ("b", lzma.compress(b"text")):
            self.assertEqual(entry.whole_of(self.file(name, data), 4), b"text")
        with self.assertRaisesRegex(entry.Wrong, "TooLong"):
            entry.whole_of(self.file("c", b"text!"), 4)
        with self.assertRaisesRegex(entry.Wrong, "no whole .xz file"):
            entry.whole_of(self.file("d", lzma.compress(b"text")[:-9]), 4)

    def test_a_file_stands_once_it_is_whole(self):
        path = self.file("a", b"old")
        with self.assertRaises(ZeroDivisionError), written.whole(path) as file:
            file.write(b"new")
            raise ZeroDivisionError
        self.assertEqual((os.listdir(self.folder), entry.whole_of(path, 9)), (["a"], b"old"))

    def test_what_is_read_is_not_written(self):
        path = self.file("a", b"old")
        os.link(path, path + "-too")
        entry.whole_of(path, 9)
        with self.assertRaises(entry.WrongWords), written.whole(path + "-too"):
            pass

    def test_what_is_dropped_is_not_there(self):
        with written.whole(os.path.join(self.folder, "a")) as file:
            file.write(b"new")
            file.drop()
        self.assertEqual(os.listdir(self.folder), [])


class Scripts(unittest.TestCase):
    def test_texts_have_places(self):
        text = "a = 1\n[b]\nc = [1,\n2]\n"
        root = toml.read(text)
        self.assertEqual(root, {"a": 1, "b": {"c": [1, 2]}})
        self.assertEqual(toml.place_of(text, root["b"].places["c"]), (3, 1))
        for wrong in "a = ", "a = 1\na = 2", "[a", "a = 01", '"':
            with self.assertRaises(toml.Fault):
                toml.read(wrong)

    def test_the_limits_are_those_of_recordings(self):
        self.assertEqual(fields.VERSIONS, tuple(limits.VERSIONS))
        self.assertEqual(held.Stock(True).slots, limits.SMALL.slots)
        self.assertEqual(held.Stock(False).most, limits.LARGE.bytes)

    def test_bitmaps_make_room(self):
        stock = held.Stock(True)
        for key in range(limits.SMALL.slots + 1):
            stock.keep(key, (1, 1), key + 1)
        self.assertEqual(stock.find(1), (1, 1))
        with self.assertRaises(fields.Wrong) as wrong:
            stock.find(0)
        self.assertEqual(wrong.exception.kind, "KeyAbsent")


if __name__ == "__main__":
    unittest.main()
