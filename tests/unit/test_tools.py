"""The words of each tool that is written in Python."""

import contextlib
import io
import os
import runpy
import sys
import unittest

import places

TOOLS = os.path.join(places.TOP, "tools")


def tools():
    """The names of the tools that are written in Python."""
    for name in sorted(os.listdir(TOOLS)):
        path = os.path.join(TOOLS, name)
        if os.path.isfile(path) and os.access(path, os.X_OK):
            with open(path, "rb") as file:
                if b"python3" in file.readline():
                    yield name


def told(name, *words):
    """How a tool's reading of its words ends, and what it says on either output."""
    argv, out = sys.argv, io.StringIO()
    sys.argv = [os.path.join(TOOLS, name), *words]
    try:
        with contextlib.redirect_stdout(out), contextlib.redirect_stderr(out):
            tool = runpy.run_path(sys.argv[0], run_name="a test")
            (tool.get("words") or tool["main"])()
    except SystemExit as end:
        return end.code, out.getvalue()
    finally:
        sys.argv = argv
    return None, out.getvalue()


class Words(unittest.TestCase):
    def test_there_are_tools(self):
        self.assertIn("frames", list(tools()))

    def test_help(self):
        for name in tools():
            with self.subTest(name):
                number, said = told(name, "--help")
                self.assertEqual((number, said.split()[:2]), (0, ["usage:", name]))

    def test_a_wrong_word_is_one_line(self):
        for name in tools():
            with self.subTest(name):
                number, said = told(name, "--nonsense")
                self.assertEqual((number, said.count("\n"), said.split(":")[0]), (2, 1, name))

    def test_what_is_wrong_with_the_words_of_frames(self):
        for words, why in ((("x", "x.png"), "--end"), (("x", "-"), "folder"), (("x", "y.mp4", "--video"), "raw video"),
                           (("x", "y", "--end", "--video"), "together"), (("x", "y", "--video", "--scale", "2"), "scale"),
                           (("x", "y", "--first", "3", "--last", "2"), "before --first"),
                           (("x", places.TOP, "--end"), "is a folder"), (("x", "y", "--of", "z"), "WHICH")):
            with self.subTest(words):
                number, said = told("frames", *words)
                self.assertEqual((number, said.count("\n"), why in said), (2, 1, True), said)

    def test_what_record_wants(self):
        self.assertIn("required: NAME, CLIENT (", told("record")[1])
        self.assertIn("required: CLIENT (", told("record", "x")[1])
        self.assertEqual(told("record", "x", "y"), (None, ""))


if __name__ == "__main__":
    unittest.main()
