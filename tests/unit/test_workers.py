"""Work in processes of its own."""

import os
import signal
import tempfile
import unittest

import places  # First, since it says where the tools are.
from gfxtools import entry, workers


def fail(line):
    raise entry.Wrong(line)


class Workers(unittest.TestCase):
    def setUp(self):
        self.folder = tempfile.TemporaryDirectory()
        self.addCleanup(self.folder.cleanup)

    def write(self, name, what):
        with open(os.path.join(self.folder.name, name), "wb") as file:
            file.write(what)

    def test_each_has_what_was_there_when_its_work_began(self):
        for most in 1, 3:
            state = bytearray(b"-")
            with workers.Workers(most) as at_work:
                for number in range(8):
                    state[:] = str(number).encode()
                    at_work.do(lambda: self.write(f"{most}-{number}", state))
            for number in range(8):
                with open(os.path.join(self.folder.name, f"{most}-{number}"), "rb") as file:
                    self.assertEqual(file.read(), str(number).encode())

    def test_a_fault_is_told(self):
        for most in 1, 2:
            with self.assertRaisesRegex(entry.Wrong, "nothing goes"):
                with workers.Workers(most) as at_work:
                    at_work.do(lambda: fail("nothing goes"))
                    at_work.do(lambda: None)

    def test_a_worker_that_is_lost_is_told(self):
        with self.assertRaisesRegex(entry.Wrong, "ended before"):
            with workers.Workers(2) as at_work:
                at_work.do(lambda: os.kill(os.getpid(), signal.SIGKILL))

    def test_none_is_left_behind_a_fault(self):
        at_work = workers.Workers(3)
        with self.assertRaises(ZeroDivisionError), at_work:
            at_work.do(signal.pause)
            at_work.do(signal.pause)
            raise ZeroDivisionError
        self.assertEqual(len(at_work.running), 0)
        with self.assertRaises(ChildProcessError):
            os.waitpid(-1, os.WNOHANG)


if __name__ == "__main__":
    unittest.main()
