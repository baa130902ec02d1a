"""Runs of a program: whole inputs from a file, so that what it reads at a time is the same each time."""

import os
import select
import signal
import typing

MOST_SECONDS = 60.0


class Ran(typing.NamedTuple):
    """How a run has ended: its exit number, or minus the signal that ended it, or None where it took too long; what it
    wrote, and its lines on the standard error."""

    number: typing.Optional[int]
    out: bytes
    line: bytes


class Runner:
    """Runs programs one after another. Input, output and lines stand in memory."""

    def __init__(self) -> None:
        self.files = [os.memfd_create(name) for name in ("input", "output", "line")]
        self.pass_on = [(os.POSIX_SPAWN_DUP2, file, number) for number, file in enumerate(self.files)]

    def run(self, words: typing.Sequence[str], data: bytes, seconds: float = MOST_SECONDS,
            around: typing.Optional[typing.Dict[str, str]] = None) -> Ran:
        """Runs a program on an input, for so many seconds at most, with these variables alone around it."""
        self.put(data)
        process = os.posix_spawn(words[0], words, around or {}, file_actions=self.pass_on)
        number = self.await_end(process, seconds)
        return Ran(number, self.got(1), self.got(2))

    def put(self, data):
        for file in self.files:
            os.ftruncate(file, 0)
            os.lseek(file, 0, os.SEEK_SET)
        file, at = self.files[0], 0
        while at < len(data):
            at += os.pwrite(file, data[at:], at)

    def await_end(self, process, seconds):
        ends = os.pidfd_open(process)
        try:
            poll = select.poll()
            poll.register(ends, select.POLLIN)
            in_time = poll.poll(1000 * seconds)
            if not in_time:
                os.kill(process, signal.SIGKILL)
            _, status = os.waitpid(process, 0)
        finally:
            os.close(ends)
        return os.waitstatus_to_exitcode(status) if in_time else None

    def got(self, which):
        file = self.files[which]
        return os.pread(file, os.fstat(file).st_size, 0)
