"""Work in processes of its own, some at a time. Each has what was there when its work began, so whoever hands work out
may go on and change it."""

import collections
import os
import signal
import typing

from . import entry

# A fault is told in no more bytes.
MOST_FAULT = 4096


def worked(work: typing.Callable[[], None], write: int) -> int:
    """A worker's whole life. Its fault is written here, and its exit number is answered."""
    try:
        work()
        return 0
    except entry.FAULTS as error:
        fault, number = entry.fault_of(error)
        os.write(write, fault.encode("utf-8", "replace")[:MOST_FAULT])
        return number


class Workers:
    """So many workers at most. With one, the work is done where it is handed out. A fault of a worker is raised when
    it is waited for. At the end all are waited for, or, where a fault ends this, ended."""

    def __init__(self, most: int) -> None:
        self.most = most
        self.running = collections.deque()  # of each its process, and where its fault is read

    def __enter__(self) -> "Workers":
        return self

    def __exit__(self, kind: typing.Any, *_: object) -> None:
        try:
            while self.running and kind is None:
                self.wait()
        finally:
            self.stop()

    def do(self, work: typing.Callable[[], None]) -> None:
        """Has this done, once there is a worker for it."""
        if self.most < 2:
            work()
            return
        while len(self.running) >= self.most:
            self.wait()
        read, write = os.pipe()
        here, number = os.getpid(), 1
        try:
            process = os.fork()
            if process == 0:
                number = worked(work, write)
        finally:
            # A signal may come at any time, and a worker goes no further than here.
            if os.getpid() != here:
                os._exit(number)
        os.close(write)
        self.running.append((process, read))

    def wait(self) -> None:
        """Waits for the oldest worker."""
        fault = os.read(self.running[0][1], MOST_FAULT)
        # What it holds is read, so it ends by itself.
        process, read = self.running.popleft()
        _, status = os.waitpid(process, 0)
        os.close(read)
        if status:
            entry.check_signals()
            raise entry.Wrong(fault.decode("utf-8", "replace") or "a worker ended before its work was done")

    def stop(self) -> None:
        """Ends the workers that are left; each takes away what isn't whole."""
        for process, _ in self.running:
            os.kill(process, signal.SIGTERM)
        while self.running:
            process, read = self.running.popleft()
            os.waitpid(process, 0)
            os.close(read)
