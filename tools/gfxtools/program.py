"""The program gfxpipe: where it is, and what it answers."""

import os
import re
import subprocess
import tempfile
import threading
import typing

from . import entry, limits, script_text
from .entry import Wrong

ROOT = os.path.dirname(os.path.dirname(os.path.dirname(os.path.abspath(__file__))))
BUILT = os.path.join(ROOT, "crates", "gfxpipe_main", "out", "gfxpipe_main")

HELP = "the program; without it that of GFXPIPE, or the one that is built in this repository"

# The lines on the standard error where an input is refused (docs/RUNNING.md).
MESSAGE = re.compile(r"message (\d+): (\d+) (\w+)\Z")
SCRIPT = re.compile(r"script: (?:step (\d+): )?(\w+)\Z")
KEPT = re.compile(r"kept: (\d+) (\w+)\Z")


def place_of(named: typing.Optional[str]) -> str:
    """The program's file: the one that is named, else that of GFXPIPE, else the one that is built here."""
    named = named or os.environ.get("GFXPIPE")
    place = named or BUILT
    if not os.path.isfile(place) or not os.access(place, os.X_OK):
        if named:
            raise Wrong(f"{place} is no program")
        raise Wrong("the program isn't built: docs/RUNNING.md, \"Build and run\"; or name it by --program or GFXPIPE")
    entry.note_read(os.stat(place))
    return os.path.abspath(place)


class Running:
    """A run of the program, whose output is read as a file while it comes. An exit number other than 0 is a fault,
    which is told at the output's end."""

    def __init__(self, place: str, words: typing.List[str], pieces: typing.Iterable, name: str) -> None:
        self.words, self.name, self.said = words, name, tempfile.TemporaryFile()
        try:
            self.process = subprocess.Popen([place, *words], stdin=subprocess.PIPE, stdout=subprocess.PIPE,
                                            stderr=self.said)
        except OSError as error:
            raise Wrong(f"{place} doesn't run: {error.strerror}") from None
        threading.Thread(target=self.feed, args=(pieces,), daemon=True).start()

    def feed(self, pieces):
        """Hands the input on, until the program wants no more."""
        try:
            with self.process.stdin as pipe:
                for piece in pieces:
                    pipe.write(piece)
        except OSError:
            pass

    def read(self, size: int) -> bytes:
        """The next bytes of the output, so many where there are; none at its end."""
        return self.process.stdout.read(size) or self.at_end()

    def readline(self, size: int) -> bytes:
        """The next line of the output with its newline, or so many bytes of it; nothing at its end."""
        return self.process.stdout.readline(size) or self.at_end()

    def at_end(self):
        number = self.process.wait()
        if number != 0:
            self.said.seek(0)
            line = self.said.read(entry.PIECE).decode("utf-8", "replace").strip()
            raise Wrong(f"{self.name}: {self.words[0]} ends with {number}" + (f": {line}" if line else ""))
        return b""

    def finish(self) -> None:
        """Passes over what is left of the output."""
        while self.read(entry.PIECE):
            pass

    def stop(self) -> None:
        """Ends the program, where it still runs."""
        self.process.kill()
        self.process.wait()
        self.process.stdout.close()
        self.said.close()


class Program:
    """The program, as `place_of` finds it."""

    def __init__(self, named: typing.Optional[str] = None) -> None:
        self.place = place_of(named)

    def start(self, words: typing.List[str], pieces: typing.Iterable, name: str) -> Running:
        """Runs the program on an input of these pieces; the name is the input's, for faults."""
        return Running(self.place, words, pieces, name)

    def encoded(self, script: bytes, name: str) -> bytes:
        """The recording of a script, whose PNGs are written out first; the name is its file's."""
        running = self.start(["encode"], [script_text.with_pictures(script, name)], name)
        try:
            return entry.all_of(running, f"{name}: the recording of this script", limits.MOST_STREAM)
        finally:
            running.stop()

    def first_refusal(self, data: bytes, name: str) -> typing.Optional[typing.Tuple[int, str]]:
        """The number of the first message of a recording that is refused, and the refusal's name; or None."""
        try:
            done = subprocess.run([self.place, "audit"], input=data, stdout=subprocess.DEVNULL, stderr=subprocess.PIPE)
        except OSError as error:
            raise Wrong(f"{self.place} doesn't run: {error.strerror}") from None
        line = done.stderr.decode("utf-8", "replace").strip()
        found = MESSAGE.match(line)
        if done.returncode == 0:
            return None
        if not found:
            raise Wrong(f"{name}: audit ends with {done.returncode}: {line}")
        return int(found[1]), found[3]
