"""How each tool begins and ends: its words, its input and output, one line for each error."""

import argparse
import contextlib
import io
import lzma
import os
import select
import signal
import stat
import sys
import typing

from . import version

# The first bytes of an .xz file.
XZ = b"\xfd7zXZ\0"

# How much is read at a time.
PIECE = 1 << 16


# The exit number after a signal is this and the signal's number.
SIGNALLED = 128


class Wrong(Exception):
    """Why a tool can't go on, in a line. The exit number is then 1."""

    number = 1


class Unread(Wrong):
    """Why an input can't be read."""


class WrongWords(Wrong):
    """Why a tool doesn't begin with these words. The exit number is then 2."""

    number = 2


class Signalled(BaseException):
    """A signal that ends the tool, by its number."""


# The signals that came, since what is raised by one may be lost where nobody can take it, as while memory is freed.
CAME = []


def check_signals() -> None:
    """Ends the tool where a signal came that should have done so."""
    if CAME:
        raise Signalled(CAME[0])


class Words(argparse.ArgumentParser):
    """Words behind a tool's name. What is wrong with them is one line, and the exit number 2."""

    def __init__(self, **more: typing.Any) -> None:
        more.setdefault("formatter_class", argparse.RawDescriptionHelpFormatter)
        super().__init__(allow_abbrev=False, **more)
        self.add_argument("--version", action="version", version=f"{self.prog} of gfxpipe {version.NUMBER}",
                          help="says the version, and ends")

    def error(self, message: str) -> typing.NoReturn:
        """Ends the tool with a line."""
        print(f"{self.prog}: {message} (--help has the words)", file=sys.stderr)
        sys.exit(2)


def counted(count: int, word: str) -> str:
    """A count of something, in words."""
    return f"{count:,} {word}" if count == 1 else f"{count:,} {word}s"


def number_of(least: int, most: typing.Optional[int] = None) -> typing.Callable[[str], int]:
    """What reads a whole number among the words, from the least to the most, or on without an end."""
    def read(word):
        if not word.isdecimal() or int(word) < least or most is not None and int(word) > most:
            raise argparse.ArgumentTypeError(f"{word!r} isn't a number " + (f"from {least} on" if most is None else
                                                                            f"from {least} to {most}"))
        return int(word)
    return read


class Joined(io.RawIOBase):
    """A file of which some bytes were read before: those, then the rest."""

    def __init__(self, first, rest):
        self.first, self.rest = first, rest

    def readable(self):
        return True

    def readinto(self, room):
        got = self.first[:len(room)] or self.rest.read(len(room))
        self.first = self.first[len(got):]
        room[:len(got)] = got
        return len(got)


def unpacked(file):
    """The file's bytes; those of an .xz file as they were before."""
    whole = io.BufferedReader(Joined(file.read(len(XZ)), file), 1 << 16)
    return lzma.open(whole) if whole.peek(len(XZ)).startswith(XZ) else whole


class Input:
    """An input that is read; a fault names it."""

    def __init__(self, name, file):
        self.name = name
        self.file = self.guarded(unpacked, file)

    def read(self, size: int = -1) -> bytes:
        """The next bytes, at most so many, or all; none at the end."""
        return self.guarded(self.file.read, size)

    def readline(self, size: int = -1) -> bytes:
        """The next line with its newline, or so many bytes of it; nothing at the end."""
        return self.guarded(self.file.readline, size)

    def guarded(self, call, given):
        try:
            return call(given)
        except IsADirectoryError:
            raise Unread(f"{self.name} is a folder") from None
        except (lzma.LZMAError, EOFError):
            raise Wrong(f"{self.name} is no whole .xz file") from None
        except OSError as error:
            raise Unread(f"{self.name} can't be read: {error.strerror}") from None


# Device and number of each plain file that was opened to be read.
READ = set()


def note_read(status: os.stat_result) -> None:
    """Keeps which file is read, so that it isn't written over."""
    if stat.S_ISREG(status.st_mode):
        READ.add((status.st_dev, status.st_ino))


def was_read(status: os.stat_result) -> bool:
    """Whether a file is one that was opened to be read."""
    return (status.st_dev, status.st_ino) in READ


def name_of(name: typing.Optional[str]) -> str:
    """An input's name, for people."""
    return "the standard input" if name in (None, "-") else name


@contextlib.contextmanager
def reading(name: typing.Optional[str]) -> typing.Iterator[Input]:
    """The input of this name, or the standard input for `-` and None. An .xz file is read as it is."""
    if name in (None, "-"):
        if sys.stdin is None:
            raise Unread("the standard input is closed")
        if sys.stdin.isatty():
            print("reading the standard input, which is a terminal", file=sys.stderr)
        file = sys.stdin.buffer
    else:
        try:
            file = open(name, "rb")
        except OSError as error:
            raise Wrong(f"{name} can't be opened: {error.strerror}") from None
    note_read(os.fstat(file.fileno()))
    with file:
        yield Input(name_of(name), file)


def all_of(file: typing.BinaryIO, name: str, most: int) -> bytes:
    """All bytes of a file, which may be so many."""
    data = io.BytesIO()
    while piece := file.read(PIECE):
        if data.tell() + len(piece) > most:
            raise Wrong(f"{name}: TooLong: it has more than {most:,} bytes")
        data.write(piece)
    return data.getvalue()


def whole_of(name: typing.Optional[str], most: int) -> bytes:
    """All bytes of an input, which may be so many."""
    with reading(name) as file:
        return all_of(file, name_of(name), most)


def as_file(data: bytes) -> typing.BinaryIO:
    """Bytes, to be read as a file."""
    return io.BytesIO(data)


def output() -> typing.BinaryIO:
    """The standard output, for bytes."""
    if sys.stdout is None:
        raise Wrong("the standard output is closed")
    return sys.stdout.buffer


def binary_output() -> typing.BinaryIO:
    """The standard output, for bytes that a terminal shouldn't get."""
    out = output()
    if sys.stdout.isatty():
        raise WrongWords("what is written is no text, and the standard output is a terminal: name a file")
    return out


class Progress:
    """A line on the standard error that says how far long work is, where that is a terminal."""

    def __init__(self, most: int) -> None:
        self.most, self.shown = most, sys.stderr is not None and sys.stderr.isatty()

    def at(self, count: int) -> None:
        """So much of it is done."""
        if self.shown:
            print(f"\r{count} of {self.most}", end="\n" if count == self.most else "", file=sys.stderr, flush=True)


def is_unread() -> bool:
    """Whether the standard output is a pipe that nobody reads any more."""
    poll = select.poll()
    poll.register(sys.stdout.fileno(), 0)
    return any(event & select.POLLERR for _, event in poll.poll(0))


def forget_output():
    """What is still in a buffer goes nowhere, so that the end is quiet."""
    with contextlib.suppress(Exception):
        nowhere = os.open(os.devnull, os.O_WRONLY)
        os.dup2(nowhere, sys.stdout.fileno())


def end_by_signal(number, _):
    CAME.append(number)
    raise Signalled(number)


def heed_signals():
    """A signal that ends the tool lets it take away what isn't whole, but for one that was to be passed over."""
    for number in (signal.SIGINT, signal.SIGTERM, signal.SIGHUP):
        if signal.getsignal(number) in (signal.SIG_DFL, signal.default_int_handler):
            signal.signal(number, end_by_signal)


# What ends a tool with a line.
FAULTS = (Wrong, OSError, MemoryError, KeyboardInterrupt, Signalled)


def fault_of(error: BaseException) -> typing.Tuple[str, int]:
    """What is said of an error that ends a tool, and the exit number."""
    if isinstance(error, Wrong):
        return str(error), error.number
    if isinstance(error, OSError):
        return f"{error.filename or 'a read or a write failed'}: {error.strerror}", 1
    if isinstance(error, MemoryError):
        return "no memory is left", 1
    number = error.args[0] if isinstance(error, Signalled) else signal.SIGINT
    return "interrupted" if number == signal.SIGINT else "ended by a signal", SIGNALLED + number


def run(name: str, main: typing.Callable[[], int]) -> typing.NoReturn:
    """Runs a tool to its end; `main` answers the exit number. An output that nobody reads on is no error."""
    try:
        heed_signals()
        output()
        try:
            number = main()
        except SystemExit as end:  # --help, or wrong words
            number = end.code
        check_signals()
        sys.stdout.flush()
        sys.exit(number)
    except BrokenPipeError:
        forget_output()
        sys.exit(0)
    except FAULTS as error:
        fault, number = fault_of(error)
    # A second interrupt changes nothing.
    signal.signal(signal.SIGINT, signal.SIG_IGN)
    # What was said before stands before it.
    with contextlib.suppress(Exception):
        sys.stdout.flush()
    with contextlib.suppress(Exception):
        print(f"{name}: {fault}", file=sys.stderr)
    forget_output()
    sys.exit(number)
