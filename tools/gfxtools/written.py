"""What the tools write: beside, in the same folder, and renamed once it is whole. An error or an interrupt leaves
nothing behind, and what was there as it was. What a tool reads it never writes over."""

import contextlib
import errno
import os
import secrets
import shutil
import stat
import tempfile
import typing

from . import entry

# So much of a picture for the standard output is kept in memory, the rest in a file, until it is whole.
SPOOLED = 1 << 24


class File:
    """A file that is being written."""

    def __init__(self, name, file):
        self.name, self.file = name, file
        self.is_kept = True

    def write(self, data: bytes) -> None:
        """Writes all of these bytes."""
        self.guarded(self.file.write, data)

    def flush(self) -> None:
        """Hands what was written to the system."""
        self.guarded(self.file.flush)

    def fileno(self) -> int:
        """The number of the open file."""
        return self.file.fileno()

    def drop(self) -> None:
        """What was written isn't kept, and what was there stays."""
        self.is_kept = False

    def guarded(self, call, *given):
        try:
            call(*given)
        except BrokenPipeError:
            raise
        except OSError as error:
            raise unwritten(self.name, error) from None


def unwritten(name, error):
    return entry.Wrong(f"{name} can't be written: {error.strerror}")


def refuse_read(name: str) -> None:
    """Refuses a name for what is written that is a file which this tool has read."""
    with contextlib.suppress(OSError):
        if entry.was_read(os.stat(name)):
            raise entry.WrongWords(f"{name} is read, and would be written over: name another file")


def status_of(name):
    try:
        return os.stat(name)
    except FileNotFoundError:
        return None
    except OSError as error:
        raise unwritten(name, error) from None


@contextlib.contextmanager
def whole(name: str, is_binary: bool = True) -> typing.Iterator[File]:
    """A file to be written. It stands under its name once all of it is there; what is no plain file, as a pipe, is
    written where it is."""
    refuse_read(name)
    status = status_of(name)
    if status and stat.S_ISDIR(status.st_mode):
        raise entry.Wrong(f"{name} is a folder, and a file is to be written")
    if status and not stat.S_ISREG(status.st_mode):
        with opened(name, name, os.O_WRONLY) as file:
            if is_binary and os.isatty(file.fileno()):
                raise entry.WrongWords(f"what is written is no text, and {name} is a terminal: name a file")
            yield file
            file.flush()
        return
    if status and not os.access(name, os.W_OK):
        raise entry.Wrong(f"{name} can't be written: {os.strerror(errno.EACCES)}")
    place = os.path.realpath(name)
    beside = os.path.join(os.path.dirname(place), f".new-{os.getpid()}-{secrets.token_hex(4)}")
    try:
        with opened(name, beside, os.O_WRONLY | os.O_CREAT | os.O_EXCL) as file:
            if status:
                os.fchmod(file.fileno(), stat.S_IMODE(status.st_mode))
            yield file
            file.flush()
        entry.check_signals()
        if file.is_kept:
            file.guarded(os.replace, beside, place)
    finally:
        with contextlib.suppress(OSError):
            os.unlink(beside)


@contextlib.contextmanager
def opened(name, place, flags):
    try:
        file = open(os.open(place, flags, 0o666), "wb")
    except OSError as error:
        raise unwritten(name, error) from None
    try:
        yield File(name, file)
    finally:
        # All that counts was flushed before.
        with contextlib.suppress(OSError):
            file.close()


@contextlib.contextmanager
def to(name: typing.Optional[str], is_binary: bool = True) -> typing.Iterator[typing.Any]:
    """The output of this name, or the standard output for `-` and None, which gets what there is as it comes."""
    if name not in (None, "-"):
        with whole(name, is_binary) as file:
            yield file
        return
    yield entry.binary_output() if is_binary else entry.output()


@contextlib.contextmanager
def whole_to(name: typing.Optional[str]) -> typing.Iterator[typing.Any]:
    """As `to`, but that the standard output, too, gets the whole or nothing."""
    with to(name) as file:
        if name not in (None, "-"):
            yield file
            return
        with tempfile.SpooledTemporaryFile(SPOOLED) as spool:
            yield spool
            spool.seek(0)
            shutil.copyfileobj(spool, file)


@contextlib.contextmanager
def folder(name: str) -> typing.Iterator[None]:
    """A folder for files, which is made where it isn't there, and taken away where nothing came into it."""
    is_new = not os.path.isdir(name)
    try:
        os.makedirs(name, exist_ok=True)
    except FileExistsError:
        raise entry.Wrong(f"{name} is a file, and pictures go into a folder") from None
    except OSError as error:
        raise unwritten(name, error) from None
    try:
        yield
    finally:
        if is_new:
            with contextlib.suppress(OSError):
                os.rmdir(name)
