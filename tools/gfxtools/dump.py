"""Dumps that `render` prints: pictures, one after another (docs/FORMATS.md, "What is printed")."""

import binascii
import re
import typing

from . import kinds
from .entry import Wrong

# A line that begins a surface or the output. The digits of its rows follow, a row on a line.
HEAD = re.compile(rb"(?:surface (?P<id>\d+)|output) (?P<width>\d+)x(?P<height>\d+)(?: (?P<format>xrgb|argb))?\Z")

# A pixel is printed as eight digits: blue, green, red, alpha.
DIGITS = 8

# The name of the output's picture; a surface's is its id as text.
OUTPUT = "output"

# A head has no more signs, and a side no more pixels: a PNG can't have more.
MOST_HEAD = 80
MOST_SIDE = 65535


class Shape:
    """What a picture is called and how large it is: its name, its sides in pixels, and its format, `xrgb` or `argb`,
    or None of the output."""

    def __init__(self, name: str, width: int, height: int, format: typing.Optional[str]) -> None:
        self.name, self.width, self.height, self.format = name, width, height, format

    @property
    def sides(self) -> typing.Tuple[int, int]:
        """Its width and its height."""
        return self.width, self.height

    @property
    def has_alpha(self) -> bool:
        """Whether its alpha says anything."""
        return self.format == "argb"

    @property
    def title(self) -> str:
        """The line that it begins with in a dump."""
        name = self.name if self.name == OUTPUT else f"surface {self.name}"
        return f"{name} {self.width}x{self.height}" + (f" {self.format}" if self.format else "")


class Picture(Shape):
    """A surface or the output in a dump: its shape, and its rows, each of which is read once. The dump's name is for
    faults."""

    def __init__(self, file: typing.BinaryIO, head: typing.Match[bytes], dump_name: str) -> None:
        format = head["format"].decode() if head["format"] else None
        name = OUTPUT if head["id"] is None else str(int(head["id"]))
        super().__init__(name, int(head["width"]), int(head["height"]), format)
        self.file, self.dump_name = file, dump_name
        self.read = 0
        if max(self.sides) > MOST_SIDE:
            raise self.fault(f"{self.title} has a side of more than {MOST_SIDE:,} pixels")

    def fault(self, text: str) -> Wrong:
        """A fault of this dump."""
        return Wrong(f"{self.dump_name}: {text}")

    def lines(self) -> typing.Iterator[bytes]:
        """The next rows, as digits."""
        due = DIGITS * self.width
        while self.read < self.height:
            line = line_of(self.file, due)
            if line is None:
                raise self.fault(f"{self.title}: the dump ends before row {self.read} of {self.height}")
            if len(line) != due:
                count = f"{len(line)}" if len(line) < due else f"more than {due}"
                raise self.fault(f"{self.title}: row {self.read} has {count} digits where {due} are due")
            self.read += 1
            yield line

    def rows(self) -> typing.Iterator[bytes]:
        """The next rows, each as bytes of blue, green, red, alpha."""
        for line in self.lines():
            yield self.row_of(line)

    def row_of(self, line: bytes) -> bytes:
        """A row, of its digits."""
        try:
            return binascii.unhexlify(line)
        except binascii.Error:
            raise self.fault(f"{self.title}: a row has other signs than hexadecimal digits") from None


def line_of(file: typing.BinaryIO, most: int) -> typing.Optional[bytes]:
    """The next line without its newline, or None at the end. Of a longer line than most it is a front, which is
    longer than most, too."""
    line = file.readline(most + 2)
    return line.rstrip(b"\r\n") if line else None


def pictures(file: typing.BinaryIO, dump_name: str = "the dump") -> typing.Iterator[Picture]:
    """The pictures of a dump. Rows that nobody has read are passed over."""
    is_first = True
    while (line := line_of(file, MOST_HEAD)) is not None:
        head = HEAD.match(line)
        if head is None:
            like = kinds.otherwise(line, kinds.DUMP, kinds.TEXT) if is_first else ""
            raise Wrong(f"{dump_name}: this is no dump of render; {like}" if like else
                        f"{dump_name}: no line of a dump: {line[:40].decode('ascii', 'replace')!r}")
        is_first = False
        picture = Picture(file, head, dump_name)
        yield picture
        for _ in picture.lines():
            pass


def named(names: typing.Iterable[str]) -> str:
    """Names of pictures, in words."""
    return ", ".join(name if name == OUTPUT else f"surface {name}" for name in names) or "nothing"


def find(file: typing.BinaryIO, which: typing.Optional[str], dump_name: str = "the dump") -> Picture:
    """The picture of this name, or the only one where none is named; it is read on from here."""
    found = []
    for picture in pictures(file, dump_name):
        if picture.name == which or which is None:
            return picture
        found.append(picture.name)
    raise Wrong(f"{dump_name} has no {named([which])}; it has {named(found)}" if which else
                f"{dump_name} has no picture")
