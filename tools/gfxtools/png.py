"""Pictures as PNG."""

import struct
import typing
import zlib

from . import dump, entry

MOST_SCALE = 64
MOST_SIDE = 65535
LEAST_CHUNK = 1 << 16  # bytes, but for the last


def chunk(name: bytes, data: bytes) -> bytes:
    """A chunk of a PNG: its length, its name, its data, a checksum of both."""
    return struct.pack(">I", len(data)) + name + data + struct.pack(">I", zlib.crc32(name + data))


def scanline(pixels: bytes, has_alpha: bool, scale: int) -> bytes:
    """A row of a PNG: no filter, then red, green, blue and perhaps alpha of each pixel."""
    size = 4 if has_alpha else 3
    row = bytearray(1 + size * scale * (len(pixels) // 4))
    # Blue, green, red and perhaps alpha of a pixel go to these places.
    for source, place in enumerate((2, 1, 0, 3)[:size]):
        for copy in range(scale):
            row[1 + size * copy + place :: size * scale] = pixels[source::4]
    return bytes(row)


class Chunks:
    """Puts what a compressor gives into a file, in chunks of the picture's data."""

    def __init__(self, file):
        self.file, self.held, self.size = file, [], 0

    def add(self, packed: bytes, least: int = LEAST_CHUNK) -> None:
        """Takes what the compressor gave. A chunk is written once there are so many bytes."""
        self.held.append(packed)
        self.size += len(packed)
        if self.size >= least:
            self.file.write(chunk(b"IDAT", b"".join(self.held)))
            self.held, self.size = [], 0


def write(file: typing.Any, title: str, sides: typing.Tuple[int, int], rows: typing.Iterable[bytes],
          has_alpha: bool = False, scale: int = 1, level: int = 9) -> None:
    """Writes a PNG, row by row as they come. Rows are bytes of blue, green, red, alpha."""
    width, height = sides
    if width == 0 or height == 0:
        raise entry.Wrong(f"{title} has no pixels")
    if max(width, height) * scale > MOST_SIDE:
        raise entry.Wrong(f"{title}, {scale} times as large, has a side of more than {MOST_SIDE} pixels")
    # Eight bits a channel; colour type 2 is red, green, blue, and 6 is these with alpha.
    head = struct.pack(">IIBBBBB", width * scale, height * scale, 8, 6 if has_alpha else 2, 0, 0, 0)
    file.write(b"\x89PNG\r\n\x1a\n" + chunk(b"IHDR", head))
    packer, chunks = zlib.compressobj(level), Chunks(file)
    for row in rows:
        line = scanline(row, has_alpha, scale)
        for _ in range(scale):
            chunks.add(packer.compress(line))
    chunks.add(packer.flush(), least=1)
    file.write(chunk(b"IEND", b""))


def write_picture(file: typing.Any, picture: dump.Shape, scale: int = 1, level: int = 9) -> None:
    """Writes a PNG of a picture that has rows."""
    write(file, picture.title, picture.sides, picture.rows(), picture.has_alpha, scale, level)


def scale_of(word: str) -> int:
    """The number behind --scale."""
    return entry.number_of(1, MOST_SCALE)(word)
