"""What kind of file bytes are, by their front, and which command takes such a file."""

import re
import struct
import typing

from . import recording

# So much of a file's front says its kind.
FRONT = 4096

# A fragment's kind is the upper half of its first byte; its widths are the lower half ([MS-RDPEDYC] 2.2.3).
DATA_FIRST, DATA = 2, 3
WIDTHS = (1, 2, 4)
MOST_FRAGMENT = 1600

# The client's messages, by the numbers in their headers ([MS-RDPEGFX] 2.2.1.5).
OF_CLIENT = (0x0D, 0x10, 0x12, 0x16)


# How a dump of pictures begins (docs/FORMATS.md, "What is printed").
DUMPED = re.compile(rb"(?:surface \d+|output) \d+x\d+")


class Kind(typing.NamedTuple):
    """A kind of file, with its article, and what is to be done with one."""

    name: str
    takes: str


RECORDING = Kind("a recording", "`tools/gfx render` and `tools/stream` take it")
COMPRESSED = Kind("a recording whose blocks are compressed", "docs/TROUBLESHOOTING.md, \"BulkCompressed\", "
                  "says how `tools/record` decompresses one")
FRAGMENTS = Kind("a recording of fragments", "`tools/gfx join` makes a recording of it")
KEPT = Kind("a file of kept bitmaps", "`tools/kept` shows it, and `tools/gfx import` takes two of them and a script")
IMPORT = Kind("an input of import", "`tools/gfx import` plays it")
CLIENT = Kind("what a client sent", "no command reads it")
BARE = Kind("channel messages without their lengths", "put its length, four bytes, before each: docs/FORMATS.md, "
            "\"A stream\"")
TEXT = Kind("a text, as a script is", "`tools/check-script` says whether it is one, and `tools/gfx encode` makes a "
            "recording of it")
DUMP = Kind("a dump of render", "`tools/picture` and `tools/compare` take it")
PNG = Kind("a PNG", "a script may have it as a picture: docs/SCRIPTS.md, \"A PNG as a picture\"")
PCAP = Kind("a capture of the network (pcap)", "it is encrypted: docs/RECORDING.md says why it can't be read")
XZ = Kind("an .xz file", "`xz -dc` unpacks it")
GZ = Kind("a .gz file", "`gzip -dc` unpacks it")
ZIP = Kind("a .zip file", "`unzip` unpacks it")
NOTHING = Kind("empty", "nothing is in it")
UNKNOWN = Kind("nothing that the tools know", "docs/TROUBLESHOOTING.md has what it may be")

FRONTS = (
    (b"\x89PNG", PNG), (b"\xd4\xc3\xb2\xa1", PCAP), (b"\x4d\x3c\xb2\xa1", PCAP), (b"\n\r\r\n", PCAP), (b"\xfd7zX", XZ),
    (b"\x1f\x8b", GZ), (b"PK\3\4", ZIP), (b"KEPT", KEPT), (b"\xe0\x04", BARE), (b"\xe0\x24", BARE),
)


def is_compressed(data: bytes) -> bool:
    """Whether the first block of a channel message, which begins here, is compressed ([MS-RDPEGFX] 2.2.5.3)."""
    at = 1 if data[0] == recording.SINGLE else 11
    return len(data) > at and data[at] % 16 == recording.RDP8 and bool(data[at] & recording.COMPRESSED)


def is_of_client(data: bytes, length: int) -> bool:
    """Whether a message of the client of this length begins here."""
    return len(data) >= recording.HEADER and data[0] in OF_CLIENT and struct.unpack_from("<I", data, 4)[0] == length


def with_length(front: bytes) -> typing.Optional[Kind]:
    """The kind of what stands behind a length, or None."""
    length, data = struct.unpack_from("<I", front)[0], front[4:]
    if not data:
        return RECORDING
    if data[0] in (recording.SINGLE, recording.SEVERAL):
        return COMPRESSED if is_compressed(data) else RECORDING
    if data.startswith(b"KEPT"[:len(data)]):
        return IMPORT
    return CLIENT if is_of_client(data, length) else None


def fragment_at(front: bytes, at: int) -> typing.Optional[typing.Tuple[bytes, bytes, int]]:
    """The channel id and the data of the fragment behind the length at this place, and the place behind it; None where
    none stands here. At the front's end it may be cut."""
    length = struct.unpack_from("<H", front, at)[0] if len(front) - at >= 2 else 0
    body = front[at + 2:at + 2 + length]
    if not 1 <= length <= MOST_FRAGMENT or not body:
        return None
    kind, total, id = body[0] >> 4, body[0] >> 2 & 3, body[0] & 3
    if kind not in (DATA_FIRST, DATA) or id == 3 or kind == DATA_FIRST and total == 3:
        return None
    head = 1 + WIDTHS[id]
    return body[1:head], body[head + (WIDTHS[total] if kind == DATA_FIRST else 0):], at + 2 + length


def is_of_fragments(front: bytes) -> bool:
    """Whether a recording of fragments begins so: each of one channel, the first with a server's channel message."""
    first = fragment_at(front, 0)
    if first is None or first[1][:1] not in (b"\xe0", b"\xe1"):
        return False
    at = first[2]
    for _ in range(8):
        if len(front) - at < 3:
            break
        found = fragment_at(front, at)
        if found is None or found[0] != first[0][:len(found[0])]:
            return False
        at = found[2]
    return True


def is_text(front: bytes) -> bool:
    """Whether a front is that of a text: its first signs say it."""
    some = front[:16]
    return bool(some) and some[0] < 127 and all(byte in b"\t\n\r" or byte >= 32 for byte in some)


def of(front: bytes) -> Kind:
    """The kind of a file with this front, of up to FRONT bytes."""
    if not front:
        return NOTHING
    for begin, kind in FRONTS:
        if front.startswith(begin):
            return kind
    if DUMPED.match(front):
        return DUMP
    if is_of_fragments(front):
        return FRAGMENTS
    found = with_length(front) if recording.is_length(front[:4]) else None
    return found or (TEXT if is_text(front) else UNKNOWN)


def otherwise(front: bytes, *due: Kind) -> str:
    """Where a file is of another kind than these, what it looks like and what takes it, in words; else nothing."""
    kind = of(front)
    if kind in (*due, NOTHING, UNKNOWN):
        return ""
    return f"this looks like {kind.name}: {kind.takes}"
