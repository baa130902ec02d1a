"""Either end of a living session: speaks to the programs live_server and live_client, which keep the protocol
(docs/LIVE.md).

    with LiveServer(program) as server:
        to_client(server.take(from_client()).data)
        server.surface(1, 1920, 1080)
        server.paint(1, 0, 0, 1920, 1080, pixels)
        server.frame()
        to_client(server.serve().data)

    with LiveClient(program) as client:
        to_server(client.hello())
        to_server(client.take(from_server()).data)
        for rect in client.written().rects:
            show(rect, client.picture(rect))

Each method writes one command and reads its answer, so nothing waits for ever.
"""

import enum
import os
import struct
import subprocess
import typing

FRONT = struct.Struct("<BI")
MOST_PAINT = 67108864 + 32
MOST_BODY = 65536
NO_GLYPH = 0xFFFF
FORMATS = {"xrgb": 0x20, "argb": 0x21}
KINDS = ("auto", "raw", "residual", "bands", "palette", "plain", "progressive", "video")
ENTROPIES = {"rlgr1": 1, "rlgr3": 3}
TRANSFORMS = ("plain", "reduced")
ROUNDINGS = ("zero", "nearest")
# The order in which a quant has its bands on the wire, by their places in a script's list.
WIRE_BANDS = (9, 6, 7, 8, 3, 4, 5, 0, 1, 2)

Pixels = typing.Union[bytes, bytearray, memoryview]
Point = typing.Sequence[int]  # x, y
Rect = typing.Sequence[int]  # left, top, right, bottom


class Turned(enum.Enum):
    """What a turn did: something, nothing yet, or all is done."""

    MOVED = 0
    WAITING = 1
    ENDED = 2


class Shown(typing.NamedTuple):
    """A frame that the client has acknowledged: its id, its recorded step, and the digest where digests are on."""

    frame: int
    step: int
    digest: typing.Optional[bytes]


class Taken(typing.NamedTuple):
    """What came of bytes of the client: the frames that it has acknowledged, and what is to be sent to it."""

    shown: typing.List[Shown]
    data: bytes


class Served(typing.NamedTuple):
    """What came of a turn, and what is to be sent to the client."""

    turned: Turned
    data: bytes


class Drawn(typing.NamedTuple):
    """What came of a channel message: the frames that have ended, and what is to be sent to the server."""

    frames: typing.List[int]
    data: bytes


class Written(typing.NamedTuple):
    """Which rectangles of the output were written, and its sides."""

    width: int
    height: int
    rects: typing.List[Rect]


class NotDone(Exception):
    """An answer that isn't the one that was hoped for: its kind, a letter, and the name that it tells, if any."""

    def __init__(self, kind: str, name: str = "") -> None:
        super().__init__(f"{kind} {name}".strip())
        self.kind, self.name = kind, name


class Ended(Exception):
    """The program has ended: its exit number, and its line on the standard error."""

    def __init__(self, number: int, line: str) -> None:
        super().__init__(f"the program ended with {number}: {line}")
        self.number, self.line = number, line


class Setting(typing.NamedTuple):
    """How progressive paints are coded: of each quant and of each part of a level ten numbers, as in a script."""

    transform: str
    rounding: str
    y: typing.Sequence[int]
    cb: typing.Sequence[int]
    cr: typing.Sequence[int]
    levels: typing.Sequence[typing.Tuple[typing.Sequence[int], typing.Sequence[int], typing.Sequence[int]]]


# ---- Bodies


def quant(values: typing.Sequence[int]) -> bytes:
    """Ten numbers of four bits as they are on the wire ([MS-RDPEGFX] RFX_COMPONENT_CODEC_QUANT)."""
    nibbles = [values[band] for band in WIRE_BANDS]
    return bytes(low | high << 4 for low, high in zip(nibbles[::2], nibbles[1::2]))


def settings(window: int = 2, entropy: str = "rlgr1", differences: bool = False, digests: bool = False,
             setting: typing.Optional[Setting] = None) -> bytes:
    """The body of an `H`."""
    body = struct.pack("<4B", window, ENTROPIES[entropy], differences, digests)
    if setting is None:
        return body
    quants = [setting.y, setting.cb, setting.cr, *(part for level in setting.levels for part in level)]
    words = bytes([TRANSFORMS.index(setting.transform), ROUNDINGS.index(setting.rounding)])
    return body + words + b"".join(quant(values) for values in quants)


def rects_of(rects: typing.Iterable[Rect]) -> bytes:
    """Rectangles as they stand in a body: left, top, right, bottom."""
    return b"".join(struct.pack("<4H", *rect) for rect in rects)


def points_of(points: typing.Iterable[Point]) -> bytes:
    """Points as they stand in a body: x, y."""
    return b"".join(struct.pack("<2H", *point) for point in points)


def paint_front(id: int, x: int, y: int, width: int, height: int, kind: str = "auto",
                glyph: typing.Optional[int] = None) -> bytes:
    """What stands before the pixels in the body of a `p`."""
    return struct.pack("<5HBH", id, x, y, width, height, KINDS.index(kind), NO_GLYPH if glyph is None else glyph)


def shown_of(body: bytes) -> Taken:
    """Reads the body of an `A`."""
    count, at, shown = struct.unpack_from("<I", body)[0], 4, []
    for _ in range(count):
        frame, step, has_digest = struct.unpack_from("<IIB", body, at)
        at += 9
        shown.append(Shown(frame, step, body[at:at + 32] if has_digest else None))
        at += 32 * has_digest
    return Taken(shown, body[at:])


def drawn_of(body: bytes) -> Drawn:
    """Reads the body of a client's `A`."""
    count = struct.unpack_from("<I", body)[0]
    frames = struct.unpack_from(f"<{count}I", body, 4)
    return Drawn(list(frames), body[4 + 4 * count:])


# ---- The programs


class Program:
    """A program that is driven by records, as long as it runs. A method writes a command and reads its answer: what is
    no success is NotDone, and has done nothing."""

    def __init__(self, program: typing.Union[str, os.PathLike]) -> None:
        self.process = subprocess.Popen([program], stdin=subprocess.PIPE, stdout=subprocess.PIPE,
                                        stderr=subprocess.PIPE)

    def __enter__(self) -> "Program":
        return self

    def __exit__(self, *_: object) -> None:
        self.close()

    def close(self) -> typing.Tuple[int, str]:
        """Ends the input. Answers the program's exit number, and its line on the standard error."""
        _, line = self.process.communicate()
        return self.process.returncode, line.decode("utf-8", "replace").strip()

    def stop(self) -> None:
        """Ends the program at once, whatever it does."""
        self.process.kill()
        self.process.communicate()

    # Records.

    def ask(self, kind: str, *parts: bytes) -> typing.Tuple[str, bytes]:
        """Writes a record, whose body is these parts, and reads the answer: its kind, a letter, and its body."""
        stream = self.process.stdin
        try:
            stream.write(FRONT.pack(ord(kind), sum(len(part) for part in parts)))
            for part in parts:
                stream.write(part)
            stream.flush()
        except BrokenPipeError:
            raise Ended(*self.ended()) from None
        answer, length = FRONT.unpack(self.read(FRONT.size))
        return chr(answer), self.read(length)

    def read(self, count: int) -> bytes:
        """So many bytes of the program's output; where it ends before, that is Ended."""
        data = self.process.stdout.read(count)
        if len(data) < count:
            raise Ended(*self.ended())
        return data

    def ended(self) -> typing.Tuple[int, str]:
        """How the program has ended by itself."""
        line = self.process.stderr.read().decode("utf-8", "replace").strip()
        return self.process.wait(), line

    def must(self, wanted: str, kind: str, *parts: bytes) -> bytes:
        """The body of the answer of this kind; any other is NotDone."""
        answer, body = self.ask(kind, *parts)
        if answer != wanted:
            raise NotDone(answer, body.decode("ascii", "replace"))
        return body


class LiveServer(Program):
    """A server's end that is fed."""

    # The client.

    def settle(self, window: int = 2, entropy: str = "rlgr1", differences: bool = False, digests: bool = False,
               setting: typing.Optional[Setting] = None) -> None:
        """Says what is other than usual, before the client's first bytes."""
        self.must("O", "H", settings(window, entropy, differences, digests, setting))

    def take(self, data: bytes) -> Taken:
        """Hands on bytes of the client, cut anywhere."""
        shown, out = [], []
        for at in range(0, len(data) or 1, MOST_BODY):
            taken = shown_of(self.must("A", "M", data[at:at + MOST_BODY]))
            shown += taken.shown
            out.append(taken.data)
        return Taken(shown, b"".join(out))

    def serve(self) -> Served:
        """A turn of the server's end."""
        body = self.must("S", "S")
        return Served(Turned(body[0]), body[1:])

    def improve_idle(self) -> bool:
        """Where nothing else is to do, pushes a frame that improves what shows; whether there was something to improve."""
        answer, name = self.ask("I")
        if answer not in "Y-":
            raise NotDone(answer, name.decode("ascii", "replace"))
        return answer == "Y"

    def wants_frame(self) -> bool:
        """Whether a frame that were pushed now could go at once."""
        answer, _ = self.ask("?")
        return answer == "Y"

    def steps_behind(self) -> int:
        """How many of the steps that were pushed weren't sent yet."""
        return struct.unpack("<I", self.must("B", "B"))[0]

    # What the screen shows: a push each, as the step of that name in a script (docs/SCRIPTS.md). It counts once
    # `frame` has ended its frame.

    def surface(self, id: int, width: int, height: int, format: str = "xrgb") -> None:
        """Makes a surface of these sides in pixels, whose format is `xrgb` or `argb`."""
        self.must("O", "s", struct.pack("<3HB", id, width, height, FORMATS[format]))

    def delete(self, id: int) -> None:
        """Deletes a surface."""
        self.must("O", "d", struct.pack("<H", id))

    def reset(self, width: int, height: int) -> None:
        """Gives the output these sides in pixels."""
        self.must("O", "r", struct.pack("<2I", width, height))

    def map(self, id: int, x: int, y: int) -> None:
        """Shows a surface on the output, its left top at this place."""
        self.must("O", "m", struct.pack("<H2I", id, x, y))

    def fill(self, id: int, colour: bytes, rects: typing.Iterable[Rect]) -> None:
        """A colour is four bytes: blue, green, red, alpha."""
        self.must("O", "f", struct.pack("<H", id), colour, rects_of(rects))

    def copy(self, source: int, to: int, rect: Rect, points: typing.Iterable[Point]) -> None:
        """Copies a rectangle of a surface to points of a surface."""
        self.must("O", "c", struct.pack("<6H", source, to, *rect), points_of(points))

    def keep(self, id: int, key: int, rect: Rect) -> None:
        """Keeps a rectangle of a surface as the bitmap under a key."""
        self.must("O", "k", struct.pack("<HQ4H", id, key, *rect))

    def show(self, key: int, to: int, points: typing.Iterable[Point]) -> None:
        """Puts the bitmap under a key at points of a surface."""
        self.must("O", "w", struct.pack("<QH", key, to), points_of(points))

    def forget(self, key: int) -> None:
        """Lets go of the bitmap under a key."""
        self.must("O", "g", struct.pack("<Q", key))

    def paint(self, id: int, x: int, y: int, width: int, height: int, pixels: Pixels, kind: str = "auto",
              glyph: typing.Optional[int] = None) -> None:
        """Pixels are rows from the top, four bytes each: blue, green, red, and one that says nothing."""
        self.must("O", "p", paint_front(id, x, y, width, height, kind, glyph), pixels)

    def improve(self, id: int) -> None:
        """Improves by a level what a surface shows of pictures in passes."""
        self.must("O", "i", struct.pack("<H", id))

    def frame(self) -> None:
        """The screen is whole: what was pushed since the last frame may be sent."""
        self.must("O", "F")


class LiveClient(Program):
    """A client that shows a living session."""

    def offer(self, versions: typing.Iterable[typing.Tuple[int, bool, bool]]) -> None:
        """Versions, each with whether the cache is small and whether the client is thin, before anything else."""
        self.must("O", "V", b"".join(struct.pack("<IBB", *version) for version in versions))

    def hello(self) -> bytes:
        """What the client says first."""
        return drawn_of(self.must("A", "C")).data

    def take(self, message: bytes) -> Drawn:
        """Hands on a channel message of the server, whole and without a length."""
        return drawn_of(self.must("A", "M", message))

    def written(self) -> Written:
        """What the frames that have ended since this was asked for have written."""
        body = self.must("D", "D")
        width, height = struct.unpack_from("<2I", body)
        return Written(width, height, list(struct.iter_unpack("<4H", body[8:])))

    def picture(self, rect: Rect) -> bytes:
        """How a rectangle of the output looks: rows from the top, of each pixel blue, green, red and 255."""
        return self.must("P", "P", struct.pack("<4H", *rect))
