"""Pictures of frames in one pass over a recording: live_client draws it, and says at each frame's end what was written
(docs/LIVE.md); what is drawn is kept here from frame to frame.

live_client shows the output alone. So a surface is made the output: what the recording says of the output is left
out, and the surface is mapped to one of its own sides."""

import os
import struct
import typing

from . import dump, entry, live, recording

HEADER = struct.Struct("<HHI")
CREATE, RESET, MAP, END_FRAME = 0x09, 0x0E, 0x0F, 0x0C
XRGB = 4  # bytes of a pixel

# How many bytes of a picture are asked for at a time.
STRIP = 1 << 22

BUILT = os.path.join(os.path.dirname(os.path.dirname(os.path.dirname(os.path.abspath(__file__)))),
                     "crates", "live_client", "out", "live_client")
HELP = ("live_client, which draws several frames in one pass; without it that of LIVE_CLIENT, or the one that is built "
        "in this repository")


def place_of(named: typing.Optional[str]) -> typing.Optional[str]:
    """The file of live_client: the one that is named, else that of LIVE_CLIENT, else the one that is built here, or
    None where there is none."""
    named = named or os.environ.get("LIVE_CLIENT")
    place = named or BUILT
    if os.path.isfile(place) and os.access(place, os.X_OK):
        entry.note_read(os.stat(place))
        return os.path.abspath(place)
    if named:
        raise entry.Wrong(f"{place} is no program")
    return None


# ---- What is handed on


def message(kind: int, body: bytes) -> bytes:
    return HEADER.pack(kind, 0, HEADER.size + len(body)) + body


def reset(width: int, height: int) -> bytes:
    """A ResetGraphics without monitors (2.2.2.14), which is 340 bytes long."""
    return message(RESET, struct.pack("<3I", width, height, 0).ljust(332, b"\0"))


def messages_of(payload: bytes) -> typing.Iterator[typing.Tuple[int, int, int]]:
    """The messages of a payload that has whole ones: of each its kind, where it begins and where it ends."""
    at = 0
    while at < len(payload):
        kind, _, size = HEADER.unpack_from(payload, at)
        yield kind, at, at + size
        at += size


class AsItIs:
    """A recording whose output is drawn is handed on as it is."""

    def left_out(self, kind: int) -> bool:
        return False

    def behind(self, kind: int, body: bytes) -> bytes:
        return b""


class SurfaceAsOutput:
    """A recording of which a surface is drawn: it takes the output's place."""

    def __init__(self, id: int) -> None:
        self.id = id
        self.sides = 1, 1

    def left_out(self, kind: int) -> bool:
        """Whether a message isn't handed on."""
        return kind in (RESET, MAP)

    def behind(self, kind: int, body: bytes) -> bytes:
        """What is handed on behind a message. A ResetGraphics stays one, since any ClearCodec sequence number may come
        behind it."""
        if kind == RESET:
            return reset(*self.sides)
        if kind == CREATE and struct.unpack_from("<H", body)[0] == self.id:
            self.sides = struct.unpack_from("<2H", body, 2)
            return reset(*self.sides) + message(MAP, struct.pack("<HHII", self.id, 0, 0, 0))
        return b""


def pieces_of(payload: bytes, way: typing.Union[AsItIs, SurfaceAsOutput]) -> typing.Iterator[typing.Tuple[bytes, bool]]:
    """A payload in pieces, each with whether a frame ends at its end."""
    begin = 0
    for kind, at, end in messages_of(payload):
        more = way.behind(kind, payload[at + HEADER.size:end])
        if way.left_out(kind):
            yield payload[begin:at], False
            begin = end
        if more:
            yield payload[begin:end], False
            yield more, False
            begin = end
        if kind == END_FRAME:
            yield payload[begin:end], True
            begin = end
    yield payload[begin:], False


def handed_on(data: bytes, way: typing.Union[AsItIs, SurfaceAsOutput]) -> typing.Iterator[typing.Tuple[bytes, bool]]:
    """The channel messages that are handed on, without their lengths, each with whether a frame ends at its end."""
    for channel in recording.channels(entry.as_file(data)):
        payload = channel.payload
        for piece, ends in pieces_of(payload, way):
            if len(piece) == len(payload):
                yield channel.data, ends
            elif piece:
                yield recording.wrap(piece)[4:], ends


# ---- What is drawn


class Screen(dump.Shape):
    """What live_client shows, of rows from the top, and of each pixel blue, green, red and 255."""

    def __init__(self, client: live.LiveClient, which: str, dump_name: str) -> None:
        super().__init__(which, 0, 0, None if which == dump.OUTPUT else "xrgb")
        self.client, self.dump_name = client, dump_name
        self.data = bytearray()

    def update(self) -> None:
        """Takes over what the frames that have ended since the last time have written."""
        written = self.client.written()
        if (written.width, written.height) != self.sides:
            self.width, self.height = written.width, written.height
            self.data = bytearray(XRGB * self.width * self.height)
        whole = (0, 0, self.width, self.height)
        areas = sum((right - left) * (bottom - top) for left, top, right, bottom in written.rects)
        for rect in [whole] if areas >= self.width * self.height else written.rects:
            self.fetch(*rect)

    def fetch(self, left: int, top: int, right: int, bottom: int) -> None:
        """Takes over a rectangle, some rows at a time."""
        size = XRGB * (right - left)
        height = max(1, STRIP // max(1, size))
        for begin in range(top, bottom, height):
            end = min(begin + height, bottom)
            pixels = self.client.picture((left, begin, right, end))
            if len(pixels) != size * (end - begin):
                raise entry.Wrong(f"{self.dump_name}: live_client's picture has {len(pixels):,} bytes, where "
                                  f"{size * (end - begin):,} are due")
            self.put(left, begin, size, pixels)

    def put(self, left: int, top: int, size: int, pixels: bytes) -> None:
        """Puts rows of so many bytes in their place."""
        pitch = XRGB * self.width
        if size == pitch:
            self.data[pitch * top:pitch * top + len(pixels)] = pixels
            return
        place = pitch * top + XRGB * left
        for at in range(0, len(pixels), size or 1):
            self.data[place:place + size] = pixels[at:at + size]
            place += pitch

    def rows(self) -> typing.Iterator[bytes]:
        """The rows."""
        pitch = XRGB * self.width
        with memoryview(self.data) as view:
            for at in range(0, pitch * self.height, pitch or 1):
                yield bytes(view[at:at + pitch])


class Pass:
    """A pass over a recording, of which the output or a surface is drawn."""

    def __init__(self, place: str, data: bytes, which: str, name: str) -> None:
        self.place, self.data, self.which, self.name = place, data, which, name

    def screens(self, numbers: typing.Collection[int]) -> typing.Iterator[typing.Tuple[int, Screen]]:
        """What is shown at the ends of the frames of these numbers, each with its number. It is one screen, which goes
        on: it is to be read before the next one comes."""
        client, number, last = self.started(), 0, max(numbers)
        frame = 1
        try:
            screen = Screen(client, self.which, self.name)
            for channel, ends in handed_on(self.data, self.way()):
                frame = number + 1
                client.take(channel)
                number += ends
                if ends and number in numbers:
                    entry.check_signals()
                    screen.update()
                    yield number, screen
                if number == last:
                    return
        except (live.NotDone, live.Ended) as fault:
            raise entry.Wrong(f"{self.name}: frame {frame}: {told(fault)}") from None
        except struct.error:
            raise entry.Wrong(f"{self.place} is no live_client") from None
        finally:
            client.stop()

    def way(self) -> typing.Union[AsItIs, SurfaceAsOutput]:
        return AsItIs() if self.which == dump.OUTPUT else SurfaceAsOutput(int(self.which))

    def started(self) -> live.LiveClient:
        try:
            return live.LiveClient(self.place)
        except OSError as error:
            raise entry.Wrong(f"{self.place} doesn't run: {error.strerror}") from None


def told(fault: typing.Union[live.NotDone, live.Ended]) -> str:
    """Why live_client doesn't go on."""
    if isinstance(fault, live.Ended):
        return f"live_client ends with {fault.number}" + (f": {fault.line}" if fault.line else "")
    if fault.kind == "R":
        # Before the name of the refusal stands the message's number, in eight bytes.
        return f"live_client refuses a message: {fault.name[8:]}"
    return "live_client has no memory left" if fault.kind == "N" else f"live_client answers {fault}"
