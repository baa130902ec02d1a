"""Small inputs, each for a part of the program: scripts with each codec, streams that this project's own server doesn't
send, kept files, and what is said to the two ends of a living session."""

import os
import struct
import sys
import typing

HERE = os.path.dirname(os.path.abspath(__file__))
EXAMPLES = os.path.join(HERE, "..", "..", "examples")
REFUSALS = os.path.join(HERE, "..", "refusals", "table.txt")
sys.path.insert(0, os.path.join(HERE, "..", "..", "tools"))
sys.path.insert(0, os.path.join(HERE, "..", "freerdp"))

import messages as made
from gfxtools import live, scripted

Command = typing.Tuple[str, bytes]

# ---- Scripts

LEVELS = """
[[progressive.level]]
y = [6, 6, 6, 6, 6, 6, 6, 6, 6, 6]
cb = [7, 7, 7, 7, 7, 7, 7, 7, 7, 7]
cr = [7, 7, 7, 7, 7, 7, 7, 7, 7, 7]
[[progressive.level]]
y = [3, 3, 3, 3, 3, 3, 3, 3, 3, 3]
cb = [4, 4, 4, 4, 4, 4, 4, 4, 4, 4]
cr = [4, 4, 4, 4, 4, 4, 4, 4, 4, 4]
"""


def painted(kind, top="", between="", more="", sides=(9, 7), form="xrgb", glyph=""):
    """A script that paints a text twice in this way, and does more between the frames and behind the second."""
    width, height = sides
    return f"""{top}
picture = [
    {{ name = "text", width = {width}, height = {height}, pattern = "text" }},
    {{ name = "ramp", width = 5, height = 3, pattern = "ramp" }},
]
step = [
    {{ do = "surface", id = 1, width = {width + 3}, height = {height + 2}, format = "{form}" }},
    {{ do = "paint", id = 1, picture = "text", at = [0, 0], kind = "{kind}"{glyph} }},
    {{ do = "frame" }},
    {between}
    {{ do = "paint", id = 1, picture = "text", at = [3, 2], kind = "{kind}"{glyph} }},
    {{ do = "paint", id = 1, picture = "ramp", at = [1, 1], kind = "{kind}" }},
    {more}
    {{ do = "frame" }},
]
"""


IMPROVE = '{ do = "improve", id = 1 }, { do = "frame" },'
IMPROVED = '{ do = "frame" }, { do = "improve", id = 1 }, { do = "frame" }, { do = "improve", id = 1 },'

KEPT = """window = 1
step = [
    { do = "surface", id = 1, width = 8, height = 4 },
    { do = "surface", id = 2, width = 4, height = 4, format = "argb" },
    { do = "reset", width = 12, height = 8 },
    { do = "map", id = 1, x = 1, y = 1 },
    { do = "fill", id = 1, colour = "0000ffff", rects = [[0, 0, 4, 4], [6, 1, 7, 3]] },
    { do = "keep", id = 1, key = 7, rect = [0, 0, 2, 2] },
    { do = "copy", from = 1, to = 2, rect = [0, 0, 2, 2], points = [[1, 1], [2, 2]] },
    { do = "frame" },
    { do = "keep", id = 2, key = 8, rect = [0, 0, 3, 3] },
    { do = "show", key = 7, to = 1, points = [[4, 0], [5, 2]] },
    { do = "show", key = 8, to = 2, points = [[0, 1]] },
    { do = "frame" },
    { do = "forget", key = 7 },
    { do = "keep", id = 1, key = 9, rect = [1, 1, 4, 4] },
    { do = "delete", id = 2 },
    { do = "map", id = 1, x = 0, y = 2 },
    { do = "frame" },
]
turn = [{ end = "server" }, { end = "client", take = 100 }, { end = "answer", take = 7 }]
"""

SCRIPTS = {
    "raw": painted("raw"),
    "residual": painted("residual"),
    "bands": painted("bands", sides=(9, 60)),
    "palette": painted("palette", glyph=", glyph = 7"),
    "plain": painted("plain", form="argb"),
    "chosen": painted("auto"),
    "passes": painted("progressive", more=IMPROVED) + "[progressive]\ntransform = \"plain\"\n" + LEVELS,
    "reduced": painted("progressive", more=IMPROVED, sides=(66, 5)) + LEVELS,
    "differences": painted("progressive", between=IMPROVE, sides=(5, 5), top="progressive = { difference = true }"),
    "rlgr1": painted("video"),
    "rlgr3": painted("video", sides=(66, 5)) + "[video]\nentropy = \"rlgr3\"\n",
    "kept": KEPT,
    "thin": painted("progressive", more=IMPROVED, top="client = [{ version = \"8.1\", thin = true }, { version = \"8\" }]"),
    "small": KEPT.replace("window = 1", "window = 3\nclient = [{ version = \"10\", small = true }]"),
}


def shown_of(text: str) -> str:
    """A script's surface 1 shown on an output, so that a client has a picture."""
    shown = '{ do = "reset", width = 12, height = 9 },\n    { do = "map", id = 1, x = 1, y = 0 },'
    at = text.index('{ do = "frame" }')
    return text if "reset" in text else f"{text[:at]}{shown}\n    {text[at:]}"


# ---- Streams


def several(*some):
    """Messages, each in a channel message."""
    return b"".join(made.channel(one) for one in some)


def all_parts(block=65535):
    """ClearCodec streams of three parts, with a glyph that is shown again, in one channel message of blocks so long."""
    black, white, red = (0, 0, 0), (255, 255, 255), (0, 0, 255)
    bands = made.band(1, 3, 0, 2, white, made.miss(1, [black, red]), made.short_hit(0, 1), made.hit(0))
    parts = made.subcodec(0, 0, 2, 1, 0, bytes((1, 2, 3, 4, 5, 6))) + made.subcodec(
        2, 1, 3, 2, 2, made.rlex([black, white, red], (2, 2, made.run_length(1)), (0, 0, made.run_length(1, 2))))
    whole = made.stream(9, made.run(red, 20, 1) + made.run(white, 10), bands, parts, index=7)
    payload = made.surface(1, 8, 6) + made.paint(1, (1, 0, 7, 5), whole) + made.paint(1, (2, 1, 8, 6), made.shown(10, 7))
    again = made.stream(0, b"", made.band(0, 0, 0, 1, red, made.miss(0, [white])), flags=made.RESET)
    return made.channel(payload, block) + several(made.reset(5, 5), made.paint(1, (0, 0, 2, 2), again))


def all_tiles():
    """Tiles of each kind: simple, first, an upgrade, and a difference; two contexts, of which one is let go."""
    y = made.rlgr((0, 3), (3500, -2))
    level = b"\x44" * 5
    rects = [(0, 0, 40, 30), (35, 25, 40, 60)]
    return several(
        made.surface(1, 70, 70, made.ARGB), made.passes(1, made.sync(), made.FRAME_BEGIN, made.region(
            rects, made.simple(y), made.simple(y, (1, 0)), flags=made.REDUCED), made.FRAME_END),
        made.passes(1, made.region(rects, made.first(y, 0), levels=(level,))),
        made.passes(1, made.region(rects, made.upgrade(0xFF, b"\xa0\x10\xff" * 3, b"\x5a" * 9), levels=(level,))),
        made.message(3, struct.pack("<HI", 1, 1)), made.message(10, struct.pack("<H", 1)))


def all_video():
    """Tiles of RemoteFX video, by either coder, in part outside of their rectangle."""
    y = made.rlgr((1, 5), (4000, -1))
    return several(
        made.surface(1, 100, 80), made.video((3, 3, 80, 70), made.sync(), made.headers(77, 67), made.VIDEO_BEGIN,
                                             made.video_region((0, 0, 70, 40)), made.tile_set(
                                                 made.whole(y), made.whole(y, (1, 1))), made.VIDEO_END),
        made.video((0, 0, 64, 64), made.tile_set(made.whole(b"\x55\xaa\x13\x70"), properties=0x5055)))


def in_a_channel():
    """What fragments are for: a message of several fragments, one of one, and an empty payload."""
    rects = [(x, y, x + 1, y + 1) for x in range(20) for y in range(15)]
    return several(made.surface(1, 20, 15), made.fill(1, (1, 2, 3, 4), *rects, *rects), b"")


STREAMS = {"all-parts": all_parts, "in-blocks": lambda: all_parts(40), "all-tiles": all_tiles, "all-video": all_video,
           "in-a-channel": in_a_channel}


def example(name: str) -> bytes:
    """The bytes of an example."""
    with open(os.path.join(EXAMPLES, name), "rb") as file:
        return file.read()


def refusals() -> typing.Iterator[typing.Tuple[str, bytes]]:
    """The recordings of tests/refusals, by their names."""
    with open(REFUSALS, encoding="ascii") as file:
        for row in file:
            if row.strip() and not row.startswith("#"):
                columns = [column.strip() for column in row.split("|")]
                yield columns[0], bytes.fromhex(columns[-1])


# ---- Kept files


def kept_file(*bitmaps):
    """Bitmaps are a key, sides and a byte that all pixels are made of."""
    return struct.pack("<4sH", b"KEPT", len(bitmaps)) + b"".join(
        struct.pack("<QHH", key, width, height) + bytes((byte, byte, byte, 255)) * (width * height)
        for key, width, height, byte in bitmaps)


def import_input(server: bytes, client: bytes, script: bytes) -> bytes:
    """The input of `import`."""
    return b"".join(struct.pack("<I", len(file)) + file for file in (server, client)) + script


IMPORTED = b"""step = [
    { do = "surface", id = 1, width = 8, height = 4 },
    { do = "show", key = 5, to = 1, points = [[0, 0], [4, 2]] },
    { do = "frame" },
    { do = "show", key = 6, to = 1, points = [[1, 1]] },
    { do = "forget", key = 5 },
    { do = "keep", id = 1, key = 7, rect = [0, 0, 3, 3] },
    { do = "frame" },
]
"""


def small_import() -> bytes:
    """Two files that have two bitmaps in common, and a script that shows both."""
    server = kept_file((5, 2, 2, 9), (6, 1, 2, 80), (4, 1, 1, 3))
    client = kept_file((5, 2, 2, 9), (6, 1, 2, 80), (8, 1, 1, 3))
    return import_input(server, client, IMPORTED)


# ---- The ends of living sessions


def channels(data: bytes) -> typing.Iterator[bytes]:
    """The channel messages of a stream, each without its length."""
    at = 0
    while at + 4 <= len(data):
        end = at + 4 + struct.unpack_from("<I", data, at)[0]
        yield data[at + 4:end]
        at = end


def records_of(commands: typing.Iterable[Command]) -> bytes:
    """Commands as they are written (docs/LIVE.md)."""
    return b"".join(live.FRONT.pack(ord(kind), len(body)) + body for kind, body in commands)


def read_records(data: bytes) -> typing.Iterator[Command]:
    """The whole records at the front of bytes."""
    at = 0
    while at + live.FRONT.size <= len(data):
        kind, length = live.FRONT.unpack_from(data, at)
        at += live.FRONT.size
        if at + length > len(data):
            return
        yield chr(kind), data[at:at + length]
        at += length


def from_client(kind: int, body: bytes) -> bytes:
    """A message of the client, behind its length."""
    data = made.message(kind, body)
    return struct.pack("<I", len(data)) + data


def advertise(offers: typing.Iterable[typing.Tuple[int, int]]) -> bytes:
    """What a client says first: its versions, each with its flags."""
    sets = [struct.pack("<III", version, 4, flags) for version, flags in offers]
    return from_client(0x12, struct.pack("<H", len(sets)) + b"".join(sets))


def acknowledgement(frame: int) -> bytes:
    """What a client says of a frame, which is also the number of frames so far."""
    return from_client(0x0D, struct.pack("<III", 0, frame, frame))


# The server's reply that takes none of the bitmaps that a client kept, in its channel message.
NOTHING_TAKEN = b"\xe0\x04" + made.message(0x11, bytes(2))

# What a client says that kept a bitmap of one pixel, and that took 5 ms for a frame.
OFFERED = from_client(0x10, struct.pack("<HQI", 1, 5, 4)) + from_client(0x16, struct.pack("<IIHH", 1, 1000, 5, 2))


class Pushing:
    """Writes down the commands of a server's end, as LiveServer does them."""

    def __init__(self):
        self.commands = []

    def must(self, _, kind, *parts):
        self.commands.append((kind, b"".join(parts)))


def push_of(call: scripted.Call) -> Command:
    """The command of a step."""
    word, numbers, words = call
    pushing = Pushing()
    getattr(live.LiveServer, word)(pushing, *numbers, **words)
    return pushing.commands[0]


def server_commands(text: str) -> typing.List[Command]:
    """What is said to a server's end that shows what a script shows: each frame goes, and is acknowledged, before the
    next, and at the end it improves what shows."""
    script = scripted.script_of(text)
    settings = dict(script.settings, digests=True)
    commands = [("H", live.settings(**settings)), ("M", advertise(script.offers))]
    if any(call[0] == "keep" for call in script.calls):
        commands.append(("M", OFFERED))
    frames = 0
    for call in script.calls:
        commands.append(push_of(call))
        if call[0] == "frame":
            frames += 1
            commands += [("?", b""), ("S", b""), ("B", b""), ("M", acknowledgement(frames)), ("S", b"")]
    return commands + [("I", b""), ("S", b""), ("B", b"")]


def client_commands(stream: bytes, reply: bool = False, output: typing.Tuple[int, int] = (12, 8)) -> typing.List[Command]:
    """What is said to a client: each message of a stream, and behind it what was written, and how the output looks; where
    it is so, an empty reply to an offer of kept bitmaps first."""
    rect = struct.pack("<4H", 0, 0, *output)
    commands = [("V", struct.pack("<IBB", scripted.VERSIONS["10"], 0, 0)), ("C", b"")]
    commands += [("M", NOTHING_TAKEN)] * reply
    for message in channels(stream):
        commands += [("M", message), ("D", b""), ("P", rect)]
    return commands
