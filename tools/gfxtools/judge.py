"""Which messages the program refuses, by what the messages before them left (docs/FORMATS.md, "What messages do").

What only the decoding of pixels finds isn't seen here: the refusals 24 to 49 and 53, but for the structure of
progressive blocks."""

import typing

from . import limits
from .limits import MOST_CELLS, MOST_OUTPUT_SIDE, MOST_SIDE, MOST_SURFACES, cells, lies_in
from .recording import FORMATS, Message

# The flags that choose the small limits: THINCLIENT and SMALL_CACHE.
BINDS_SMALL = 0x01 | 0x02
# The codecs that are taken in WireToSurface1 and WireToSurface2.
CODECS_1, CODECS_2 = (0x0, 0x3, 0x8), (0x9,)


def fits(sides, width, height, points):
    return all(x + width <= sides[0] and y + height <= sides[1] for x, y in points)


class Judge:
    """What accepted messages leave, as far as later ones are judged by it. `output` are the output's sides, zeros
    before the first ResetGraphics, and `mapped` the surfaces that stand on it."""

    def __init__(self) -> None:
        self.surfaces: typing.Dict[int, limits.Sides] = {}  # by id
        self.formats: typing.Dict[int, int] = {}  # by id
        self.cells = 0
        self.slots: typing.Dict[int, limits.Sides] = {}
        self.bytes = 0
        self.output = (0, 0)
        self.mapped: typing.Set[int] = set()
        self.room = limits.LARGE
        self.frame = None

    def refusal(self, message: Message) -> typing.Optional[str]:
        """The refusal of a message, or None; what an accepted one does is done."""
        if message.refusal:
            return message.refusal
        return getattr(self, "judge_" + message.name)(message.says)

    def absent(self, *ids):
        return "NoSurface" if any(id not in self.surfaces for id in ids) else None

    def bytes_in(self, slot):
        width, height = self.slots.get(slot, (0, 0))
        return 4 * width * height

    def judge_StartFrame(self, says):
        if self.frame is not None:
            return "FrameOpen"
        self.frame = says["frame"]

    def judge_EndFrame(self, says):
        if self.frame != says["frame"]:
            return "FrameMismatch"
        self.frame = None

    def judge_CreateSurface(self, says):
        sides = says["width"], says["height"]
        if says["surface"] in self.surfaces:
            return "SurfaceExists"
        if not all(1 <= side <= MOST_SIDE for side in sides):
            return "SurfaceSize"
        if says["format"] not in FORMATS:
            return "PixelFormat"
        if len(self.surfaces) >= MOST_SURFACES or self.cells + cells(*sides) > MOST_CELLS:
            return "SurfaceBudget"
        self.cells += cells(*sides)
        self.surfaces[says["surface"]] = sides
        self.formats[says["surface"]] = says["format"]

    def judge_DeleteSurface(self, says):
        if says["surface"] not in self.surfaces:
            return "NoSurface"
        self.cells -= cells(*self.surfaces.pop(says["surface"]))
        del self.formats[says["surface"]]
        self.mapped.discard(says["surface"])

    def judge_SolidFill(self, says):
        if absent := self.absent(says["surface"]):
            return absent
        sides = self.surfaces[says["surface"]]
        if not all(lies_in(sides, rectangle) for rectangle in says["rectangles"]):
            return "RectOutside"

    def judge_SurfaceToSurface(self, says):
        if absent := self.absent(says["source"], says["surface"]):
            return absent
        left, top, right, bottom = says["rectangle"]
        if not lies_in(self.surfaces[says["source"]], says["rectangle"]):
            return "RectOutside"
        if not fits(self.surfaces[says["surface"]], right - left, bottom - top, says["points"]):
            return "RectOutside"

    def judge_WireToSurface1(self, says):
        if absent := self.absent(says["surface"]):
            return absent
        if says["codec"] not in CODECS_1:
            return "CodecRefused"
        if says["format"] not in FORMATS:
            return "PixelFormat"
        left, top, right, bottom = says["rectangle"]
        if not lies_in(self.surfaces[says["surface"]], says["rectangle"]):
            return "RectOutside"
        if says["codec"] == 0 and len(says["data"]) != 4 * (right - left) * (bottom - top):
            return "PayloadLength"

    def judge_WireToSurface2(self, says):
        if absent := self.absent(says["surface"]):
            return absent
        if says["codec"] not in CODECS_2:
            return "CodecRefused"
        if says["format"] not in FORMATS:
            return "PixelFormat"
        return says["blocks"].refusal

    def judge_ResetGraphics(self, says):
        sides = says["width"], says["height"]
        if not all(1 <= side <= MOST_OUTPUT_SIDE for side in sides):
            return "OutputSize"
        self.output = sides

    def judge_MapSurfaceToOutput(self, says):
        if absent := self.absent(says["surface"]):
            return absent
        self.mapped.add(says["surface"])

    def judge_SurfaceToCache(self, says):
        if absent := self.absent(says["surface"]):
            return absent
        if not 1 <= says["slot"] <= self.room.slots:
            return "SlotRange"
        left, top, right, bottom = says["rectangle"]
        if not lies_in(self.surfaces[says["surface"]], says["rectangle"]):
            return "RectOutside"
        after = self.bytes - self.bytes_in(says["slot"]) + 4 * (right - left) * (bottom - top)
        if after > self.room.bytes:
            return "CacheBudget"
        self.slots[says["slot"]] = right - left, bottom - top
        self.bytes = after

    def judge_CacheToSurface(self, says):
        if not 1 <= says["slot"] <= limits.LARGE.slots:
            return "SlotRange"
        if says["slot"] not in self.slots:
            return "SlotEmpty"
        if absent := self.absent(says["surface"]):
            return absent
        if not fits(self.surfaces[says["surface"]], *self.slots[says["slot"]], says["points"]):
            return "RectOutside"

    def judge_EvictCacheEntry(self, says):
        if not 1 <= says["slot"] <= limits.LARGE.slots:
            return "SlotRange"
        self.bytes -= self.bytes_in(says["slot"])
        self.slots.pop(says["slot"], None)

    def judge_CapsConfirm(self, says):
        if says["version"] not in limits.VERSIONS.values() or says["flags"] is None:
            return "CapsVersion"
        self.room = limits.SMALL if says["flags"] & BINDS_SMALL else limits.LARGE

    def judge_DeleteEncodingContext(self, says):
        return self.absent(says["surface"])


def judged(messages: typing.Iterable[Message]) -> typing.Iterator[typing.Tuple[Message, Judge]]:
    """The messages, each with its refusal, and with what the accepted ones have left after it."""
    judge = Judge()
    for message in messages:
        message.refusal = judge.refusal(message)
        yield message, judge
