"""What is in a recording, printed: message by message, in sums, or frame by frame."""

import argparse
import collections
import json
import typing

from . import entry, judge, recording, refusals

Judged = typing.Iterable[typing.Tuple[recording.Message, judge.Judge]]


class Wanted:
    """Which messages are said: those of these numbers, names, codecs, surfaces and frames, by the words of a tool."""

    def __init__(self, given: argparse.Namespace) -> None:
        self.first, self.last, self.refused = given.first or 1, given.last, given.refused
        self.only, self.surface, self.frame = given.only, given.surface, given.frame

    def has(self, message: recording.Message) -> bool:
        if message.number < self.first or self.last and message.number > self.last:
            return False
        if self.refused and not message.refusal:
            return False
        if self.surface is not None and self.surface not in (message.get("surface"), message.get("source")):
            return False
        if self.frame is not None and message.frame != self.frame:
            return False
        return not self.only or bool(self.only & {message.name.lower(), str(codec_of(message)).lower()})


# ---- Columns


def codec_of(message):
    """The codec's name, or its number where it has none."""
    codec = message.get("codec")
    return None if codec is None else recording.CODECS.get(codec, f"0x{codec:x}")


def format_of(message):
    return recording.FORMATS.get(message.get("format"), f"0x{message.get('format'):02x}")


def rectangle_of(message):
    """The rectangle that a message draws, or takes its pixels from; of progressive regions, the one around all."""
    if message.get("rectangle"):
        return message.get("rectangle")
    if message.get("blocks"):
        return message.get("blocks").rectangle
    return (message.get("rectangles") or [None])[0]


def area(rectangle):
    left, top, right, bottom = rectangle
    return max(0, right - left) * max(0, bottom - top)


def pixels_of(message):
    """How many pixels a message of pixels covers; of progressive ones, those of its whole tiles."""
    if message.get("blocks"):
        return sum(message.get("blocks").tiles.values()) * 64 * 64
    return area(message.get("rectangle") or (0, 0, 0, 0))


def tiles_text(tiles):
    return ", ".join(f"{count} {kind}" for kind, count in tiles.items() if count)


def time_of(timestamp):
    """A timestamp of StartFrame (2.2.2.11): hours, minutes, seconds and milliseconds."""
    return f"{timestamp >> 22}:{timestamp >> 16 & 63:02d}:{timestamp >> 10 & 63:02d}.{timestamp & 1023:03d}"


def more(places):
    """Points, as words: the first, and how many follow."""
    return "to nothing" if not places else f"to {places[0]}" + (f" and {len(places) - 1} more" if places[1:] else "")


def own_frame(message):
    """The frame that a message begins or ends, where it isn't the open one."""
    return f"frame {message.get('frame')}" if message.get("frame") != message.frame else ""


def version_of(message):
    return recording.VERSIONS.get(message.get("version"), f"0x{message.get('version'):08x}")


def flags_of(message):
    return "flags of another length" if message.get("flags") is None else f"flags 0x{message.get('flags'):x}"


# What the last column says of messages that have more to say.
MORE = {
    "StartFrame": lambda m: own_frame(m) or (time_of(m.get("timestamp")) if m.get("timestamp") else ""),
    "EndFrame": own_frame,
    "CreateSurface": lambda m: f"{m.get('width')}x{m.get('height')} {format_of(m)}",
    "ResetGraphics": lambda m: f"{m.get('width')}x{m.get('height')}, "
    + entry.counted(len(m.get("monitors")), "monitor"),
    "MapSurfaceToOutput": lambda m: f"at [{m.get('x')}, {m.get('y')}]",
    "SolidFill": lambda m: f"{m.get('colour')}, {entry.counted(len(m.get('rectangles')), 'rectangle')}",
    "SurfaceToSurface": lambda m: f"from {m.get('source')} {more(m.get('points'))}",
    "SurfaceToCache": lambda m: f"slot {m.get('slot')}, key {m.get('key'):016x}",
    "CacheToSurface": lambda m: f"slot {m.get('slot')} {more(m.get('points'))}",
    "EvictCacheEntry": lambda m: f"slot {m.get('slot')}",
    "CapsConfirm": lambda m: f"version {version_of(m)}, {flags_of(m)}",
    "WireToSurface2": lambda m: tiles_text(m.get("blocks").tiles) if m.get("blocks") else f"context {m.get('context')}",
    "DeleteEncodingContext": lambda m: f"context {m.get('context')}",
}


def more_of(message):
    says = MORE[message.name](message) if message.says and message.name in MORE else ""
    refused = f"refused: {refusals.told(message.refusal)}" if message.refusal else ""
    return "; ".join(filter(None, (says, refused)))


def cell(value):
    return "-" if value is None else str(value)


# ---- list


def line(columns):
    return ("{:>7} {:>10} {:>7} {:<22} {:>9} {:>7} {:<14} {:<25} {}".format(*columns)).rstrip()


def print_list(messages: Judged, wanted: Wanted) -> None:
    """A line for each message that is wanted."""
    head = line(("number", "offset", "frame", "message", "bytes", "surface", "codec", "rectangle", "more"))
    for message, _ in messages:
        if not wanted.has(message):
            continue
        if head:
            print(head)
            head = None
        print(line((message.number, message.offset, cell(message.frame), message.name, message.size,
                    cell(message.get("surface")), cell(codec_of(message)), cell(rectangle_of(message)),
                    more_of(message))))


# ---- json


def json_of(message):
    """What a message says, without its data."""
    said = {"number": message.number, "offset": message.offset, "channel": message.channel.offset,
            "frame": message.frame, "message": message.name, "bytes": message.size}
    for key, value in message.says.items():
        if key == "data":
            said["data_bytes"] = len(value)
        elif key == "blocks" and value:
            said["tiles"] = value.tiles
            said["rectangle"] = value.rectangle
        elif key == "codec":
            said["codec"], said["codec_number"] = codec_of(message), value
        elif key == "format":
            said["format"] = format_of(message)
        elif key == "version":
            said["version"], said["version_number"] = version_of(message), value
        elif key == "key":
            said["key"] = f"{value:016x}"
        elif key != "frame":
            said[key] = value
        elif value != message.frame:
            said["own_frame"] = value
    said["refused"] = None
    if message.refusal:
        said["refused"] = {"number": refusals.NUMBERS[message.refusal], "name": message.refusal}
    return said


def print_json(messages: Judged, wanted: Wanted) -> None:
    """An object for each message that is wanted."""
    for message, _ in messages:
        if wanted.has(message):
            print(json.dumps(json_of(message)))


# ---- stats


class Sums:
    """Messages and bytes by a name, and pixels where there are some."""

    def __init__(self, title, pixels=False):
        self.title, self.pixels, self.rows = title, pixels, {}

    def add(self, name, size, pixels=0):
        row = self.rows.setdefault(name, [0, 0, 0])
        for place, value in enumerate((1, size, pixels)):
            row[place] += value

    def show(self):
        if not self.rows:
            return
        print(f"\n{self.title:<26}{'messages':>10}{'bytes':>15}{'pixels' if self.pixels else '':>16}".rstrip())
        for name, (count, size, pixels) in sorted(self.rows.items(), key=lambda row: (-row[1][1], row[0])):
            print(f"{name:<26}{count:>10,}{size:>15,}{f'{pixels:,}' if self.pixels else '':>16}".rstrip())


def print_stats(channels: typing.Any, messages: Judged, wanted: Wanted) -> None:
    """Sums of the messages that are wanted; the first line and the last ones are of all. The channel messages say how
    many they and their bytes are."""
    names, surfaces, refused = Sums("message"), Sums("surface"), Sums("refused")
    codecs, tiles = Sums("codec", pixels=True), collections.Counter()
    frames, state = 0, judge.Judge()
    try:
        for message, state in messages:
            frames += message.name == "EndFrame" and not message.refusal
            if not wanted.has(message):
                continue
            names.add(message.name, message.size)
            if message.refusal:
                refused.add(refusals.told(message.refusal), message.size)
            if message.get("surface") is not None:
                surfaces.add(str(message.get("surface")), message.size)
            if message.get("codec") is not None:
                codecs.add(codec_of(message), message.size, pixels_of(message))
            if message.get("blocks"):
                tiles.update(message.get("blocks").tiles)
    finally:
        print(f"{entry.counted(channels.bytes, 'byte')}, {entry.counted(channels.count, 'channel message')}, "
              f"{channels.several:,} of them of several blocks, {entry.counted(frames, 'frame')}")
        for sums in (names, codecs, surfaces, refused):
            sums.show()
        if tiles:
            print(f"\ntiles of progressive messages: {tiles_text(tiles)}")
        print(f"\nat the end: output {state.output[0]}x{state.output[1]}, "
              f"{entry.counted(len(state.surfaces), 'surface')}, {entry.counted(len(state.slots), 'filled slot')}"
              + (f", frame {state.frame} still open" if state.frame is not None else ""))
        for id, (width, height) in sorted(state.surfaces.items()):
            place = ", on the output" if id in state.mapped else ""
            print(f"surface {id} {width}x{height} {recording.FORMATS[state.formats[id]]}{place}")


# ---- frames


class Frame:
    """Messages of one frame, or between two: how many of each kind, and their bytes."""

    def __init__(self, first):
        self.first, self.id = first, first.frame
        self.count = self.size = self.refused = 0
        self.ended = False
        self.kinds = collections.Counter()

    def add(self, message):
        self.count += 1
        self.size += message.size
        self.refused += message.refusal is not None
        self.ended |= message.name == "EndFrame" and message.refusal is None
        if message.name not in ("StartFrame", "EndFrame"):
            self.kinds[codec_of(message) or message.name] += 1

    def row(self, number):
        says = [f"{count} {kind}" for kind, count in self.kinds.most_common()]
        says += [f"refused: {self.refused}"] if self.refused else []
        says += ["not ended"] if self.id is not None and not self.ended else []
        timestamp = self.first.get("timestamp")
        time = time_of(timestamp) if timestamp else "-"
        return number, cell(self.id), self.first.number, self.first.offset, self.count, self.size, time, ", ".join(says)


def frame_line(columns):
    return "{:>7} {:>7} {:>9} {:>10} {:>9} {:>11} {:>14}  {}".format(*columns).rstrip()


def print_frames(messages: Judged) -> None:
    """A line for each frame, and for what stands between two."""
    frame, number = None, 0

    def show():
        if frame:
            if frame.first.number == 1:
                print(frame_line(("nth", "frame", "message", "offset", "messages", "bytes", "time", "what")))
            print(frame_line(frame.row("-" if frame.id is None else number)))

    try:
        for message, _ in messages:
            begins = message.name == "StartFrame" and not message.refusal
            if frame is None or begins or frame.id != message.frame:
                show()
                frame = Frame(message)
                number += begins
            frame.add(message)
    finally:
        show()
