"""Bytes as parts: streams of the server (docs/FORMATS.md) with their codecs' data, what a client says
(docs/CLIENT_MESSAGES.md), fragments (docs/FRAGMENTS.md), kept files (docs/IMPORT.md), and records (docs/LIVE.md). Bytes
that don't stand as they should are data; what is read is written as it was."""

import struct
import typing

from .parts import SIZES, Data, Group, Number, Part, Row, Told, Wide, group, row, written


class Strange(Exception):
    """Bytes that aren't what is read."""


class Reader:
    """Reads bytes from their front."""

    def __init__(self, data: bytes) -> None:
        self.data, self.at = data, 0

    def left(self) -> int:
        return len(self.data) - self.at

    def bytes(self, count: int) -> bytes:
        if not 0 <= count <= self.left():
            raise Strange
        self.at += count
        return self.data[self.at - count:self.at]

    def number(self, form: str) -> int:
        return int.from_bytes(self.bytes(SIZES[form]), "little")

    def peek(self, form: str, ahead: int = 0) -> int:
        size = SIZES[form]
        if self.left() < ahead + size:
            raise Strange
        return int.from_bytes(self.data[self.at + ahead:self.at + ahead + size], "little")

    def rest(self) -> bytes:
        return self.bytes(self.left())

    def end(self) -> None:
        if self.left():
            raise Strange


# What reads some bytes wholly.
Read = typing.Callable[[Reader], Part]


def wholly(read: Read, data: bytes, tag: str) -> Part:
    """What stands in bytes, or the bytes as they are."""
    reader = Reader(data)
    try:
        part = read(reader)
        reader.end()
    except Strange:
        return Data(tag, data)
    return part if written(part) == data else Data(tag, data)


def items(reader: Reader, read: Read, count: typing.Optional[int] = None) -> typing.List[Part]:
    """So many items, or all to the end."""
    found = []
    while reader.left() if count is None else len(found) < count:
        found.append(read(reader))
    return found


def fields(reader: Reader, forms: str) -> typing.Dict[str, Part]:
    """Numbers by their names and forms, as `x:H y:H`. The name is the tag, too."""
    found = {}
    for word in forms.split():
        name, form = word.split(":")
        found[name] = Number(name, form, reader.number(form))
    return found


def shape(tag: str, forms: str) -> Read:
    """What reads a group of numbers."""
    return lambda reader: group(tag, **fields(reader, forms))


rect = shape("rect", "left:H top:H right:H bottom:H")
point = shape("point", "left:H top:H")
tile_rect = shape("tile rect", "left:H top:H wide:H high:H")
monitor = shape("monitor", "left:I top:I right:I bottom:I monitor_flags:I")


def colour(reader):
    return Data("colour", reader.bytes(3))


# ---- ClearCodec


def wide(reader):
    count, form = reader.number("B"), 0
    if count == 255:
        count, form = reader.number("H"), 1
        if count == 65535:
            count, form = reader.number("I"), 2
    return Wide("run length", count, form)


def run(reader):
    return group("run", colour=colour(reader), length=wide(reader))


def column(reader):
    word = reader.number("H")
    if word & 0x8000:
        return group("bar hit", word=Number("bar word", "H", word))
    if word & 0x4000:
        return group("short hit", word=Number("short word", "H", word), row=Number("short row", "B", reader.number("B")))
    count = 3 * ((word >> 8) - (word & 0xFF))
    return group("miss", word=Number("miss word", "H", word), pixels=Data("colours", reader.bytes(count)))


def band(reader):
    head = fields(reader, "first_column:H last_column:H first_row:H last_row:H")
    first, last = head["first_column"].value, head["last_column"].value
    head["last_column"] = Told("last_column", "H", ("columns",), plus=first - 1, counts=True)
    back = colour(reader)
    return group("band", **head, back=back, columns=row("columns", items(reader, column, 1 + last - first)))


def segment(reader):
    return group("rlex segment", stop=Number("rlex stop", "B", reader.number("B")), length=wide(reader))


def rlex(reader):
    count = reader.number("B")
    palette = row("palette", items(reader, colour, count))
    return group("rlex", count=Told("palette count", "B", ("palette",), counts=True), palette=palette,
                 segments=row("rlex segments", items(reader, segment)))


def subcodec(reader):
    head = fields(reader, "left:H top:H wide:H high:H")
    size, codec = reader.number("I"), reader.number("B")
    data = reader.bytes(size)
    return group("subcodec", **head, size=Told("subcodec size", "I", ("data",)), codec=Number("subcodec", "B", codec),
                 data=wholly(rlex, data, "rlex") if codec == 2 else Data("colours", data))


def clear(reader):
    head = fields(reader, "clear_flags:B sequence:B")
    flags = head["clear_flags"].value
    if flags & 1:
        head.update(fields(reader, "glyph:H"))
    if flags & 3 == 3:
        return group("glyph hit", **head)
    sizes = [reader.number("I") for _ in range(3)]
    parts = [wholly(lambda part, read=read, tag=tag: row(tag, items(part, read)), reader.bytes(size), tag)
             for read, tag, size in zip((run, band, subcodec), ("residual", "bands", "subcodecs"), sizes)]
    told = {f"{name}_size": Told(f"{name} size", "I", (name,)) for name in ("residual", "bands", "subcodecs")}
    return group("clear", **head, **told, residual=parts[0], bands=parts[1], subcodecs=parts[2])


# ---- RemoteFX


def block(reader: Reader, read: typing.Callable[[int, Reader, dict], typing.Dict[str, Part]], tag: str) -> Group:
    """A block or a tile behind its type and length."""
    kind, length = reader.number("H"), reader.number("I")
    body = Reader(reader.bytes(length - 6))
    parts = read(kind, body)
    body.end()
    return group(tag, type=Number("block type", "H", kind), length=Told("block length", "I", ()), **parts)


def quants(reader, count):
    return row("quants", [Data("quant", reader.bytes(5)) for _ in range(count)])


def data_behind(reader, names):
    """Lengths, then the data that have these lengths."""
    sizes = {name: reader.number("H") for name in names}
    told = {f"{name}_size": Told("tile data size", "H", (name,)) for name in names}
    return {**told, **{name: Data("srl" if name.endswith("_srl") else "rlgr", reader.bytes(size))
                       for name, size in sizes.items()}}


PASS_SIZES = {0xCCC0: 6, 0xCCC1: 6, 0xCCC2: 0, 0xCCC3: 4}
UPGRADED = tuple(f"{name}_{part}" for name in ("y", "cb", "cr") for part in ("srl", "raw"))


def pass_tile(kind, reader):
    head = fields(reader, "y_quant:B cb_quant:B cr_quant:B column:H row:H")
    if kind in (0xCCC5, 0xCCC6):
        head.update(fields(reader, "tile_flags:B" + (" quality:B" if kind == 0xCCC6 else "")))
        return {**head, **data_behind(reader, ("y", "cb", "cr", "tail"))}
    if kind == 0xCCC7:
        return {**head, **fields(reader, "quality:B"), **data_behind(reader, UPGRADED)}
    raise Strange


def level(reader):
    return group("level", quality=Number("level quality", "B", reader.number("B")), left_out=Data("left out", reader.bytes(15)))


def pass_block(kind, reader):
    if kind in PASS_SIZES:
        return {"body": Data("pass block", reader.bytes(PASS_SIZES[kind]))}
    if kind != 0xCCC4:
        raise Strange
    side, rects, bases, levels, flags, tiles, size = struct.unpack("<BHBBBHI", reader.bytes(12))
    parts = {"rects": row("tile rects", items(reader, tile_rect, rects)), "quants": quants(reader, bases),
             "levels": row("levels", items(reader, level, levels))}
    body = Reader(reader.bytes(size))
    parts["tiles"] = row("tiles", items(body, lambda tile: block(tile, pass_tile, "tile"), tiles))
    body.end()
    told = {f"{name}_count": Told(f"{name} count", form, (name,), counts=True)
            for name, form in (("rects", "H"), ("quants", "B"), ("levels", "B"))}
    return {"side": Number("tile side", "B", side), **told, "region_flags": Number("region_flags", "B", flags),
            "tiles_count": Told("tiles count", "H", ("tiles",), counts=True), "size": Told("tiles size", "I", ("tiles",)),
            **parts}


def passes(reader):
    return row("passes", items(reader, lambda one: block(one, pass_block, "pass block")))


VIDEO_SIZES = {0xCCC0: 6, 0xCCC1: 4, 0xCCC3: 7, 0xCCC4: 8, 0xCCC5: 2}


def video_tile(kind, reader):
    if kind != 0xCAC3:
        raise Strange
    return {**fields(reader, "y_quant:B cb_quant:B cr_quant:B column:H row:H"), **data_behind(reader, ("y", "cb", "cr"))}


def video_block(kind, reader):
    if kind in VIDEO_SIZES:
        return {"body": Data("video block", reader.bytes(VIDEO_SIZES[kind]))}
    if kind == 0xCCC2:
        count = reader.number("B")
        return {"count": Told("channels count", "B", ("channels",), counts=True),
                "channels": row("channels", [Data("video channel", reader.bytes(5)) for _ in range(count)])}
    if kind == 0xCCC6:
        front, count = reader.bytes(3), reader.number("H")
        return {"front": Data("region front", front), "count": Told("rects count", "H", ("rects",), counts=True),
                "rects": row("tile rects", items(reader, tile_rect, count)), "behind": Data("region end", reader.bytes(4))}
    if kind != 0xCCC7:
        raise Strange
    front, properties, bases, side, tiles, size = struct.unpack("<6sHBBHI", reader.bytes(16))
    parts = {"quants": quants(reader, bases)}
    body = Reader(reader.bytes(size))
    parts["tiles"] = row("video tiles", items(body, lambda tile: block(tile, video_tile, "video tile"), tiles))
    body.end()
    return {"front": Data("tile set front", front), "properties": Number("properties", "H", properties),
            "quants_count": Told("quants count", "B", ("quants",), counts=True), "side": Number("tile side", "B", side),
            "tiles_count": Told("tiles count", "H", ("tiles",), counts=True), "size": Told("tiles size", "I", ("tiles",)),
            **parts}


def video(reader):
    return row("video", items(reader, lambda one: block(one, video_block, "video block")))


# ---- The server's messages


def counted(reader: Reader, read: Read, name: str) -> typing.Dict[str, Part]:
    """A list behind its count."""
    return {"count": Told(f"{name} count", "H", (name,), counts=True),
            name: row(name, items(reader, read, reader.number("H")))}


CODECS = {3: (video, "video"), 8: (clear, "clear"), 9: (passes, "passes")}
WIRE1, WIRE2 = 1, 2
PLAIN = {3: "surface:H context:I", 8: "slot:H", 9: "surface:H width:H height:H format:B", 10: "surface:H",
         11: "timestamp:I frame:I", 12: "frame:I", 15: "surface:H reserved:H place:I place2:I"}


def wire(kind, reader):
    head = fields(reader, "surface:H codec:H" + (" format:B" if kind == WIRE1 else " context:I format:B"))
    if kind == WIRE1:
        head["rect"] = rect(reader)
    data = reader.bytes(reader.number("I"))
    read, tag = CODECS.get(head["codec"].value, (None, "pixels"))
    return {**head, "size": Told("data size", "I", ("data",)),
            "data": wholly(read, data, tag) if read else Data(tag, data)}


def body(kind, reader):
    if kind in (WIRE1, WIRE2):
        return wire(kind, reader)
    if kind in PLAIN:
        return fields(reader, PLAIN[kind])
    if kind == 4:
        return {**fields(reader, "surface:H colour:I"), **counted(reader, rect, "rects")}
    if kind == 5:
        return {**fields(reader, "surface:H to:H"), "rect": rect(reader), **counted(reader, point, "points")}
    if kind == 6:
        return {**fields(reader, "surface:H key:Q slot:H"), "rect": rect(reader)}
    if kind == 7:
        return {**fields(reader, "slot:H surface:H"), **counted(reader, point, "points")}
    if kind == 14:
        head = fields(reader, "output:I output2:I")
        monitors = row("monitors", items(reader, monitor, reader.number("I")))
        return {**head, "count": Told("monitors count", "I", ("monitors",), counts=True), "monitors": monitors,
                "padding": Data("padding", reader.rest())}
    if kind == 0x13:
        return capability(reader)
    return {"body": Data("body", reader.rest())}


def capability(reader):
    version = Number("version", "I", reader.number("I"))
    return {"version": version, "length": Told("capability length", "I", ("data",)),
            "data": Data("capability", reader.bytes(reader.number("I")))}


def message(reader: Reader, read: typing.Callable[[int, Reader], typing.Dict[str, Part]]) -> Group:
    """A message behind its header."""
    kind, flags, length = reader.number("H"), reader.number("H"), reader.number("I")
    rest = reader.bytes(length - 8)
    inner = Reader(rest)
    try:
        parts = read(kind, inner)
        inner.end()
    except Strange:
        parts = {"body": Data("body", rest)}
    return group("message", id=Number("message id", "H", kind), flags=Number("header flags", "H", flags),
                 whole=Told("message length", "I", ()), **parts)


def payload(reader):
    return row("messages", items(reader, lambda one: message(one, body)))


def piece(reader):
    block = Reader(reader.bytes(reader.number("I")))
    return group("segment", size=Told("segment size", "I", ("header", "content")),
                 header=Number("block header", "B", block.number("B")), content=Data("content", block.rest()))


def channel(data: bytes) -> Part:
    """A channel message of the server."""
    return wholly(channel_of, data, "channel")


def channel_of(reader):
    kind = Number("descriptor", "B", reader.number("B"))
    if kind.value == 0xE1:
        count, _ = reader.number("H"), reader.number("I")
        return group("several", descriptor=kind, count=Told("segments count", "H", ("segments",), counts=True),
                     size=Told("segments size", "I", ("segments",), each=-5),
                     segments=row("segments", items(reader, piece, count)))
    header = Number("block header", "B", reader.number("B"))
    return group("single", descriptor=kind, header=header, payload=wholly(payload, reader.rest(), "payload"))


def behind_length(form: str, read: typing.Callable[[bytes], Part], tag: str) -> Read:
    """What reads something behind its length."""
    def one(reader):
        data = reader.bytes(reader.number(form))
        return group(tag, length=Told(f"{tag} length", form, ("body",)), body=read(data))
    return one


def to_the_end(reader: Reader, read: Read, tag: str) -> Row:
    """Items as far as they go, and what is left as data."""
    found = []
    while reader.left():
        at = reader.at
        try:
            found.append(read(reader))
        except Strange:
            reader.at = at
            found.append(Data("left over", reader.rest()))
    return row(tag, found)


def stream(data: bytes) -> Row:
    """A stream of the server."""
    return to_the_end(Reader(data), behind_length("I", channel, "channel"), "stream")


# ---- The client's messages


def client_body(kind, reader):
    if kind == 0x12:
        return counted(reader, lambda one: group("capability", **capability(one)), "versions")
    if kind == 0x0D:
        return fields(reader, "depth:I frame:I total:I")
    if kind == 0x10:
        return counted(reader, shape("offer", "key:Q bytes:I"), "offers")
    if kind == 0x16:
        return fields(reader, "frame:I timestamp:I time:H time2:H")
    raise Strange


def client_message(data: bytes) -> Part:
    """A channel message of the client."""
    return wholly(lambda reader: message(reader, client_body), data, "client message")


def client(data: bytes) -> Row:
    """What a client says."""
    return to_the_end(Reader(data), behind_length("I", client_message, "client message"), "client")


# ---- Fragments

WIDTHS = {0: "B", 1: "H", 2: "I"}


def fragment_of(reader):
    first = reader.number("B")
    if first & 3 == 3 or first >> 2 & 3 == 3:
        raise Strange
    parts = {"first": Number("fragment kind", "B", first),
             "id": Number("channel id", WIDTHS[first & 3], reader.number(WIDTHS[first & 3]))}
    if first >> 4 == 2:
        form = WIDTHS[first >> 2 & 3]
        parts["total"] = Number("total", form, reader.number(form))
    return group("fragment", **parts, data=Data("fragment data", reader.rest()))


def fragment(data: bytes) -> Part:
    """A fragment of a dynamic channel."""
    return wholly(fragment_of, data, "fragment")


def fragments(data: bytes) -> Row:
    """A recording of fragments."""
    return to_the_end(Reader(data), behind_length("H", fragment, "fragment"), "fragments")


# ---- Kept files


def bitmap(reader):
    head = fields(reader, "key:Q width:H height:H")
    return group("bitmap", **head, pixels=Data("pixels", reader.bytes(4 * head["width"].value * head["height"].value)))


def kept_of(reader):
    return group("kept", start=Data("start", reader.bytes(4)), **counted(reader, bitmap, "bitmaps"))


def kept(data: bytes) -> Part:
    """A file of kept bitmaps."""
    return wholly(kept_of, data, "kept")


def import_input(data: bytes) -> Part:
    """The input of `import`."""
    def read(reader):
        files = [reader.bytes(reader.number("I")) for _ in range(2)]
        return group("import", server_size=Told("kept length", "I", ("server",)), server=kept(files[0]),
                     client_size=Told("kept length", "I", ("client",)), client=kept(files[1]),
                     script=Data("script", reader.rest()))
    return wholly(read, data, "import")


# ---- Records

SERVER_BODIES = {
    "s": shape("surface push", "surface:H width:H height:H format:B"), "d": shape("delete push", "surface:H"),
    "r": shape("reset push", "output:I output2:I"), "m": shape("map push", "surface:H place:I place2:I"),
    "i": shape("improve push", "surface:H"), "g": shape("forget push", "key:Q"),
    "k": shape("keep push", "surface:H key:Q left:H top:H right:H bottom:H"),
    "f": lambda reader: group("fill push", **fields(reader, "surface:H colour:I"), rects=row("rects", items(reader, rect))),
    "c": lambda reader: group("copy push", **fields(reader, "surface:H to:H"), rect=rect(reader),
                              points=row("points", items(reader, point))),
    "w": lambda reader: group("show push", **fields(reader, "key:Q surface:H"), points=row("points", items(reader, point))),
    "p": lambda reader: group("paint push", **fields(reader, "surface:H left:H top:H width:H height:H kind:B glyph:H"),
                              pixels=Data("pixels", reader.rest())),
    "H": lambda reader: group("settings", **fields(reader, "window:B entropy:B differences:B digests:B"),
                              rest=Data("setting", reader.rest())),
}
CLIENT_BODIES = {
    "P": shape("picture", "left:H top:H right:H bottom:H"),
    "V": lambda reader: row("versions", items(reader, shape("version", "version:I small:B thin:B"))),
}


def records(data: bytes, bodies: typing.Dict[str, Read], read_message: typing.Callable[[bytes], Part]) -> Row:
    """Commands to an end of a living session."""
    def record(reader):
        kind = reader.number("B")
        body = reader.bytes(reader.number("I"))
        letter = chr(kind)
        part = read_message(body) if letter == "M" else wholly(bodies[letter], body, "body") if letter in bodies else \
            Data("command body", body)
        return group("command", kind=Number("command", "B", kind), length=Told("command length", "I", ("body",)), body=part)
    return to_the_end(Reader(data), record, "commands")


def server_records(data: bytes) -> Row:
    """Commands to live_server."""
    return records(data, SERVER_BODIES, client)


def client_records(data: bytes) -> Row:
    """Commands to live_client."""
    return records(data, CLIENT_BODIES, channel)
