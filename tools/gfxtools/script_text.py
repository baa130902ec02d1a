"""Changes in a script's text: a PNG as a picture is written out as pixels, and steps may be put in front. All else of
the text stays, to the byte."""

import os
import typing

from . import entry, limits, png_reader, toml

PATTERN = "png"

# A change: from where to where in the text, and what stands there then.
Edit = typing.Tuple[int, int, str]


def edited(text: str, edits: typing.List[Edit]) -> str:
    """A text with changes, none of which lie across another."""
    parts, at = [], 0
    for begin, end, new in sorted(edits, key=lambda edit: edit[:2]):
        parts += [text[at:begin], new]
        at = end
    return "".join([*parts, text[at:]])


def pair(text: str, table: toml.Table, key: str) -> typing.Tuple[int, int]:
    """Where a key and its value stand."""
    begin = table.places[key]
    return begin, toml.pair_at(text, begin, toml.MOST_DEEP)[2]


# ---- PNGs as pictures


def folder_of(name: typing.Optional[str]) -> str:
    """The folder from which a script of this name has its PNGs: its own, or that where the tool runs."""
    return "" if name in (None, "-") else os.path.dirname(name)


def may_have_pngs(data: bytes) -> bool:
    """Whether a script may have a PNG as a picture: only then its text is read."""
    return PATTERN.encode() in data


def is_png(value: typing.Any) -> bool:
    """Whether a table of a picture is one of a PNG, with the name of a file."""
    return isinstance(value, dict) and value.get("pattern") == PATTERN and type(value.get("file")) is str


def picture_of(table: toml.Table, folder: str) -> png_reader.Picture:
    """The picture of a table; a Fault names its file."""
    place = os.path.join(folder, table["file"])
    try:
        found = png_reader.from_file(place)
    except png_reader.Fault as fault:
        why = str(fault)
        raise png_reader.Fault(why if place in why else f"{place}: {why}") from None
    for side in ("width", "height"):
        if side in table and table[side] != getattr(found, side):
            raise png_reader.Fault(f"{place}: it has {found.width} by {found.height} pixels, and {side} is "
                                   f"{toml.front(str(table[side]))}")
    return found


def picture_edits(text: str, table: toml.Table, picture: png_reader.Picture) -> typing.List[Edit]:
    """A picture's table as one of pixels in hexadecimal digits."""
    between = ", " if table.made == toml.VALUE else "\n"
    sides = [f"{side} = {getattr(picture, side)}" for side in ("width", "height") if side not in table]
    return [(*pair(text, table, "pattern"), 'pattern = "hex"'),
            (*pair(text, table, "file"), between.join([*sides, f'pixels = "{picture.pixels.hex()}"']))]


def with_pictures(data: bytes, name: typing.Optional[str]) -> bytes:
    """A script's bytes, with each PNG as pixels. What is no script stays as it is."""
    if not may_have_pngs(data):
        return data
    try:
        text = data.decode()
        pictures = toml.read(text).get("picture")
    except (UnicodeDecodeError, toml.Fault):
        return data
    edits = []
    for number, table in enumerate(pictures if isinstance(pictures, list) else (), 1):
        if is_png(table):
            try:
                edits += picture_edits(text, table, picture_of(table, folder_of(name)))
            except png_reader.Fault as fault:
                raise entry.Wrong(f"{entry.name_of(name)}: picture {number}: {fault}") from None
    return within_limit(edited(text, edits).encode(), name) if edits else data


def within_limit(data: bytes, name: typing.Optional[str]) -> bytes:
    """A script that was made, if it isn't too long for the program."""
    if len(data) > limits.MOST_SCRIPT:
        raise entry.Wrong(f"{entry.name_of(name)}: its pictures are too large together: as text it has {len(data):,} "
                          f"bytes, and the limit is {limits.MOST_SCRIPT:,}")
    return data


# ---- Tables in front


def value_text(value: typing.Any) -> str:
    """A value as it is written."""
    if isinstance(value, str):
        return quoted_whole(value)
    if isinstance(value, list):
        return "[" + ", ".join(map(value_text, value)) + "]"
    return str(value)


def quoted_whole(text: str) -> str:
    return '"' + text.replace("\\", "\\\\").replace('"', '\\"') + '"'


def pairs_of(table: dict) -> typing.List[str]:
    return [f"{key} = {value_text(value)}" for key, value in table.items()]


def in_front(text: str, root: toml.Table, key: str, tables: typing.List[dict]) -> Edit:
    """The change that puts tables before those of an array at the top."""
    array = root.get(key)
    if isinstance(array, list) and array.is_open:
        lines = ["\n".join([f"[[{key}]]", *pairs_of(table), ""]) for table in tables]
        return array.at, array.at, "".join(lines)
    lines = "".join(f"    {{ {', '.join(pairs_of(table))} }},\n" for table in tables)
    if isinstance(array, list):
        return array.at + 1, array.at + 1, "\n" + lines
    at = 1 if text.startswith("\ufeff") else 0
    return at, at, f"{key} = [\n{lines}]\n"
