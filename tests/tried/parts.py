"""What bytes are made of: numbers, data, and lengths and counts that say how much stands elsewhere. Where a part is
changed, lengths and counts follow, unless one of them is told otherwise."""

import struct
import typing

SIZES = {"B": 1, "H": 2, "I": 4, "Q": 8}


class Number(typing.NamedTuple):
    """A number, little-endian."""

    tag: str
    form: str
    value: int


class Data(typing.NamedTuple):
    """Bytes as they are."""

    tag: str
    value: bytes


class Wide(typing.NamedTuple):
    """A run length of ClearCodec: form 0 is its shortest one, 1 and 2 longer ones."""

    tag: str
    value: int
    form: int


class Told(typing.NamedTuple):
    """A length or a count in a Group: of the parts of these names, or of the whole where there is none. `each` is added
    for each item of the first of them, and `plus` once; a value that is told stands as it is."""

    tag: str
    form: str
    of: typing.Tuple[str, ...]
    plus: int = 0
    each: int = 0
    counts: bool = False
    value: typing.Optional[int] = None


class Group(typing.NamedTuple):
    """Parts that have names, one after another."""

    tag: str
    names: typing.Tuple[str, ...]
    parts: tuple


class Row(typing.NamedTuple):
    """Items of one kind, one after another."""

    tag: str
    parts: tuple


Part = typing.Union[Number, Data, Wide, Told, Group, Row]


def group(tag: str, **parts: Part) -> Group:
    """A group of parts by their names, in this order."""
    return Group(tag, tuple(parts), tuple(parts.values()))


def row(tag: str, items: typing.Iterable[Part]) -> Row:
    """A row of items."""
    return Row(tag, tuple(items))


def written_number(form, value):
    size = SIZES[form]
    return (value % (1 << 8 * size)).to_bytes(size, "little")


def written_wide(part):
    count = part.value % (1 << 32)
    if count < 255 and part.form == 0:
        return struct.pack("<B", count)
    if count < 65535 and part.form <= 1:
        return struct.pack("<BH", 255, count)
    return struct.pack("<BHI", 255, 65535, count)


def written_group(whole):
    done = {name: None if isinstance(part, Told) else written(part) for name, part in zip(whole.names, whole.parts)}
    size = sum(len(data) for data in done.values() if data is not None)
    size += sum(SIZES[part.form] for part in whole.parts if isinstance(part, Told))
    for name, part in zip(whole.names, whole.parts):
        if isinstance(part, Told):
            done[name] = written_number(part.form, told(part, whole, done, size))
    return b"".join(done.values())


def told(part, whole, done, size):
    """What a length or a count says, where all that isn't one is written."""
    if part.value is not None:
        return part.value
    items = len(getattr(whole.parts[whole.names.index(part.of[0])], "parts", ())) if part.of else 0
    if part.counts:
        return items + part.plus
    length = sum(len(done[name]) for name in part.of) if part.of else size
    return length + part.each * items + part.plus


def written(part: Part) -> bytes:
    """The bytes that a part stands for."""
    if isinstance(part, Data):
        return part.value
    if isinstance(part, Number):
        return written_number(part.form, part.value)
    if isinstance(part, Wide):
        return written_wide(part)
    if isinstance(part, Row):
        return b"".join(map(written, part.parts))
    return written_group(part)


# ---- Places

Path = typing.Tuple[int, ...]


def places(whole: Part) -> typing.List[typing.Tuple[Path, Part]]:
    """All parts, each with the way to it."""
    found = []

    def add(part, path):
        found.append((path, part))
        if isinstance(part, (Group, Row)):
            for at, one in enumerate(part.parts):
                add(one, path + (at,))

    add(whole, ())
    return found


def replaced(whole: Part, path: Path, part: Part) -> Part:
    """The same with another part at a place."""
    if not path:
        return part
    at = path[0]
    parts = whole.parts[:at] + (replaced(whole.parts[at], path[1:], part),) + whole.parts[at + 1:]
    return whole._replace(parts=parts)
