"""Changes of chance to parts and to scripts. The same chance makes the same changes."""

import collections
import random
import re
import typing

from . import parts
from .parts import Data, Group, Number, Part, Path, Row, Told, Wide

# Where a codec's data begin, by the sort that changes what stands in it.
CODECS = {"clear": frozenset(("clear", "glyph hit")), "passes": frozenset(("passes",)), "video": frozenset(("video",))}
ALL_CODECS = frozenset.union(*CODECS.values())
CHANNEL_TAGS = ("channel length", "descriptor", "block header", "segments count", "segments size", "segments", "segment",
                "segment size", "content", "stream", "channel", "left over", "several")
# How many parts of a tag are kept to be put in elsewhere.
MOST_KEPT = 300
SMALL_STEPS = (1, 1, 1, 2, 3, 4, 8, 64, 256)
MOSTLY = 0.75


def boundaries(bits: int) -> typing.List[int]:
    """Numbers at which something may change, of so many bits."""
    top = 1 << bits
    return [0, 1, 2, 3, top - 1, top - 2, top >> 1, (top >> 1) - 1, 63, 64, 65, 255, 256, 1024, 8192, 8193]


# ---- What is changed


def tagged(whole: Part) -> typing.List[typing.Tuple[Path, typing.FrozenSet[str], Part]]:
    """All parts, each with the way to it and the tags of the parts around it."""
    found = []

    def add(part, path, above):
        found.append((path, above, part))
        if isinstance(part, (Group, Row)):
            inner = above | {part.tag}
            for at, one in enumerate(part.parts):
                add(one, path + (at,), inner)

    add(whole, (), frozenset())
    return found


def is_wanted(sort: str, above: typing.FrozenSet[str], part: Part) -> bool:
    """Whether a sort of changes changes a part."""
    roots = CODECS.get(sort)
    if roots:
        return part.tag in roots or not roots.isdisjoint(above)
    if sort == "segments":
        return part.tag in CHANNEL_TAGS
    if sort == "messages":
        return part.tag not in CHANNEL_TAGS and ALL_CODECS.isdisjoint(above)
    return True


Targets = typing.Dict[str, typing.List[typing.Tuple[Path, Part]]]


def targets(whole: Part, sort: str) -> Targets:
    """The parts that may be changed, by their tags, so that what is rare is chosen as often as what is common."""
    found = collections.defaultdict(list)
    for path, above, part in tagged(whole):
        if is_wanted(sort, above, part):
            found[part.tag].append((path, part))
    return found


class Pool:
    """Parts that were seen, by their tags, to be put in elsewhere; of rows also their items."""

    def __init__(self) -> None:
        self.parts = collections.defaultdict(list)
        self.items = collections.defaultdict(list)

    def add(self, whole: Part) -> None:
        """Keeps the parts of a whole one."""
        for _, part in parts.places(whole):
            self.keep(self.parts[part.tag], part)
            if isinstance(part, Row):
                for item in part.parts:
                    self.keep(self.items[part.tag], item)

    def keep(self, kept, part):
        if len(kept) < MOST_KEPT and part not in kept[-20:]:
            kept.append(part)


# ---- Changes of a part


class Changes:
    """Changes of chance, with a pool of parts to put in."""

    def __init__(self, chance: random.Random, pool: Pool) -> None:
        self.chance, self.pool = chance, pool

    def number(self, part):
        bits = 8 * parts.SIZES[part.form]
        way = self.chance.random()
        seen = self.pool.parts[part.tag]
        if way < 0.3 and seen:
            other = self.chance.choice(seen)
            value = other.value if isinstance(other, (Number, Wide)) else 0
        elif way < 0.5:
            value = part.value + self.chance.choice((-1, 1)) * self.chance.choice(SMALL_STEPS)
        elif way < 0.65:
            value = part.value ^ 1 << self.chance.randrange(bits)
        elif way < 0.9:
            value = self.chance.choice(boundaries(bits))
        else:
            value = self.chance.getrandbits(bits)
        return part._replace(value=value % (1 << bits))

    def told(self, part):
        if self.chance.random() < 0.6:
            return part._replace(plus=part.plus + self.chance.choice((-1, 1)) * self.chance.choice(SMALL_STEPS))
        bits = 8 * parts.SIZES[part.form]
        value = self.chance.choice((*boundaries(bits), self.chance.getrandbits(bits)))
        return part._replace(value=value % (1 << bits))

    def wide(self, part):
        if self.chance.random() < 0.3:
            return part._replace(form=self.chance.choice((0, 1, 2)))
        value = self.number(Number("run length", "I", part.value)).value
        return part._replace(value=value)

    def data(self, part):
        value, seen = part.value, self.pool.parts[part.tag]
        way = self.chance.randrange(9)
        at = self.chance.randrange(len(value) + 1)
        size = self.chance.choice((1, 1, 2, 3, 4, 16, len(value)))
        if way == 0 and seen:
            other = self.chance.choice(seen)
            value = other.value if isinstance(other, Data) else b""
        elif way == 1:
            value = value[:at]
        elif way == 2:
            value = value[:at] + value[at + size:]
        elif way == 3:
            value = value[:at] + self.chance.randbytes(size) + value[at:]
        elif way == 4:
            value = value[:at] + self.chance.choice((b"\0", b"\xff", b"\x80", b"\x7f")) * size + value[at + size:]
        elif way == 5:
            value = value[:at] + value[at:at + size] * 2 + value[at + size:]
        elif way == 6:
            value = self.chance.randbytes(len(value))
        else:
            value = self.flipped(value)
        return part._replace(value=value)

    def flipped(self, value):
        changed = bytearray(value)
        for _ in range(self.chance.choice((1, 1, 2, 5))):
            if changed:
                changed[self.chance.randrange(len(changed))] ^= 1 << self.chance.randrange(8)
        return bytes(changed)

    def row(self, part):
        found, seen = list(part.parts), self.pool.items[part.tag]
        way = self.chance.randrange(8)
        at = self.chance.randrange(len(found) + 1)
        if way == 0 and found:
            del found[min(at, len(found) - 1)]
        elif way == 1 and found:
            found[at:at] = [self.chance.choice(found)]
        elif way == 2 and len(found) > 1:
            other = self.chance.randrange(len(found))
            at = min(at, len(found) - 1)
            found[at], found[other] = found[other], found[at]
        elif way == 3 and part.tag in ("residual", "rlex segments") and len(found) > 1:
            found = self.shifted(found)
        elif way == 4 and part.tag == "commands" and found:
            found = self.cut_command(found)
        elif way == 5 and found:
            found[at:at] = [self.chance.choice(found)] * self.chance.choice((2, 3, 17))
        elif way == 6:
            found = found[:at]
        elif seen:
            found[at:at] = [self.chance.choice(seen)]
        return part._replace(parts=tuple(found))

    def shifted(self, runs):
        """Runs of which one gains what another one loses."""
        one, other = self.chance.sample(range(len(runs)), 2)
        most = runs[other].parts[-1].value if isinstance(runs[other], Group) else 0
        count = self.chance.randint(0, min(most, 1000))
        for at, step in ((one, count), (other, -count)):
            if isinstance(runs[at], Group):
                length = runs[at].parts[-1]
                runs[at] = runs[at]._replace(parts=runs[at].parts[:-1] + (length._replace(value=length.value + step),))
        return runs

    def cut_command(self, commands):
        """Commands of which one that hands on bytes hands them on in two."""
        handed = [at for at, one in enumerate(commands)
                  if isinstance(one, Group) and isinstance(one.parts[0], Number) and one.parts[0].value == ord("M")]
        if not handed:
            return commands
        at = self.chance.choice(handed)
        data = parts.written(commands[at].parts[2])
        cut = self.chance.randint(0, len(data))
        pieces = [commands[at]._replace(parts=commands[at].parts[:2] + (Data("bytes", piece),))
                  for piece in (data[:cut], data[cut:])]
        return commands[:at] + pieces + commands[at + 1:]

    def group(self, part):
        """Another group of this tag, or one of its parts of another one."""
        seen = [one for one in self.pool.parts[part.tag] if isinstance(one, Group)]
        if not seen:
            return part
        other = self.chance.choice(seen)
        if self.chance.random() < 0.5:
            return other
        at = self.chance.randrange(len(part.parts))
        if part.names[at] not in other.names:
            return other
        inner = other.parts[other.names.index(part.names[at])]
        return part._replace(parts=part.parts[:at] + (inner,) + part.parts[at + 1:])

    def changed(self, part: Part) -> Part:
        """A part that was changed by chance."""
        if isinstance(part, Number):
            return self.number(part)
        if isinstance(part, Told):
            return self.told(part)
        if isinstance(part, Wide):
            return self.wide(part)
        if isinstance(part, Data):
            return self.data(part)
        return self.row(part) if isinstance(part, Row) else self.group(part)

    def whole(self, whole: Part, sort: str, found: typing.Optional[Targets] = None) -> typing.Tuple[Part, typing.Set[str]]:
        """The whole with one to four changes, and the tags of what was changed. `found` are its targets, where they are
        known."""
        tags = set()
        for count in range(self.chance.choice((1, 1, 1, 2, 2, 3, 4))):
            found = found if found and not count else targets(whole, sort)
            if not found:
                break
            tag = self.tag_of(found)
            path, part = self.chance.choice(found[tag])
            whole = parts.replaced(whole, path, self.changed(part))
            tags.add(tag)
        return whole, tags

    def tag_of(self, found):
        """A tag of what is changed; those of lengths and counts are rarer, since nearly all of their changes are refused
        at once."""
        tags = sorted(found)
        values = [tag for tag in tags if not isinstance(found[tag][0][1], Told)]
        return self.chance.choice(values if values and self.chance.random() < MOSTLY else tags)

    def cut(self, data: bytes) -> bytes:
        """Bytes that are cut short, or of which some are changed, wherever they stand."""
        return data[:self.chance.randint(0, len(data))] if self.chance.random() < 0.5 else self.flipped(data)


def in_sequence(whole: Part) -> Part:
    """The same with the sequence numbers of ClearCodec one after another, so that what stands behind a change is read."""
    return numbered(whole, [])


def numbered(part, last):
    """The same with sequence numbers behind the last one, if there is one, which is kept up to date."""
    if isinstance(part, Number) and part.tag == "sequence":
        last[:] = [(last[0] + 1) % 256 if last else part.value]
        return part._replace(value=last[0])
    if isinstance(part, (Group, Row)):
        return part._replace(parts=tuple([numbered(one, last) for one in part.parts]))
    return part


# ---- Scripts

TOKEN = re.compile(r'"[^"\n]*"|\d+|[A-Za-z_]+|\n|\s+|.')
WORDS = ("surface delete reset map fill copy keep show forget paint improve frame id width height format colour rects from to "
         "rect points key picture at kind glyph raw residual bands palette plain progressive auto video window client version "
         "small thin step turn end server answer take difference transform reduced rounding nearest zero entropy rlgr1 rlgr3 "
         "level y cb cr pattern solid ramp noise text desktop hex pixels seed xrgb argb true false").split()
SIGNS = ("[", "]", "{", "}", ",", "=", '"', "\n", "#", "-", ".", "_", "0x", "1e9", "\r", "\\u00e9", "'", "\t")
# Sides of a million pixels and less, so that few scripts take long.
NUMBERS = (0, 1, 2, 3, 5, 7, 8, 52, 53, 63, 64, 65, 127, 128, 255, 256, 300, 1024, 1025, 3999, 4000, 65535, 65536, -1,
           8192, 8193, 32766, 32767, 4294967295, 4294967296, 9223372036854775807, 9223372036854775808)
MOST_SIDE = 1024


class ScriptChanges:
    """Changes of chance to scripts, with the lines of others to put in."""

    def __init__(self, chance: random.Random, lines: typing.Sequence[str]) -> None:
        self.chance, self.lines = chance, lines

    def number(self):
        number = self.chance.choice(NUMBERS)
        return number if not MOST_SIDE < number <= 8192 or self.chance.random() < 0.1 else self.chance.randint(0, 70)

    def token(self, tokens):
        """Another token in the place of one."""
        kinds = [at for at, one in enumerate(tokens) if one.strip() and (one[0] in '"_' or one.isalnum())]
        if not kinds or self.chance.random() > 0.97:
            kinds = range(len(tokens))
        if not kinds:
            return
        at = self.chance.choice(kinds)
        old = tokens[at]
        if old.isdigit():
            tokens[at] = str(self.chance.choice((self.number(), int(old) + 1, max(0, int(old) - 1), self.chance.randint(0, 70))))
        elif old.startswith('"'):
            tokens[at] = f'"{self.chance.choice(WORDS)}"' if self.chance.random() < 0.7 else self.digits(old)
        elif old.isalpha():
            tokens[at] = self.chance.choice(WORDS)
        else:
            tokens[at] = self.chance.choice(SIGNS)

    def digits(self, old):
        """A text with another sign."""
        at = self.chance.randrange(len(old))
        return old[:at] + self.chance.choice("0123456789abcdefF") + old[at + 1:]

    def line(self, lines):
        """A line that is left out, doubled, put in from another script, or put elsewhere."""
        at, way = self.chance.randrange(len(lines)), self.chance.randrange(4)
        if way == 0:
            del lines[at]
        elif way == 1:
            lines[at:at] = [lines[at]] * self.chance.choice((1, 1, 2, 5))
        elif way == 2:
            lines[at:at] = [self.chance.choice(self.lines)]
        else:
            other = self.chance.randrange(len(lines))
            lines[at], lines[other] = lines[other], lines[at]

    def changed(self, text: str) -> bytes:
        """The text with some changes."""
        for _ in range(self.chance.choice((1, 1, 2, 2, 3, 5))):
            way = self.chance.random()
            if way < 0.5:
                tokens = TOKEN.findall(text)
                self.token(tokens)
                text = "".join(tokens)
            elif way < 0.98:
                lines = text.split("\n")
                self.line(lines)
                text = "\n".join(lines)
            else:
                at = self.chance.randrange(len(text) + 1)
                text = text[:at] + self.chance.choice(SIGNS) + text[at + self.chance.choice((0, 1, 5)):]
        return text.encode()
