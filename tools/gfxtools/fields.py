"""What may stand under the keys of a script's tables (docs/SCRIPTS.md): of each first its type (Key), then its range
(Range)."""

import difflib
import typing

from . import limits, toml
from .limits import MOST_OUTPUT_SIDE, MOST_SIDE
from .toml import named, quoted

# The numbers of docs/PROFILE.md.
MOST_NUMBER = 65535
MOST_RECTS = 1024
MOST_KEY = 2**63 - 1
MOST_GLYPH = 3999
MOST_WINDOW = 64
MOST_TAKE = 2**32 - 1
LEAST_BASE, MOST_BITS, MOST_LEFT_OUT = 6, 15, 9
PIXEL = 4  # bytes

BANDS = ("HL1", "LH1", "HH1", "HL2", "LH2", "HH2", "HL3", "LH3", "HH3", "LL3")
COMPONENTS = ("y", "cb", "cr")
VERSIONS = tuple(limits.VERSIONS)  # ascending
FORMATS = ("xrgb", "argb")
CLEAR_KINDS = ("residual", "bands", "palette", "plain")
KINDS = ("raw", *CLEAR_KINDS, "progressive", "auto", "video")
HEXADECIMAL = "0123456789abcdefABCDEF"


# ---- Words


def described(value: typing.Any) -> str:
    """A value that isn't what is due."""
    if isinstance(value, bool):
        return "true" if value else "false"
    if isinstance(value, toml.Moment):
        return f"the date or time {value}"
    if isinstance(value, float):
        return f"the number {value}, which is no whole one"
    if isinstance(value, str):
        return f"the text {quoted(value)}"
    return "an array" if isinstance(value, list) else "a table" if isinstance(value, dict) else f"the number {value}"


def close(word, words):
    """The word that is like this one, if there is one."""
    return next(iter(difflib.get_close_matches(word[:100].lower(), words, 1)), None)


def meant(word: str, words: typing.Sequence[str]) -> str:
    """A question after the word that is like this one, if there is one."""
    like = close(word, words)
    return f"; did you mean {quoted(like)}?" if like else ""


def choice(words: typing.Sequence[str]) -> str:
    """Words of which one is to be chosen."""
    return ", ".join(words[:-1]) + " or " + words[-1] if len(words) > 1 else words[0]


def counted(values: typing.Sequence[typing.Union[str, int]]) -> str:
    """Names or numbers, of which the first eight are told."""
    told = [str(value) for value in values[:8]]
    rest = [f"{len(values) - 8} more"] if len(values) > 8 else [told.pop()]
    return " and ".join([", ".join(told), *rest] if told else rest)


def span(least, most):
    return f"{least} to {most:,}"


# ---- Fields. Each test yields, for each fault, where it stands, or None for the place of the key, and why it is one.


class Field:
    """What may stand under a key: a value that `is_due`, in the words of `due`."""

    def __init__(self, key, may_miss=False):
        self.key, self.may_miss = key, may_miss

    def types(self, value):
        if not self.is_due(value):
            yield None, f"{self.key} is {described(value)}, and should be {self.due}"

    def ranges(self, value):
        return ()


class Whole(Field):
    def __init__(self, key, least, most, may_miss=False):
        super().__init__(key, may_miss)
        self.least, self.most = least, most
        self.due = f"a whole number, {span(least, most)}"

    def is_due(self, value):
        return type(value) is int

    def ranges(self, value):
        if not self.least <= value <= self.most:
            yield None, f"{self.key} is {value}, and should be {span(self.least, self.most)}"


class Text(Field):
    due = "a text"

    def is_due(self, value):
        return type(value) is str


class Word(Text):
    def __init__(self, key, words, may_miss=False):
        super().__init__(key, may_miss)
        self.words = words
        self.due = choice([quoted(word) for word in words])

    def types(self, value):
        yield from super().types(value)
        if self.is_due(value) and value not in self.words:
            yield None, f"{self.key} is {quoted(value)}, and should be {self.due}{meant(value, self.words)}"


class Flag(Field):
    due = "true or false"

    def is_due(self, value):
        return type(value) is bool


class Tables(Field):
    """An array, whose items are looked at later."""

    due = "an array of tables"

    def is_due(self, value):
        return isinstance(value, list)


class Inner(Field):
    """A table, which is looked at later."""

    due = "a table"

    def is_due(self, value):
        return isinstance(value, dict)


class Numbers(Field):
    """An array of whole numbers that have these names, each from the least to the most."""

    def __init__(self, key, names, least, most, may_miss=False):
        super().__init__(key, may_miss)
        self.names, self.least, self.most = names, least, most
        self.due = f"an array of {len(names)} whole numbers"

    def is_due(self, value):
        return isinstance(value, list)

    def types(self, value, name=None):
        name = name or self.key
        if not self.is_due(value):
            yield None, f"{name} is {described(value)}, and should be {self.due}"
            return
        for number, item in enumerate(value, 1):
            if type(item) is not int:
                yield value.at, f"number {number} of {name} is {described(item)}, and should be a whole number"

    def ranges(self, value, name=None):
        name = name or self.key
        if len(value) != len(self.names):
            few = f", [{', '.join(self.names)}]" if len(self.names) <= 4 else ""
            yield value.at, f"{name} has {len(value)} numbers, and should have {len(self.names)}{few}"
            return
        for part, number in zip(self.names, value):
            if not self.least <= number <= self.most:
                yield value.at, f"{part} of {name} is {number}, and should be {span(self.least, self.most)}"


def rectangle(key):
    return Numbers(key, ("left", "top", "right", "bottom"), 0, MOST_NUMBER)


def point(key):
    return Numbers(key, ("x", "y"), 0, MOST_NUMBER)


class Several(Field):
    """An array of such arrays, each of which is called by a word."""

    def __init__(self, key, one, word):
        super().__init__(key)
        self.one, self.word = one, word
        self.due = f"an array of {word}s, [[{', '.join(one.names)}], ..]"

    def is_due(self, value):
        return isinstance(value, list)

    def name(self, number):
        return f"{self.word} {number} of {self.key}"

    def types(self, value):
        yield from super().types(value)
        for number, item in enumerate(value if self.is_due(value) else (), 1):
            yield from self.one.types(item, self.name(number))

    def ranges(self, value):
        if not 1 <= len(value) <= MOST_RECTS:
            yield value.at, f"{self.key} has {len(value):,} {self.word}s, and should have {span(1, MOST_RECTS)}"
        for number, item in enumerate(value, 1):
            yield from self.one.ranges(item, self.name(number))


ID = Whole("id", 0, MOST_NUMBER)
KEY = Whole("key", 0, MOST_KEY)
TO = Whole("to", 0, MOST_NUMBER)
RECT = rectangle("rect")
POINTS = Several("points", point("points"), "point")
TOP = (Whole("window", 1, MOST_WINDOW, True), Tables("client", True), Inner("progressive", True),
       Inner("video", True), Tables("picture", True), Tables("step", True), Tables("turn", True))
CLIENT = (Word("version", VERSIONS), Flag("small", True))
# Further keys of an offer; version 10 is for no thin client.
THIN = (Flag("thin", True),)
BASES = tuple(Numbers(key, BANDS, LEAST_BASE, MOST_BITS, True) for key in COMPONENTS)
PROGRESSIVE = (Word("transform", ("plain", "reduced"), True), Word("rounding", ("zero", "nearest"), True), *BASES,
               Tables("level", True), Flag("difference", True))
VIDEO = (Word("entropy", ("rlgr1", "rlgr3"), True),)
LEVEL = tuple(Numbers(key, BANDS, 0, MOST_LEFT_OUT) for key in COMPONENTS)
SIDES = (Whole("width", 1, MOST_NUMBER), Whole("height", 1, MOST_NUMBER))
# Further keys of a picture, by its pattern.
PATTERNS = {"solid": (Text("colour"),), "ramp": (), "noise": (Whole("seed", 0, MOST_NUMBER),), "text": (),
            "desktop": (), "hex": (Text("pixels"),), "png": (Text("file"),)}
# Those of a PNG needn't be said. The tools write such a picture out; the program has no such pattern.
PNG_SIDES = tuple(Whole(key, 1, MOST_NUMBER, True) for key in ("width", "height"))
STEPS = {
    "surface": (ID, Whole("width", 1, MOST_SIDE), Whole("height", 1, MOST_SIDE), Word("format", FORMATS, True)),
    "delete": (ID,),
    "reset": (Whole("width", 1, MOST_OUTPUT_SIDE), Whole("height", 1, MOST_OUTPUT_SIDE)),
    "map": (ID, Whole("x", 0, MOST_OUTPUT_SIDE), Whole("y", 0, MOST_OUTPUT_SIDE)),
    "fill": (ID, Text("colour"), Several("rects", rectangle("rects"), "rectangle")),
    "copy": (Whole("from", 0, MOST_NUMBER), TO, RECT, POINTS),
    "keep": (ID, KEY, RECT),
    "show": (KEY, TO, POINTS),
    "forget": (KEY,),
    "paint": (ID, Text("picture"), point("at"), Word("kind", KINDS, True), Whole("glyph", 0, MOST_GLYPH, True)),
    "improve": (ID,),
    "frame": (),
}
TURNS = {"server": (), "client": (Whole("take", 1, MOST_TAKE),), "answer": (Whole("take", 1, MOST_TAKE),)}


# ---- Tables


class Wrong(Exception):
    """What is wrong with a table: a kind, and each fault of it as its place, or None for that of the table, and why."""

    def __init__(self, kind, found):
        super().__init__(kind)
        self.kind, self.found = kind, found


def only(kind: str, at: typing.Optional[int], why: str) -> Wrong:
    """One fault alone: its kind, its place, or None for that of the table, and why it is one."""
    return Wrong(kind, [(at, why)])


def unknown_keys(table, known):
    """Keys that aren't known, each with the missing one that is like it, if there is one."""
    left = [key for key in known if key not in table]
    for key in table:
        if key not in known:
            like = close(key, left)
            left = [one for one in left if one != like]
            yield key, like


def key_faults(table, fields, word=None):
    """Faults of kind Key. `word` is the key whose word chose the fields, if there is one."""
    known = [*([word] if word else []), *(field.key for field in fields)]
    meant_keys = set()
    for key, like in unknown_keys(table, known):
        meant_keys.add(like)
        hint = f"did you mean {like}?" if like else f"the keys here are {counted(known)}"
        yield table.places[key], f"the key {named(key)} is unknown; {hint}"
    for field in fields:
        if field.key in table:
            for at, why in field.types(table[field.key]):
                yield table.places[field.key] if at is None else at, why
        elif not field.may_miss and field.key not in meant_keys:
            yield table.at, f"the key {field.key} is missing, {field.due}"


def check_keys(table: toml.Table, fields: typing.Sequence[Field], word: typing.Optional[str] = None) -> None:
    """Refuses keys that aren't known or are missing, and values of other types. `word` is as in `key_faults`."""
    if found := list(key_faults(table, fields, word)):
        raise Wrong("Key", found)


def check_ranges(table: toml.Table, fields: typing.Sequence[Field]) -> None:
    """Refuses values that are out of their ranges; their types have to be those of the fields."""
    found = [(table.places[field.key] if at is None else at, why)
             for field in fields if field.key in table for at, why in field.ranges(table[field.key])]
    if found:
        raise Wrong("Range", found)


def as_table(value: typing.Any, what: str) -> toml.Table:
    """A value, which has to be a table; `what` is its name in a fault."""
    if not isinstance(value, dict):
        raise only("Key", None, f"{what} is a table, and here stands {described(value)}")
    return value


def worded(table: toml.Table, word: str, words: typing.Dict[str, typing.Any]) -> typing.Any:
    """The fields that a word of a table asks for."""
    if word not in table:
        raise only("Key", table.at, f"the key {word} is missing, {choice([quoted(one) for one in words])}")
    value = table[word]
    if type(value) is not str:
        raise only("Key", table.places[word], f"{word} is {described(value)}, and should be a text")
    if value not in words:
        like = meant(value, list(words)) or f"; there are {choice([quoted(one) for one in words])}"
        raise only("Key", table.places[word], f"{word} is {quoted(value)}, which is unknown{like}")
    return words[value]


def check_digits(table: toml.Table, key: str, count: int) -> None:
    """Refuses a text that hasn't two hexadecimal digits for each of so many bytes."""
    digits = table[key]
    wrong = next((number for number, sign in enumerate(digits, 1) if sign not in HEXADECIMAL), None)
    if wrong:
        raise only("Pixels", table.places[key],
                   f"sign {wrong:,} of {key} is {quoted(digits[wrong - 1])}, which is no hexadecimal digit")
    if len(digits) != 2 * count:
        pixels = f" for each of {count // PIXEL:,} pixels" if count > PIXEL else ""
        raise only("Pixels", table.places[key], f"{key} has {len(digits):,} digits, and should have {2 * count:,}: two "
                   f"each of blue, green, red and alpha{pixels}")
