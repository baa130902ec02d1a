"""TOML 1.1 with places: what a text says, and where each table and each key stands. It takes exactly the texts that
the program takes; Python's own reader knows TOML 1.0 alone, and no places."""

import json
import math
import re
import typing

MOST_DEEP = 80  # arrays and inline tables in one another, and parts of a key
MOST_WHOLE = 2**63

# What stands between tokens; in a comment stands any sign but controls.
WHITE = re.compile(r"[ \t]*")
BLANK = re.compile(r"(?:[ \t\n]+|\r\n|#[^\x00-\x08\x0a-\x1f\x7f]*)*")
LINES = re.compile(r"(?:[ \t\n]|\r\n)*")

BARE = re.compile(r"[A-Za-z0-9_-]+")
# A boolean, a number or a date-time; a blank before a digit joins a date and a time.
WORD = re.compile(r"[A-Za-z0-9_+.:-]+(?: [0-9][A-Za-z0-9_+.:-]*)?")
WHOLE = re.compile(r"[+-]?(?:0|[1-9](?:_?[0-9])*)\Z")
BASED = re.compile(r"0(?:x[0-9A-Fa-f](?:_?[0-9A-Fa-f])*|o[0-7](?:_?[0-7])*|b[01](?:_?[01])*)\Z")
POINTED = re.compile(r"[+-]?(?:0|[1-9](?:_?[0-9])*)(?:\.[0-9](?:_?[0-9])*)?(?:[eE][+-]?[0-9](?:_?[0-9])*)?\Z")
NAMED = re.compile(r"[+-]?(?:inf|nan)\Z")
DATE, TIME = r"([0-9]{4})-([0-9]{2})-([0-9]{2})", r"([0-9]{2}):([0-9]{2})(?::([0-9]{2})(?:\.[0-9]+)?)?"
MOMENT = re.compile(rf"{DATE}(?:[Tt ]{TIME}(?:[Zz]|[+-]([0-9]{{2}}):([0-9]{{2}}))?)?\Z")
TIME_ALONE = re.compile(rf"{TIME}\Z")

# Runs of signs that stand for themselves, by the delimiter of a string, on one line and on several.
PLAIN = {
    ('"', False): re.compile(r'[^"\\\x00-\x08\x0a-\x1f\x7f]*'),
    ('"', True): re.compile(r'[^"\\\x00-\x08\x0b-\x1f\x7f]*'),
    ("'", False): re.compile(r"[^'\x00-\x08\x0a-\x1f\x7f]*"),
    ("'", True): re.compile(r"[^'\x00-\x08\x0b-\x1f\x7f]*"),
}
# A line that has the header of a table and nothing else. An array of one number looks like none.
HEADER_LINE = re.compile(r"(\[\[?[ \t]*[A-Za-z_][A-Za-z0-9_.-]*[ \t]*\]\]?)[ \t]*(?:#[^\n]*)?\r?(?:\n|\Z)")
ESCAPES = {"b": "\b", "e": "\x1b", "f": "\f", "n": "\n", "r": "\r", "t": "\t", '"': '"', "\\": "\\"}
CODES = {"x": re.compile(r"[0-9A-Fa-f]{2}"), "u": re.compile(r"[0-9A-Fa-f]{4}"), "U": re.compile(r"[0-9A-Fa-f]{8}")}


class Fault(Exception):
    """Why a text is no TOML, and at which of its signs."""

    def __init__(self, at, why):
        super().__init__(why)
        self.at, self.why = at, why


class Moment(str):
    """A date, a time, or both."""


# What made a table: a header that passed through it, a dotted key, its own header, or a value.
IMPLICIT, DOTTED, HEADER, VALUE = range(4)


class Table(dict):
    """A table; where it begins, and where its keys stand."""

    __slots__ = ("at", "places", "made")

    def __init__(self, at: int, made: int) -> None:
        super().__init__()
        self.at, self.made, self.places = at, made, {}

    def put(self, key: str, at: int, value: typing.Any) -> None:
        """Sets the value under a key that stands at this place."""
        self[key] = value
        self.places[key] = at


class Array(list):
    """An array, where it begins, and where each value in its brackets stands. It is open where headers in double brackets
    add to it."""

    __slots__ = ("at", "is_open", "places")

    def __init__(self, at, is_open=False):
        super().__init__()
        self.at, self.is_open, self.places = at, is_open, []


def front(text):
    """A text, or the front of a long one."""
    return text if len(text) <= 40 else text[:40] + ".."


def quoted(text: str) -> str:
    """A text in quotes, on one line."""
    return json.dumps(front(text), ensure_ascii=False)


def named(key: str) -> str:
    """A key as it would be written."""
    return front(key) if BARE.fullmatch(key) else quoted(key)


def shown(text, at):
    """What stands at a place, in words."""
    if at >= len(text):
        return "the end of the text"
    if text[at] in "\r\n":
        return "the end of the line"
    word = WORD.match(text, at)
    return repr(front(word[0]) if word else text[at])


# ---- What is no array and no table


def code_at(text, at):
    """The sign that an escape by its code stands for, and the place behind it."""
    digits = CODES[text[at]].match(text, at + 1)
    code = int(digits[0], 16) if digits else None
    if code is None or 0xD800 <= code < 0xE000 or code > 0x10FFFF:
        raise Fault(at - 1, f"no sign has this code; behind \\{text[at]} stand {'248'['xuU'.index(text[at])]} "
                            "hexadecimal digits")
    return chr(code), digits.end()


def escape_at(text, at, several):
    """What an escape stands for, whose letter is at this place, and the place behind it."""
    behind = WHITE.match(text, at).end()
    if several and (text.startswith("\n", behind) or text.startswith("\r\n", behind)):
        return "", LINES.match(text, behind).end()
    letter = text[at:at + 1]
    if letter in CODES:
        return code_at(text, at)
    if letter not in ESCAPES:
        raise Fault(at - 1, "a backslash begins an escape, and this is none; a backslash itself is written as two")
    return ESCAPES[letter], at + 1


def body_at(text, at, delimiter, several):
    """A string behind its opening, and the place behind its end."""
    begin, plain, parts = at, PLAIN[delimiter, several], []
    while True:
        run = plain.match(text, at)
        parts.append(run[0])
        at = run.end()
        sign = text[at:at + 1]
        if sign == delimiter and not several:
            return "".join(parts), at + 1
        if sign == delimiter:
            count = len(text[at:at + 6]) - len(text[at:at + 6].lstrip(delimiter))
            if count == 3:
                return "".join(parts), at + 3
            if count == 6:
                raise Fault(at, "too many quotes")
            parts.append(delimiter)
            at += 1
        elif sign == "\\":  # in apostrophes it is plain
            part, at = escape_at(text, at + 1, several)
            parts.append(part)
        elif several and text.startswith("\r\n", at):
            parts.append("\r\n")
            at += 2
        elif sign in ("", "\n", "\r"):
            raise Fault(begin - 1, f"this text has no end: {delimiter} is missing")
        else:
            raise Fault(at, f"the sign {sign!r} has to be written as an escape")


def one_line_at(text, at):
    return body_at(text, at + 1, text[at], False)


def string_at(text, at):
    delimiter = text[at]
    if not text.startswith(delimiter * 3, at):
        return one_line_at(text, at)
    at += 3
    at += 2 if text.startswith("\r\n", at) else text.startswith("\n", at)
    return body_at(text, at, delimiter, True)


def is_time(hour, minute, second):
    return int(hour) < 24 and int(minute) < 60 and int(second or 0) < 61


def is_date(year, month, day):
    year, month, day = int(year), int(month), int(day)
    leap = year % 4 == 0 and (year % 100 != 0 or year % 400 == 0)
    days = (31, 29 if leap else 28, 31, 30, 31, 30, 31, 31, 30, 31, 30, 31)
    return 1 <= month <= 12 and 1 <= day <= days[month - 1]


def is_moment(word):
    """Whether a word is a date, a time, or both."""
    if time := TIME_ALONE.match(word):
        return is_time(*time.groups())
    parts = MOMENT.match(word)
    if not parts:
        return False
    year, month, day, hour, minute, second, hours, minutes = parts.groups()
    return (is_date(year, month, day) and (hour is None or is_time(hour, minute, second))
            and (hours is None or int(hours) < 24 and int(minutes) < 60))


def whole_of(word, at):
    """The whole number that a word is, which fits 64 bits."""
    digits = word.replace("_", "")
    if len(digits) > 80:  # longer ones aren't worth a sum, and may be too long for one
        raise Fault(at, "this whole number needs more than 64 bits")
    number = int(digits, 0 if BASED.match(word) else 10)
    if not -MOST_WHOLE <= number < MOST_WHOLE:
        raise Fault(at, f"the whole number {front(word)} needs more than 64 bits")
    return number


def word_at(text, at):
    """A truth value, a number or a date-time, and the place behind it."""
    found = WORD.match(text, at)
    if not found:
        raise Fault(at, f"a value is due, and there stands {shown(text, at)}")
    word, behind = found[0], found.end()
    if word in ("true", "false"):
        return word == "true", behind
    if WHOLE.match(word) or BASED.match(word):
        return whole_of(word, at), behind
    if NAMED.match(word):
        return float(word), behind
    if POINTED.match(word):
        number = float(word.replace("_", ""))
        if math.isinf(number):
            raise Fault(at, f"the number {front(word)} is too large")
        return number, behind
    if is_moment(word):
        return Moment(word), behind
    raise Fault(at, f"{front(word)} is no value; a text stands in quotes")


# ---- Keys and tables


def simple_key_at(text, at):
    if text[at:at + 1] in ('"', "'"):
        return one_line_at(text, at)
    found = BARE.match(text, at)
    if not found:
        raise Fault(at, f"a key is due, and there stands {shown(text, at)}")
    return found[0], found.end()


def key_at(text, at):
    """A key, part by part, each with its place; and the place behind the blanks that follow it."""
    parts = []
    while True:
        if len(parts) == MOST_DEEP:
            raise Fault(at, f"a key has more than {MOST_DEEP} parts")
        part, behind = simple_key_at(text, at)
        parts.append((part, at))
        at = WHITE.match(text, behind).end()
        if text[at:at + 1] != ".":
            return parts, at
        at = WHITE.match(text, at + 1).end()


def defined_twice(part, at):
    return Fault(at, f"the key {named(part)} stands here a second time, or is no table that more could be put into")


def put_along(table, parts, value):
    """Puts a value into a table under a key, whose parts but the last name tables in one another."""
    *path, (last, place) = parts
    for part, at in path:
        inner = table.get(part)
        if inner is None:
            inner = Table(at, DOTTED)
            table.put(part, at, inner)
        if not isinstance(inner, Table) or inner.made not in (IMPLICIT, DOTTED):
            raise defined_twice(part, at)
        inner.made = DOTTED
        table = inner
    if last in table:
        raise defined_twice(last, place)
    table.put(last, place, value)


def along_header(table, path):
    """The table that a header's parts but its last name."""
    for part, at in path:
        inner = table.get(part)
        if inner is None:
            inner = Table(at, IMPLICIT)
            table.put(part, at, inner)
        if isinstance(inner, Array) and inner.is_open:
            inner = inner[-1]
        elif not isinstance(inner, Table) or inner.made == VALUE:
            raise defined_twice(part, at)
        table = inner
    return table


def headed(root, parts, at, is_array):
    """The table that stands behind a header, which begins at this place."""
    *path, (last, place) = parts
    table = along_header(root, path)
    found = table.get(last)
    if is_array:
        if found is None:
            found = Array(at, is_open=True)
            table.put(last, place, found)
        if not isinstance(found, Array) or not found.is_open:
            raise defined_twice(last, place)
        found.append(Table(at, HEADER))
        return found[-1]
    if found is None:
        found = Table(at, IMPLICIT)
        table.put(last, place, found)
    if not isinstance(found, Table) or found.made != IMPLICIT:
        raise defined_twice(last, place)
    found.made = HEADER
    return found


# ---- Values


def next_of(text, at, closing, begin):
    """The place behind what follows an element: a comma, or nothing before the closing bracket."""
    at = BLANK.match(text, at).end()
    if text[at:at + 1] == ",":
        return at + 1
    if text[at:at + 1] != closing:
        line = text.count("\n", 0, begin) + 1
        raise Fault(at, f"a comma is due, or the {closing} of what begins in line {line}; there stands "
                        f"{shown(text, at)}")
    return at


def check_for_header(text, at, begin):
    """Where the header of a table stands in an array's place for a value, the array isn't closed."""
    is_first = not text[text.rfind("\n", 0, at) + 1:at].strip()
    header = HEADER_LINE.match(text, at) if is_first else None
    if header:
        line = text.count("\n", 0, begin) + 1
        raise Fault(at, f"the ] of what begins in line {line} is missing: here stands {front(header[1])}")


def array_at(text, begin, deep):
    found, at = Array(begin), begin + 1
    while True:
        at = BLANK.match(text, at).end()
        if text[at:at + 1] == "]":
            return found, at + 1
        check_for_header(text, at, begin)
        found.places.append(at)
        value, at = value_at(text, at, deep)
        found.append(value)
        at = next_of(text, at, "]", begin)


def pair_at(text, at, deep):
    """A key's parts, its value, and the place behind it."""
    parts, at = key_at(text, at)
    if text[at:at + 1] != "=":
        raise Fault(at, f"= is due behind the key {named(parts[-1][0])}, and there stands {shown(text, at)}")
    value, at = value_at(text, WHITE.match(text, at + 1).end(), deep)
    return parts, value, at


def inline_table_at(text, begin, deep):
    found, at = Table(begin, VALUE), begin + 1
    while True:
        at = BLANK.match(text, at).end()
        if text[at:at + 1] == "}":
            return found, at + 1
        parts, value, at = pair_at(text, at, deep)
        put_along(found, parts, value)
        at = next_of(text, at, "}", begin)


def value_at(text, at, deep):
    """A value, in which arrays and tables are so deep at most, and the place behind it."""
    sign = text[at:at + 1]
    if sign in ('"', "'"):
        return string_at(text, at)
    if sign in ("[", "{"):
        if deep == 0:
            raise Fault(at, f"arrays and tables are more than {MOST_DEEP} deep")
        return (array_at if sign == "[" else inline_table_at)(text, at, deep - 1)
    return word_at(text, at)


# ---- The whole


def header_at(text, at):
    """A header's parts, whether it is one of an array, and the place behind it."""
    brackets = 2 if text.startswith("[[", at) else 1
    parts, behind = key_at(text, WHITE.match(text, at + brackets).end())
    if not text.startswith("]" * brackets, behind):
        raise Fault(behind, f"{']' * brackets} is due behind a header, and there stands {shown(text, behind)}")
    return parts, brackets == 2, behind + brackets


def read(text: str) -> Table:
    """The table that a text is. A mark of the order of bytes may stand in front."""
    at = 1 if text.startswith("\ufeff") else 0
    root = Table(at, HEADER)
    table = root
    while (at := BLANK.match(text, at).end()) < len(text):
        begin = at
        if text[at] == "[":
            parts, is_array, at = header_at(text, at)
            table = headed(root, parts, begin, is_array)
        else:
            parts, value, at = pair_at(text, at, MOST_DEEP)
            put_along(table, parts, value)
        at = WHITE.match(text, at).end()
        if at < len(text) and text[at] not in "#\n\r":
            raise Fault(at, f"the line should end here, and there stands {shown(text, at)}")
    return root


def place_of(text: str, at: int) -> typing.Tuple[int, int]:
    """The line and the column of a sign, from 1."""
    return text.count("\n", 0, at) + 1, at - (text.rfind("\n", 0, at) + 1) + 1
