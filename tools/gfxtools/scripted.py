"""Scripts as they are fed to a server's end (docs/LIVE.md): their settings, what their client offers, and a call for
each step. A script has to be a good one; check-script says whether it is."""

import functools
import typing

from . import live, toml
from .limits import VERSIONS

SMALL, THIN, AVC_DISABLED = 2, 1, 0x20
USUAL_BASE, USUAL_LEFT_OUT = [6] * 10, [4] * 10
OPAQUE = b"\xff"

# A method of LiveServer, and what it is called with.
Call = typing.Tuple[str, tuple, dict]


class Script(typing.NamedTuple):
    """What of a script is fed: what `settle` is called with, the offers as pairs of version and flags, and a call for
    each step."""

    settings: typing.Dict[str, typing.Any]
    offers: typing.List[typing.Tuple[int, int]]
    calls: typing.List[Call]


# ---- Pictures


def noise_pixel(seed: int, x: int, y: int) -> bytes:
    number = (2654435761 * x + 2246822519 * y + 3266489917 * seed) % 2**32
    return (number >> 8).to_bytes(3, "big") + OPAQUE


def text_pixel(x: int, y: int) -> bytes:
    is_ink = x % 8 < 6 and y % 16 < 11 and ((x % 8) * (y % 16) + 3 * (x // 8) + y // 16) % 3 == 0
    return b"\0\0\0\xff" if is_ink else b"\xff\xff\xff\xff"


def desktop_pixel(width: int, height: int, x: int, y: int) -> bytes:
    is_in_window = width <= 4 * x < 3 * width and height <= 4 * y < 3 * height
    return b"\xf0\xf0\xf0\xff" if is_in_window else b"\xa0\x60\x20\xff"


def pixel_of(picture: dict) -> typing.Callable[[int, int], bytes]:
    """What a picture has at a column of a row (docs/SCRIPTS.md, "Pictures")."""
    width, height = picture["width"], picture["height"]
    if picture["pattern"] == "noise":
        return functools.partial(noise_pixel, picture["seed"])
    if picture["pattern"] == "ramp":
        return lambda x, y: bytes((x % 256, y % 256, (x + y) % 256, 255))
    if picture["pattern"] == "text":
        return text_pixel
    return functools.partial(desktop_pixel, width, height)


def pixels_of(picture: dict) -> bytes:
    """The pixels of a picture, rows from the top, as B, G, R and A."""
    width, height = picture["width"], picture["height"]
    if picture["pattern"] == "hex":
        return bytes.fromhex(picture["pixels"])
    if picture["pattern"] == "solid":
        return bytes.fromhex(picture["colour"]) * (width * height)
    pixel = pixel_of(picture)
    return b"".join(pixel(x, y) for y in range(height) for x in range(width))


# ---- Steps


def call_of(step: dict, pictures: typing.Dict[str, tuple]) -> Call:
    """The call of a step; pictures are sides and pixels by name."""
    word, get = step["do"], step.get
    if word == "fill":
        return "fill", (step["id"], bytes.fromhex(step["colour"]), step["rects"]), {}
    if word == "copy":
        return "copy", (step["from"], step["to"], step["rect"], step["points"]), {}
    if word == "paint":
        words = {"kind": get("kind", "auto"), "glyph": get("glyph")}
        return "paint", (step["id"], *step["at"], *pictures[step["picture"]]), words
    return word, (), {key: value for key, value in step.items() if key != "do"}


# ---- The top


def setting_of(table: dict) -> live.Setting:
    """How progressive paints are coded."""
    levels = [tuple(level[key] for key in ("y", "cb", "cr")) for level in table.get("level", ())]
    bases = [table.get(key, USUAL_BASE) for key in ("y", "cb", "cr")]
    words = table.get("transform", "reduced"), table.get("rounding", "zero")
    return live.Setting(*words, *bases, levels or [(USUAL_LEFT_OUT,) * 3])


def settings_of(root: dict) -> typing.Dict[str, typing.Any]:
    progressive = root.get("progressive", {})
    return {"window": root.get("window", 2), "entropy": root.get("video", {}).get("entropy", "rlgr1"),
            "differences": progressive.get("difference", False),
            "setting": setting_of(progressive)}


def offer_of(table: dict) -> typing.Tuple[int, int]:
    flags = SMALL * table.get("small", False) | THIN * table.get("thin", False)
    return VERSIONS[table["version"]], flags | (AVC_DISABLED if table["version"] == "10" else 0)


def script_of(text: str) -> Script:
    """What of a script is fed."""
    root = toml.read(text)
    pictures = {one["name"]: (one["width"], one["height"], pixels_of(one)) for one in root.get("picture", ())}
    offers = [offer_of(table) for table in root.get("client", ())] or [offer_of({"version": "10"})]
    return Script(settings_of(root), offers, [call_of(step, pictures) for step in root.get("step", ())])
