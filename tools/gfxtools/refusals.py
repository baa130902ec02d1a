"""Refusals of a recording by number and name, and faults of a script, with why they come (docs/PROFILE.md,
docs/SCRIPTS.md)."""

NAMES = {
    1: ("ChannelTruncated", "the stream ends inside a channel message"),
    2: ("ChannelLength", "a channel message's length is 0 or above the limit"),
    3: ("Descriptor", "a descriptor, or a block's type, isn't one of this profile"),
    4: ("SegmentSize", "a block's sizes don't agree with its bytes"),
    5: ("BulkCompressed", "a block is compressed"),
    6: ("PduTruncated", "a message is longer than the bytes that hold it"),
    7: ("PduLength", "a message's length is below that of its header"),
    8: ("PduUnknown", "a message's id isn't one of its direction; or kept bitmaps are offered before a version is "
        "confirmed"),
    9: ("CountMismatch", "a body doesn't end where its message does"),
    10: ("NoSurface", "no surface has this id"),
    11: ("SurfaceExists", "a surface has this id already"),
    12: ("SurfaceSize", "a surface's side is out of its range"),
    13: ("SurfaceBudget", "the surfaces would be too many, or too large together"),
    14: ("RectOutside", "a rectangle or a point lies outside its surface"),
    15: ("PixelFormat", "the format is neither XRGB nor ARGB"),
    16: ("CodecRefused", "the codec isn't built"),
    17: ("PayloadLength", "pixels are more or fewer than the rectangle asks for"),
    18: ("SlotRange", "no such slot"),
    19: ("SlotEmpty", "the slot holds nothing"),
    20: ("CacheBudget", "the bitmaps would exceed the cache"),
    21: ("FrameOpen", "a frame starts while one is open"),
    22: ("FrameMismatch", "a frame ends that isn't open"),
    23: ("CapsVersion", "no version of this profile"),
    24: ("ClearFlags", "a glyph hit without a glyph index"),
    25: ("ClearSequence", "a sequence number other than the next"),
    26: ("ClearLengths", "ClearCodec: bytes are missing or left over"),
    27: ("RunTotal", "runs that don't cover their area exactly"),
    28: ("BandShape", "a band that isn't one, lies outside, or is too high"),
    29: ("BarOrder", "a bar ends above its start"),
    30: ("BarEmpty", "a hit on a place that was never written"),
    31: ("BarHeight", "a hit on a bar of another height"),
    32: ("SubcodecRefused", "a subcodec that isn't in this profile"),
    33: ("PaletteRange", "a palette's count, stop or depth out of range"),
    34: ("GlyphIndex", "a glyph index out of range"),
    35: ("GlyphArea", "a glyph of too large an area"),
    36: ("GlyphEmpty", "a hit on a glyph that was never written"),
    37: ("GlyphSize", "a hit on a glyph of another size"),
    38: ("BlockLength", "RemoteFX: a block's length doesn't fit"),
    39: ("BlockUnknown", "RemoteFX: a block of an unknown type, or in the wrong place"),
    40: ("TileCount", "RemoteFX: more or fewer tiles than the region or the tile set says"),
    41: ("TileOutside", "Progressive: a tile that begins outside the surface"),
    42: ("QuantIndex", "RemoteFX: an index of a quant that isn't there"),
    43: ("QuantRange", "a quant below the least"),
    44: ("QualityIndex", "Progressive: an index of a quality that isn't there"),
    45: ("NoFirstPass", "Progressive: an upgrade of a tile without a first pass"),
    46: ("QualityWorse", "Progressive: an upgrade to a lower quality"),
    47: ("TransformChanged", "Progressive: an upgrade by another transform"),
    48: ("CoefficientRange", "a coefficient outside 16 bits"),
    49: ("TileBudget", "Progressive: more tile records than the limit"),
    51: ("MonitorCount", "ResetGraphics: more monitors than the limit"),
    52: ("OutputSize", "an output side out of range"),
    53: ("EntropyUnknown", "RemoteFX video: entropy bits that name neither RLGR1 nor RLGR3"),
    54: ("KeptShape", "kept bitmaps: bytes that aren't a file of them"),
    55: ("ImportCount", "cache import: a reply with more slots than entries were offered"),
    56: ("FragmentLength", "fragments: one that is shorter than its header, or longer than its message"),
    57: ("FragmentOrder", "fragments: a first one while a message is open"),
    58: ("FragmentChannel", "fragments: one of another channel"),
    59: ("FragmentKind", "fragments: one of an unknown kind, or with a number of an unknown width"),
    60: ("KeptDiffers", "kept bitmaps: the ends hold different bitmaps of one length under one key"),
}
NUMBERS = {name: number for number, (name, _) in NAMES.items()}

# Which page explains a refusal, by the last number of a group.
PAGES = (
    (5, "docs/FORMATS.md, \"Framing\""),
    (9, "docs/FORMATS.md, \"Which fault is the first\""),
    (23, "docs/FORMATS.md, \"What messages do\""),
    (37, "docs/CLEAR.md, \"The order of checks\""),
    (49, "docs/PROGRESSIVE.md, \"Applied\""),
    (60, "docs/PROFILE.md, \"Refusals\""),
)

# Refusals of which docs/TROUBLESHOOTING.md has a heading.
TROUBLES = ("SegmentSize", "BulkCompressed", "PduUnknown", "CodecRefused", "CapsVersion")

SCRIPT_FAULTS = {
    "Toml": "the text isn't UTF-8, or no TOML",
    "Key": "a key or a word is unknown or missing, or has a value of another type",
    "Range": "a number is out of its range, or an array has another length than it may have",
    "Name": "a picture has the name of an earlier one, or a paint names no picture",
    "Pixels": "the text of a colour, or of a picture's pixels, has other digits, or another length",
    "SurfacePresent": "a surface has this id already",
    "CellBudget": "there are 1,024 surfaces already, or their cells would be more than 16,384",
    "SurfaceAbsent": "no surface has this id",
    "Outside": "a rectangle, a picture or a bitmap doesn't lie on its surface",
    "KeyAbsent": "no bitmap is held under this key",
    "BitmapSize": "the bitmap alone is over the budget of all bitmaps",
    "Glyph": "this paint takes no glyph: its kind isn't one layer of ClearCodec, or it has more than 1,024 pixels",
    "Unframed": "the last step is no frame",
}


def told(name: str) -> str:
    """A refusal as the program tells it: its number and name."""
    return f"{NUMBERS[name]} {name}"


def why(name: str) -> str:
    """Why a refusal comes, in words."""
    return NAMES[NUMBERS[name]][1]


def page(name):
    """Which page, and which part of it, explains a refusal."""
    if name in TROUBLES:
        return f"docs/TROUBLESHOOTING.md, \"{name}\""
    return next(page for last, page in PAGES if NUMBERS[name] <= last)
