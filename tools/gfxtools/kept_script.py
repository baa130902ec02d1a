"""The script that draws what a session draws which begins with imported bitmaps (docs/IMPORT.md): its first frame
puts them into the cache, in their order, and then the session's own steps follow.

`encode` and what stands on it take such a script, which knows nothing of kept bitmaps. What a step shows is in the
script with its pixels, and of the others their sides alone, so that the same bitmaps make room for others."""

import typing

from . import entry, kept, script, script_text, toml
from .fields import MOST_KEY, MOST_SIDE

# The surface on which the bitmaps are painted; it is deleted before the session's own steps.
SURFACE = 65535


def names_of(root: toml.Table) -> set:
    """The names of the script's own pictures."""
    return {table["name"] for table in root.get("picture", ())}


def shown_keys(root: toml.Table) -> set:
    return {step["key"] for step in root.get("step", ()) if step["do"] == "show"}


def used_keys(root: toml.Table) -> set:
    return {step["key"] for step in root.get("step", ()) if "key" in step}


class Maker:
    """Makes the pictures and the steps that stand in front."""

    def __init__(self, root):
        self.names, self.shown, self.used = names_of(root), shown_keys(root), used_keys(root)
        self.pictures, self.steps, self.made = [], [], {}

    def fresh_name(self, name):
        while name in self.names:
            name += " again"
        self.names.add(name)
        return name

    def fresh_key(self):
        """A key that no step has."""
        key = next(key for key in range(len(self.used) + 1) if key not in self.used)
        self.used.add(key)
        return key

    def picture(self, one, key):
        """The name of the picture of a bitmap: with its pixels where a step shows it, else one for all of its sides."""
        is_shown = key in self.shown
        which = key if is_shown else one.sides
        if which not in self.made:
            told = f"kept {key}" if is_shown else f"kept {one.width}x{one.height}"
            self.made[which] = self.fresh_name(told)
            more = {"pattern": "hex", "pixels": one.pixels.hex()} if is_shown else {"pattern": "solid",
                                                                                    "colour": "00000000"}
            self.pictures.append({"name": self.made[which], "width": one.width, "height": one.height, **more})
        return self.made[which]

    def add(self, one):
        """Keeps a bitmap."""
        key = one.key if one.key <= MOST_KEY else self.fresh_key()
        if one.pixels:
            picture = self.picture(one, key)
            self.steps.append({"do": "paint", "id": SURFACE, "picture": picture, "at": [0, 0], "kind": "raw"})
        self.steps.append({"do": "keep", "id": SURFACE, "key": key, "rect": [0, 0, *one.sides]})


def steps_of(maker: Maker, bitmaps: typing.List[kept.Bitmap]) -> typing.List[dict]:
    """All steps in front, up to the frame's end."""
    sides = [max([1, *(one.sides[at] for one in bitmaps)]) for at in (0, 1)]
    if max(sides) > MOST_SIDE:
        raise entry.Wrong(f"a bitmap has a side of {max(sides):,} pixels, and no surface has it to draw it")
    for one in bitmaps:
        maker.add(one)
    surface = {"do": "surface", "id": SURFACE, "width": sides[0], "height": sides[1], "format": "argb"}
    return [surface, *maker.steps, {"do": "delete", "id": SURFACE}, {"do": "frame"}]


def of(data: bytes, name: str, folder: str, ends: typing.List[typing.List[kept.Bitmap]]) -> bytes:
    """The script of a session that begins with what is imported of both ends' bitmaps."""
    checked = script.check(data, folder, ends)
    if checked.faults:
        fault = checked.faults[0]
        raise entry.Wrong(f"{name}: {fault.where}: {fault.kind}: {fault.why} (`tools/check-script --kept` has more)")
    data = script_text.with_pictures(data, name)
    text = data.decode()
    root = toml.read(text)
    maker = Maker(root)
    steps = steps_of(maker, checked.imported.bitmaps)
    edits = [script_text.in_front(text, root, key, tables) for key, tables in (("picture", maker.pictures), ("step", steps))
             if tables]
    return script_text.within_limit(script_text.edited(text, edits).encode(), name)
