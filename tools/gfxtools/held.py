"""What each step of a script needs of the steps before it (docs/SCRIPTS.md)."""

import collections
import typing

from . import entry, limits
from .fields import CLEAR_KINDS, PIXEL, STEPS, Wrong, choice, counted, meant, only
from .limits import CELL_SIDE, LARGE, MOST_CELLS, MOST_SURFACES, SMALL, cells, lies_in
from .toml import Table, quoted

# The most pixels of a glyph ([MS-RDPEGFX] 2.2.4.1).
MOST_GLYPH_AREA = 1024

# The sides of the pictures by name, and the names of those with a fault, None for one whose name isn't known.
Gallery = collections.namedtuple("Gallery", "sides doubtful")


def moved(sides, place):
    """The rectangle of these sides whose left top is at this place."""
    return [place[0], place[1], place[0] + sides[0], place[1] + sides[1]]


def outside(what, rect, id, sides, at=None):
    """A fault: its place, or None for that of the step, and why it is one."""
    left, top, right, bottom = rect
    why = f"doesn't lie on surface {id}, which is {sides[0]} by {sides[1]}"
    if left > right:
        why += "; its right side is left of its left one"
    elif top > bottom:
        why += "; its bottom is above its top"
    return at, f"{what} [{left}, {top}, {right}, {bottom}] {why}"


def check_inside(faults):
    """Tells all that lies outside, if anything does."""
    found = list(faults)
    if found:
        raise Wrong("Outside", found)


class Stock:
    """The bitmaps that are kept: the sides and the bytes of each by its key, the least recently used first; and why
    others are held no more."""

    def __init__(self, is_small: bool) -> None:
        self.is_small = is_small
        self.slots, self.most = SMALL if is_small else LARGE
        self.held, self.gone, self.bytes = collections.OrderedDict(), {}, 0
        self.not_imported = None

    def start(self, chosen):
        """Begins with bitmaps that are imported (docs/IMPORT.md)."""
        for one in chosen.bitmaps:
            self.held[one.key] = one.sides, PIXEL * one.width * one.height
            self.bytes += self.held[one.key][1]
        self.not_imported = chosen.ended

    def drop(self, key: int, why: str) -> None:
        """Lets go of a bitmap; `why` is for later faults."""
        self.bytes -= self.held.pop(key)[1]
        self.gone[key] = why

    def keep(self, key: int, sides: limits.Sides, step: int) -> None:
        """Keeps a bitmap of these sides; the step of this number does it, for later faults."""
        size = PIXEL * sides[0] * sides[1]
        if size > self.most:
            small = ", as the client has a small cache" if self.is_small else ""
            raise only("BitmapSize", None, f"a bitmap of {sides[0]} by {sides[1]} takes {size:,} bytes, and the limit "
                       f"of all bitmaps together is {self.most:,}{small}")
        if key in self.held:
            self.drop(key, "")
        while len(self.held) >= self.slots or self.bytes + size > self.most:
            self.drop(next(iter(self.held)), f"made room for that of step {step}")
        self.held[key] = sides, size
        self.bytes += size

    def find(self, key: int) -> limits.Sides:
        """The sides of the bitmap under a key."""
        if key not in self.held:
            why = f"its bitmap {self.gone[key]}" if key in self.gone else "no step before this one keeps one"
            why += f"; {self.not_imported}" if self.not_imported and key not in self.gone else ""
            raise only("KeyAbsent", None, f"no bitmap is held under key {key}: {why}")
        return self.held[key][0]


class Held:
    """What the steps so far have left. What is doubtful would be there, or gone, but for a fault, or was told to be
    missing: steps that hang on it aren't looked at."""

    def __init__(self, gallery, is_small):
        self.pictures, self.stock = gallery.sides, Stock(is_small)
        self.surfaces, self.made, self.deleted, self.cells = {}, {}, {}, 0
        self.doubtful = {("picture", name) for name in gallery.doubtful}

    def doubt(self, table: typing.Any) -> None:
        """What a step with a fault would have changed, or all of its kind where it can't be told what."""
        is_table = isinstance(table, dict)
        word = table.get("do") if is_table and type(table.get("do")) is str else None
        for kind, key, changes in (("surface", "id", ("surface", "delete")), ("key", "key", ("keep", "forget"))):
            if word in changes or word not in STEPS:
                name = table.get(key) if is_table else None
                self.doubtful.add((kind, name if type(name) is int else None))

    def is_doubtful(self, kind, name):
        return (kind, name) in self.doubtful or (kind, None) in self.doubtful

    def hangs(self, step):
        """Whether a step hangs on what is doubtful."""
        if step["do"] in ("show", "forget"):
            key = step["key"]
            if key not in self.stock.held and self.is_doubtful("key", key):
                return True
        if step["do"] == "paint":
            name = step["picture"]
            if name not in self.pictures and self.is_doubtful("picture", name):
                return True
        ids = [step[key] for key in ("id", "from", "to") if key in step and step["do"] != "surface"]
        return any(id not in self.surfaces and self.is_doubtful("surface", id) for id in ids)

    def after(self, step: Table, number: int) -> None:
        """Makes this what is held after a step, of this number, or says what is wrong with it."""
        if not self.hangs(step):
            getattr(self, f"do_{step['do']}")(step, number)

    def surface(self, id: int) -> limits.Sides:
        """The sides of a surface."""
        if id in self.surfaces:
            return self.surfaces[id]
        self.doubtful.add(("surface", id))
        if id in self.deleted:
            why = f"step {self.deleted[id]} deleted it"
        elif self.surfaces:
            why = f"ids in use: {counted(sorted(self.surfaces))}"
        else:
            why = "no step before this one makes any"
        raise only("SurfaceAbsent", None, f"there is no surface {id}; {why}")

    def bitmap(self, key):
        """The sides of the bitmap under a key."""
        if key not in self.stock.held:
            self.doubtful.add(("key", key))
        return self.stock.find(key)

    def remove(self, id):
        self.cells -= cells(*self.surfaces.pop(id))

    # What each word does; the step's number comes with it.

    def do_surface(self, step, number):
        id, sides = step["id"], (step["width"], step["height"])
        if id in self.surfaces and self.is_doubtful("surface", id):
            self.remove(id)
        if id in self.surfaces:
            raise only("SurfacePresent", step.places["id"],
                       f"surface {id} is there already, from step {self.made[id]} on")
        if len(self.surfaces) >= MOST_SURFACES:
            raise only("CellBudget", None, f"there are {MOST_SURFACES:,} surfaces already")
        more = cells(*sides)
        if self.cells + more > MOST_CELLS:
            told = entry.counted(more, "cell")
            raise only("CellBudget", None, f"{sides[0]} by {sides[1]} take {told} of {CELL_SIDE} by {CELL_SIDE}, and "
                       f"all surfaces together {self.cells + more:,}; the limit is {MOST_CELLS:,}")
        self.surfaces[id], self.made[id], self.cells = sides, number, self.cells + more

    def do_delete(self, step, number):
        self.surface(step["id"])
        self.remove(step["id"])
        self.deleted[step["id"]] = number

    def do_map(self, step, number):
        self.surface(step["id"])

    do_improve = do_map

    def do_reset(self, step, number):
        pass

    do_frame = do_reset

    def do_fill(self, step, number):
        sides = self.surface(step["id"])
        check_inside(outside(f"rectangle {nth} of rects,", rect, step["id"], sides, rect.at)
                     for nth, rect in enumerate(step["rects"], 1) if not lies_in(sides, rect))

    def put_at_points(self, step, sides):
        """A rectangle of these sides is put at the points of a step."""
        target = self.surface(step["to"])
        check_inside(outside(f"at point {nth} of points the rectangle", moved(sides, place), step["to"], target, place.at)
                     for nth, place in enumerate(step["points"], 1) if not lies_in(target, moved(sides, place)))

    def sides_of_rect(self, step, sides):
        """The sides of a step's rectangle, which has to lie on a surface of these sides."""
        left, top, right, bottom = step["rect"]
        if not lies_in(sides, step["rect"]):
            check_inside([outside("rect", step["rect"], step["from" if "from" in step else "id"], sides)])
        return right - left, bottom - top

    def do_copy(self, step, number):
        source = self.surface(step["from"])
        self.surface(step["to"])
        self.put_at_points(step, self.sides_of_rect(step, source))

    def do_keep(self, step, number):
        sides = self.sides_of_rect(step, self.surface(step["id"]))
        self.stock.keep(step["key"], sides, number)

    def do_show(self, step, number):
        self.put_at_points(step, self.bitmap(step["key"]))
        self.stock.held.move_to_end(step["key"])

    def do_forget(self, step, number):
        self.bitmap(step["key"])
        self.stock.drop(step["key"], f"was let go by step {number}")

    def sides_of_picture(self, step):
        name = step["picture"]
        if name in self.pictures:
            return self.pictures[name]
        self.doubtful.add(("picture", name))
        has = f"; there is {counted([quoted(one) for one in self.pictures])}" if self.pictures else "; there is none"
        raise only("Name", step.places["picture"],
                   f"no picture has the name {quoted(name)}{meant(name, list(self.pictures)) or has}")

    def do_paint(self, step, number):
        surface, sides = self.surface(step["id"]), self.sides_of_picture(step)
        name = quoted(step["picture"])
        if not lies_in(surface, moved(sides, step["at"])):
            check_inside([outside(f"picture {name} at", moved(sides, step["at"]), step["id"], surface)])
        if "glyph" not in step:
            return
        if step.get("kind", "auto") not in CLEAR_KINDS:
            kind = f"it is {quoted(step['kind'])}" if "kind" in step else "there is none"
            raise only("Glyph", step.places["glyph"],
                       f"with a glyph, kind has to be {choice([quoted(one) for one in CLEAR_KINDS])}, and {kind}")
        if sides[0] * sides[1] > MOST_GLYPH_AREA:
            raise only("Glyph", step.places["glyph"], f"picture {name} has {sides[0] * sides[1]:,} pixels, and the "
                       f"limit of a glyph is {MOST_GLYPH_AREA:,}")
