#!/usr/bin/env python3
"""Drives the client live_client with recordings, beside what `render --output` shows of them.

    tests/view.py PROGRAM LIVE_CLIENT [WORD ..]
    tests/view.py --stored

PROGRAM is gfxpipe. The recordings of examples/, and the streams of `make 1` to `make 50`, are handed on message by
message. A window is kept here that is copied to only where something was written, and at the end it has to be what
`render --output` prints of the whole recording; each frame has to be acknowledged. Then come the faults, a case
each. WORDs choose among the cases, by a part of their names: `make`, an example's name, `fault`, `record`. There is
a line for each difference, and at the end one with the counts; the exit number is 1 where there was a difference. It
is no part of `rt ci`. With --stored the input of the program's stored run is written, crates/live_client/stdin.
"""

import collections
import io
import lzma
import os
import struct
import subprocess
import sys
import tempfile

sys.dont_write_bytecode = True

HERE = os.path.dirname(os.path.abspath(__file__))
EXAMPLES = os.path.join(HERE, "..", "examples")
STORED = os.path.join(HERE, "..", "crates", "live_client")
sys.path.insert(0, os.path.join(HERE, "..", "tools"))

from gfxtools import dump, live
from tried import refusing

MADE = range(1, 51)
V8, V81, V10 = 0x00080004, 0x00080105, 0x000A0002
ADVERTISE, CREATE, RESET, MAP = 0x12, 0x09, 0x0E, 0x0F
# Windows of no more pixels are compared at each frame.
FEW_PIXELS = 30000
EMPTY_REPLY = bytes((0xE0, 4, 0x11, 0, 0, 0, 10, 0, 0, 0, 0, 0))


class Differs(Exception):
    """What came isn't what was wanted."""


def same(what, wanted, got):
    if wanted != got:
        raise Differs(f"{what}: wanted {wanted!r:.120}, got {got!r:.120}")


def channels(data):
    """The channel messages of a stream, each without its length; what is left of one is passed over."""
    at = 0
    while at + 4 <= len(data):
        size = struct.unpack_from("<I", data, at)[0]
        if at + 4 + size > len(data):
            return
        yield data[at + 4:at + 4 + size]
        at += 4 + size


def recordings():
    """The recordings among the examples, by their names."""
    for name in sorted(os.listdir(EXAMPLES)):
        path = os.path.join(EXAMPLES, name)
        if name.endswith(".bin") and "fragments" not in name:
            with open(path, "rb") as file:
                yield name, file.read()
        elif name.endswith(".bin.xz"):
            with lzma.open(path) as file:
                yield name, file.read()


def single(kind, body):
    """A message of the server, alone in its channel message."""
    return bytes((0xE0, 4)) + struct.pack("<HHI", kind, 0, 8 + len(body)) + body


def mapped(data, width, height):
    """The same stream with an output of these sides, and each surface mapped to it, one beside and below another."""
    out, count = [single(RESET, struct.pack("<3I5I", width, height, 1, 0, 0, width - 1, height - 1, 1).ljust(332, b"\0"))], 0
    for message in channels(data):
        out.append(message)
        if message[0] == 0xE0 and struct.unpack_from("<H", message, 2)[0] == CREATE:
            id = struct.unpack_from("<H", message, 10)[0]
            out.append(single(MAP, struct.pack("<HHII", id, 0, 37 * count % width, 23 * count % height)))
            count += 1
    return b"".join(struct.pack("<I", len(message)) + message for message in out)


class Window:
    """What a viewer has on its screen: copied to where something was written, and nowhere else."""

    def __init__(self):
        self.width = self.height = 0
        self.rows = []

    def update(self, client):
        """Asks what was written, and copies that. Answers how many pixels these were."""
        written = client.written()
        if (written.width, written.height) != (self.width, self.height):
            self.width, self.height = written.width, written.height
            self.rows = [bytearray(4 * self.width) for _ in range(self.height)]
        pixels = 0
        for rect in written.rects:
            left, top, right, bottom = rect
            picture, row = client.picture(rect), 4 * (right - left)
            same("the bytes of a picture", row * (bottom - top), len(picture))
            for y in range(top, bottom):
                self.rows[y][4 * left:4 * right] = picture[(y - top) * row:(y - top + 1) * row]
            pixels += (right - left) * (bottom - top)
        return pixels


class Cases:
    def __init__(self, gfxpipe, program):
        self.gfxpipe, self.program = gfxpipe, program
        self.counts = collections.Counter()

    def gfx(self, words, data=b""):
        return subprocess.run([self.gfxpipe, *words], input=data, capture_output=True)

    def shown(self, data):
        """The rows of the output by `render --output`."""
        picture = dump.find(io.BytesIO(self.gfx(["render", "--output"], data).stdout), "output")
        return [row for row in picture.rows()]

    def follow(self, data):
        """Hands on a recording, and compares the window with what is shown."""
        window, frames, answered, refused = Window(), [], [], None
        with live.LiveClient(self.program) as client:
            same("the first words", ADVERTISE, next(channels(client.hello()))[0])
            for message in channels(data):
                try:
                    drawn = client.take(message)
                except live.NotDone as fault:
                    refused = fault
                    break
                frames += drawn.frames
                answered += [struct.unpack_from("<I", reply, 12)[0] for reply in channels(drawn.data)]
                if drawn.frames:
                    self.counts["pixels that were copied"] += window.update(client)
                    if window.width * window.height <= FEW_PIXELS:
                        self.whole(window, client)
            same("the frames that are acknowledged", frames, answered)
            self.whole(window, client)
        same("the end", (0, ""), client.close() if client.process.poll() is None else (client.process.returncode, ""))
        self.counts["frames"] += len(frames)
        return window, frames, refused

    def whole(self, window, client):
        """The window, copied to where something was written, is the output."""
        if not (window.width and window.height):
            return
        whole, row = client.picture((0, 0, window.width, window.height)), 4 * window.width
        same("the window and the output", True,
             all(bytes(window.rows[y]) == whole[y * row:(y + 1) * row] for y in range(window.height)))
        self.counts["windows beside the output"] += 1

    def stream(self, name, data):
        """A recording that draws to its end inside frames: the window is what `render --output` prints."""
        window, frames, refused = self.follow(data)
        done = self.gfx(["render", "--output"], data)
        same("whether it is refused", done.returncode != 0, refused is not None)
        if refused is None and frames and window.width:
            same("the window and `render --output`", True, [bytes(row) for row in window.rows] == self.shown(data))
            self.counts["windows beside `render --output`"] += 1

    def cases(self):
        for name, data in recordings():
            yield name, lambda name=name, data=data: self.stream(name, data)
            yield f"{name} mapped", lambda name=name, data=data: self.stream(name, mapped(data, 300, 200))
        for number in MADE:
            yield f"make {number}", lambda number=number: self.stream(f"make {number}", mapped(self.made(number), 160, 120))
        for name in sorted(dir(self)):
            if name.startswith(("fault_", "record_")):
                yield name, getattr(self, name)

    def made(self, number):
        script = self.gfx(["make", str(number)]).stdout
        return self.gfx(["encode"], script).stdout

    # Faults.

    def refused(self, client, kind, name, ask):
        try:
            ask(client)
        except live.NotDone as fault:
            same("the answer", (kind, name), (fault.kind, fault.name))
        else:
            raise Differs(f"{kind} {name} didn't come")

    def fault_versions(self):
        """Versions that are none of this client's, in bad numbers, and too late."""
        one = struct.pack("<IBB", V10, 0, 0)
        for body, name in ((b"", "Range"), (one[:-1], "Key"), (one + b"x", "Key"), (17 * one, "Range"),
                           (struct.pack("<IBB", 1, 0, 0), "Range"), (struct.pack("<IBB", V10, 2, 0), "Range"),
                           (struct.pack("<IBB", V10, 0, 1), "Range"), (struct.pack("<IBB", V81, 0, 7), "Range")):
            with live.LiveClient(self.program) as client:
                self.refused(client, "W", name, lambda c: c.must("O", "V", body))
                client.offer([(V81, True, True), (V8, False, False)])
                hello = next(channels(client.hello()))
                same("what is offered", struct.pack("<HIIIIII", 2, V81, 4, 3, V8, 4, 0), hello[8:])
                self.refused(client, "E", "", lambda c: c.offer([(V10, False, False)]))

    def fault_pictures(self):
        """Rectangles that don't lie in the output, and bodies of other lengths."""
        with live.LiveClient(self.program) as client:
            same("nothing", b"", client.picture((0, 0, 0, 0)))
            self.refused(client, "W", "RectOutside", lambda c: c.picture((0, 0, 1, 1)))
            self.refused(client, "W", "RectOutside", lambda c: c.picture((1, 0, 0, 0)))
            for kind, body in (("P", bytes(7)), ("P", bytes(9)), ("D", b"x"), ("C", b"x")):
                self.refused(client, "W", "Key", lambda c: c.must("O", kind, body))

    def fault_messages(self):
        """A message that is refused closes the client for others; what was drawn stays."""
        data = dict(recordings())["output.bin"]
        with live.LiveClient(self.program) as client:
            count = 0
            for message in channels(data):
                client.take(message)
                count += 1
            size = client.written()
            whole = client.picture((0, 0, size.width, size.height))
            for _ in range(2):
                answer, body = client.ask("M", b"\xe0\x04\x55\0\0\0\x08\0\0\0")
                same("the refusal", ("R", b"PduUnknown"), (answer, body[8:]))
            same("the picture", whole, client.picture((0, 0, size.width, size.height)))

    def fault_of_lengths(self):
        """A message without a byte is refused by its name."""
        with live.LiveClient(self.program) as client:
            answer, body = client.ask("M")
            same("the refusal", ("R", struct.pack("<Q", 1) + b"ChannelLength"), (answer, body))

    def fault_of_replies(self):
        """A reply that takes none of the kept bitmaps is passed over, wherever it stands; any other is refused."""
        with live.LiveClient(self.program) as client:
            for message in channels(dict(recordings())["fill.bin"]):
                same("nothing", ([], b""), tuple(client.take(EMPTY_REPLY)))
                client.take(message)
            answer, body = client.ask("M", EMPTY_REPLY[:6] + bytes((12, 0, 0, 0, 1, 0, 1, 0)))
            same("the refusal", ("R", b"PduUnknown"), (answer, body[8:]))

    # Records.

    def record_ends(self):
        """The end of the input at a record's border, and inside one; lengths that no record has."""
        ask, answer = live.FRONT.pack(ord("D"), 0), live.FRONT.pack(ord("D"), 8) + bytes(8)
        for data, wanted in ((b"", (0, b"", "")), (ask, (0, answer, "")), (ask + ask[:3], (1, answer, "input: cut")),
                             (live.FRONT.pack(ord("P"), 65537), (1, b"", "input: TooLong")),
                             (live.FRONT.pack(ord("M"), 67108865), (1, b"", "input: TooLong")),
                             (live.FRONT.pack(ord("x"), 0), (0, live.FRONT.pack(ord("U"), 0), ""))):
            done = subprocess.run([self.program], input=data, capture_output=True)
            same("a run", wanted, (done.returncode, done.stdout, done.stderr.decode().strip()))

    def record_of_the_stored_run(self):
        """The stored run's input is the one that is made here, and its output is what comes."""
        with open(os.path.join(STORED, "stdin"), "rb") as file:
            same("the stored input", stored(), file.read())
        with open(os.path.join(STORED, "stdout"), "rb") as file:
            wanted = file.read()
        done = subprocess.run([self.program], input=stored(), capture_output=True)
        same("the stored run", (0, wanted), (done.returncode, done.stdout))

    def record_without_memory(self):
        """The stored run with one allocation refused, for each number that it comes to: each command has its answer, or
        the program ends for want of memory; behind a message that is refused for it every other one is. It needs a C
        compiler."""
        if not refusing.can_refuse():
            self.counts["left out for want of a C compiler"] += 1
            return
        data, lost = stored(), struct.pack("<Q", 0) + b"Memory"
        kinds = [kind for kind, _ in records(data)]
        with tempfile.TemporaryDirectory() as folder:
            starved = refusing.Refusing(folder)
            refused = count = 0
            while refused <= count:
                done = starved.run([self.program], data, refused)
                count = max(count, starved.count())
                got = list(records(done.out))
                answers = [answer for kind, answer in zip(kinds, got) if kind == "M"]
                if ("R", lost) in answers:
                    first = answers.index(("R", lost))
                    same(f"messages behind allocation {refused}", {("R", lost)}, set(answers[first:]))
                    self.counts["sessions that end for want of memory"] += 1
                if (done.number, done.line) == (1, b"memory: none left\n"):
                    self.counts["ends for want of memory"] += 1
                else:
                    same(f"the end without allocation {refused}", (0, b"", len(kinds)),
                         (done.number, done.line, len(got)))
                refused += 1


def records(data):
    """The records in these bytes: their kinds, letters, and their bodies."""
    at = 0
    while at + live.FRONT.size <= len(data):
        kind, length = live.FRONT.unpack_from(data, at)
        at += live.FRONT.size
        yield chr(kind), data[at:at + length]
        at += length


def stored():
    """The commands of the stored run."""
    with open(os.path.join(EXAMPLES, "output.bin"), "rb") as file:
        messages = list(channels(file.read()))
    commands = [("V", struct.pack("<IBB", V10, 0, 0)), ("C", b""), ("M", EMPTY_REPLY)]
    commands += [("M", message) for message in messages]
    commands += [("D", b""), ("P", struct.pack("<4H", 0, 0, 4, 2)), ("D", b""), ("P", struct.pack("<4H", 9, 9, 8, 8)),
                 ("V", b""), ("z", b""), ("M", b"\xe0\x04\x55\0\0\0\x08\0\0\0")]
    return b"".join(live.FRONT.pack(ord(kind), len(body)) + body for kind, body in commands)


def main(arguments):
    if arguments == ["--stored"]:
        with open(os.path.join(STORED, "stdin"), "wb") as file:
            file.write(stored())
        return 0
    if len(arguments) < 2:
        print(__doc__, file=sys.stderr)
        return 2
    gfxpipe, program, *words = arguments
    cases, done, wrong = Cases(os.path.abspath(gfxpipe), os.path.abspath(program)), 0, 0
    for name, case in cases.cases():
        if words and not any(word in name for word in words):
            continue
        done += 1
        try:
            case()
        except (Differs, live.NotDone, live.Ended) as fault:
            wrong += 1
            print(f"{name}: {fault}")
    told = "".join(f", {count} {what}" for what, count in sorted(cases.counts.items()))
    print(f"{done} cases, {wrong} differences{told}")
    return 1 if wrong else 0


if __name__ == "__main__":
    sys.exit(main(sys.argv[1:]))
