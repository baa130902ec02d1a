#!/usr/bin/env python3
"""Feeds the server's end live_server with scripts, beside what `encode` makes of the same scripts.

    tests/feed.py PROGRAM LIVE_SERVER [WORD ..]
    tests/feed.py --stored

PROGRAM is gfxpipe. Each script of examples/, and those of `make 1` to `make 50`, are fed step by step in turns that
chance chooses, to a client that is scripted here and whose bytes chance cuts: what was sent has to show, by `render`,
what the stream of `encode` shows, and what is told of turns, of the steps that weren't sent and of acknowledgements
has to be what the rule of frames says. Fed frame by frame, the stream is that of `encode`, and digests are those of
`session`. Then come the clients and the faults, a case each. WORDs choose among the
cases, by a part of their names: `make`, an example's name, `fault`, `client`, `record`. There is a line for each
difference, and at the end one with the counts; the exit number is 1 where there was a difference. It is no part of
`rt ci`. With --stored the input of the program's stored run is written, crates/live_server/stdin.
"""

import collections
import os
import random
import re
import struct
import subprocess
import sys
import tempfile

sys.dont_write_bytecode = True

HERE = os.path.dirname(os.path.abspath(__file__))
EXAMPLES = os.path.join(HERE, "..", "examples")
STORED = os.path.join(HERE, "..", "crates", "live_server")
sys.path.insert(0, os.path.join(HERE, "..", "tools"))

from gfxtools import live, recording, scripted
from gfxtools.live import Turned
from tried import refusing

MADE = range(1, 51)
ADVERTISE, ACKNOWLEDGE, CONFIRM, END_FRAME, OFFER, QOE = 0x12, 0x0D, 0x13, 0x0C, 0x10, 0x16
SUSPENDS = 0xFFFFFFFF
# The reply that takes nothing of an offer.
NOTHING_TAKEN = bytes((0x11, 0, 0, 0, 10, 0, 0, 0, 0, 0))
PLAIN = [(scripted.VERSIONS["10"], scripted.AVC_DISABLED)]
MANY_STEPS = 100001
# A script with fills that later ones of their frame cover: a server's end leaves them out, and `encode` doesn't.
COVERED = "desktop.toml"
PARTS = ("runs", "bands", "subcodecs")


class Differs(Exception):
    """What came isn't what was wanted."""


def same(what, wanted, got):
    if wanted != got:
        raise Differs(f"{what}: wanted {told(wanted)}, got {told(got)}")


def told(value):
    return f"{value!r:.200}"


def opaque(text):
    """A script whose pictures have no alpha, as those that are fed."""
    pixels = re.compile(rb'(pixels = "|pattern = "solid", colour = ")([0-9a-fA-F]*)"')
    return pixels.sub(lambda found: found[1] + re.sub(rb"(......)..", rb"\1ff", found[2]) + b'"', text)


def named(calls):
    """The calls of a script whose paints all name a kind. Where one leaves it open, this server's end and `encode` choose
    by other rules, and a picture in passes shows other pixels."""
    return [(word, numbers, dict(words, kind="residual") if words.get("kind") == "auto" else words)
            for word, numbers, words in calls]


def ways(sent):
    """In which way each picture of a stream goes: by the name of its codec, and of a ClearCodec stream without a glyph
    by the first of its three parts that has bytes."""
    for message in recording.messages(recording.Channel(0, data) for data in channels(sent)):
        if message.name == "WireToSurface1":
            codec, data = recording.CODECS[message.get("codec")], message.get("data")
            sizes = struct.unpack_from("<3I", data, 2) if codec == "clear" else ()
            yield next((part for part, size in zip(PARTS, sizes) if size), codec)
        elif message.name == "WireToSurface2":
            yield recording.CODECS[message.get("codec")]


# ---- A client


def message(kind, body):
    """A message of the client, behind its length."""
    data = struct.pack("<HHI", kind, 0, 8 + len(body)) + body
    return struct.pack("<I", len(data)) + data


def advertise(offers):
    sets = b"".join(struct.pack("<III", version, 4, flags) for version, flags in offers)
    return message(ADVERTISE, struct.pack("<H", len(offers)) + sets)


def acknowledgement(frame, total, depth=0):
    return message(ACKNOWLEDGE, struct.pack("<III", depth, frame, total))


def offer_of(kept):
    """The offer of kept bitmaps, by their keys and lengths."""
    return message(OFFER, struct.pack("<H", len(kept)) + b"".join(struct.pack("<QI", *one) for one in kept))


def times_of(frame):
    return message(QOE, struct.pack("<IIHH", frame, 1000, 5, 2))


class Client:
    """What a client was sent, and what it has to say and hasn't said: its offers, and an acknowledgement for each frame
    that ended."""

    def __init__(self, offers):
        self.got, self.rest, self.words = b"", b"", advertise(offers)
        self.frames, self.confirmed = [], None

    def sent(self, data):
        """Takes bytes of the server, and answers how many frames ended."""
        self.got += data
        self.rest += data
        before = len(self.frames)
        while len(self.rest) >= 4 and len(self.rest) - 4 >= struct.unpack_from("<I", self.rest)[0]:
            end = 4 + struct.unpack_from("<I", self.rest)[0]
            self.draw(recording.Channel(0, self.rest[4:end]).payload)
            self.rest = self.rest[end:]
        return len(self.frames) - before

    def draw(self, payload):
        at = 0
        while at < len(payload):
            kind, _, size = struct.unpack_from("<HHI", payload, at)
            if kind == CONFIRM:
                version, _, flags = struct.unpack_from("<III", payload, at + 8)
                self.confirmed = version, flags
            if kind == END_FRAME:
                frame = struct.unpack_from("<I", payload, at + 8)[0]
                self.frames.append(frame)
                self.words += acknowledgement(frame, len(self.frames))
            at += size

    def says(self, count):
        said, self.words = self.words[:count], self.words[count:]
        return said


# ---- The rule of frames


class Rule:
    """What a server's end has to answer: frames are queued one a turn, and go together once there is room."""

    def __init__(self, window):
        self.window, self.confirmed = window, False
        self.open, self.left, self.pending = 0, collections.deque(), 0
        self.last, self.flying, self.steps = 0, collections.deque(), 0

    def pushed(self, word):
        self.open += 1
        if word == "frame":
            self.left.append(self.open)
            self.open = 0

    def behind(self):
        return self.open + sum(self.left) + self.pending

    def wants(self):
        return self.confirmed and len(self.flying) < self.window and not self.left and not self.pending

    def serves(self):
        """What a turn does, and whether a frame goes."""
        if not self.left and not self.pending and not self.flying:
            return Turned.ENDED, False
        moved = bool(self.left)
        if moved:
            count = self.left.popleft()
            self.pending += count
            self.last += count
        sends = self.confirmed and self.pending > 0 and len(self.flying) < self.window
        if sends:
            self.pending = 0
            self.flying.append(self.last)
        return Turned.MOVED if moved or sends else Turned.WAITING, sends


class Feeding:
    """A server's end that is fed, its client, and what it has to answer."""

    def __init__(self, program, settings, offers):
        self.server, self.client = live.LiveServer(program), Client(offers)
        self.rule = Rule(settings.get("window", 2))
        self.digests = settings.get("digests", False)
        if settings:
            self.server.settle(**settings)

    def push(self, call):
        word, numbers, words = call
        getattr(self.server, word)(*numbers, **words)
        self.rule.pushed(word)

    def serve(self):
        wanted, sends = self.rule.serves()
        served = self.server.serve()
        same("what a turn did", wanted, served.turned)
        same("how many frames went", int(sends), self.client.sent(served.data))

    def hear(self, count):
        """Hands on so many bytes of the client."""
        told = len(self.client.frames) - len(self.rule.flying)
        taken = self.server.take(self.client.says(count))
        self.client.sent(taken.data)
        self.rule.confirmed = self.client.confirmed is not None
        for shown in taken.shown:
            same("an acknowledged frame", (self.client.frames[told], self.rule.flying.popleft()), shown[:2])
            same("whether a digest is told", self.digests, shown.digest is not None)
            told += 1
        return taken.shown

    def asks(self):
        same("steps that weren't sent", self.rule.behind(), self.server.steps_behind())
        same("whether a frame is wanted", self.rule.wants(), self.server.wants_frame())

    def meet(self):
        """The client says what it offers, and is confirmed."""
        self.hear(len(self.client.words))

    def settle_all(self):
        """Turns, and all that the client has to say, until nothing is left to do."""
        while True:
            self.serve()
            self.hear(65536)
            if not (self.rule.left or self.rule.pending or self.rule.flying or self.client.words):
                return

    def end(self):
        """Ends the input. Answers all that the client was sent."""
        same("the end", (0, ""), self.server.close())
        same("bytes that are no whole message", b"", self.client.rest)
        return self.client.got


# ---- Scripts


class Fed:
    """The cases: gfxpipe, live_server, and what was counted."""

    def __init__(self, gfxpipe, program):
        self.gfxpipe, self.program = gfxpipe, program
        self.counts = collections.Counter()

    def run(self, words, data=b""):
        done = subprocess.run([self.gfxpipe, *words], input=data, capture_output=True)
        same(f"the end of {words[0]}", (0, b""), (done.returncode, done.stderr))
        return done.stdout

    def shows(self, script, sent):
        """What was sent shows what the script's stream shows."""
        stream = self.run(["encode"], script)
        for words in (["render"], ["render", "--output"]):
            if self.run(words, sent) != self.run(words, stream):
                raise Differs(f"{' '.join(words)} shows something else")

    def play(self, text, seed, faults=()):
        """Feeds a script in turns that chance chooses; and calls that have to be refused, where they are given."""
        chance, script = random.Random(seed), scripted.script_of(text.decode())
        digests = chance.random() < 0.1
        feeding = Feeding(self.program, dict(script.settings, digests=digests), script.offers)
        greeting = len(feeding.client.words)
        while not feeding.rule.confirmed:
            feeding.hear(chance.randint(1, greeting))
        calls, eager = collections.deque(named(script.calls)), chance.random()
        while calls:
            if chance.random() < 0.5:
                for _ in range(chance.choice((1, 1, 2, 5, 20))):
                    if calls:
                        feeding.push(calls.popleft())
            elif chance.random() < eager:
                feeding.serve()
            else:
                feeding.hear(chance.choice((1, 7, 23, 24, 48, 1000)))
            if chance.random() < 0.2:
                feeding.asks()
        feeding.settle_all()
        feeding.asks()
        sent = feeding.end()
        self.shows(text, sent)
        self.counts["steps"] += len(script.calls)
        self.counts["frames of scripts"] += sum(call[0] == "frame" for call in script.calls)
        self.counts["frames that were sent"] += len(feeding.client.frames)
        self.counts["bytes"] += len(sent)

    def play_straight(self, text, is_covered):
        """Feeds a script, and serves each frame at once: the stream is that of `encode` behind the confirmation, unless
        a step is covered; the digests are those of a session that takes no turns of its own."""
        script = scripted.script_of(text.decode())
        feeding = Feeding(self.program, dict(script.settings, window=64, digests=True), script.offers)
        feeding.meet()
        greeting, digests = len(feeding.client.got), []
        for call in named(script.calls):
            feeding.push(call)
            if call[0] == "frame":
                feeding.serve()
                digests += [shown.digest.hex() for shown in feeding.hear(65536)]
        sent = feeding.end()
        if not is_covered:
            same("the stream", self.run(["encode"], text), sent[greeting:])
        lines = self.run(["session"], re.sub(rb"(?s)\nturn = .*", b"\n", text)).decode().splitlines()
        # There the first two frames of a script wait for the client's offers, and go as one.
        same("how many frames of a session", max(1, len(digests) - 1), len(lines))
        same("digests", [line.split()[-1] for line in lines], digests[-len(lines):])
        self.counts["digests"] += len(digests)

    # Faults.

    def refused(self, server, kind, name, ask):
        try:
            ask(server)
        except live.NotDone as fault:
            same("a fault", (kind, name), (fault.kind, fault.name))
            self.counts[name or kind] += 1
            return
        raise Differs(f"{name or kind} is wanted, and it was done")

    def refuse_all(self, server):
        """Each fault of a step, on two surfaces, 1 of 64 by 64 and 2 of 8 by 8."""
        pixels = bytes(4 * 64 * 64)
        for name, ask in (
                ("Key", lambda s: s.must("O", "d", b"\1")),
                ("Key", lambda s: s.must("O", "F", b"\1")),
                ("Key", lambda s: s.must("O", "f", bytes(6), bytes(9))),
                ("Key", lambda s: s.must("O", "c", bytes(12), bytes(3))),
                ("Key", lambda s: s.must("O", "p", bytes(12))),
                ("Key", lambda s: s.must("S", "S", b"\1")),
                ("Key", lambda s: s.must("B", "B", b"\1")),
                ("Range", lambda s: s.surface(3, 0, 4)),
                ("Range", lambda s: s.surface(3, 8193, 4)),
                ("Range", lambda s: s.must("O", "s", struct.pack("<3HB", 3, 4, 4, 0x22))),
                ("Range", lambda s: s.reset(0, 4)),
                ("Range", lambda s: s.map(1, 32767, 0)),
                ("Range", lambda s: s.fill(1, b"abcd", [])),
                ("Range", lambda s: s.fill(1, b"abcd", [(0, 0, 1, 1)] * 1025)),
                ("Range", lambda s: s.copy(1, 1, (0, 0, 1, 1), [])),
                ("Range", lambda s: s.keep(1, 2**63, (0, 0, 1, 1))),
                ("Range", lambda s: s.must("O", "p", struct.pack("<5HBH", 1, 0, 0, 1, 1, 8, 0xFFFF), bytes(4))),
                ("Range", lambda s: s.paint(1, 0, 0, 0, 4, b"")),
                ("Range", lambda s: s.paint(1, 0, 0, 1, 1, bytes(4), "plain", 4000)),
                ("Pixels", lambda s: s.paint(1, 0, 0, 64, 64, pixels[:-1])),
                ("Pixels", lambda s: s.paint(1, 0, 0, 64, 64, pixels + b"\0")),
                ("SurfacePresent", lambda s: s.surface(1, 4, 4)),
                ("CellBudget", lambda s: s.surface(3, 8192, 8192)),
                ("SurfaceAbsent", lambda s: s.delete(3)),
                ("SurfaceAbsent", lambda s: s.map(3, 0, 0)),
                ("SurfaceAbsent", lambda s: s.fill(3, b"abcd", [(0, 0, 1, 1)])),
                ("SurfaceAbsent", lambda s: s.copy(1, 3, (0, 0, 1, 1), [(0, 0)])),
                ("SurfaceAbsent", lambda s: s.keep(3, 7, (0, 0, 1, 1))),
                ("SurfaceAbsent", lambda s: s.improve(3)),
                ("SurfaceAbsent", lambda s: s.paint(3, 0, 0, 64, 64, pixels)),
                ("Outside", lambda s: s.fill(1, b"abcd", [(0, 0, 1, 1), (0, 0, 65, 1)])),
                ("Outside", lambda s: s.copy(1, 2, (0, 0, 4, 4), [(0, 0), (5, 0)])),
                ("Outside", lambda s: s.keep(2, 7, (0, 0, 9, 1))),
                ("Outside", lambda s: s.paint(1, 1, 0, 64, 64, pixels)),
                ("KeyAbsent", lambda s: s.show(9, 1, [(0, 0)])),
                ("KeyAbsent", lambda s: s.forget(9)),
                ("Glyph", lambda s: s.paint(1, 0, 0, 64, 64, pixels, "plain", 5)),
                ("Glyph", lambda s: s.paint(1, 0, 0, 1, 1, bytes(4), "raw", 5)),
        ):
            self.refused(server, "W", name, ask)

    def fault_changes_nothing(self):
        """Good steps with faults between them, and without: the same bytes go."""
        sent = []
        for with_faults in (False, True):
            feeding = Feeding(self.program, {"window": 2}, PLAIN)
            feeding.meet()
            steps = [("surface", (1, 64, 64), {}), ("surface", (2, 8, 8), {})]
            picture = scripted.pixels_of({"width": 16, "height": 16, "pattern": "text"})
            steps += [("paint", (1, 3 * n, n, 16, 16, picture), {"kind": kind})
                      for n, kind in enumerate(live.KINDS)]
            steps += [("keep", (), {"id": 1, "key": 3, "rect": (0, 0, 8, 8)}), ("show", (3, 2, [(0, 0)]), {}),
                      ("fill", (1, b"\1\2\3\xff", [(9, 9, 12, 12)]), {}), ("improve", (1,), {})]
            for number, step in enumerate(steps):
                feeding.push(step)
                if with_faults and number:
                    self.refuse_all(feeding.server)
                    feeding.asks()
                if number % 3 == 1:
                    feeding.push(("frame", (), {}))
                    feeding.serve()
                    feeding.hear(65536)
            feeding.push(("frame", (), {}))
            feeding.settle_all()
            sent.append(feeding.end())
        same("the bytes with and without faults", sent[0], sent[1])

    def fault_bitmap_size(self):
        """A bitmap that alone is over the small client's budget."""
        feeding = Feeding(self.program, {}, [(scripted.VERSIONS["10"], scripted.SMALL)])
        feeding.meet()
        feeding.push(("surface", (1, 4096, 1025), {}))
        self.refused(feeding.server, "W", "BitmapSize", lambda s: s.keep(1, 1, (0, 0, 4096, 1025)))
        feeding.push(("keep", (1, 1, (0, 0, 4096, 1024)), {}))
        feeding.push(("frame", (), {}))
        feeding.settle_all()
        feeding.end()

    def client_of_an_idle_server(self):
        """A server's end with nothing else to do improves what shows, a level a frame, as `improve` and a frame would:
        not before it has a client, not with a step that was pushed or waits, not behind a full window, and not where
        nothing is left to improve."""
        pixels = random.Random(5).randbytes(4 * 64 * 64)
        levels, streams = 0, []
        for by_itself in (True, False):
            feeding = Feeding(self.program, {"window": 1}, PLAIN)
            idles = feeding.server.improve_idle
            same("an improvement of nothing", False, idles())
            feeding.meet()
            same("an improvement of nothing", False, idles())
            for call in (("surface", (1, 64, 64), {}), ("surface", (7, 64, 64), {}),
                         ("paint", (7, 0, 0, 64, 64, pixels, "progressive"), {}), ("frame", (), {})):
                feeding.push(call)
                same("an improvement before what was pushed", False, idles())
            feeding.serve()
            same("an improvement behind a full window", False, idles())
            feeding.hear(65536)
            while idles() if by_itself else levels:
                levels += 1 if by_itself else -1
                if by_itself:
                    feeding.rule.pushed("improve")
                    feeding.rule.pushed("frame")
                else:
                    feeding.push(("improve", (7,), {}))
                    feeding.push(("frame", (), {}))
                feeding.serve()
                feeding.asks()
                feeding.hear(65536)
            same("a turn behind the last improvement", (Turned.ENDED, b""), tuple(feeding.server.serve()))
            streams.append(feeding.end())
            self.counts["improvements"] += levels
        same("the streams", streams[1], streams[0])

    def client_of_many_steps(self):
        """More steps than a script has that is read: they go on, and numbers with them. A step that paints by a number is
        none that can be said."""
        feeding = Feeding(self.program, {}, PLAIN)
        feeding.meet()
        feeding.push(("surface", (1, 4, 4), {}))
        for _ in range(MANY_STEPS):
            feeding.push(("improve", (1,), {}))
        feeding.push(("frame", (), {}))
        feeding.asks()
        feeding.end()

    def fault_settings(self):
        """Settings that no server's end has, and such that come late."""
        with live.LiveServer(self.program) as server:
            for body in (b"", bytes((2, 1, 0)), bytes((2, 1, 0, 0, 1)), bytes((2, 1, 0, 0, 1, 0)) + bytes(14)):
                self.refused(server, "W", "Key", lambda s: s.must("O", "H", body))
            level = ([4] * 10,) * 3
            usual = dict(zip(("transform", "rounding", "y", "cb", "cr"), ("reduced", "nearest", *([6] * 10,) * 3)))
            for words in ({"window": 0}, {"window": 65},
                          {"setting": live.Setting(**usual, levels=())},
                          {"setting": live.Setting(**usual, levels=(level,) * 8)},
                          {"setting": live.Setting(**usual, levels=(([10] * 10,) * 3,))},
                          {"setting": live.Setting(**dict(usual, cb=[5] * 10), levels=(level,))}):
                self.refused(server, "W", "Range", lambda s: s.settle(**words))
            for place in range(1, 4):
                body = bytes(9 if at == place else (2, 1, 0, 0)[at] for at in range(4))
                self.refused(server, "W", "Range", lambda s: s.must("O", "H", body))
            whole = live.settings(setting=live.Setting(**usual, levels=(level,)))
            for place in (4, 5):
                body = whole[:place] + b"\2" + whole[place + 1:]
                self.refused(server, "W", "Range", lambda s: s.must("O", "H", body))
            server.settle(window=64, entropy="rlgr3", differences=True,
                          setting=live.Setting(**usual, levels=(level,) * 7))
            server.take(advertise(PLAIN)[:1])
            self.refused(server, "E", "", lambda s: s.settle(window=2))
            server.take(advertise(PLAIN)[1:])
            self.refused(server, "E", "", lambda s: s.settle(window=2))

    # Clients.

    def joined(self, first_waits):
        """Three frames that come while the window is full, or before the client is there, go as one."""
        feeding = Feeding(self.program, {"window": 1}, PLAIN)
        feeding.meet()
        feeding.push(("surface", (1, 8, 8), {}))
        feeding.push(("frame", (), {}))
        feeding.serve()
        for colour in (b"\1\1\1\xff", b"\2\2\2\xff", b"\3\3\3\xff"):
            feeding.push(("fill", (1, colour, [(0, 0, 8, 8)]), {}))
            feeding.push(("frame", (), {}))
            if first_waits:
                feeding.serve()
        for _ in range(3):
            feeding.serve()
        feeding.asks()
        before = len(feeding.client.got)
        feeding.hear(65536)
        feeding.serve()
        names = [one.name for one in recording.messages(
            recording.Channel(0, data) for data in channels(feeding.client.got[before:]))]
        same("the messages of the joined frame", ["StartFrame", "SolidFill", "EndFrame"], names)
        feeding.settle_all()
        feeding.end()

    def client_behind_full_window(self):
        self.joined(True)

    def client_behind_full_window_at_once(self):
        self.joined(False)

    def client_that_says_nothing(self):
        with live.LiveServer(self.program) as server:
            for ask in (lambda s: s.surface(1, 4, 4), lambda s: s.frame(), lambda s: s.serve(),
                        lambda s: s.paint(1, 0, 0, 1, 1, bytes(4))):
                self.refused(server, "E", "", ask)
            same("whether a frame is wanted", False, server.wants_frame())
            same("steps that weren't sent", 0, server.steps_behind())
            same("the end", (0, ""), server.close())

    def client_that_never_acknowledges(self):
        feeding = Feeding(self.program, {"window": 2}, PLAIN)
        feeding.meet()
        feeding.push(("surface", (1, 4, 4), {}))
        for _ in range(5):
            feeding.push(("frame", (), {}))
            feeding.serve()
            feeding.asks()
        feeding.serve()
        same("frames that were sent", 2, len(feeding.client.frames))
        feeding.end()

    def client_that_suspends(self):
        """Frames go unwatched, as many as come, and their acknowledgements are taken and not told; behind one at another
        depth frames are watched again. No acknowledgement of a frame that wasn't sent is taken."""
        with live.LiveServer(self.program) as server:
            server.settle(window=1)
            client = Client(PLAIN)
            client.sent(server.take(client.says(65536)).data)
            server.surface(1, 4, 4)

            def sends(count):
                server.frame()
                same("how many frames went", count, client.sent(server.serve().data))

            def says(frame, depth, shown):
                taken = server.take(acknowledgement(frame, frame, depth))
                same("what is answered", b"", taken.data)
                same("the frames that are told", shown, [one[0] for one in taken.shown])

            sends(1)
            sends(0)
            says(1, SUSPENDS, [1])
            for _ in range(5):
                sends(1)
            says(3, SUSPENDS, [])
            says(2, SUSPENDS, [])
            sends(1)
            says(3, 7, [])
            sends(1)
            sends(0)
            says(6, 0, [])
            sends(0)
            says(8, 0, [8])
            sends(1)
            same("the frames that were sent", list(range(1, 10)), client.frames)
            self.refused(server, "R", "AckUnknown", lambda s: s.take(acknowledgement(10, 10, SUSPENDS)))
            same("the end", (0, ""), server.close())

    def client_with_kept_bitmaps(self):
        """It offers them once it is confirmed, and is told that none is taken, however often; before that it is refused."""
        for kept in ([], [(5, 4)], [(key, 256) for key in range(5461)]):
            with live.LiveServer(self.program) as server:
                server.take(advertise(PLAIN))
                for _ in range(2):
                    data = server.take(offer_of(kept)).data
                    replies = [recording.Channel(0, one).payload for one in channels(data)]
                    same("the reply", [NOTHING_TAKEN], replies)
                self.refused(server, "R", "CountMismatch", lambda s: s.take(message(OFFER, b"\1\0")))
                same("the end", (0, ""), server.close())
            with live.LiveServer(self.program) as server:
                self.refused(server, "R", "PduUnknown", lambda s: s.take(offer_of(kept[:5])))
                same("the end", (0, ""), server.close())

    def client_that_tells_times(self):
        """How long its frames took is passed over, at any time; a frame is acknowledged by nothing else than before."""
        with live.LiveServer(self.program) as server:
            for words in (times_of(1)[:9], times_of(1)[9:]):
                same("what is answered", live.Taken([], b""), server.take(words))
            client = Client(PLAIN)
            client.sent(server.take(times_of(1) + client.says(65536)).data)
            server.surface(1, 4, 4)
            server.frame()
            same("how many frames went", 1, client.sent(server.serve().data))
            same("what is answered", live.Taken([], b""), server.take(times_of(1)))
            same("the frames that are told", [1], [one[0] for one in server.take(client.says(65536)).shown])
            self.refused(server, "R", "CountMismatch", lambda s: s.take(message(QOE, bytes(11))))
            same("the end", (0, ""), server.close())

    def client_that_stops(self):
        """A client whose words end inside a message, before it is known and behind that."""
        for count in (1, 4, 11, len(advertise(PLAIN)) - 1):
            with live.LiveServer(self.program) as server:
                same("what is answered", live.Taken([], b""), server.take(advertise(PLAIN)[:count]))
                self.refused(server, "E", "", lambda s: s.serve())
                same("the end", (0, ""), server.close())
        feeding = Feeding(self.program, {}, PLAIN)
        feeding.meet()
        feeding.push(("surface", (1, 4, 4), {}))
        feeding.push(("frame", (), {}))
        feeding.serve()
        feeding.hear(9)
        feeding.serve()
        feeding.end()

    def client_that_lies(self):
        """A wrong acknowledgement, and what else is no client's word: nothing more is taken."""
        for words, name in ((acknowledgement(9, 1), "AckUnknown"), (message(0x12, b"\1"), "CountMismatch"),
                            (message(0x77, b""), "PduUnknown"), (bytes(4), "ChannelLength"),
                            (acknowledgement(2, 1, SUSPENDS), "AckUnknown"),
                            (acknowledgement(1, 1) * 2, "AckUnknown")):
            feeding = Feeding(self.program, {}, PLAIN)
            feeding.meet()
            feeding.push(("surface", (1, 4, 4), {}))
            feeding.push(("frame", (), {}))
            feeding.serve()
            self.refused(feeding.server, "R", name, lambda s: s.take(words))
            for said in (acknowledgement(1, 1), b""):
                self.refused(feeding.server, "R", "Closed", lambda s: s.take(said))
            feeding.server.frame()
            feeding.server.serve()
            feeding.end()

    def client_that_begins_wrongly(self):
        cases = [(acknowledgement(1, 1), "AckUnknown"), (advertise([(7, 0)]), "CapsVersion"),
                 (bytes(4), "ChannelLength"), (advertise([]), "CapsVersion"), (message(0x77, b""), "PduUnknown"),
                 (advertise([(scripted.VERSIONS["10"], scripted.THIN)]), "CapsVersion")]
        for words, name in cases:
            with live.LiveServer(self.program) as server:
                for byte in words[:-1]:
                    try:
                        server.take(bytes([byte]))
                    except live.NotDone as fault:
                        same("the refusal", ("R", name), (fault.kind, fault.name))
                        self.counts[name] += 1
                        break
                else:
                    self.refused(server, "R", name, lambda s: s.take(words[-1:]))
                self.refused(server, "R", "Closed", lambda s: s.take(advertise(PLAIN)))
                self.refused(server, "E", "", lambda s: s.frame())
                self.refused(server, "E", "", lambda s: s.settle())
                same("the end", (0, ""), server.close())

    def client_with_a_long_word(self):
        """65,536 bytes are held before the first message is whole, and no more."""
        long = struct.pack("<I", 70000)
        with live.LiveServer(self.program) as server:
            server.take(long + bytes(65532))
            self.refused(server, "R", "TooLong", lambda s: s.take(b"\0"))
            self.refused(server, "R", "Closed", lambda s: s.take(b""))

    def client_in_a_hurry(self):
        """Its offers and more in one piece."""
        with live.LiveServer(self.program) as server:
            self.refused(server, "R", "AckUnknown", lambda s: s.take(advertise(PLAIN) + acknowledgement(1, 1)))
        with live.LiveServer(self.program) as server:
            taken = server.take(advertise(PLAIN) + advertise(PLAIN))
            same("two confirmations", 2, len(list(channels(taken.data))))

    def client_of_open_kinds(self):
        """Pictures whose kind is left open go as what costs least, and in passes where that is dear."""
        feeding = Feeding(self.program, {}, PLAIN)
        feeding.meet()
        feeding.push(("surface", (1, 128, 64), {}))
        wanted = []
        for way, width, height, picture in (
                ("uncompressed", 1, 1, {"pattern": "ramp"}),
                ("runs", 128, 64, {"pattern": "solid", "colour": "112233ff"}),
                ("subcodecs", 128, 64, {"pattern": "desktop"}),
                ("bands", 128, 64, {"pattern": "text"}),
                ("progressive", 128, 64, {"pattern": "noise", "seed": 1})):
            pixels = scripted.pixels_of(dict(picture, width=width, height=height))
            feeding.push(("paint", (1, 0, 0, width, height, pixels), {}))
            feeding.push(("frame", (), {}))
            feeding.settle_all()
            wanted.append(way)
        same("how pictures go", wanted, list(ways(feeding.end())))

    def client_of_each_kind(self):
        """Thin and small clients are served as what they are, and by the version that is best for them."""
        picture = scripted.pixels_of({"width": 80, "height": 72, "pattern": "ramp"})
        small, thin, rest = scripted.SMALL, scripted.THIN, scripted.AVC_DISABLED
        v8, v81, v10 = (scripted.VERSIONS[name] for name in ("8", "8.1", "10"))
        for offers, confirmed in (([(v8, thin)], (v8, thin)), ([(v81, thin | small)], (v81, thin | small)),
                                  ([(v8, 0), (v81, small)], (v81, small)), ([(v10, small | rest)], (v10, small | rest)),
                                  ([(v8, 0), (v10, thin)], (v8, 0)), ([(0x000A0701, 0), (v10, rest)], (v10, rest))):
            feeding = Feeding(self.program, {}, offers)
            feeding.meet()
            same("what is confirmed", confirmed, feeding.client.confirmed)
            feeding.push(("surface", (1, 96, 80), {}))
            feeding.push(("paint", (1, 2, 3, 80, 72, picture), {"kind": "progressive"}))
            feeding.push(("frame", (), {}))
            feeding.push(("improve", (1,), {}))
            feeding.push(("frame", (), {}))
            feeding.settle_all()
            is_small, is_thin = bool(confirmed[1] & (small | thin)), bool(confirmed[1] & thin)
            codecs = {one.get("codec") for one in recording.messages(
                recording.Channel(0, data) for data in channels(feeding.client.got)) if one.get("codec") is not None}
            same("the codec of a progressive paint", {0x3} if is_thin else {0x9}, codecs)
            feeding.push(("surface", (2, 4096, 1025), {}))
            if is_small:
                self.refused(feeding.server, "W", "BitmapSize", lambda s: s.keep(2, 1, (0, 0, 4096, 1025)))
            else:
                feeding.push(("keep", (2, 1, (0, 0, 4096, 1025)), {}))
            self.run(["render"], feeding.end())

    # Records.

    def raw(self, data):
        done = subprocess.run([self.program], input=data, capture_output=True)
        return done.returncode, done.stdout, done.stderr.decode().strip()

    def record_ends(self):
        """The end of the input at a record's border, and inside one; lengths that no record has."""
        ask, unknown = live.FRONT.pack(ord("?"), 0), live.FRONT.pack(ord("z"), 3) + b"abc"
        no, strange = live.FRONT.pack(ord("-"), 0), live.FRONT.pack(ord("U"), 0)
        same("nothing", (0, b"", ""), self.raw(b""))
        same("a question", (0, no, ""), self.raw(ask))
        same("an unknown record", (0, strange + no, ""), self.raw(unknown + ask))
        for cut in (ask[:1], ask[:4], unknown[:-1], unknown[:5]):
            same("a record that is cut", (1, no, "input: cut"), self.raw(ask + cut))
        for kind, most in (("p", live.MOST_PAINT), ("M", live.MOST_BODY), ("z", live.MOST_BODY)):
            for length in (most + 1, 2**32 - 1):
                same("a record that is too long", (1, no, "input: TooLong"),
                     self.raw(ask + live.FRONT.pack(ord(kind), length) + bytes(10)))
        for kind in (byte for byte in range(256) if chr(byte) not in "MHsdrmfckwgiFpSI?B"):
            same("an unknown kind", (0, strange, ""), self.raw(live.FRONT.pack(kind, 0)))

    def record_of_chance(self):
        """Known kinds with bodies of chance: each has its answer, and what was sent is a stream without a refusal."""
        for seed in range(300):
            chance, client = random.Random(seed), Client(PLAIN)
            asked = [("M", client.says(1000)), ("s", struct.pack("<3HB", 1, 64, 64, 0x21)), ("F", b"")]
            for _ in range(60):
                kind = chance.choice("srmfffcckwgipppFFSSSI?BdH" if chance.random() < 0.98 else "M")
                size = chance.choice((0, 1, 2, 6, 7, 8, 10, 14, 16, 17, 18, 29, 45, 100))
                body = bytes(chance.choice((0, 0, 0, 0, 1, 1, 2, 8, 32, 33, 255)) for _ in range(size))
                if kind == "p" and chance.random() < 0.8:
                    width, height = chance.randint(1, 9), chance.randint(1, 9)
                    body = live.paint_front(1, chance.randint(0, 60), chance.randint(0, 60), width, height,
                                            chance.choice(live.KINDS), chance.choice((None, None, 7)))
                    body += chance.randbytes(4 * width * height)
                asked.append((kind, body))
            data = b"".join(live.FRONT.pack(ord(kind), len(body)) + body for kind, body in asked)
            number, out, line = self.raw(data)
            got = list(records(out))
            same(f"the end of {seed}", (0, "", len(asked)), (number, line, len(got)))
            for kind, body in got:
                client.sent(live.shown_of(body).data if kind == "A" else body[1:] if kind == "S" else b"")
            self.run(["render"], client.got)
            self.counts["steps of chance that were done"] += sum(kind == "O" for kind, _ in got)
            self.counts["and that were refused"] += sum(kind == "W" for kind, _ in got)

    def record_of_the_longest_paint(self):
        """The largest body of a paint is read; a picture of 8,388,608 pixels is taken, and no larger one."""
        feeding = Feeding(self.program, {}, PLAIN)
        feeding.meet()
        feeding.push(("surface", (1, 8192, 1024), {}))
        server = feeding.server
        self.refused(server, "W", "Range", lambda s: s.must(
            "O", "p", live.paint_front(1, 0, 0, 8192, 2048), bytes(live.MOST_PAINT - 13)))
        feeding.push(("paint", (1, 0, 0, 8192, 1024, bytes(4 * 8192 * 1024)), {"kind": "residual"}))
        feeding.push(("frame", (), {}))
        feeding.settle_all()
        feeding.end()

    def record_of_the_stored_run(self):
        """The stored run's input is the one that is made here, and its output is what comes."""
        with open(os.path.join(STORED, "stdin"), "rb") as file:
            same("the stored input", b"".join(stored()), file.read())
        with open(os.path.join(STORED, "stdout"), "rb") as file:
            same("the stored run", (0, file.read(), ""), self.raw(b"".join(stored())))

    def record_without_memory(self):
        """The stored run with one allocation refused, for each number that it comes to: the first answer that differs
        says so, each command has its answer, or the program ends for want of memory. It needs a C compiler."""
        if not refusing.can_refuse():
            self.counts["left out for want of a C compiler"] += 1
            return
        data, whole = b"".join(stored()), list(records(self.raw(b"".join(stored()))[1]))
        with tempfile.TemporaryDirectory() as folder:
            starved = refusing.Refusing(folder)
            refused = count = 0
            while refused <= count:
                done = starved.run([self.program], data, refused)
                count = max(count, starved.count())
                got = list(records(done.out))
                other = next((one for one, due in zip(got, whole) if one != due), None)
                if other not in (None, ("N", b""), ("R", b"Memory")):
                    raise Differs(f"allocation {refused} is refused, and the first other answer is {other}")
                if (done.number, done.line) == (1, b"memory: none left\n"):
                    self.counts["ends for want of memory"] += 1
                else:
                    same(f"the end without allocation {refused}", (0, b"", len(whole)),
                         (done.number, done.line, len(got)))
                    self.counts["answers for want of memory" if other else "needless allocations"] += 1
                refused += 1

    # All.

    def cases(self):
        for name in sorted(os.listdir(EXAMPLES)):
            if not name.endswith(".toml"):
                continue
            with open(os.path.join(EXAMPLES, name), "rb") as file:
                text = opaque(file.read())
            for seed in range(20):
                yield f"{name} {seed}", lambda text=text, seed=seed: self.play(text, seed)
            yield f"{name} straight", lambda text=text, name=name: self.play_straight(text, name == COVERED)
        for number in MADE:
            yield f"make {number}", lambda number=number: self.play(self.run(["make", str(number)]), number)
        for name in sorted(dir(self)):
            if name.startswith(("fault_", "client_", "record_")):
                yield name, getattr(self, name)


def records(data):
    """The answers of an output."""
    while data:
        kind, length = live.FRONT.unpack_from(data)
        yield chr(kind), data[live.FRONT.size:live.FRONT.size + length]
        data = data[live.FRONT.size + length:]


def channels(data):
    """The channel messages of bytes."""
    while data:
        end = 4 + struct.unpack_from("<I", data)[0]
        yield data[4:end]
        data = data[end:]


def stored():
    """The input of the stored run: a client of version 10 with a window of one frame, a surface, a fill and a paint;
    two frames that wait and go as one; a step outside, a record that isn't known; a paint in passes that is improved
    while nothing else is to do; and a client that lies."""
    hello = advertise(PLAIN)
    picture = scripted.pixels_of({"width": 2, "height": 2, "pattern": "desktop"})
    for kind, *parts in (
            ("?",), ("F",), ("H", live.settings(window=1, digests=True)), ("M", hello[:4]), ("M", hello[4:]), ("?",),
            ("s", struct.pack("<3HB", 1, 4, 2, live.FORMATS["xrgb"])),
            ("f", struct.pack("<H", 1), b"\0\0\xff\xff", live.rects_of([(0, 0, 4, 2)])), ("B",), ("S",), ("F",), ("S",),
            ("f", struct.pack("<H", 1), b"\0\xff\0\xff", live.rects_of([(0, 0, 2, 2)])), ("F",), ("S",),
            ("p", live.paint_front(1, 0, 0, 2, 2, "raw"), picture), ("F",), ("S",), ("?",), ("B",),
            ("M", acknowledgement(1, 1)), ("S",),
            ("f", struct.pack("<H", 1), b"\0\xff\0\xff", live.rects_of([(0, 0, 5, 2)])), ("d", b"\1"), ("z", b"abc"),
            ("M", acknowledgement(2, 2)), ("?",), ("S",),
            ("p", live.paint_front(1, 1, 0, 2, 2, "progressive"), picture), ("F",), ("S",), ("I",),
            ("M", acknowledgement(3, 3)), ("I",), ("S",), ("M", acknowledgement(4, 4)), ("I",), ("S",),
            ("M", acknowledgement(9, 5)), ("M", b"")):
        yield live.FRONT.pack(ord(kind), sum(map(len, parts))) + b"".join(parts)


def main(words):
    if words == ["--stored"]:
        sys.stdout.buffer.write(b"".join(stored()))
        return 0
    if len(words) < 2:
        sys.exit(__doc__)
    for place in words[:2]:
        if not os.path.isfile(place) or not os.access(place, os.X_OK):
            print(f"there is no program {place}; rt run leaves the built one as out/NAME in its crate's folder",
                  file=sys.stderr)
            return 2
    fed, differences = Fed(*map(os.path.abspath, words[:2])), 0
    for name, case in fed.cases():
        if words[2:] and not any(word in name for word in words[2:]):
            continue
        fed.counts["cases"] += 1
        try:
            case()
        except (Differs, live.NotDone, live.Ended) as error:
            differences += 1
            print(f"{name}: {error}")
    print(", ".join(f"{name}: {count:,}" for name, count in fed.counts.items()) + f"; differences: {differences}")
    return 1 if differences else 0


if __name__ == "__main__":
    sys.exit(main(sys.argv[1:]))
