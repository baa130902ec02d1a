"""What is handed on to live_client, and what is kept of its pictures."""

import struct
import unittest

import places  # First, since it says where the tools are.
from gfxtools import dump, entry, live, onepass, recording


def payloads(messages):
    """The payloads of channel messages without their lengths."""
    return [recording.Channel(0, data).payload for data in messages]


def start(frame):
    return onepass.message(0x0B, struct.pack("<II", 0, frame))


def end(frame):
    return onepass.message(onepass.END_FRAME, struct.pack("<I", frame))


def create(id, width, height):
    return onepass.message(onepass.CREATE, struct.pack("<3HB", id, width, height, 0x20))


class Handed(unittest.TestCase):
    def test_a_message_that_ends_a_frame_is_handed_on_as_it_is(self):
        data = places.example("passes.bin")
        got = list(onepass.handed_on(data, onepass.AsItIs()))
        self.assertEqual(b"".join(struct.pack("<I", len(channel)) + channel for channel, _ in got), data)
        self.assertEqual(sum(ends for _, ends in got), 3)

    def test_frames_that_share_a_channel_message_are_parted(self):
        data = recording.wrap(start(1) + end(1) + start(2) + end(2) + start(3))
        channels, ends = zip(*onepass.handed_on(data, onepass.AsItIs()))
        self.assertEqual(payloads(channels), [start(1) + end(1), start(2) + end(2), start(3)])
        self.assertEqual(ends, (True, True, False))

    def test_a_surface_takes_the_outputs_place(self):
        map_other = onepass.message(onepass.MAP, struct.pack("<HHII", 8, 0, 3, 3))
        data = recording.wrap(onepass.reset(640, 480) + create(8, 4, 4) + create(7, 30, 20) + map_other
                              + onepass.reset(800, 600) + start(1) + end(1))
        channels, _ = zip(*onepass.handed_on(data, onepass.SurfaceAsOutput(7)))
        mapped = onepass.message(onepass.MAP, struct.pack("<HHII", 7, 0, 0, 0))
        self.assertEqual(b"".join(payloads(channels)), onepass.reset(1, 1) + create(8, 4, 4) + create(7, 30, 20)
                         + onepass.reset(30, 20) + mapped + onepass.reset(30, 20) + start(1) + end(1))

    def test_a_reset_has_its_length(self):
        self.assertEqual(len(onepass.reset(1, 1)), 340)


class Client:
    """Stands in for live_client: an output of 5 by 4, each pixel its column, its row and what changes."""

    def __init__(self):
        self.rects, self.asked, self.value = [], [], 0

    def written(self):
        return live.Written(5, 4, self.rects)

    def picture(self, rect):
        self.asked.append(rect)
        left, top, right, bottom = rect
        return b"".join(bytes((x, y, self.value, 255)) for y in range(top, bottom) for x in range(left, right))


class Screens(unittest.TestCase):
    def setUp(self):
        self.client = Client()
        self.screen = onepass.Screen(self.client, dump.OUTPUT, "x")

    def update(self, rects, value):
        self.client.rects, self.client.value, self.client.asked = rects, value, []
        self.screen.update()
        return [row[2::4] for row in self.screen.rows()]

    def test_rectangles_are_put_in_their_place(self):
        self.assertEqual(self.update([(0, 0, 5, 4)], 1), [b"\1\1\1\1\1"] * 4)
        self.assertEqual(self.update([(1, 1, 3, 3), (4, 3, 5, 4), (2, 2, 2, 4)], 2),
                         [b"\1\1\1\1\1", b"\1\2\2\1\1", b"\1\2\2\1\1", b"\1\1\1\1\2"])
        self.assertEqual(self.screen.sides, (5, 4))
        self.assertEqual(self.screen.title, "output 5x4")

    def test_the_whole_is_asked_for_once(self):
        self.update([(0, 0, 5, 3), (0, 1, 5, 4)], 1)
        self.assertEqual(self.client.asked, [(0, 0, 5, 4)])

    def test_large_rectangles_come_in_strips(self):
        strip, onepass.STRIP = onepass.STRIP, 25
        try:
            self.assertEqual(self.update([(0, 0, 5, 4)], 1), [b"\1\1\1\1\1"] * 4)
            self.assertEqual(len(self.client.asked), 4)
        finally:
            onepass.STRIP = strip


    def test_a_picture_of_another_length_is_a_fault(self):
        self.client.picture = lambda rect: b"\0" * 9
        with self.assertRaisesRegex(entry.Wrong, "has 9 bytes, where 80 are due"):
            self.update([(0, 0, 5, 4)], 1)


class Faults(unittest.TestCase):
    def test_why_live_client_goes_on_no_more(self):
        self.assertEqual(onepass.told(live.NotDone("R", "\1\0\0\0\0\0\0\0RectOutside")),
                         "live_client refuses a message: RectOutside")
        self.assertEqual(onepass.told(live.NotDone("N")), "live_client has no memory left")
        self.assertEqual(onepass.told(live.Ended(1, "input: cut")), "live_client ends with 1: input: cut")


if __name__ == "__main__":
    unittest.main()
