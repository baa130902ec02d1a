"""Recordings, and what is refused in them."""

import io
import struct
import unittest

import places  # First, since it says where the tools are.
from gfxtools import judge, limits, progressive, recording


def message(kind, body):
    return struct.pack("<HHI", kind, 0, 8 + len(body)) + body


def refusals(*messages):
    """The names of the refusals of these messages, each in a channel message."""
    data = b"".join(map(recording.wrap, messages))
    return [one.refusal for one, _ in judge.judged(recording.messages(recording.channels(io.BytesIO(data))))]


def create(id, width, height, form=0x20):
    return message(0x09, struct.pack("<3HB", id, width, height, form))


def confirm(version, flags=0):
    return message(0x13, struct.pack("<3I", version, 4, flags))


def keep(id, slot, rectangle):
    return message(0x06, struct.pack("<HQH4H", id, 0, slot, *rectangle))


class Channels(unittest.TestCase):
    def test_what_is_wrapped_is_read(self):
        for size in 0, 1, recording.MOST_BLOCK, recording.MOST_BLOCK + 1, 3 * recording.MOST_BLOCK:
            data = recording.wrap(bytes(size))
            (channel,) = recording.channels(io.BytesIO(data))
            self.assertEqual((channel.payload, channel.refusal, channel.end), (bytes(size), None, len(data)))

    def test_where_a_recording_breaks_off(self):
        data = recording.wrap(b"abc")
        for cut, name, offset in ((data[:-1], "ChannelTruncated", 0), (data + b"\1", "ChannelTruncated", len(data)),
                                  (data + bytes(4), "ChannelLength", len(data))):
            with self.assertRaises(recording.Broken) as broken:
                list(recording.channels(io.BytesIO(cut)))
            self.assertEqual((broken.exception.refusal, broken.exception.offset), (name, offset))

    def test_blocks_that_are_refused(self):
        for data, name in ((b"\xe0", "SegmentSize"), (b"\xe0\x24", "BulkCompressed"), (b"\xe0\x05", "Descriptor"),
                           (b"\x16", "Descriptor"), (b"\xe1\1\0\2\0\0\0\2\0\0\0\4x", "SegmentSize")):
            self.assertEqual(recording.Channel(0, data).refusal, name)

    def test_the_place_of_a_byte(self):
        channel = next(recording.channels(io.BytesIO(recording.wrap(bytes(recording.MOST_BLOCK + 9)))))
        # Length, descriptor, count, size; length and header of a block.
        self.assertEqual(channel.place(0), 4 + 7 + 5)
        self.assertEqual(channel.place(recording.MOST_BLOCK), 4 + 7 + 5 + recording.MOST_BLOCK + 5)

    def test_a_script_is_told_from_a_recording(self):
        self.assertTrue(recording.is_script(places.example("fill.toml")))
        self.assertFalse(recording.is_script(places.example("fill.bin")))


class Judged(unittest.TestCase):
    def test_limits_of_surfaces(self):
        side = limits.MOST_SIDE
        self.assertEqual(refusals(create(1, side, side), create(2, 1, 1), create(1, 1, 1), create(3, side + 1, 1),
                                  create(3, 0, 1), message(0x0A, struct.pack("<H", 1)), create(2, 64, 65)),
                         [None, "SurfaceBudget", "SurfaceExists", "SurfaceSize", "SurfaceSize", None, None])

    def test_versions(self):
        self.assertEqual(refusals(*map(confirm, limits.VERSIONS.values()), confirm(0x000A0100)),
                         [None, None, None, "CapsVersion"])

    def test_the_small_cache_has_fewer_slots(self):
        few, many = limits.SMALL.slots, limits.LARGE.slots
        first = create(1, 4, 4), keep(1, few + 1, (0, 0, 1, 1)), keep(1, many + 1, (0, 0, 1, 1))
        self.assertEqual(refusals(*first, confirm(limits.VERSIONS["8.1"], 2), *first[1:]),
                         [None, None, "SlotRange", None, "SlotRange", "SlotRange"])

    def test_the_small_cache_has_fewer_bytes(self):
        # 2,048 by 2,048 are 16 MiB, as many as the small cache has room for.
        picture = create(1, 2048, 2048), keep(1, 1, (0, 0, 2048, 2048)), keep(1, 2, (0, 0, 1, 1))
        self.assertEqual(refusals(*picture), [None, None, None])
        self.assertEqual(refusals(confirm(limits.VERSIONS["8"], 2), *picture), [None, None, None, "CacheBudget"])

    def test_frames(self):
        start, end = message(0x0B, struct.pack("<II", 0, 5)), message(0x0C, struct.pack("<I", 5))
        self.assertEqual(refusals(end, start, start, end, end),
                         ["FrameMismatch", None, "FrameOpen", None, "FrameMismatch"])


class Limits(unittest.TestCase):
    def test_cells(self):
        self.assertEqual([limits.cells(*sides) for sides in ((1, 1), (64, 64), (65, 64), (8192, 8192))],
                         [1, 1, 2, limits.MOST_CELLS])

    def test_what_lies_in_a_picture(self):
        self.assertTrue(limits.lies_in((4, 2), (0, 0, 4, 2)))
        self.assertTrue(limits.lies_in((4, 2), (4, 2, 4, 2)))
        for rectangle in (0, 0, 5, 2), (0, 0, 4, 3), (3, 0, 2, 2), (0, 2, 4, 1):
            self.assertFalse(limits.lies_in((4, 2), rectangle))


class Progressive(unittest.TestCase):
    def test_blocks_that_are_refused(self):
        for data, name in ((struct.pack("<HI", progressive.FRAME_END, 7), "BlockLength"),
                           (struct.pack("<HI", progressive.FRAME_END, 7) + b"x", "BlockLength"),
                           (struct.pack("<HI", 1, 6), "BlockUnknown"), (b"\xc2", "BlockLength")):
            self.assertEqual(progressive.read(data).refusal, name)
        self.assertIsNone(progressive.read(struct.pack("<HI", progressive.FRAME_END, 6)).refusal)


if __name__ == "__main__":
    unittest.main()
