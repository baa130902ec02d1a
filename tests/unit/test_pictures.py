"""Dumps and PNGs."""

import io
import struct
import unittest
import zlib

import places  # First, since it says where the tools are.
from gfxtools import dump, entry, limits, png


def pictures(text):
    return dump.pictures(io.BytesIO(text))


def read_png(data):
    """The sides, the colour type and the scanlines of a PNG, whose checksums are looked at."""
    assert data[:8] == b"\x89PNG\r\n\x1a\n"
    at, packed = 8, b""
    while at < len(data):
        size, kind = struct.unpack_from(">I4s", data, at)
        body = data[at + 8:at + 8 + size]
        assert struct.unpack_from(">I", data, at + 8 + size)[0] == zlib.crc32(kind + body)
        if kind == b"IHDR":
            width, height, _, colours = struct.unpack_from(">IIBB", body)
        packed += body if kind == b"IDAT" else b""
        at += 12 + size
    return width, height, colours, zlib.decompress(packed)


class Dumps(unittest.TestCase):
    def test_pictures_are_read_or_passed_over(self):
        text = b"surface 1 2x1 xrgb\n000000ff010203ff\nsurface 2 1x1 argb\n01020304\noutput 1x1\n050607ff\n"
        self.assertEqual([one.title for one in pictures(text)],
                         ["surface 1 2x1 xrgb", "surface 2 1x1 argb", "output 1x1"])
        self.assertEqual([list(one.rows()) for one in pictures(text)],
                         [[b"\0\0\0\xff\1\2\3\xff"], [b"\1\2\3\4"], [b"\5\6\7\xff"]])
        self.assertEqual([one.has_alpha for one in pictures(text)], [False, True, False])

    def test_what_is_no_dump(self):
        for text, why in ((b"surface 1 2x1 xrgb\n000000ff\n", "8 digits where 16"), (b"nonsense\n", "no line of a dump"),
                          (b"surface 1 1x2 xrgb\n000000ff\n", "ends before row 1"),
                          (b"surface 1 1x1 xrgb\n00000xff\n", "other signs"), (b"output 70000x1\n", "more than 65,535"),
                          (b"output 1x1\n" + 99 * b"0", "more than 8 digits")):
            with self.assertRaisesRegex(entry.Wrong, why):
                for picture in pictures(text):
                    list(picture.rows())

    def test_one_is_found(self):
        text = b"surface 1 1x1 xrgb\n000000ff\nsurface 9 1x1 xrgb\n010203ff\n"
        self.assertEqual(list(dump.find(io.BytesIO(text), "9").rows()), [b"\1\2\3\xff"])
        with self.assertRaisesRegex(entry.Wrong, "no surface 3; it has surface 1, surface 9"):
            dump.find(io.BytesIO(text), "3")


class Pngs(unittest.TestCase):
    def test_colours_and_alpha(self):
        for has_alpha, wanted in ((False, (2, 1, 2, b"\0\3\2\1\6\5\4")), (True, (2, 1, 6, b"\0\3\2\1\xff\6\5\4\7"))):
            file = io.BytesIO()
            png.write(file, "x", (2, 1), [b"\1\2\3\xff\4\5\6\7"], has_alpha)
            self.assertEqual(read_png(file.getvalue()), wanted)

    def test_a_scale(self):
        file = io.BytesIO()
        png.write(file, "x", (1, 1), [b"\1\2\3\xff"], scale=2)
        self.assertEqual(read_png(file.getvalue()), (2, 2, 2, b"\0\3\2\1\3\2\1" * 2))

    def test_what_no_png_has(self):
        for sides, scale in ((0, 1), 1), ((1, 0), 1), ((2000, 1), 64):
            with self.assertRaises(entry.Wrong):
                png.write(io.BytesIO(), "x", sides, [], scale=scale)

    def test_a_limit_of_pixels(self):
        limits.check("x", (10, 10), 100)
        limits.check("x", (5, 5), 100, 2)
        for scale, most in (1, 99), (2, 399):
            with self.assertRaisesRegex(entry.Wrong, "--most-pixels"):
                limits.check("x", (10, 10), most, scale)


if __name__ == "__main__":
    unittest.main()
