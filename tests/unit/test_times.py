"""Times of frames, by their timestamps."""

import unittest

import places  # First, since it says where the tools are.
from gfxtools import times


def stamp(hour, minute, second, millisecond):
    return hour << 22 | minute << 16 | second << 10 | millisecond


class Times(unittest.TestCase):
    def test_a_timestamp_is_a_time_of_day(self):
        self.assertEqual(times.milliseconds(stamp(14, 31, 47, 970)), ((14 * 60 + 31) * 60 + 47) * 1000 + 970)

    def test_times_begin_with_the_first_frame(self):
        self.assertEqual(times.of_frames([stamp(1, 2, 3, 100), stamp(1, 2, 3, 350), stamp(1, 2, 5, 0)]), [0, 250, 1900])

    def test_midnight_is_passed(self):
        self.assertEqual(times.of_frames([stamp(23, 59, 59, 900), stamp(0, 0, 0, 100), stamp(0, 0, 1, 0)]),
                         [0, 200, 1100])

    def test_where_all_are_the_same_there_are_none(self):
        self.assertIsNone(times.of_frames([0, 0, 0]))
        self.assertIsNone(times.of_frames([stamp(1, 2, 3, 4)]))
        self.assertIsNone(times.of_frames([]))

    def test_a_clock_that_is_set_back_stands_still(self):
        self.assertEqual(times.of_frames([stamp(1, 0, 9, 0), stamp(1, 0, 2, 0), stamp(1, 0, 11, 0)]), [0, 0, 2000])

    def test_milliseconds_of_another_clock(self):
        # True times of 0, 300, 600, .. ms; the second changes where the milliseconds are at 650.
        sent = [300 * number for number in range(40)]
        told = [stamp(0, 0, at // 1000, (at + 650) % 1000) for at in sent]
        self.assertEqual(times.of_frames(told), sent)

    def test_the_rate(self):
        self.assertEqual(times.rate_of([0, 100, 500]), 4.0)


if __name__ == "__main__":
    unittest.main()
