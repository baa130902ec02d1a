"""When frames came, by the timestamps of their StartFrame ([MS-RDPEGFX] 2.2.2.11)."""

import typing

SECOND, DAY = 1000, 86400000  # milliseconds

# How many timestamps say whether a clock's seconds begin elsewhere, and how finely that is looked for.
MANY, STEP = 2000, 10


def milliseconds(stamp: int) -> int:
    """The time of day that a timestamp says: hours, minutes, seconds and milliseconds of 10, 6, 6 and 10 bits."""
    return ((stamp >> 22) * 3600 + (stamp >> 16 & 63) * 60 + (stamp >> 10 & 63)) * SECOND + (stamp & 1023)


def moved(time: int, begin: int) -> int:
    """A time whose second begins where its milliseconds are `begin`."""
    part = time % SECOND
    return time - part + (part - begin) % SECOND


def begin_of_seconds(times: typing.Sequence[int]) -> int:
    """Where a clock's milliseconds are when its next second begins, 0 to 990, with the fewest steps backwards. It is 0
    with a sound clock. gnome-remote-desktop takes its seconds and its milliseconds of two clocks, so that the
    milliseconds fall within a second and the next second begins somewhere between."""
    times = times[:MANY]

    def falls(begin):
        each = [moved(time, begin) for time in times]
        return sum(later < earlier for earlier, later in zip(each, each[1:]))

    return min(range(0, SECOND, STEP), key=falls)


def of_frames(stamps: typing.Sequence[int]) -> typing.Optional[typing.List[int]]:
    """When each frame came, in milliseconds from the first one, never falling; None where the timestamps don't say,
    as where all are the same. A clock that falls by more than half a day has passed midnight; where it runs backwards
    otherwise it stands still until it is there again."""
    clock = [milliseconds(stamp) for stamp in stamps]
    begin, days, times = begin_of_seconds(clock), 0, []
    for earlier, time in zip([clock[0], *clock] if clock else (), clock):
        days += DAY if earlier - time > DAY // 2 else 0
        time = moved(time, begin) + days
        times.append(max(time, times[-1]) if times else time)
    if not times or times[-1] == times[0]:
        return None
    return [time - times[0] for time in times]


def rate_of(times: typing.Sequence[int]) -> float:
    """How many frames a second there are between the first and the last of these times, which differ."""
    return (len(times) - 1) * SECOND / (times[-1] - times[0])
