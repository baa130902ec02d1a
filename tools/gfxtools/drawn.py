"""Frames of a recording or a script, drawn by the program or by live_client: which there are, and the picture of
each."""

import argparse
import collections
import contextlib
import os
import sys
import typing

from . import dump, entry, judge, limits, onepass, program, recording, refusals, times
from .dump import OUTPUT

# From so many pictures on it is said that live_client would draw them faster.
MANY = 10


class Frame:
    """A frame's end: the frame's number, counted from 1, where it ends, the timestamp of its begin, and the pictures
    there are then that may be drawn, each with its sides: the one that is named, or the output and a surface that is
    alone. A surface's name is its id as text, that of the output the word itself."""

    __slots__ = "number", "begin", "end", "payload_end", "stamp", "sides"

    def __init__(self, number: int, message: recording.Message, stamp: int, state: judge.Judge,
                 named: typing.Optional[str]) -> None:
        self.number, self.stamp = number, stamp
        self.begin, self.end = message.channel.offset, message.channel.end
        self.payload_end = message.at + message.size
        self.sides = {}
        if named is None and len(state.surfaces) == 1 or named not in (None, OUTPUT):
            self.sides = {str(id): sides for id, sides in state.surfaces.items() if named in (None, str(id))}
        if named in (None, OUTPUT) and state.output != (0, 0):
            self.sides[OUTPUT] = state.output

    def cut(self, data: bytes) -> typing.List[typing.Union[bytes, memoryview]]:
        """The recording up to this frame's end, in pieces."""
        view = memoryview(data)
        payload = recording.Channel(self.begin, data[self.begin + 4:self.end]).payload
        if self.payload_end == len(payload):
            return [view[:self.end]]
        return [view[:self.begin], recording.wrap(payload[:self.payload_end])]


class Found:
    """The frames of a recording that end before the message of this number, or all; and of which surfaces there are
    some at their ends, which of these have alpha, and whether the output ever shows any."""

    def __init__(self, data: bytes, last: typing.Optional[int], named: typing.Optional[str]) -> None:
        self.frames, self.names, self.with_alpha, self.shows = [], set(), set(), False
        stamp = 0
        try:
            for message, state in judge.judged(recording.messages(recording.channels(entry.as_file(data)))):
                if last is not None and message.number >= last:
                    break
                if message.name == "StartFrame":
                    stamp = message.get("timestamp") or 0
                if message.name == "EndFrame" and not message.refusal:
                    self.add(Frame(len(self.frames) + 1, message, stamp, state, named), state)
        except recording.Broken:
            pass

    def add(self, frame: Frame, state: judge.Judge) -> None:
        self.frames.append(frame)
        self.names.update(map(str, state.surfaces))
        self.with_alpha.update(str(id) for id, format in state.formats.items() if recording.FORMATS[format] == "argb")
        self.shows |= bool(state.mapped) and state.output != (0, 0)


def check_words(parser: argparse.ArgumentParser, given: argparse.Namespace) -> None:
    """What is wrong with these words together."""
    if given.last and given.last < given.first:
        parser.error(f"--last {given.last} is before --first {given.first}")


def which_word(word: str) -> str:
    """The word behind --of."""
    if word != OUTPUT and not word.isdecimal():
        raise argparse.ArgumentTypeError("WHICH is the id of a surface, or the word output")
    return word if word == OUTPUT else str(int(word))


def which_of(found: Found, name: str) -> str:
    """What is drawn of the frames, where it isn't named."""
    if found.shows:
        return OUTPUT
    names = sorted(found.names, key=int)
    if len(names) != 1:
        raise entry.Wrong(f"{name}: the frames have {dump.named(names)}: say by --of which is drawn")
    return names[0]


def chosen(frames: typing.List[Frame], which: str, given: argparse.Namespace, name: str) -> typing.List[Frame]:
    """The frames that are drawn."""
    has = f"{name} has {entry.counted(len(frames), 'frame')}"
    if given.first > len(frames):
        raise entry.Wrong(f"{has}, and --first is {given.first}")
    wanted = [frame for frame in frames if given.first <= frame.number <= (given.last or len(frames))
              and (frame.number - given.first) % given.every == 0]
    drawn = [frame for frame in wanted if which in frame.sides]
    if not drawn:
        told = "it hasn't" if len(wanted) == len(frames) == 1 else f"none of {len(wanted):,} has"
        raise entry.Wrong(f"{has}, and {told} {dump.named([which])}")
    return drawn


Picture = typing.Union[dump.Picture, onepass.Screen]


class Drawing:
    """What is drawn of an input: the programs, of which live_client may not be there, the recording, its frames, those
    that are drawn, and of what; and the number and the name of the first refusal, or None."""

    def __init__(self, given: argparse.Namespace) -> None:
        self.name, self.jobs = entry.name_of(given.recording), given.jobs
        self.gfxpipe, self.by_runs = program.Program(given.program), given.runs
        self.live_client = None if given.runs else onepass.place_of(given.live_client)
        self.data = entry.whole_of(given.recording, limits.MOST_STREAM)
        if recording.is_script(self.data):
            self.data = self.gfxpipe.encoded(self.data, self.name)
        self.refused = self.gfxpipe.first_refusal(self.data, self.name)
        found = Found(self.data, self.refused and self.refused[0], given.of)
        self.all = found.frames
        if not self.all:
            told = f": message {self.refused[0]} is refused: {refusals.told(self.refused[1])}" if self.refused else ""
            raise entry.Wrong(f"{self.name}: no frame ends{told}")
        self.which = given.of or which_of(found, self.name)
        self.has_alpha = self.which in found.with_alpha
        self.frames = chosen(self.all, self.which, given, self.name)

    def check(self, most: int, scale: int = 1) -> None:
        """Refuses to draw where a picture has more pixels than these."""
        for frame in self.frames:
            limits.check(f"{self.name}: frame {frame.number}: {dump.named([self.which])}", frame.sides[self.which],
                         most, scale)

    def times(self) -> typing.Optional[typing.List[int]]:
        """When the frames that are drawn came, in milliseconds from the first of them; None where the recording
        doesn't say."""
        all_times = times.of_frames([frame.stamp for frame in self.all])
        if all_times is None:
            return None
        drawn = [all_times[frame.number - 1] for frame in self.frames]
        return [time - drawn[0] for time in drawn] if drawn[-1] > drawn[0] else None

    @property
    def most_pixels(self) -> int:
        """How many pixels the largest picture has."""
        return max(width * height for width, height in (frame.sides[self.which] for frame in self.frames))

    def why_runs(self) -> str:
        """Why each picture takes a run of the program, or nothing where live_client draws all in one pass. Its pictures
        have no alpha, and are kept whole. A picture that is alone takes a run in any way."""
        if self.has_alpha:
            return "live_client draws no surface with alpha"
        if self.most_pixels > limits.MOST_PIXELS:
            return f"live_client draws no more than {limits.MOST_PIXELS:,} pixels"
        if self.live_client is None:
            return "with live_client it would be one pass (docs/RUNNING.md)"
        return "there is one" if len(self.frames) == 1 else ""

    def pictures(self) -> typing.ContextManager[typing.Iterator[typing.Tuple[Frame, Picture]]]:
        """Each frame that is drawn, in order, with its picture, whose rows are to be read before the next one comes.
        What draws ends with this."""
        return contextlib.closing(self.runs() if self.why_runs() else self.passed())

    def passed(self) -> typing.Iterator[typing.Tuple[Frame, onepass.Screen]]:
        """The pictures in one pass over the recording, by live_client."""
        by_number = {frame.number: frame for frame in self.frames}
        screens = onepass.Pass(self.live_client, self.data, self.which, self.name).screens(by_number)
        with contextlib.closing(screens):
            for number, screen in screens:
                yield by_number[number], screen

    def runs(self) -> typing.Iterator[typing.Tuple[Frame, dump.Picture]]:
        """The pictures by a run of the program each, which draws so many frames ahead as there are jobs."""
        if len(self.frames) >= MANY and not self.by_runs:
            print(f"{self.name}: each of {len(self.frames):,} pictures takes a run of the program; {self.why_runs()}",
                  file=sys.stderr)
        started = collections.deque()
        try:
            for at, frame in enumerate(self.frames):
                entry.check_signals()
                started.extend(map(self.start, self.frames[at + len(started):at + self.jobs]))
                yield frame, dump.find(started[0], self.which, started[0].name)
                started[0].finish()
                started.popleft().stop()
        finally:
            for running in started:
                running.stop()

    def start(self, frame: Frame) -> program.Running:
        words = ["render", "--output"] if self.which == OUTPUT else ["render"]
        return self.gfxpipe.start(words, frame.cut(self.data), f"{self.name}: frame {frame.number}")

    def end(self) -> None:
        """Says that frames were drawn up to a refusal alone."""
        if self.refused:
            number, name = self.refused
            raise entry.Wrong(f"{self.name}: message {number}: {refusals.told(name)}: {refusals.why(name)}; "
                              f"{entry.counted(len(self.all), 'frame')} before it")


def add_words(parser: argparse.ArgumentParser) -> None:
    """The words that say what is drawn."""
    parser.add_argument("--of", metavar="WHICH", type=which_word,
                        help="draws the surface of this id, or the word output")
    parser.add_argument("--every", metavar="N", type=entry.number_of(1), default=1, help="draws every Nth frame")
    parser.add_argument("--first", metavar="N", type=entry.number_of(1), default=1, help="begins with this frame")
    parser.add_argument("--last", metavar="N", type=entry.number_of(1), help="ends with this frame")
    parser.add_argument("--jobs", metavar="N", type=entry.number_of(1, 256), default=len(os.sched_getaffinity(0)),
                        help="how many pictures are made at a time, as many as there are processors if it isn't said")
    limits.add_word(parser)
    parser.add_argument("--program", metavar="PROGRAM", help=program.HELP)
    parser.add_argument("--live-client", metavar="PROGRAM", help=onepass.HELP)
    parser.add_argument("--runs", action="store_true",
                        help="draws each picture by a run of the program, and not by live_client")
