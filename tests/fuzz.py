#!/usr/bin/env python3
"""Runs the built programs on inputs that chance has changed, by what the formats are made of.

    tests/fuzz.py [--from SEED] [--count COUNT] [--minutes MINUTES] [--beside OTHER] [--keep FOLDER]
                  [--megabytes MB] [--seconds SECONDS] PROGRAM [LIVE_SERVER LIVE_CLIENT [SORT ..]]

PROGRAM is gfxpipe, crates/gfxpipe_main/out/gfxpipe_main where `rt run` has built it; without LIVE_SERVER and LIVE_CLIENT
the last two sorts are left out. SORTs are

    messages    the server's messages: numbers, lengths, counts, what stands where
    clear       ClearCodec: glyphs, runs, bands, subcodecs
    passes      RemoteFX Progressive: blocks, regions, tiles and their data
    video       RemoteFX video, likewise
    segments    channel messages, their blocks and lengths
    foreign     streams of ClearCodec as other servers may send them, as they are or changed
    fragments   recordings of fragments
    scripts     texts
    kept        kept files, and the scripts behind them
    client      what is said to live_server, a client's bytes among it
    server      what is said to live_client, a server's bytes among it

For each seed from SEED on, 1 where none is said, there is a case of each sort, which the same programs make again:
COUNT seeds, 100 where neither it nor MINUTES is said; with --minutes until that time is over. Inputs are the examples,
the recordings of tests/refusals and those of tests/tried/inputs.py, with some changes.

A run has to end by itself within SECONDS, 20, or ten times as long when it is tried again, in MB, 600, of addresses,
with an exit number and a line that docs/RUNNING.md or docs/LIVE.md has. `render`, `render --output` and `audit` of a
stream have to end alike; where a message is refused, the stream up to it has to be accepted, with the same output. What
`join` gives has to be cut and joined to itself; what `encode` gives has to be accepted; digests of a session have to be
equal; what live_server sends has to be accepted, and live_client has to refuse and to show what the program does. With
--beside OTHER has to give the same output, line and exit number, a program that has the commands of the program. What
wants more memory than there is, or writes more than 40 MB, is counted and not compared.

There is a line for each difference, and a table, also where it is interrupted: cases, how many were accepted, and what
the others came to. With
--keep each input that differs goes to FOLDER, as it is and as small as it could be made. The exit number is 1 where
there was a difference, and 2 for wrong words.
"""
import argparse
import collections
import hashlib
import os
import random
import re
import resource
import struct
import sys
import time
import typing

sys.dont_write_bytecode = True
sys.path.insert(0, os.path.dirname(os.path.realpath(__file__)))

from tried import changes, grammar, inputs, parts, runs

import foreign
from gfxtools import recording, refusals

STREAM_SORTS = ("messages", "clear", "passes", "video", "segments", "foreign")
SORTS = (*STREAM_SORTS, "fragments", "scripts", "kept", "client", "server")
EXAMPLES = ("fill.bin", "outside.bin", "output.bin", "passes.bin", "pictures.bin", "text.bin", "video.bin")
MOST_WRITTEN = 40 << 20
MOST_INPUT = 1 << 18
PATIENCE = 10
# How many names of refusals a row of the table tells.
MOST_NAMES = 6
NAMES = {name for name, _ in refusals.NAMES.values()}
FAULTS = set(refusals.SCRIPT_FAULTS)
# The lines that a command may end with, by its exit number.
LINES = {
    0: re.compile(rb""),
    1: re.compile(rb"(message \d+: |kept: )(?P<number>\d+) (?P<name>\w+)\n|script: (step \d+: )?(?P<fault>\w+)\n"
                  rb"|input: (?P<long>TooLong)\n"),
    4: re.compile(rb"output: write failed\n"),
    5: re.compile(rb"memory: none left\n"),
}
SHORT_OF = {4: "much output", 5: "no memory"}
LIVE_LINES = {0: (b"",), 1: (b"input: cut\n", b"input: TooLong\n", b"memory: none left\n", b"output: write failed\n")}
SERVER_ANSWERS, CLIENT_ANSWERS = "OASBY-WFNREU", "OADPWRNEU"
OWN_REFUSALS = {"AckUnknown", "TooLong", "Memory", "Closed"}


class Differs(Exception):
    """A run that isn't what it has to be."""


def must(holds, why):
    if not holds:
        raise Differs(why)


# ---- Runs


class Limits(typing.NamedTuple):
    seconds: float
    megabytes: int


class Programs:
    """The programs, within their limits."""

    def __init__(self, places, other, limits):
        self.places, self.other, self.limits = places, other, limits
        self.runner = runs.Runner()
        self.counts = collections.Counter()

    def run(self, words, data):
        self.counts["runs"] += 1
        ran = self.runner.run(words, data, self.limits.seconds)
        if ran.number is None:
            self.counts["slow"] += 1
            ran = self.runner.run(words, data, PATIENCE * self.limits.seconds)
        must(ran.number is not None, f"{told_words(words)} doesn't end")
        must(ran.number >= 0, f"{told_words(words)} is ended by the signal {-ran.number}")
        return ran

    def command(self, words, data):
        """A command of the program, which has to end as the pages say."""
        ran = self.run([self.places[0], *words], data)
        line = LINES.get(ran.number)
        found = line and line.fullmatch(ran.line)
        must(found, f"{words[0]} ends with {ran.number}, {ran.line!r:.80}")
        if found.re is LINES[1]:
            must_be_named(found, ran.line)
        return ran

    def beside(self, words, data, ran):
        """The same of the other program, where there is one, has to be the same."""
        if not self.other or ran.number in SHORT_OF:
            return
        other = self.runner.run([self.other, *words], data, PATIENCE * self.limits.seconds)
        if other.number not in (0, 1):
            self.counts["not compared"] += 1
            return
        self.counts["compared"] += 1
        must(other[::2] == ran[::2], f"{words[0]} ends with {ran.number}, {ran.line!r:.80}, and the other program with "
                                     f"{other.number}, {other.line!r:.80}")
        must(other.out == ran.out, f"{words[0]} writes {at_difference(ran.out, other.out)} beside the other program")

    def end(self, which, data):
        """An end of a living session, which has to answer each command."""
        ran = self.run([self.places[which]], data)
        must(ran.line in LIVE_LINES.get(ran.number, ()), f"it ends with {ran.number}, {ran.line!r:.80}")
        answers = list(inputs.read_records(ran.out))
        must(inputs.records_of(answers) == ran.out or ran.line == b"output: write failed\n", "its last answer isn't whole")
        asked = list(inputs.read_records(data))
        must(len(answers) <= len(asked), f"{len(answers)} answers to {len(asked)} commands")
        if ran.number == 0 or ran.line == b"input: cut\n":
            must(len(answers) == len(asked), f"{len(answers)} answers to {len(asked)} commands")
        return ran, asked, answers


def told_words(words):
    return " ".join([os.path.basename(words[0]), *words[1:]])


def must_be_named(found, line):
    """A refusal has its own name and number."""
    if found["name"]:
        name, number = found["name"].decode(), int(found["number"])
        must(number in refusals.NAMES and refusals.NAMES[number][0] == name, f"there is no refusal {line!r:.80}")
    if found["fault"]:
        must(found["fault"].decode() in FAULTS, f"there is no fault {line!r:.80}")


def at_difference(ours, theirs):
    same = next((at for at, (a, b) in enumerate(zip(ours, theirs)) if a != b), min(len(ours), len(theirs)))
    return f"{len(ours)} bytes, {len(theirs)} wanted, the first other one at {same}"


def outcome(ran):
    """What a run came to, in a word."""
    if ran.number != 1:
        return "accepted" if ran.number == 0 else SHORT_OF[ran.number]
    found = LINES[1].fullmatch(ran.line)
    return (found["name"] or found["fault"] or found["long"]).decode()


# ---- Streams


def refused_at(ran):
    """The number of the message that is refused, or None."""
    found = re.match(rb"message (\d+): ", ran.line)
    return int(found[1]) if found else None


def up_to(data, number):
    """The stream up to a message, by its number from 1; None where that doesn't stand in the stream."""
    at, passed = 0, 0
    for message in inputs.channels(data):
        channel = recording.Channel(at, message) if message else None
        is_read = channel is not None and not channel.refusal
        found, inner = 0, 0
        payload = channel.payload if is_read else b""
        while inner + 8 <= len(payload) and passed + found + 1 < number:
            inner += struct.unpack_from("<I", payload, inner + 4)[0]
            found += 1
        if passed + found + 1 == number and (inner < len(payload) or not is_read):
            return data[:at] + (recording.wrap(payload[:inner]) if inner else b"")
        passed, at = passed + found, at + 4 + len(message)
    return None


def stream_case(programs, data, chance):
    audit = programs.command(["audit"], data)
    programs.beside(["audit"], data, audit)
    render = programs.command(["render"], data)
    programs.beside(["render"], data, render)
    same_end("render", render, audit)
    number = refused_at(audit)
    if audit.number in (0, 1):
        lines, end, _ = (b"\n" + audit.out).partition(b"\nslots ")
        lines = lines.splitlines()[1:]
        must(end and [line.split()[0] for line in lines] == [b"%d" % count for count in range(1, len(lines) + 1)],
             "the lines of audit aren't numbered, or its end isn't there")
        must(number is None or len(lines) == number - 1, f"audit tells {len(lines)} messages, and refuses {number}")
    if chance.random() < 0.25:
        output = programs.command(["render", "--output"], data)
        programs.beside(["render", "--output"], data, output)
        same_end("render --output", output, audit)
    if number and chance.random() < 0.25:
        front_case(programs, data, number, render, audit)
    if chance.random() < 0.1:
        fragment = programs.command(["fragment"], data)
        programs.beside(["fragment"], data, fragment)
        joined_case(programs, fragment.out, data if fragment.number == 0 else None)
    return outcome(audit)


def same_end(name, ran, audit):
    if not {ran.number, audit.number} & set(SHORT_OF):
        must(ran[::2] == audit[::2], f"{name} ends with {ran.line!r:.80}, audit with {audit.line!r:.80}")


def front_case(programs, data, number, render, audit):
    """What is refused changes nothing: the stream up to it is accepted, and leaves the same."""
    front = up_to(data, number)
    if front is None:
        return
    for words, whole in ((["render"], render), (["audit"], audit)):
        ran = programs.command(words, front)
        if not {ran.number, whole.number} & set(SHORT_OF):
            must((ran.number, ran.out) == (0, whole.out), f"{words[0]} of the front ends with {ran.number}, {ran.line!r:.80}, "
                                                          f"{at_difference(ran.out, whole.out)}")
    programs.counts["fronts"] += 1


def joined_case(programs, fragments, stream):
    """What is joined is the stream that was cut, or, of other fragments, one that is cut and joined to itself."""
    joined = programs.command(["join"], fragments)
    if stream is not None:
        must((joined.number, joined.out) == (0, stream), "what is joined isn't what was cut")
    elif joined.number in (0, 1):
        again = programs.command(["fragment"], joined.out)
        must(again.number == 0, f"what is joined isn't cut: {again.line!r:.80}")
        joined_case(programs, again.out, joined.out)
    return joined


def fragments_case(programs, data, chance):
    joined = joined_case(programs, data, None)
    programs.beside(["join"], data, joined)
    return outcome(joined)


# ---- Scripts


def script_case(programs, data, chance):
    encoded = programs.command(["encode"], data)
    programs.beside(["encode"], data, encoded)
    if encoded.number == 0:
        render = programs.command(["render"], encoded.out)
        must(render.number in (0, *SHORT_OF), f"what encode writes is refused: {render.line!r:.80}")
    else:
        must(encoded.number in SHORT_OF or not encoded.out, "a script that is refused has a stream")
    if encoded.number == 0 or chance.random() < 0.2:
        session = programs.command(["session"], data)
        programs.beside(["session"], data, session)
        if not {session.number, encoded.number} & set(SHORT_OF):
            must(session[::2] == encoded[::2], f"session ends with {session.line!r:.80}, encode with {encoded.line!r:.80}")
        equal_digests(session.out)
    return outcome(encoded)


def equal_digests(lines):
    for line in lines.splitlines():
        words = line.split()
        must(words[:1] == [b"ack"] and words[5] == words[7], f"digests of {line!r:.40} differ")


def kept_case(programs, data, chance):
    ran = programs.command(["import"], data)
    programs.beside(["import"], data, ran)
    equal_digests(ran.out)
    return outcome(ran)


# ---- Living sessions


def shown_bytes(kind, body):
    """The bytes for the client in an answer of the server's end."""
    if kind == "S":
        return body[1:]
    if kind != "A":
        return b""
    at = 4
    for _ in range(struct.unpack_from("<I", body)[0]):
        at += 9 + 32 * body[at + 8]
    return body[at:]


def without_replies(sent):
    """What was sent without the replies that take none of the kept bitmaps, which `render` doesn't know."""
    return b"".join(struct.pack("<I", len(message)) + message for message in inputs.channels(sent)
                    if message != inputs.NOTHING_TAKEN)


def client_case(programs, data, chance):
    ran, asked, answers = programs.end(1, data)
    closed, sent = None, b""
    for (kind, body), (answer, says) in zip(asked, answers):
        must(answer in SERVER_ANSWERS, f"an answer {answer!r}")
        if answer == "W":
            must(says.decode("ascii", "replace") in FAULTS, f"there is no fault {says!r:.40}")
        if answer == "R":
            must(says.decode("ascii", "replace") in NAMES | OWN_REFUSALS, f"there is no refusal {says!r:.40}")
        if kind == "M":
            must(closed is None or (answer, says) == ("R", b"Closed"), f"behind R a client's bytes are {answer} {says!r:.40}")
            closed = says if closed is None and answer == "R" else closed
        sent += shown_bytes(answer, says)
    render = programs.command(["render"], without_replies(sent))
    must(render.number in (0, *SHORT_OF), f"what live_server sends is refused: {render.line!r:.80}")
    return closed.decode() if closed else "no memory" if ran.line == LIVE_LINES[1][2] else \
        "accepted" if ran.number == 0 else ran.line.decode().strip()


def server_case(programs, data, chance):
    ran, asked, answers = programs.end(2, data)
    refused = None
    for (kind, _), answer in zip(asked, answers):
        must(answer[0] in CLIENT_ANSWERS, f"an answer {answer!r:.40}")
        if kind == "M":
            must(refused is None or answer == refused, f"behind {refused!r:.40} a message is {answer!r:.40}")
            refused = answer if refused is None and answer[0] == "R" else refused
    told = [body for kind, body in asked if kind == "M"]
    lost = any(answer in (("N", b""), ("R", bytes(8) + b"Memory")) for answer in answers)
    if ran.number == 0 and all(told) and not lost and not any(is_reply(body) for body in told):
        beside_program(programs, told, refused, asked)
    return refused[1][8:].decode() if refused else "accepted" if ran.number == 0 else ran.line.decode().strip()


def is_reply(body):
    """Whether a message may be a reply to an offer of kept bitmaps, which the client alone passes over."""
    return b"\x11\0" in body


def beside_program(programs, told, refused, asked):
    """What the client refuses, and what it shows, is what the program does with the same messages."""
    stream = b"".join(struct.pack("<I", len(body)) + body for body in told)
    output = programs.command(["render", "--output"], stream)
    if output.number in SHORT_OF:
        return
    line = f"message {struct.unpack_from('<Q', refused[1])[0]}: " if refused else ""
    name = refused[1][8:].decode() if refused else ""
    must(output.line.decode().startswith(line) and output.line.decode().split()[-1:] == name.split(),
         f"live_client says {line}{name or 'nothing'}, render {output.line!r:.80}")
    head, *rows = output.out.decode().split()[1:]
    width, height = map(int, head.split("x"))
    rect = struct.pack("<4H", 0, 0, width, height)
    _, _, answers = programs.end(2, inputs.records_of([*asked, ("P", rect)]))
    if answers[-1] != ("N", b""):
        must(answers[-1] == ("P", bytes.fromhex("".join(rows))), "live_client shows another output than render")
    programs.counts["outputs beside render"] += 1


# ---- Inputs


class Corpus:
    """What is changed: inputs as parts, by sort, and scripts."""

    def __init__(self, programs):
        self.programs = programs
        self.pool = changes.Pool()
        texts = [text for text in inputs.SCRIPTS.values()]
        self.scripts = texts + [inputs.example(name).decode() for name in ("fill.toml", "joined.toml", "output.toml")]
        self.lines = sorted({line for text in self.scripts for line in text.split("\n") if line.strip()})
        streams = [self.output(["encode"], text) for text in texts] + [make() for make in inputs.STREAMS.values()]
        streams += [inputs.example(name) for name in EXAMPLES] + [data for _, data in inputs.refusals()]
        self.streams = [grammar.stream(data) for data in streams]
        self.trees = {
            "fragments": [grammar.fragments(self.programs.command(["fragment"], data).out) for data in streams[:20]],
            "kept": [grammar.import_input(inputs.small_import()), grammar.import_input(inputs.example("import.input"))],
            "client": [grammar.server_records(inputs.records_of(inputs.server_commands(text))) for text in texts],
            "server": [grammar.client_records(inputs.records_of(inputs.client_commands(data))) for data in streams
                       if len(data) < 6000],
        }
        for tree in [*self.streams, *sum(self.trees.values(), [])]:
            self.pool.add(tree)
        for sort in STREAM_SORTS:
            self.trees[sort] = self.streams
        self.trees = {sort: [(tree, changes.targets(tree, sort)) for tree in trees] for sort, trees in self.trees.items()}
        self.trees = {sort: [(tree, found) for tree, found in trees if found] for sort, trees in self.trees.items()}

    def output(self, words, text):
        return self.programs.command(words, text.encode()).out

    def input(self, sort, seed):
        """The input of a case."""
        chance = random.Random(f"{sort} {seed}")
        if sort == "scripts":
            return changes.ScriptChanges(chance, self.lines).changed(chance.choice(self.scripts)), chance
        made = changes.Changes(chance, self.pool)
        if sort == "foreign":
            data = foreign.Server(chance.randrange(1 << 30), (3, 6, 12)).whole()
            if chance.random() < 0.3:
                return data, chance
            changed, tags = made.whole(grammar.stream(data), "clear")
        else:
            tree, found = chance.choice(self.trees[sort])
            changed, tags = made.whole(tree, sort, found)
        if sort not in ("fragments", "kept", "client") and "sequence" not in tags and chance.random() < 0.8:
            changed = changes.in_sequence(changed)
        data = parts.written(changed)
        if sort == "kept" and chance.random() < 0.4:
            data = self.other_script(made, changed, chance)
        return (made.cut(data) if chance.random() < 0.06 else data)[:MOST_INPUT], chance

    def other_script(self, made, tree, chance):
        """The input of `import` with a changed script."""
        data = parts.written(tree)
        at = data.find(b"step = [")
        text = changes.ScriptChanges(chance, self.lines).changed(inputs.IMPORTED.decode())
        return data[:at] + text if at >= 0 else data


CASES = {**{sort: stream_case for sort in STREAM_SORTS}, "fragments": fragments_case, "scripts": script_case,
         "kept": kept_case, "client": client_case, "server": server_case}


# ---- All


class Fuzzing:
    def __init__(self, programs, keep):
        self.programs, self.keep = programs, keep
        self.corpus = Corpus(programs)
        self.came = {sort: collections.Counter() for sort in SORTS}
        self.differences = 0

    def case(self, sort, seed):
        data, chance = self.corpus.input(sort, seed)
        state = chance.getstate()
        try:
            self.came[sort][CASES[sort](self.programs, data, chance)] += 1
        except Differs as why:
            self.differences += 1
            self.came[sort]["DIFFERS"] += 1
            print(f"DIFFERS {sort} {seed}: {why} (input of {len(data)} bytes, {digest(data)})", flush=True)
            if self.keep:
                self.kept(f"{sort}-{seed}", data, lambda smaller: self.differs(sort, smaller, state))

    def differs(self, sort, data, state):
        """Whether an input differs, too."""
        chance = random.Random()
        chance.setstate(state)
        try:
            CASES[sort](self.programs, data, chance)
        except Differs:
            return True
        return False

    def kept(self, name, data, differs):
        os.makedirs(self.keep, exist_ok=True)
        for end, some in ((".input", data), (".small", smaller(data, differs))):
            with open(os.path.join(self.keep, name + end), "wb") as file:
                file.write(some)

    def table(self):
        rows = [("sort", "cases", "accepted", "refused", "others")]
        total = collections.Counter()
        for sort, came in self.came.items():
            if came:
                rows.append((sort, *row_of(came)))
                total += came
        return [*rows, ("all", *row_of(total))]

    def told(self, first, last):
        """The table, and a line of counts."""
        rows = self.table()
        widths = [max(len(row[column]) for row in rows) for column in range(4)]
        for name, *numbers, others in rows:
            yield "  ".join([name.ljust(widths[0]), *(one.rjust(width) for one, width in zip(numbers, widths[1:])), others])
        counts = ", ".join(f"{count:,} {what}" for what, count in self.programs.counts.items())
        yield f"seeds {first} to {last}, {counts}; {self.differences} differences"


def row_of(came):
    named = collections.Counter({what: count for what, count in came.items() if what not in ("accepted", "DIFFERS")
                                 and what not in SHORT_OF.values()})
    others = [f"{what} {count:,}" for what, count in named.most_common(MOST_NAMES)]
    if len(named) > MOST_NAMES:
        others.append(f"{len(named) - MOST_NAMES} more names")
    others += [f"{what} {came[what]:,}" for what in (*SHORT_OF.values(), "DIFFERS") if came[what]]
    return f"{sum(came.values()):,}", f"{came['accepted']:,}", f"{sum(named.values()):,}", ", ".join(others)


def digest(data):
    return hashlib.sha256(data).hexdigest()[:16]


def smaller(data: bytes, differs: typing.Callable[[bytes], bool], tries: int = 300) -> bytes:
    """The input with what can be left out left out, in so many tries."""
    size = max(1, len(data) // 2)
    while size and tries:
        at = 0
        while at < len(data) and tries:
            tries -= 1
            less = data[:at] + data[at + size:]
            if differs(less):
                data = less
            else:
                at += size
        size //= 2
    return data


# ---- The words


def positive(word):
    number = int(word)
    if number < 1:
        raise ValueError
    return number


def words(arguments):
    parser = argparse.ArgumentParser(prog="fuzz.py", description=__doc__, allow_abbrev=False,
                                     formatter_class=argparse.RawDescriptionHelpFormatter,
                                     usage="tests/fuzz.py [--from SEED] [--count COUNT] [--minutes MINUTES] [--beside OTHER] "
                                           "[--keep FOLDER] [--megabytes MB] [--seconds SECONDS] PROGRAM "
                                           "[LIVE_SERVER LIVE_CLIENT [SORT ..]]")
    parser.add_argument("--from", dest="first", type=int, default=1, metavar="SEED", help="the first seed")
    parser.add_argument("--count", type=positive, help="how many seeds")
    parser.add_argument("--minutes", type=float, help="for how long")
    parser.add_argument("--beside", metavar="OTHER", help="a program that has to answer the same")
    parser.add_argument("--keep", metavar="FOLDER", help="where inputs that differ go")
    parser.add_argument("--megabytes", type=positive, default=600, metavar="MB", help="how many addresses a run has")
    parser.add_argument("--seconds", type=positive, default=20, help="how long a run may take")
    parser.add_argument("programs", nargs="+", metavar="PROGRAM", help="gfxpipe, live_server, live_client; then sorts")
    given = parser.parse_args(arguments)
    split = next((at for at, word in enumerate(given.programs) if word in SORTS), len(given.programs))
    given.programs, given.sorts = given.programs[:split], given.programs[split:]
    if len(given.programs) not in (1, 3):
        parser.error("beside gfxpipe both live_server and live_client are wanted, or neither")
    for place in [*given.programs, *([given.beside] if given.beside else [])]:
        if not os.path.isfile(place) or not os.access(place, os.X_OK):
            parser.error(f"there is no program {place}; rt run leaves the built ones as crates/NAME/out/NAME")
    known = SORTS if len(given.programs) == 3 else SORTS[:-2]
    if set(given.sorts) - set(known):
        parser.error(f"the sorts are {', '.join(known)}")
    given.sorts = [sort for sort in known if not given.sorts or sort in given.sorts]
    return given


def bind(megabytes):
    """Holds this program and all that it runs to so many addresses and to short outputs."""
    resource.setrlimit(resource.RLIMIT_AS, (megabytes << 20, megabytes << 20))
    resource.setrlimit(resource.RLIMIT_FSIZE, (MOST_WRITTEN, MOST_WRITTEN))
    resource.setrlimit(resource.RLIMIT_CORE, (0, 0))


def seeds(given):
    end = time.monotonic() + 60 * given.minutes if given.minutes else None
    count = given.count or (None if given.minutes else 100)
    seed = given.first
    while (count is None or seed < given.first + count) and (end is None or time.monotonic() < end):
        yield seed
        seed += 1


def main():
    given = words(sys.argv[1:])
    bind(given.megabytes)
    places = [os.path.realpath(place) for place in given.programs]
    other = given.beside and os.path.realpath(given.beside)
    fuzzing = Fuzzing(Programs(places, other, Limits(given.seconds, given.megabytes)), given.keep)
    last = given.first - 1
    try:
        for last in seeds(given):
            for sort in given.sorts:
                fuzzing.case(sort, last)
    except KeyboardInterrupt:
        print("interrupted")
    finally:
        print("\n".join(fuzzing.told(given.first, last)), flush=True)
    return 1 if fuzzing.differences else 0


if __name__ == "__main__":
    sys.exit(main())
