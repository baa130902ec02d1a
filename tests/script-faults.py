#!/usr/bin/env python3
"""Scripts with a fault: tools/check-script has to name the kind and the step that the program names.

    tests/script-faults.py PROGRAM REFERENCE [SEEDS]

PROGRAM is gfxpipe, crates/gfxpipe_main/out/gfxpipe_main where `rt run` has built it. REFERENCE is a program of its
own, with the same `encode`, which isn't in this repository; it prints a script for `--random SEED WORDS`, and one with
a fault for `--random-fault SEED WORDS`, where WORDS are the steps that may occur. For each seed, from 1 to SEEDS or to
1,000, there is a script of either kind, and one in which chance has changed some signs of an example, which goes to
PROGRAM alone. It takes a minute. There is a line for each difference, and at the end one with the counts; the exit
number is 1 where there was a difference, and 2 for wrong words. It is no part of `rt ci`.
"""

import argparse
import collections
import os
import random
import subprocess
import sys

sys.dont_write_bytecode = True

HERE = os.path.dirname(os.path.abspath(__file__))
EXAMPLES = os.path.join(HERE, "..", "examples")
sys.path.insert(0, os.path.join(HERE, "..", "tools"))

from gfxtools import entry, script

WORDS = ("surface delete reset map fill copy paint kinds=raw,residual,bands,palette,plain,progressive,auto,"
         "video improve difference glyph argb keep show forget clients thin turns nearest").split()

# What may be put into a text: signs of TOML, numbers at limits, words, and what is no text at all.
PIECES = [piece.encode() for piece in (
    '"', "'", '"""', "'''", "{", "}", "[", "]", ",", "=", ".", "\n", "\r\n", "\r", " ", "\t", "#", "\\", "\\e", "\\x41",
    "\\u00e9", "\\ud800", "é", "\0", "0", "1", "-1", "+5", "01", "1_0", "0x1f", "0o17", "0b101", "1.5", "1e9", "1e999",
    "inf", "nan", "true", "65535", "65536", "8192", "8193", "9223372036854775808", "1979-05-27", "1979-02-29",
    "07:32", "1979-05-27 07:32:00Z", "id", "do", "kind", "raw", "frame", "[[step]]\n", "[step]\n", "[progressive]\n",
    "a.b = 1\n", "\ufeff", "window = 3\n", "turn = []\n",
)] + [b"\xff"]


def said_by(program, text):
    """The line of a program that encodes a script, or nothing."""
    return subprocess.run([program, "encode"], input=text, capture_output=True).stderr.decode().strip()


def said_by_check(text):
    """The same by the first fault that is found here."""
    faults = script.check(text).faults
    if not faults:
        return ""
    return f"script: step {faults[0].step}: {faults[0].kind}" if faults[0].step else f"script: {faults[0].kind}"


def changed(text, chance):
    """A text in which signs are left out, doubled, put in or written over."""
    text = bytearray(text)
    for _ in range(chance.choice((1, 1, 1, 2, 3))):
        at, size = chance.randrange(len(text) + 1), chance.choice((1, 1, 2, 5, 30))
        begin = chance.randrange(len(text) + 1)
        text[at:at + chance.choice((0, size))] = chance.choice((b"", chance.choice(PIECES), text[begin:begin + size]))
    return bytes(text)


def examples():
    names = sorted(name for name in os.listdir(EXAMPLES) if name.endswith(".toml"))
    texts = [open(os.path.join(EXAMPLES, name), "rb").read() for name in names]
    return [text for text in texts if len(text) < 5000]


def program_of(place):
    """The program that is named."""
    if not os.path.isfile(place) or not os.access(place, os.X_OK):
        raise argparse.ArgumentTypeError(f"there is no program {place}; rt run leaves the built ones as "
                                         "crates/NAME/out/NAME")
    return os.path.abspath(place)


def words():
    parser = entry.Words(prog="script-faults.py", description=__doc__,
                         usage="tests/script-faults.py PROGRAM REFERENCE [SEEDS]")
    parser.add_argument("program", metavar="PROGRAM", type=program_of, help="gfxpipe")
    parser.add_argument("reference", metavar="REFERENCE", type=program_of, help="what its answers are compared with")
    parser.add_argument("seeds", metavar="SEEDS", type=entry.number_of(1), nargs="?", default=1000,
                        help="how many seeds there are, 1,000 if it isn't said")
    return parser.parse_args()


def main():
    given = words()
    program, reference = given.program, given.reference
    texts, counts, differences = examples(), collections.Counter(), 0
    for seed in range(1, given.seeds + 1):
        chance = random.Random(seed)
        cases = [(way, subprocess.run([reference, way, str(seed), *WORDS], capture_output=True).stdout, [reference])
                 for way in ("--random", "--random-fault")]
        cases.append(("changed", changed(chance.choice(texts), chance), []))
        for name, text, others in cases:
            told = said_by_check(text)
            wanted = {said_by(one, text) for one in [program, *others]}
            counts[told.split(": ")[-1] or "good"] += 1
            if wanted != {told}:
                differences += 1
                print(f"{name} {seed}: wanted {' or '.join(map(repr, sorted(wanted)))}, got {told!r}")
    print(", ".join(f"{name} {count}" for name, count in counts.most_common()))
    print(f"{sum(counts.values())} scripts, {differences} differences")
    return differences > 0


sys.exit(main())
