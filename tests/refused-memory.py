#!/usr/bin/env python3
"""Runs the built programs with one allocation refused, for each number that a small input comes to.

    tests/refused-memory.py [--short] [--every STEP] PROGRAM [LIVE_SERVER LIVE_CLIENT [WORD ..]]

PROGRAM is gfxpipe, crates/gfxpipe_main/out/gfxpipe_main where `rt run` has built it; LIVE_SERVER and LIVE_CLIENT are the
two ends of living sessions. Inputs are scripts and streams with each codec, kept files, fragments, and what is said to
the two ends (tests/tried/inputs.py). With --every each STEP-th allocation is refused, and with --short each seventh of
fewer inputs, which takes some seconds; the whole takes some minutes, and `make` and `trial`, of which few are refused,
are in it. WORDs choose among the rows, by a part of their names. It needs a C compiler.

A command has to end with the exit number 5, the line of want of memory and a front of the whole output, or, where what
was refused was not needed, as it does with all memory. An end of a living session has to say N or R Memory, or to end
with its line behind a front of all answers; a command that was answered N is said again, and then all has to go on as
with all memory, but for a turn of the server's end, behind which no turn goes well; and behind R Memory no message is
taken, and what shows is what showed before or behind that message.

There is a line for each run that ends otherwise, and a table with a row for each input: how many allocations were
refused of how many, and what was answered. The exit number is 1 where a run ended otherwise, and 2 for wrong words.
"""
import argparse
import collections
import functools
import os
import sys
import tempfile
import typing

sys.dont_write_bytecode = True
sys.path.insert(0, os.path.dirname(os.path.realpath(__file__)))

from tried import inputs, refusing, runs

WANTING = b"memory: none left\n"
# What a row's run may come to.
WHOLE, ENDED, FRONT, NOTHING, REFUSED = "needless", "ended", "front", "N", "R Memory"
SHORT_STEP = 7
# Commands that ask for so many allocations that few of them are refused.
LONG_STEP = 97
# The rows of a short run.
SHORT = ("encode palette", "session differences", "session kept", "render all-parts", "audit all-tiles", "render rlgr3",
         "import small", "fragment in-a-channel", "join in-a-channel", "server palette", "client all-parts")
LOST = bytes(8) + b"Memory"


class Otherwise(Exception):
    """A run that doesn't end as it has to."""


def must(holds, why):
    if not holds:
        raise Otherwise(why)


# ---- The program


def judge_command(whole: runs.Ran, ran: runs.Ran) -> str:
    """What a command came to that was refused an allocation, beside its run with all memory."""
    if ran == whole:
        return WHOLE
    must((ran.number, ran.line) == (5, WANTING), f"it ends with {ran.number}, {ran.line!r:.80}")
    must(whole.out.startswith(ran.out), f"its {len(ran.out)} bytes are no front of the whole output")
    return FRONT


# ---- The ends of living sessions

# Says the commands with the same allocation refused, and answers how it ended.
Again = typing.Callable[[typing.List[inputs.Command]], runs.Ran]


def first_other(whole, got):
    """The number of the first answer that is another than with all memory, or None."""
    return next((at for at, (due, one) in enumerate(zip(whole, got)) if due != one), None)


def said_twice(commands, at):
    return commands[:at + 1] + commands[at:]


def judge_live(commands: typing.List[inputs.Command], whole: runs.Ran, ran: runs.Ran, again: Again,
               behind: typing.Callable) -> str:
    """What an end of a living session came to. `behind` judges the answers from the one on that is the first other one,
    where the command isn't said again."""
    due, got = list(inputs.read_records(whole.out)), list(inputs.read_records(ran.out))
    must(inputs.records_of(got) == ran.out, "its last answer isn't whole")
    if (ran.number, ran.line) == (1, WANTING):
        must(whole.out.startswith(ran.out), "what it said before its end is no front of all answers")
        return ENDED
    must((ran.number, ran.line, len(got)) == (whole.number, whole.line, len(commands)),
         f"it ends with {ran.number}, {ran.line!r:.80} behind {len(got)} answers to {len(commands)} commands")
    at = first_other(due, got)
    if at is None:
        return WHOLE
    kind = commands[at][0]
    must(got[at] in (("N", b""), ("R", b"Memory"), ("R", LOST)), f"the first other answer is {got[at]!r:.80} to {kind}")
    if got[at][0] == "N" and kind != "S":
        twice = again(said_twice(commands, at))
        wanted = inputs.records_of(due[:at] + [("N", b"")] + due[at:])
        must((twice.number, twice.out) == (whole.number, wanted), f"said again, {kind} or what is behind it goes otherwise")
        return f"{NOTHING} {kind}"
    behind(commands[at:], due, got, at)
    return f"{REFUSED if kind == 'M' else NOTHING} {kind}"


def server_behind(commands, due, got, at):
    """A server's end takes no bytes behind R, and has no turn behind a turn without memory."""
    for (kind, _), answer in zip(commands[1:], got[at + 1:]):
        if commands[0][0] == "M":
            must(kind != "M" or answer == ("R", b"Closed"), f"behind R Memory {kind} is {answer!r:.80}")
        else:
            wanted = {"S": ("N", b""), "?": ("-", b""), "B": ("B", bytes(4))}.get(kind, answer)
            must(answer == wanted, f"behind a turn without memory {kind} is {answer!r:.80}")


def client_behind(commands, due, got, at):
    """A client takes no message behind R, and shows what it showed before or behind that one."""
    shown = [answer for answer in (due[at - 1], due[at + 2]) if answer[0] in "PW"]
    for (kind, _), answer in zip(commands[1:], got[at + 1:]):
        if kind == "M":
            must(answer == ("R", LOST), f"behind R Memory a message is {answer!r:.80}")
        elif kind == "P":
            must(answer in shown or answer[0] == "W", f"behind R Memory the output is neither the one before nor behind it")


# ---- Rows


class Row(typing.NamedTuple):
    """An input: its name, of which program it is, by its place among the words, how it is judged, and each which
    allocation is refused where all are."""

    name: str
    program: int
    data: typing.Union[bytes, typing.List[inputs.Command]]
    step: int = 1


def script_rows(encoded):
    for name, text in inputs.SCRIPTS.items():
        yield Row(f"encode {name}", 0, text.encode())
        yield Row(f"session {name}", 0, text.encode())
        yield from stream_rows(name, encoded(text))


def stream_rows(name, stream):
    yield Row(f"render {name}", 0, stream)
    yield Row(f"audit {name}", 0, stream)


def other_rows(fragments):
    yield Row("render refused", 0, inputs.example("outside.bin"))
    yield Row("audit refused", 0, inputs.example("outside.bin"))
    yield Row("encode refused", 0, inputs.KEPT.replace("key = 8, to", "key = 6, to").encode())
    yield Row("render --output shown", 0, inputs.example("output.bin"))
    yield Row("import small", 0, inputs.small_import())
    yield Row("import differing", 0, inputs.small_import().replace(bytes((80, 80, 80)), bytes((81, 80, 80)), 1))
    for name, data in [("in-a-channel", inputs.in_a_channel()), ("all-parts", inputs.all_parts())]:
        yield Row(f"fragment {name}", 0, data)
        yield Row(f"join {name}", 0, fragments(data))
    yield Row("make 1", 0, b"")
    yield Row("trial 1", 0, b"", LONG_STEP)


def live_rows(encoded):
    for name, text in inputs.SCRIPTS.items():
        yield Row(f"server {name}", 1, inputs.server_commands(text))
        yield Row(f"client {name}", 2, inputs.client_commands(encoded(inputs.shown_of(text)), True))
    for name, stream in inputs.STREAMS.items():
        yield Row(f"client {name}", 2, inputs.client_commands(stream(), True))


class Tried:
    """The programs, as they run with one allocation refused."""

    def __init__(self, programs, folder, step):
        self.programs, self.step = programs, step
        self.refusing = refusing.Refusing(folder)

    def output(self, words, data):
        return self.refusing.run([self.programs[0], *words], data, 0).out

    def rows(self):
        encoded = functools.lru_cache(None)(lambda text: self.output(["encode"], text.encode()))
        yield from script_rows(encoded)
        for name, stream in inputs.STREAMS.items():
            yield from stream_rows(name, stream())
        yield from other_rows(lambda stream: self.output(["fragment"], stream))
        if len(self.programs) == 3:
            yield from live_rows(encoded)

    def run(self, row, data, refused):
        words = [] if row.program else row.name.split()[:1 + row.name.startswith(("make", "trial", "render --"))]
        return self.refusing.run([self.programs[row.program], *words], data, refused)

    def judge(self, row, data, whole, refused):
        ran = self.run(row, data, refused)
        if not row.program:
            return judge_command(whole, ran)
        return judge_live(row.data, whole, ran, lambda commands: self.run(row, inputs.records_of(commands), refused),
                          client_behind if row.program == 2 else server_behind)

    def each(self, row):
        """How many allocations a row's run asks for, how many were refused, what these runs came to, and why those that
        ended otherwise did so."""
        data = inputs.records_of(row.data) if row.program else row.data
        whole = self.run(row, data, 0)
        count, came, otherwise = self.refusing.count(), collections.Counter(), []
        step = self.step * row.step
        for refused in range(step if step > 1 else 1, count + 1, step):
            try:
                came[self.judge(row, data, whole, refused)] += 1
            except Otherwise as why:
                otherwise.append(f"{row.name}, allocation {refused}: {why}")
        if (whole.number, whole.line) not in expected(row):
            otherwise.append(f"{row.name}: it ends with {whole.number}, {whole.line!r:.80} with all memory")
        return count, came, otherwise


def expected(row):
    """How a row's run may end with all memory."""
    lines = {"refused": [b"message 4: 14 RectOutside\n", b"script: step 11: KeyAbsent\n"],
             "differing": [b"kept: 60 KeptDiffers\n"]}
    return [(1, line) for line in lines[row.name.split()[1]]] if row.name.split()[1] in lines else [(0, b"")]


# ---- The table


def table(rows):
    """Lines of a table, whose first row is its head; the first and the last column begin at the left."""
    widths = [max(len(row[column]) for row in rows) for column in range(3)]
    for name, *numbers, last in rows:
        yield "  ".join([name.ljust(widths[0]), *(number.rjust(width) for number, width in zip(numbers, widths[1:])), last])


def told(came):
    return ", ".join(f"{what} {count:,}" for what, count in came.most_common()) or "-"


# ---- The words


def words():
    parser = argparse.ArgumentParser(prog="refused-memory.py", description=__doc__, allow_abbrev=False,
                                     usage="tests/refused-memory.py [--short] [--every STEP] PROGRAM "
                                           "[LIVE_SERVER LIVE_CLIENT [WORD ..]]",
                                     formatter_class=argparse.RawDescriptionHelpFormatter)
    parser.add_argument("--short", action="store_true", help="each seventh allocation of few inputs")
    parser.add_argument("--every", metavar="STEP", type=int, help="each which allocation is refused")
    parser.add_argument("programs", metavar="PROGRAM", nargs="+", help="gfxpipe, live_server, live_client; then words")
    given = parser.parse_args()
    given.programs, given.words = given.programs[:3], given.programs[3:]
    if len(given.programs) == 2:
        parser.error("beside gfxpipe both live_server and live_client are wanted, or neither")
    if given.every is not None and given.every < 1:
        parser.error("a STEP is 1 or more")
    for name in given.programs:
        if not os.path.isfile(name) or not os.access(name, os.X_OK):
            parser.error(f"there is no program {name}; rt run leaves the built ones as crates/NAME/out/NAME")
    if not refusing.can_refuse():
        parser.error("there is no C compiler cc: apt-get install gcc libc6-dev")
    return given


def is_chosen(row, given):
    if given.short and row.name not in SHORT:
        return False
    return not given.words or any(word in row.name for word in given.words)


def main():
    given = words()
    step = given.every or (SHORT_STEP if given.short else 1)
    rows, total, asked, failures = [("input", "allocations", "refused", "answered")], collections.Counter(), 0, []
    with tempfile.TemporaryDirectory() as folder:
        tried = Tried([os.path.realpath(name) for name in given.programs], folder, step)
        for row in tried.rows():
            if is_chosen(row, given):
                count, came, otherwise = tried.each(row)
                for why in otherwise:
                    print(f"FAILED  {why}", flush=True)
                failures += otherwise
                asked += count
                total += came
                rows.append((row.name, f"{count:,}", f"{sum(came.values()) + len(otherwise):,}", told(came)))
    rows.append((f"all {len(rows) - 1}", f"{asked:,}", f"{sum(total.values()) + len(failures):,}", told(total)))
    print("\n".join(table(rows)))
    print(f"{len(failures)} ended otherwise")
    return 1 if failures or len(rows) == 2 else 0


if __name__ == "__main__":
    sys.exit(main())
