"""What the tests of refused memory and of changed inputs stand on: parts, changes, runs, and what is judged."""

import importlib.util
import io
import os
import random
import shutil
import tempfile
import unittest

import places  # First, since it says where the tools are.

TESTS = os.path.join(places.TOP, "tests")
places.sys.path.insert(0, TESTS)

import fuzz
from gfxtools import recording
from tried import changes, grammar, inputs, parts, runs


def script_named(name):
    """A script of the folder tests, whose name is no word of Python."""
    spec = importlib.util.spec_from_file_location(name.replace("-", "_"), os.path.join(TESTS, name + ".py"))
    module = importlib.util.module_from_spec(spec)
    spec.loader.exec_module(module)
    return module


refused_memory = script_named("refused-memory")


# What the shell says for an audit of nothing.
HELD = "echo slots 0"


def streams():
    yield from (places.example(name) for name in fuzz.EXAMPLES)
    yield from (make() for make in inputs.STREAMS.values())
    yield from (data for _, data in inputs.refusals())


def tags(whole):
    return {part.tag for _, part in parts.places(whole)}


class Grammar(unittest.TestCase):
    def test_what_is_read_is_written_as_it_was(self):
        for data in streams():
            for cut in (data, data[:-1]):
                self.assertEqual(parts.written(grammar.stream(cut)), cut)
        for read, data in ((grammar.fragments, places.example("fill-fragments.bin")), (grammar.kept, inputs.kept_file()),
                           (grammar.import_input, places.example("import.input")),
                           (grammar.import_input, inputs.small_import()), (grammar.client, inputs.advertise([(1, 2)]))):
            self.assertEqual(parts.written(read(data)), data)
        for text in inputs.SCRIPTS.values():
            data = inputs.records_of(inputs.server_commands(text))
            self.assertEqual(parts.written(grammar.server_records(data)), data)
        data = inputs.records_of(inputs.client_commands(inputs.all_parts()))
        self.assertEqual(parts.written(grammar.client_records(data)), data)

    def test_the_codecs_are_read(self):
        found = set().union(*(tags(grammar.stream(make())) for make in inputs.STREAMS.values()))
        self.assertLessEqual({"run", "miss", "bar hit", "short hit", "rlex segment", "glyph hit", "srl", "rlgr", "level",
                              "video tile", "tile", "segment"}, found)

    def test_lengths_follow_what_is_changed(self):
        whole = grammar.stream(inputs.all_tiles())
        for path, part in parts.places(whole):
            if part.tag == "rlgr":
                data = parts.written(parts.replaced(whole, path, part._replace(value=part.value + bytes(300))))
                told = list(recording.messages(recording.channels(io.BytesIO(data))))
                self.assertEqual([one.refusal for one in told], [None] * len(told))

    def test_a_length_that_is_told_stands(self):
        told = parts.Told("length", "H", ("data",), value=9)
        self.assertEqual(parts.written(parts.group("x", length=told, data=parts.Data("d", b"abc"))), b"\x09\0abc")
        self.assertEqual(parts.written(parts.group("x", length=told._replace(value=None, plus=-1),
                                                   data=parts.Data("d", b"abc"))), b"\x02\0abc")


class Changes(unittest.TestCase):
    @classmethod
    def setUpClass(cls):
        cls.pool = changes.Pool()
        cls.whole = grammar.stream(inputs.all_parts() + inputs.all_tiles() + inputs.all_video())
        cls.pool.add(cls.whole)

    def changed(self, sort, seed):
        return self.whole, *changes.Changes(random.Random(seed), self.pool).whole(self.whole, sort)

    def test_the_same_chance_makes_the_same(self):
        for seed in range(15):
            (_, one, _), (_, other, _) = self.changed("messages", seed), self.changed("messages", seed)
            self.assertEqual(parts.written(one), parts.written(other))

    def test_a_sort_changes_what_it_names(self):
        inner = {"clear": "passes", "passes": "video", "video": "clear"}
        for sort, other in inner.items():
            for seed in range(15):
                _, _, what = self.changed(sort, seed)
                self.assertTrue(what)
                self.assertFalse(what & {"rect", "channel length", "surface", other})

    def test_most_seeds_change_something(self):
        seen = [parts.written(whole) != parts.written(made) for whole, made, _ in
                (self.changed("messages", seed) for seed in range(30))]
        self.assertGreater(sum(seen), 20)

    def test_parts_of_one_tag_and_several_kinds(self):
        pool = changes.Pool()
        kinds = (parts.Number("x", "B", 7), parts.Data("x", b"abc"), parts.Wide("x", 300, 1), parts.Told("x", "H", ()))
        for part in kinds:
            pool.add(part)
        made = changes.Changes(random.Random(1), pool)
        for part in kinds * 40:
            self.assertIs(type(made.changed(part)), type(part))

    def test_sequence_numbers_go_on(self):
        whole = changes.in_sequence(grammar.stream(inputs.all_parts() + inputs.all_parts()))
        self.assertEqual([part.value for _, part in parts.places(whole) if part.tag == "sequence"], list(range(9, 15)))  # of two streams of three

    def test_scripts(self):
        lines = inputs.KEPT.split("\n")
        texts = [changes.ScriptChanges(random.Random(seed), lines).changed(inputs.KEPT) for seed in [*range(20)] * 2]
        self.assertEqual(texts[:20], texts[20:])
        self.assertGreater(len(set(texts)), 15)


class Runs(unittest.TestCase):
    def setUp(self):
        self.runner = runs.Runner()

    def test_what_a_program_reads_and_writes(self):
        data = bytes(200000)
        for some in (b"", data, b"abc"):
            self.assertEqual(self.runner.run([shutil.which("cat")], some), runs.Ran(0, some, b""))

    def test_how_it_ends(self):
        shell = shutil.which("sh")
        self.assertEqual(self.runner.run([shell], b"echo no >&2; exit 7"), runs.Ran(7, b"", b"no\n"))
        self.assertEqual(self.runner.run([shell], b"kill -SEGV $$").number, -11)
        self.assertIsNone(self.runner.run([shutil.which("sleep"), "9"], b"", 0.05).number)


class Fuzzing(unittest.TestCase):
    def programs(self, text):
        """A program that is a script of the shell."""
        place = os.path.join(self.folder.name, "program")
        with open(place, "w", encoding="ascii") as file:
            file.write(f"#!{shutil.which('sh')}\n{text}\n")
        os.chmod(place, 0o755)
        return fuzz.Programs([place] * 3, None, fuzz.Limits(5, 600))

    def setUp(self):
        self.folder = tempfile.TemporaryDirectory()
        self.addCleanup(self.folder.cleanup)

    def case(self, sort, text, data=b"x"):
        return fuzz.CASES[sort](self.programs(text), data, random.Random(1))

    def test_ends_that_no_page_has(self):
        for text in ("exit 101", "exit 1", "echo 'message 1: 10 RectOutside' >&2; exit 1", "kill -SEGV $$",
                     "echo 'script: Nothing' >&2; exit 1", "echo 'memory: none left' >&2"):
            with self.assertRaises(fuzz.Differs):
                self.case("messages", text)

    def test_ends_that_a_page_has(self):
        for text, came in ((f"{HELD}; echo 'message 1: 14 RectOutside' >&2; exit 1", "RectOutside"), (HELD, "accepted"),
                           ("echo 'memory: none left' >&2; exit 5", "no memory")):
            self.assertEqual(self.case("messages", text), came)

    def test_audit_tells_each_message(self):
        with self.assertRaises(fuzz.Differs):
            self.case("messages", "echo '1 A 8'; echo slots 0; echo 'message 1: 14 RectOutside' >&2; exit 1")

    def test_digests_that_differ(self):
        with self.assertRaises(fuzz.Differs):
            self.case("kept", "echo ack 1 step 3 client a server b")
        self.assertEqual(self.case("kept", "echo ack 1 step 3 client a server a"), "accepted")

    def test_an_end_of_a_session_has_to_answer(self):
        with self.assertRaises(fuzz.Differs):
            self.case("server", "exit 0", inputs.records_of([("C", b"")]))

    def test_the_stream_up_to_a_message(self):
        data = places.example("outside.bin")
        self.assertEqual(fuzz.up_to(data, 1), b"")
        fronts = [fuzz.up_to(data, number) for number in range(1, 5)]
        self.assertEqual([data.startswith(front) for front in fronts], [True] * 4)
        self.assertEqual([len(list(inputs.channels(front))) for front in fronts], [0, 1, 2, 3])
        self.assertIsNone(fuzz.up_to(data, 99))
        self.assertEqual(fuzz.up_to(data + bytes(8), 4), fronts[3])
        self.assertEqual(fuzz.up_to(fronts[3] + bytes(8), 4), fronts[3])
        # A message behind others in one channel message of several blocks.
        front = fuzz.up_to(inputs.all_parts(40), 3)
        self.assertEqual([one.name for one in recording.messages(recording.channels(io.BytesIO(front)))],
                         ["CreateSurface", "WireToSurface1"])

    def test_replies_that_take_nothing_are_left_out(self):
        stream, reply = places.example("fill.bin"), inputs.NOTHING_TAKEN
        self.assertEqual(fuzz.without_replies(len(reply).to_bytes(4, "little") + reply + stream), stream)

    def test_what_differs_is_made_smaller(self):
        self.assertEqual(fuzz.smaller(b"aaaaXbbbbbbYccc", lambda data: b"X" in data and b"Y" in data), b"XY")

    def test_words(self):
        with self.assertRaises(SystemExit), open(os.devnull, "w") as nowhere:
            error, fuzz.sys.stderr = fuzz.sys.stderr, nowhere
            try:
                fuzz.words(["nowhere"])
            finally:
                fuzz.sys.stderr = error
        given = fuzz.words([shutil.which("cat"), "clear", "--count", "3"])
        self.assertEqual((given.sorts, given.count), (["clear"], 3))
        self.assertEqual(list(fuzz.seeds(given)), [1, 2, 3])


class RefusedMemory(unittest.TestCase):
    def test_a_command(self):
        whole = runs.Ran(0, b"abc", b"")
        judge = refused_memory.judge_command
        self.assertEqual(judge(whole, whole), "needless")
        self.assertEqual(judge(whole, runs.Ran(5, b"ab", b"memory: none left\n")), "front")
        for other in (runs.Ran(0, b"ab", b""), runs.Ran(5, b"b", b"memory: none left\n"), runs.Ran(5, b"ab", b""),
                      runs.Ran(-11, b"", b""), runs.Ran(None, b"", b"")):
            with self.assertRaises(refused_memory.Otherwise):
                judge(whole, other)

    def live(self, commands, due, got, twice=None, number=0, line=b"", behind=refused_memory.server_behind):
        ran = [runs.Ran(one, inputs.records_of(some), said)
               for one, some, said in ((0, due, b""), (number, got, line), (0, twice or [], b""))]
        return refused_memory.judge_live(commands, ran[0], ran[1], lambda _: ran[2], behind)

    def test_a_command_that_is_said_again(self):
        commands, due = [("F", b""), ("B", b"")], [("O", b""), ("B", b"1234")]
        no = ("N", b"")
        self.assertEqual(self.live(commands, due, [no, ("B", b"0000")], [no, *due]), "N F")
        with self.assertRaises(refused_memory.Otherwise):
            self.live(commands, due, [no, ("B", b"0000")], [no, no, due[1]])
        with self.assertRaises(refused_memory.Otherwise):
            self.live(commands, due, [("E", b""), due[1]])

    def test_a_server_that_is_closed(self):
        commands, due = [("M", b"x"), ("M", b"y")], [("A", bytes(4))] * 2
        self.assertEqual(self.live(commands, due, [("R", b"Memory"), ("R", b"Closed")]), "R Memory M")
        with self.assertRaises(refused_memory.Otherwise):
            self.live(commands, due, [("R", b"Memory"), due[1]])

    def test_an_end_for_want_of_memory(self):
        commands, due = [("M", b"x"), ("M", b"y")], [("A", bytes(4))] * 2
        self.assertEqual(self.live(commands, due, due[:1], number=1, line=b"memory: none left\n"), "ended")
        with self.assertRaises(refused_memory.Otherwise):
            self.live(commands, due, due[:1])

    def test_the_rows_of_a_short_run_are_there(self):
        names = {f"{word} {name}" for word in ("encode", "session", "render", "audit", "server", "client")
                 for name in (*inputs.SCRIPTS, *inputs.STREAMS)}
        names |= {row.name for row in refused_memory.other_rows(lambda data: data)}
        self.assertLessEqual(set(refused_memory.SHORT), names)


if __name__ == "__main__":
    unittest.main()
