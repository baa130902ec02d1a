#!/usr/bin/env bash
# Runs the tools on the examples: their words, their ends, and what they say, beside what the program says. It takes
# two or three minutes, ten on a machine that has much else to do, and needs python3 and xz; what stands on FreeRDP is
# left out where Debian's freerdp2-dev isn't there, and what live_client draws where it isn't named.
#
#     tests/tools.sh [--short] PROGRAM [LIVE_CLIENT]
#
# Each case is a line, `ok` or `FAILED`; the exit number is 1 where one failed. With --short there are the tests of
# tests/unit and a case or two for each tool, which take some seconds; these are part of `.ci/run`. No server is asked:
# tools/recorder/loopback tries `record` on a real session.
set -u
# shellcheck source-path=SCRIPTDIR source=common.sh
. "$(dirname "$0")/common.sh"
is_short=
if [ "${1-}" = --short ]; then
    is_short=yes
    shift
fi
if [ $# -lt 1 ] || [ $# -gt 2 ]; then
    wrong_words
fi
need_programs "$@"
program=$(realpath "$1")
live_client=${2:+$(realpath "$2")}
export GFXPIPE=$program LIVE_CLIENT=$live_client PYTHONDONTWRITEBYTECODE=1
here=$(realpath "$(dirname "$0")")
tools=$here/../tools examples=$here/../examples docs=$here/../docs

# A PNG as a dump: the first line is the head that stands there, the rows are those of the picture.
dump_of() {
    python3 - "$@" <<'PYTHON'
import struct, sys, zlib
head, name = sys.argv[1:]
data = open(name, "rb").read()
at, packed = 8, b""
while at < len(data):
    size, kind = struct.unpack_from(">I4s", data, at)
    if kind == b"IHDR":
        width, height, _, colours = struct.unpack_from(">IIBB", data, at + 8)
    if kind == b"IDAT":
        packed += data[at + 8:at + 8 + size]
    at += 12 + size
samples = 4 if colours == 6 else 3
rows = zlib.decompress(packed)
print(head)
for y in range(height):
    row = rows[y * (1 + samples * width) + 1:(y + 1) * (1 + samples * width)]
    pixels = (row[at:at + samples] for at in range(0, len(row), samples))
    print("".join(bytes((p[2], p[1], p[0], p[3] if samples == 4 else 255)).hex() for p in pixels))
PYTHON
}

# Puts the payloads of a recording into one channel message, or with `compressed` each into blocks that are
# compressed, every byte as a literal: a 0 and its eight bits.
rewritten() {
    python3 - "$@" <<'PYTHON'
import struct, sys
way, tools = sys.argv[1], sys.argv[2]
sys.path.insert(0, tools)
from gfxtools import recording

def literal(payload):
    bits = "".join("0" + format(byte, "08b") for byte in payload)
    unused = -len(bits) % 8
    bits += "0" * unused
    return bytes(int(bits[at:at + 8], 2) for at in range(0, len(bits), 8)) + bytes([unused])

payloads = [channel.payload for channel in recording.channels(open(sys.argv[3], "rb"))]
if way == "joined":
    sys.stdout.buffer.write(recording.wrap(b"".join(payloads)))
else:
    for payload in payloads:
        data = b"\xe0\x24" + literal(payload)
        sys.stdout.buffer.write(struct.pack("<I", len(data)) + data)
PYTHON
}

# Runs a tool, and the program in it, with no more memory than so many KiB.
limited() {
    (ulimit -v "$1" && shift && "$@")
}

# Runs a tool, and interrupts it once it writes beside a file of the folder in the first word: its exit number, and
# what it says.
interrupted() {
    python3 - "$@" <<'PYTHON'
import os, signal, subprocess, sys, time
folder, words = sys.argv[1], sys.argv[2:]
usual = lambda: signal.signal(signal.SIGINT, signal.SIG_DFL)
tool = subprocess.Popen(words, stdin=subprocess.PIPE, stderr=subprocess.PIPE, preexec_fn=usual, text=True)
for _ in range(600):
    if any(name.startswith(".new-") for name in os.listdir(folder)):
        break
    time.sleep(0.05)
time.sleep(0.2)
tool.send_signal(signal.SIGINT)
said = tool.stderr.read()
print(tool.wait(), said.strip())
PYTHON
}

# Runs a tool on a terminal: its exit number, how many bytes that are no text come, and whether a line speaks of it.
on_terminal() {
    python3 - "$@" <<'PYTHON'
import os, pty, sys
got = bytearray()
child, end = pty.fork()
if child == 0:
    os.execv(sys.argv[1], sys.argv[1:])
try:
    while piece := os.read(end, 65536):
        got.extend(piece)
except OSError:
    pass
print(os.waitstatus_to_exitcode(os.waitpid(child, 0)[1]), sum(byte < 7 or byte > 126 for byte in got),
      "terminal" if b"terminal" in got else "")
PYTHON
}

# shellcheck source-path=SCRIPTDIR source=tools-short.sh
. "$here/tools-short.sh"
if [ -n "$is_short" ]; then
    [ "$failures" -eq 0 ]
    exit
fi
# shellcheck source-path=SCRIPTDIR source=tools-frames.sh
. "$here/tools-frames.sh"

xz -dc "$examples/gnome.bin.xz" > "$work/gnome.bin"
{ echo "step = ["; printf '{ do = "fill" },\n%.0s' $(seq 5000); echo "]"; } > "$work/faults.toml"

# ---- Words, and ends
for tool in check-script stream kept frames play picture compare record gfx load; do
    report "$tool --help" "0 0" "$(ended_lines "$tools/$tool" --help)"
    report "$tool --help says its words" "usage: $tool" "$(head -n 1 "$work/out" | cut -d ' ' -f -2)"
    report "$tool, a wrong word" "2 1" "$(ended_lines "$tools/$tool" --nonsense)"
done
for tool in stream kept frames play compare record gfx load; do
    report "$tool, no words" "2 1" "$(ended_lines "$tools/$tool")"
done
report "loopback --help" "0 0" "$(ended_lines "$tools/recorder/loopback" --help)"
report "loopback, no words" "2 1" "$(ended_lines "$tools/recorder/loopback")"
for words in "stream list $work/none" "frames $work/none $work/to" "picture $work/png --from $work/none" \
    "compare $work/none $work/none" "record $work/new.bin $work/none" "gfx render $work/none" "stream list $work" \
    "frames $work $work/to" "picture --list --from $work" "gfx audit $work" "stream list $docs/gnome.png" \
    "check-script $work/none" "check-script $work" "play $work/none" "play $docs/gnome.png" \
    "picture --list --from $docs/gnome.png" "compare $docs/gnome.png $docs/gnome.png"; do
    # shellcheck disable=SC2086
    report "${words//$work/..}" "1 1" "$(ended_lines "$tools/"$words)"
done
report "a failed record leaves nothing" "" "$(ls "$work/new.bin" 2> /dev/null)"
head -c 1000 "$examples/gnome.bin.xz" > "$work/cut.xz"
for words in "stream stats" "gfx render" "check-script" "play"; do
    # shellcheck disable=SC2086
    report "$words of an .xz file that is cut" "1 1" "$(ended_lines "$tools/"$words "$work/cut.xz")"
done
for words in "stream list $work/gnome.bin" "stream json $work/gnome.bin" "load small" "gfx render $work/gnome.bin" \
    "frames --video --every 5 --last 30 --jobs 2 $work/gnome.bin -" "picture --list --from $examples/desktop.txt" \
    "check-script --all $work/faults.toml" "play --every 20 $work/gnome.bin"; do
    # shellcheck disable=SC2086
    { "$tools/"$words 2> "$work/err"; echo $? > "$work/number"; } | true
    report "${words//$work/..} that nobody reads" "0 " "$(cat "$work/number") $(grep -v ffmpeg "$work/err")"
    # shellcheck disable=SC2086
    "$tools/"$words > /dev/full 2> "$work/err"
    number=$?
    report "${words//$work/..} on a full output" "1 line" \
        "$([ $number -ne 0 ] && wc -l < "$work/err") line"
done
"$tools/stream" list < "$examples/fill.bin" 2> "$work/err" >&-
report "stream on a closed output" "1 stream: the standard output is closed" "$(ended $?)"
"$tools/stream" list 2> "$work/err" <&-
report "stream on a closed input" "1 stream: the standard input is closed" "$(ended $?)"
"$tools/stream" list < /dev/null > "$work/out" 2> "$work/err"
report "stream on an empty input" "0 stream: the standard input: the recording is empty" "$(ended $?)"

# ---- stream
for example in fill desktop output outside passes pictures text video; do
    "$program" audit < "$examples/$example.bin" 2> "$work/wanted.err" | grep '^[0-9]' > "$work/wanted"
    "$tools/stream" json "$examples/$example.bin" 2> "$work/err" > "$work/json"
    python3 -c '
import json, sys
for line in sys.stdin:
    one = json.loads(line)
    if one["refused"]:
        break
    print(one["number"], one["message"], one["bytes"])' < "$work/json" > "$work/out"
    report "stream json of $example is what audit says" "same" "$(same "$work/out" "$work/wanted")"
    report "stream of $example, its end" "$(cat "$work/wanted.err")" \
        "$(sed 's/^stream: [^ ]*: \(message [0-9]*: [0-9]* [A-Za-z]*\).*/\1/' "$work/err")"
done
"$tools/stream" list "$examples/gnome.bin.xz" > "$work/out"
report "stream list reads .xz and the standard input alike" "same" \
    "$("$tools/stream" list < "$work/gnome.bin" | cmp -s - "$work/out" && echo same)"
report "stream list of gnome, its lines" "$(($("$program" audit < "$work/gnome.bin" | grep -c '^[0-9]') + 1))" \
    "$(wc -l < "$work/out")"
report "stream list, a line" "4 79 1 SolidFill 32 7 - [0, 0, 2, 1] 0000ffff, 2 rectangles; refused: 14 RectOutside" \
    "$("$tools/stream" list "$examples/outside.bin" 2> /dev/null | sed -n '5s/  */ /gp' | sed 's/^ //')"
"$tools/stream" stats "$work/gnome.bin" > "$work/out"
report "stream stats, the first line" \
    "706,899 bytes, 74 channel messages, 1 of them of several blocks, 70 frames" "$(head -n 1 "$work/out")"
report "stream stats, the codec" "progressive 70 704,085 3,129,344" \
    "$(sed -n '/^progressive/s/  */ /gp' "$work/out")"
report "stream stats, the tiles" "tiles of progressive messages: 764 simple" "$(grep ^tiles "$work/out")"
report "stream stats of freerdp-video, the codec" "rfx-video 94 6,439,211 28,876,800" \
    "$("$tools/stream" stats "$examples/freerdp-video.bin.xz" | sed -n '/^rfx-video/s/  */ /gp')"
report "stream frames of gnome" "72" "$("$tools/stream" frames "$work/gnome.bin" | wc -l)"
report "stream frames, a line" "2 2 5 583 3 2041 - 1 progressive" \
    "$("$tools/stream" frames "$examples/passes.bin" | sed -n '3s/  */ /gp' | sed 's/^ //')"
for cut in 4 50 100 240 241; do
    head -c $cut "$examples/text.bin" > "$work/cut.bin"
    "$program" audit < "$work/cut.bin" 2> "$work/wanted" > /dev/null
    "$tools/stream" list "$work/cut.bin" 2> "$work/err" > /dev/null
    report "stream of $cut bytes of text" "$(cat "$work/wanted")" \
        "$(sed 's/^stream: [^ ]*: \(message [0-9]*: [0-9]* [A-Za-z]*\).*/\1/' "$work/err")"
done
# Messages and codecs that the profile leaves out, versions, and a rest of two bytes.
python3 - "$tools" > "$work/foreign.bin" <<'PYTHON'
import struct, sys
sys.path.insert(0, sys.argv[1])
from gfxtools import recording
BODIES = (
    (0x09, struct.pack("<HHHB", 1, 64, 64, 0x20)),
    (0x02, struct.pack("<HHIBI", 1, 0xD, 7, 0x20, 3) + b"abc"),
    (0x01, struct.pack("<HHB4HI", 1, 0xB, 0x20, 0, 0, 9, 9, 3) + b"abc"),
    (0x01, struct.pack("<HHB4HI", 1, 0x77, 0x20, 0, 0, 9, 9, 0)),
    (0x15, bytes(7)), (0x99, b""),
    (0x13, struct.pack("<II", 0x000A0701, 0)),
    (0x0C, struct.pack("<I", 9)),
    (0x0B, struct.pack("<II", 5, 9)),
    (0x02, struct.pack("<HHIBI", 1, 9, 7, 0x20, 6) + struct.pack("<HI", 0xCCC2, 7)),
    (0x07, struct.pack("<HHH", 3, 1, 0)),
)
payloads = [struct.pack("<HHI", kind, 0, 8 + len(body)) + body for kind, body in BODIES]
sys.stdout.buffer.write(b"".join(map(recording.wrap, [*payloads, b"\1\0"])))
PYTHON
for what in list stats frames json; do
    report "stream $what of what is left out" "1 1" "$(ended_lines "$tools/stream" $what "$work/foreign.bin")"
done
report "stream of what is left out, its refusals" \
    "2:16 3:16 4:16 5:8 6:8 7:23 8:22 10:38 11:19 12:6" \
    "$("$tools/stream" json "$work/foreign.bin" 2> /dev/null | python3 -c '
import json, sys
for one in map(json.loads, sys.stdin):
    if one["refused"]:
        print(one["number"], one["refused"]["number"], sep=":")' | paste -sd ' ')"
# A sequence number that comes twice is found by decoding alone.
cat "$examples/text.bin" "$examples/text.bin" | python3 -c '
import sys
data = sys.stdin.buffer.read()
half = len(data) // 2
sys.stdout.buffer.write(data[:half] + data[half:].replace(b"\x01\x00\x40\x00\x28\x00", b"\x02\x00\x40\x00\x28\x00", 1))
' > "$work/twice.bin"
"$program" audit < "$work/twice.bin" 2> "$work/wanted" > /dev/null
"$tools/stream" list "$work/twice.bin" --program "$program" 2> "$work/err" > /dev/null
report "stream --program asks it" "$(cat "$work/wanted")" \
    "$(sed 's/^stream: [^ ]*: \(message [0-9]*: [0-9]* [A-Za-z]*\).*/\1/' "$work/err")"

# ---- check-script
for example in "$examples"/*.toml; do
    report "check-script of $(basename "$example")" "0 0" "$(ended_lines "$tools/check-script" "$example")"
done
report "check-script, what is good" "good: 1 picture, 7 steps, 3 frames, 0 turns" \
    "$("$tools/check-script" "$examples/passes.toml")"
report "check-script, what is good of video" "good: 2 pictures, 5 steps, 2 frames, 0 turns" \
    "$("$tools/check-script" "$examples/video.toml")"
rows=0
while IFS= read -r row; do
    case $row in '' | '#'*) continue ;; esac
    said=${row%% | *} rest=${row#* | }
    told=${rest%% | *} text=${rest#* | }
    printf '%b\n' "$text" > "$work/fault.toml"
    rows=$((rows + 1))
    report "fault $rows, $said" "$said" "$("$program" encode < "$work/fault.toml" 2>&1 > /dev/null)"
    report "fault $rows, check-script --line" "1 $said" \
        "$("$tools/check-script" --line "$work/fault.toml" > "$work/out"; echo $?) $(cat "$work/out")"
    "$tools/check-script" "$work/fault.toml" > "$work/out" 2> "$work/err"
    report "fault $rows, check-script" "$work/fault.toml:$told" "$(head -n 1 "$work/out")"
    report "fault $rows, check-script, its end" "check-script: $work/fault.toml: 1 fault; the program says: $said" \
        "$(sed 's/^\(check-script: [^ ]*: \)[0-9]* faults/\11 fault/' "$work/err")"
done < "$here/faults/table.txt"
report "the table of faults has all kinds" "13" \
    "$(sed -n 's/^script: \(step [0-9]*: \)\{0,1\}\([A-Za-z]*\) |.*/\2/p' "$here/faults/table.txt" | sort -u | wc -l)"
report "check-script of several faults" "3: step 2 (fill): Key|4: step 3 (fill): Outside|5: step 4 (paint): Name" \
    "$(printf '%s\n' 'step = [' '{ do = "surface", id = 1, width = 2, height = 1 },' '{ do = "fill", id = 1 },' \
        '{ do = "fill", id = 1, colour = "0000ff00", rects = [[0, 0, 2, 2]] },' \
        '{ do = "paint", id = 1, picture = "p", at = [0, 0] },' '{ do = "frame" },' ']' |
        "$tools/check-script" 2> /dev/null | sed 's/^script:\([0-9]*: [^:]*: [A-Za-z]*\):.*/\1/' | uniq | paste -sd '|')"
report "check-script, what hangs on a fault isn't told" "2: step 1: Key" \
    "$(printf '%s\n' 'step = [' '{ do = "surfce", id = 1, width = 2, height = 1 },' '{ do = "improve", id = 1 },' \
        '{ do = "delete", id = 1 }, { do = "frame" }]' |
        "$tools/check-script" 2> /dev/null | sed 's/^script:\([0-9]*: [^:]*: [A-Za-z]*\):.*/\1/')"
report "check-script, all rectangles and points outside" "3:rectangle 1|4:rectangle 2|5:point 1|5:point 3" \
    "$(printf '%s\n' 'step = [' '{ do = "surface", id = 1, width = 8, height = 8 },' \
        '{ do = "fill", id = 1, colour = "ff0000ff", rects = [[0, 0, 9, 1],' '[0, 0, 1, 9]] },' \
        '{ do = "copy", from = 1, to = 1, rect = [0, 0, 2, 2], points = [[7, 0], [0, 0], [0, 7]] },' \
        '{ do = "frame" } ]' | "$tools/check-script" 2> /dev/null |
        sed 's/^script:\([0-9]*\): .*\(rectangle [0-9]\|point [0-9]\) of .*/\1:\2/' | paste -sd '|')"
report "check-script, a step that is no table, at its line" "3: step 2: Key: a step is a table, and here stands the number 5" \
    "$(printf '%s\n' 'step = [' '{ do = "reset", width = 8, height = 8 },' '5,' '{ do = "frame" } ]' |
        "$tools/check-script" 2> /dev/null | sed 's/^script://')"
report "check-script, a bracket that is missing" \
    "3:1: the text: Toml: the ] of what begins in line 1 is missing: here stands [progressive]" \
    "$(printf '%s\n' 'step = [' '{ do = "frame" },' '[progressive]' 'transform = "plain"' |
        "$tools/check-script" 2> /dev/null | sed 's/^script://')"
report "check-script, faults of each level" "3 4" \
    "$(four="$(printf '4, %.0s' 1 2 3 4 5 6 7 8 9)"; printf '%s\n' '[progressive]' 'level = [' \
        "{ y = [${four}99], cb = [${four}4], cr = [${four}4] }," "{ y = [${four}4], cb = [${four}99], cr = [${four}4] }," ']' |
        "$tools/check-script" 2> /dev/null | cut -d: -f2 | paste -sd ' ')"
report "check-script, thin with version 10" \
    "1: offer 1 of client: Key: a client of version 10 is never thin: versions 8 and 8.1 have that flag" \
    "$(echo 'client = [{ version = "10", thin = true }]' | "$tools/check-script" 2> /dev/null | sed 's/^script://')"
report "check-script, a missing surface is told once" "1: step 1 (improve): SurfaceAbsent" \
    "$(echo 'step = [{ do = "improve", id = 4 }, { do = "delete", id = 4 }, { do = "frame" }]' |
        "$tools/check-script" 2> /dev/null | sed 's/^script:\([0-9]*: [^:]*: [A-Za-z]*\):.*/\1/')"
"$tools/check-script" "$work/faults.toml" > "$work/out" 2> "$work/err"
report "check-script, of many faults twenty" \
    "1 check-script: $work/faults.toml: 15,001 faults, of which the first 20 are told (--all); the program says: script: step 1: Key 20" \
    "$(ended $?) $(wc -l < "$work/out")"
report "check-script --all" "15001" "$("$tools/check-script" --all "$work/faults.toml" 2> "$work/err" | wc -l)"
cat > "$work/levels.toml" <<'TOML'
step = [{ do = "surface", id = 1, width = 9, height = 9 }, { do = "improve", id = 1 }, { do = "frame" }]
[progressive]
cb = [9, 6, 6, 6, 6, 6, 6, 6, 6, 6]
level = [
    { y = [6, 5, 4, 4, 4, 4, 4, 4, 4, 4], cb = [4, 4, 4, 4, 4, 4, 4, 4, 4, 4], cr = [4, 4, 4, 4, 4, 4, 4, 4, 4, 4] },
    { y = [5, 4, 3, 3, 3, 3, 3, 3, 3, 3], cb = [1, 1, 1, 1, 1, 1, 1, 1, 1, 1], cr = [3, 3, 3, 3, 3, 3, 3, 3, 3, 3] },
]
TOML
"$tools/check-script" "$work/levels.toml" > "$work/out" 2> "$work/err"
report "check-script, levels that FreeRDP 3.15 drops" "0 levels.toml:6: level 2 of progressive: HL1 of y is then at \
position 11, and before it HH1 is at 10|levels.toml:2: progressive, with nothing left out: HL1 of cb is then at \
position 9, and before it HH1 is at 7" "$? $(sed 's/^check-script: .*\/\(.*: \)FreeRDP 3.15 drops upgrades to this: /\1/
    s/ (docs.*//' "$work/err" | paste -sd '|')"
report "check-script, such a script is good" "good: 0 pictures, 3 steps, 1 frame, 0 turns" "$(cat "$work/out")"
report "check-script, such a script with --line" "0 0" "$(ended_lines "$tools/check-script" --line "$work/levels.toml")"
sed 's/{ do = "improve", id = 1 }, //' "$work/levels.toml" > "$work/unraised.toml"
report "check-script, such levels that nothing improves" "0 0" \
    "$(ended_lines "$tools/check-script" "$work/unraised.toml")"
report "check-script of an .xz file" "good: 1 picture, 7 steps, 3 frames, 0 turns" \
    "$(xz -c "$examples/passes.toml" | "$tools/check-script")"
report "check-script of a recording" "1 1" "$(ended_lines "$tools/check-script" "$examples/fill.bin")"
report "check-script of a recording, what it looks like" "looks like a recording" \
    "$(grep -o "looks like a recording" "$work/err")"
"$tools/check-script" /dev/null > "$work/out" 2> "$work/err"
report "check-script of nothing" "0 check-script: /dev/null: the script is empty" "$(ended $?)"
head -c 67108865 /dev/zero | tr '\0' ' ' | "$tools/check-script" > "$work/out" 2> "$work/err"
report "check-script beyond the limit" "1 1" "$? $(grep -c TooLong "$work/err")"
python3 - "$tools" "$examples"/*.toml > "$work/out" <<'PYTHON'
import sys, tomllib
sys.path.insert(0, sys.argv[1])
from gfxtools import toml
for name in sys.argv[2:]:
    text = open(name, encoding="utf-8").read()
    if toml.read(text) != tomllib.loads(text):
        print(name)
PYTHON
report "scripts are read as by Python's own reader" "" "$(cat "$work/out")"

# ---- play
"$tools/play" "$examples/passes.toml" --columns 40 > "$work/out" 2> "$work/err"
report "play of passes" "0 " "$(ended $?)"
report "play, its lines" "39 frame 1 of 3|frame 2 of 3|frame 3 of 3" \
    "$(wc -l < "$work/out") $(grep -a ^frame "$work/out" | paste -sd '|')"
"$tools/play" "$examples/fill.bin" > "$work/out"
report "play, a picture of two pixels" "255;0;0 255;0;0" \
    "$(head -n 1 "$work/out" | grep -ao '[0-9]*;[0-9]*;[0-9]*m' | sed 's/^2;//; s/m$//' | paste -sd ' ')"
report "play --every of gnome" "frame 35 of 70|frame 70 of 70" \
    "$("$tools/play" "$examples/gnome.bin.xz" --first 35 --every 35 --columns 20 | grep -a ^frame | paste -sd '|')"
report "play of a refused recording" "1 1" "$(ended_lines "$tools/play" "$examples/outside.bin")"
report "gfx play is play" "same" \
    "$("$tools/gfx" play "$examples/fill.bin" | cmp -s - <("$tools/play" "$examples/fill.bin") && echo same)"

# ---- picture
"$tools/picture" --list < "$examples/desktop.txt" > "$work/out"
report "picture --list" "surface 1 160x100 xrgb, surface 2 120x80 xrgb, surface 65535 96x96 argb" \
    "$(paste -sd , "$work/out" | sed 's/,/, /g')"
"$tools/picture" --all "$work/all" < "$examples/desktop.txt"
report "picture --all" "surface-1.png surface-2.png surface-65535.png" "$(cd "$work/all" && echo *)"
for id in 1 2 65535; do
    dump_of "$(grep "^surface $id " "$examples/desktop.txt")" "$work/all/surface-$id.png"
done > "$work/out"
report "picture --all, the pixels" "same" "$(same "$work/out" "$examples/desktop.txt")"
"$tools/picture" 65535 "$work/one.png" --from "$examples/desktop.txt"
report "picture of one surface" "same" "$(same "$work/one.png" "$work/all/surface-65535.png")"
"$tools/picture" "$work/one.png" < "$examples/passes-3.txt"
dump_of "$(head -n 1 "$examples/passes-3.txt")" "$work/one.png" > "$work/out"
report "picture of the only surface" "same" "$(same "$work/out" "$examples/passes-3.txt")"
"$tools/picture" --scale 32 < "$examples/output.txt" > "$work/one.png"
report "picture of the output, to the standard output" "output 256x128" \
    "$(dump_of x "$work/one.png" | awk 'NR > 1 { width = length($0) / 8; height++ } END { print "output " width "x" height }')"
report "picture of several" "1 1" "$(ended_lines "$tools/picture" "$work/two.png" --from "$examples/desktop.txt")"
report "picture of one that isn't there" "1 1" "$(ended_lines "$tools/picture" 9 "$work/two.png" --from "$examples/desktop.txt")"
report "picture, a scale beyond the limit" "2 1" "$(ended_lines "$tools/picture" 1 "$work/two.png" --scale 65)"
report "picture, a side beyond the limit" "1 1" \
    "$(printf 'surface 1 2000x1 xrgb\n%s\n' "$(printf '000000ff%.0s' $(seq 2000))" > "$work/wide.txt"
    ended_lines "$tools/picture" "$work/two.png" --scale 64 --from "$work/wide.txt")"
printf 'output 0x0\n' > "$work/empty.txt"
report "picture of no pixels" "1 1" "$(ended_lines "$tools/picture" "$work/two.png" --from "$work/empty.txt")"
report "what fails leaves no file" "" "$(ls "$work/two.png"* 2> /dev/null)"

# ---- compare
"$tools/compare" "$examples/desktop.txt" "$examples/desktop.txt" > "$work/out" 2> "$work/err"
report "compare, the same" "0 " "$(ended $?)$(cat "$work/out")"
printf 'surface 1 2x2 xrgb\n000000ff000000ff\n000000ff000000ff\n' > "$work/a.txt"
printf 'surface 1 2x2 xrgb\n000000ff000200ff\n000000ff010000ff\n' > "$work/b.txt"
"$tools/compare" "$work/a.txt" - --picture "$work/difference.png" < "$work/b.txt" > "$work/out" 2> "$work/err"
report "compare, two pixels" \
    "1 surface 1 2x2 xrgb: 2 of 4 pixels differ, by up to 2, within [1, 0, 2, 2]; the first at column 1 of row 0: 000000ff and 000200ff" \
    "$(ended $?)$(cat "$work/out")"
dump_of "a" "$work/difference.png" > "$work/out"
report "compare, its picture" "a 000000ff000081ff 000000ff000080ff" "$(paste -sd ' ' "$work/out")"
"$tools/compare" "$work/a.txt" "$work/b.txt" --off 2 --counts "$work/counts" > "$work/out"
report "compare, not so far off" "0 bytes 12 1-off 1 2-off 1" "$? $(cat "$work/counts")"
report "compare, other surfaces" "1 0" "$(ended_lines "$tools/compare" "$examples/desktop.txt" "$examples/text.txt")"
report "compare, what one alone has" "2" "$(grep -c 'alone has it' "$work/out")"

# ---- frames
for input in passes.toml passes.bin; do
    "$tools/frames" "$examples/$input" "$work/passes" --jobs 2 2> "$work/err"
    report "frames of $input" "0 $work/passes: 3 pictures of surface 1" "$(ended $?)"
    for number in 1 2 3; do
        dump_of "surface 1 80x48 xrgb" "$work/passes/frame-000$number.png" > "$work/out"
        report "frames of $input, frame $number" "same" "$(same "$work/out" "$examples/passes-$number.txt")"
    done
    rm -rf "$work/passes"
done
"$tools/frames" "$examples/video.toml" "$work/whole" 2> "$work/err"
report "frames of video.toml" "0 $work/whole: 2 pictures of surface 1" "$(ended $?)"
dump_of "surface 1 100x72 xrgb" "$work/whole/frame-0002.png" > "$work/out"
report "frames of video.toml, the last" "same" "$(same "$work/out" "$examples/video.txt")"
rewritten joined "$tools" "$examples/passes.bin" > "$work/joined.bin"
"$tools/frames" "$work/joined.bin" "$work/passes" 2> "$work/err"
dump_of "surface 1 80x48 xrgb" "$work/passes/frame-0002.png" > "$work/out"
report "frames that share a channel message" "same" "$(same "$work/out" "$examples/passes-2.txt")"
"$tools/frames" - "$work/video" --video < "$examples/passes.bin" 2> "$work/err"
grep -hv surface "$examples"/passes-[123].txt |
    python3 -c 'import sys; sys.stdout.buffer.write(bytes.fromhex(sys.stdin.read()))' > "$work/wanted"
report "frames --video" "same" "$(same "$work/video" "$work/wanted")"
"$tools/frames" "$examples/gnome.bin.xz" "$work/gnome" --first 60 --every 5 2> "$work/err"
report "frames --every of gnome" "0 frame-0060.png frame-0065.png frame-0070.png" "$? $(cd "$work/gnome" && echo *)"
xz -dc "$examples/gnome.bin.xz" | "$program" render --output > "$work/wanted"
dump_of "output 800x600" "$work/gnome/frame-0070.png" > "$work/out"
report "frames, the last of gnome" "same" "$(same "$work/out" "$work/wanted")"
"$tools/frames" "$examples/desktop.bin" "$work/end.png" --end --of 2 2> "$work/err"
report "frames --end" "same" "$(same "$work/end.png" "$work/all/surface-2.png")"
report "frames of several surfaces" "1 1" "$(ended_lines "$tools/frames" "$examples/desktop.bin" "$work/to")"
report "frames of a refused recording" "1 1" "$(ended_lines "$tools/frames" "$examples/outside.bin" "$work/to")"
cat "$examples/fill.bin" "$examples/outside.bin" > "$work/refused.bin"
report "frames before a refusal" "1 2" "$(ended_lines "$tools/frames" "$work/refused.bin" "$work/to" --of 1)"
report "frames before a refusal, their pictures" "frame-0001.png" "$(cd "$work/to" && echo *)"

# ---- gfx
"$tools/gfx" render "$examples/desktop.bin" "$work/out" 2> "$work/err"
report "gfx render, into a file" "0 same" "$? $(same "$work/out" "$examples/desktop.txt")"
"$tools/gfx" render --output < "$examples/output.bin" > "$work/out" 2> "$work/err"
report "gfx render --output" "0 same" "$? $(same "$work/out" "$examples/output.txt")"
"$tools/gfx" encode "$examples/text.toml" "$work/out" 2> "$work/err"
report "gfx encode" "0 same" "$? $(same "$work/out" "$examples/text.bin")"
"$tools/gfx" audit "$examples/text.bin" > "$work/out" 2> "$work/err"
report "gfx audit" "0 same" "$? $(same "$work/out" "$examples/text-audit.txt")"
"$tools/gfx" session "$examples/joined.toml" > "$work/out" 2> "$work/err"
report "gfx session" "0 same" "$? $(same "$work/out" "$examples/joined.txt")"
"$tools/gfx" trial 1 > "$work/out" 2> "$work/err"
report "gfx trial" "0 same" "$? $(same "$work/out" "$examples/trial-1.txt")"
report "gfx make" "same" "$("$tools/gfx" make 1 | cmp -s - <("$program" make 1) && echo same)"
report "gfx render of an .xz file" "cd0976e038ed9c2cac37714d1eec4f5a36ba689aa7fb5ce8e61ebe6710708b53  -" \
    "$("$tools/gfx" render "$examples/gnome.bin.xz" | sha256sum)"
"$tools/gfx" render "$examples/outside.bin" > "$work/out" 2> "$work/err"
report "gfx, a refusal" "1 same RectOutside" \
    "$? $(same "$work/out" "$examples/outside.txt") $(grep -o RectOutside "$work/err")"
for words in "render $docs/gnome.png" "render $examples/fill.toml" "encode $examples/fill.bin"; do
    # shellcheck disable=SC2086
    report "gfx ${words//$here\/..\//}, in one line" "1 1" "$(ended_lines "$tools/gfx" $words)"
    report "gfx ${words//$here\/..\//}, what it looks like" "looks like" "$(grep -o "looks like" "$work/err")"
done
report "gfx, a number that is none" "2 1" "$(ended_lines "$tools/gfx" make 4294967296)"
"$tools/gfx" render 2> "$work/err" <&-
report "gfx on a closed input" "3 gfx: the standard input is closed" "$(ended $?)"
"$program" render 2> "$work/err" <&-
report "the program on a closed input" "3 input: read failed" "$(ended $?)"
report "gfx on an empty input" "0 1" "$(ended_lines "$tools/gfx" render /dev/null)"
cp "$examples/fill.bin" "$work/fill.bin"
report "gfx into its own input" "2 1" "$(ended_lines "$tools/gfx" render "$work/fill.bin" "$work/fill.bin")"
report "gfx into its own input leaves it" "same" "$(same "$work/fill.bin" "$examples/fill.bin")"
report "gfx stream is stream" "same" \
    "$("$tools/gfx" stream list "$work/gnome.bin" | cmp -s - <("$tools/stream" list "$work/gnome.bin") && echo same)"

# ---- Bounds
# An output of the largest sides, a surface of these sides, mapped to it, and a frame without drawing.
wide() {
    python3 - "$tools" "$1" <<'PYTHON'
import struct, sys
sys.path.insert(0, sys.argv[1])
from gfxtools import recording
BODIES = (
    (0x0E, struct.pack("<III", 32766, 32766, 0) + bytes(320)),
    (0x09, struct.pack("<HHHB", 1, int(sys.argv[2]), int(sys.argv[2]), 0x20)),
    (0x0F, struct.pack("<HHII", 1, 0, 0, 0)),
    (0x0B, struct.pack("<II", 0, 1)),
    (0x0C, struct.pack("<I", 1)),
)
payloads = [struct.pack("<HHI", kind, 0, 8 + len(body)) + body for kind, body in BODIES]
sys.stdout.buffer.write(b"".join(map(recording.wrap, payloads)))
PYTHON
}
wide 8192 > "$work/wide.bin"
wide 4096 > "$work/half.bin"
mkdir "$work/bounds"
report "a small recording of a large output" "433" "$(stat -c %s "$work/wide.bin")"
for words in "frames $work/wide.bin $work/bounds/to" "frames $work/wide.bin $work/bounds/to.png --end" \
    "frames $work/wide.bin $work/bounds/to.raw --video" "frames $work/wide.bin - --video" "play $work/wide.bin"; do
    # shellcheck disable=SC2086
    report "${words//$work/..} of too many pixels" "1 1 --most-pixels 0" \
        "$(ended_lines limited 1048576 "$tools/"$words) $(grep -o -e --most-pixels "$work/err") $(stat -c %s "$work/out")"
done
limited 1048576 "$tools/gfx" render --output "$work/wide.bin" 2> "$work/err" |
    limited 1048576 "$tools/picture" "$work/bounds/to.png" 2> "$work/out"
report "picture of too many pixels" "1 --most-pixels " \
    "${PIPESTATUS[1]} $(grep -o -e --most-pixels "$work/out") $(cat "$work/err")"
printf 'output 70000x1\n' > "$work/long.txt"
report "picture of a side that no picture has" "1 1" \
    "$(ended_lines "$tools/picture" "$work/bounds/to.png" --from "$work/long.txt")"
report "what has too many pixels leaves nothing" "" "$(ls -A "$work/bounds")"
limited 1048576 "$tools/frames" "$work/wide.bin" "$work/bounds/frames.png" --end --of 1 2> "$work/err"
report "frames --end of the largest surface" "0 $work/bounds/frames.png: surface 1 at the end of frame 1" "$(ended $?)"
limited 524288 "$tools/frames" "$work/half.bin" "$work/bounds/frames.png" --end --of 1 2> "$work/err"
"$tools/gfx" render "$work/half.bin" | limited 524288 "$tools/picture" "$work/bounds/picture.png" 2> "$work/err"
report "picture of a large surface" "0  same" \
    "$(ended "${PIPESTATUS[1]}") $(same "$work/bounds/frames.png" "$work/bounds/picture.png")"
report "play of a large surface" "0 0 frame 1 of 1" \
    "$(ended_lines limited 524288 "$tools/play" "$work/half.bin" --of 1 --columns 16) $(tail -n 1 "$work/out")"
limited 524288 "$tools/compare" <("$program" render < "$work/half.bin") <("$program" render < "$work/half.bin") 2> "$work/err"
report "compare of large surfaces" "0 " "$(ended $?)"
report "picture of a line without an end" "1 1" \
    "$(head -c 4000000000 /dev/zero | ended_lines limited 524288 "$tools/picture" "$work/bounds/to.png")"
report "--most-pixels, one more than it" "1 1" \
    "$(ended_lines "$tools/frames" "$examples/desktop.bin" "$work/bounds/few" --of 1 --most-pixels 15999)"
report "--most-pixels, as many" "0 1" \
    "$(ended_lines "$tools/frames" "$examples/desktop.bin" "$work/bounds/few" --of 1 --most-pixels 16000)"
report "--most-pixels, a scale counts" "1 1" \
    "$(ended_lines "$tools/picture" 1 "$work/bounds/to.png" --scale 2 --most-pixels 63999 --from "$examples/desktop.txt")"
report "compare --picture --most-pixels" "1 1" "$(ended_lines "$tools/compare" "$work/a.txt" "$work/b.txt" \
    --picture "$work/bounds/to.png" --most-pixels 3)"
rm -rf "$work/bounds"

# ---- What is written
mkdir "$work/kept"
kept=$work/kept
# What is in the folder, and whether the old files are as they were.
untouched() {
    echo "$(cd "$kept" && ls -A | paste -sd ' ') $(same "$kept/in.bin" "$examples/desktop.bin") $(same "$kept/in.txt" \
        "$examples/desktop.txt") $(cat "$kept/old")"
}
cp "$examples/desktop.bin" "$kept/in.bin"
cp "$examples/desktop.txt" "$kept/in.txt"
ln -s in.bin "$kept/link"
ln "$kept/in.txt" "$kept/second"
echo old > "$kept/old"
as_it_was="in.bin in.txt link old second same same old"
for words in "frames $kept/in.bin $kept/in.bin --end --of 1" "frames $kept/in.bin $kept/link --end --of 1" \
    "frames $kept/link $kept/in.bin --video --of 1" "picture 1 $kept/in.txt --from $kept/in.txt" \
    "picture 1 $kept/second --from $kept/in.txt" "gfx render $kept/in.bin $kept/in.bin" \
    "gfx fragment $kept/in.bin $kept/link" "compare $kept/in.txt $examples/desktop.txt --of 1 --picture $kept/in.txt" \
    "compare $kept/in.txt $examples/desktop.txt --of 1 --counts $kept/second"; do
    # shellcheck disable=SC2086
    report "${words//$kept/..} over its input" "2 1" "$(ended_lines "$tools/"$words)"
done
report "frames over its standard input" "2 1" \
    "$(ended_lines "$tools/frames" - "$kept/in.bin" --end --of 1 < "$kept/in.bin")"
report "picture over its standard input" "2 1" "$(ended_lines "$tools/picture" 1 "$kept/in.txt" < "$kept/in.txt")"
report "what is read isn't written over" "$as_it_was" "$(untouched)"
head -c 240 "$examples/text.bin" > "$work/cut.bin"
head -c 3000 "$examples/desktop.txt" > "$work/cut.txt"
for words in "gfx render $work/cut.bin $kept/old" "gfx render $docs/gnome.png $kept/old" \
    "gfx join $examples/fill.bin $kept/old" "gfx join $examples/fill.bin $kept/new" \
    "gfx encode $examples/fill.bin $kept/old" "picture $kept/old --from $work/cut.txt" \
    "picture --all $kept/new --from $work/cut.txt" "frames $examples/outside.bin $kept/old --end" \
    "frames $work/cut.bin $kept/new" "gfx render $examples/fill.bin $kept/none/new"; do
    # shellcheck disable=SC2086
    report "${words//$kept/..} fails" "1 1" "$(ended_lines "$tools/"$words)"
done
"$tools/picture" < "$work/cut.txt" > "$work/out" 2> "$work/err"
report "picture of a cut dump writes nothing" "1 0" "$? $(stat -c %s "$work/out")"
report "what fails leaves what was there" "$as_it_was" "$(untouched)"
report "gfx, interrupted" "130 gfx: interrupted" "$(interrupted "$kept" "$tools/gfx" render - "$kept/old")"
# A program that begins with a picture, and doesn't end.
cat > "$work/slow" <<SLOW
#!/bin/sh
[ "\$1" = render ] || exec "$program" "\$@"
echo surface 1 80x48 xrgb
exec sleep 60
SLOW
chmod +x "$work/slow"
for more in "old --end" "new --video"; do
    # shellcheck disable=SC2086
    report "frames ${more#* }, interrupted" "130 frames: interrupted" \
        "$(interrupted "$kept" "$tools/frames" "$examples/passes.bin" "$kept/"$more --program "$work/slow" --runs)"
done
mkdir "$work/pictures"
report "frames, interrupted" "130 frames: interrupted" \
    "$(interrupted "$work/pictures" "$tools/frames" "$examples/passes.bin" "$work/pictures" --program "$work/slow" --runs)"
report "an interrupt leaves what was there" "$as_it_was " "$(untouched) $(ls -A "$work/pictures")"
(ulimit -f 8 && trap '' XFSZ && exec "$tools/frames" "$examples/passes.bin" "$kept/old" --video) > "$work/out" 2> "$work/err"
report "frames where no more can be written" "1 frames: $kept/old can't be written: File too large" "$(ended $?)"
report "what has no room leaves what was there" "$as_it_was" "$(untouched)"
chmod 600 "$kept/old"
ln -s old "$kept/to-old"
"$tools/gfx" render "$examples/desktop.bin" "$kept/to-old" 2> "$work/err"
report "a link is followed, and who may read stays" "0 same 600 old" \
    "$(ended $?)$(same "$kept/old" "$examples/desktop.txt") $(stat -c %a "$kept/old") $(readlink "$kept/to-old")"
"$tools/gfx" render "$examples/desktop.bin" /dev/stdout 2> "$work/err" | cmp -s - "$examples/desktop.txt"
report "a pipe is written where it is" "0 0" "${PIPESTATUS[*]}"
rm -rf "$kept" "$work/pictures"

# ---- Ends and lines
for words in "frames $examples/passes.bin - --end" "frames $examples/passes.bin - --video" \
    "picture 1 --from $examples/desktop.txt" "picture 1 - --from $examples/desktop.txt" "gfx encode $examples/text.toml" \
    "gfx fragment $examples/text.bin -" "load blank"; do
    # shellcheck disable=SC2086
    report "${words//$here\/../..} on a terminal" "2 0 terminal" "$(on_terminal "$tools/"$words)"
done
: > "$work/nothing.txt"
"$tools/compare" "$work/nothing.txt" "$work/nothing.txt" > "$work/out" 2> "$work/err"
report "compare of nothing" \
    "1 compare: neither $work/nothing.txt nor $work/nothing.txt has a pixel: there is nothing to compare" \
    "$(ended $?)$(cat "$work/out")"
report "compare of nothing and something" "1 surface 1: $work/a.txt alone has it" \
    "$("$tools/compare" "$work/nothing.txt" "$work/a.txt" > "$work/out"; echo $?) $(cat "$work/out")"
printf 'surface 2 1x1 xrgb\n000000ff\nsurface 1 1x1 xrgb\n000000ff\n' > "$work/falling.txt"
report "compare of surfaces out of order" "1 1" "$(ended_lines "$tools/compare" "$work/falling.txt" "$work/a.txt")"
for tool in frames play; do
    to=$([ $tool = frames ] && echo "$work/to")
    # shellcheck disable=SC2086
    "$tools/$tool" "$examples/passes.bin" $to --first 500 > "$work/out" 2> "$work/err"
    report "$tool --first behind the last" "1 $tool: $examples/passes.bin has 3 frames, and --first is 500" "$(ended $?)"
    # shellcheck disable=SC2086
    report "$tool --last before --first" "2 1" \
        "$(ended_lines "$tools/$tool" "$examples/passes.bin" $to --first 3 --last 2)"
done
report "frames into what is named as a file" "2 1 --end" \
    "$(ended_lines "$tools/frames" "$examples/passes.bin" "$work/passes.png") $(grep -o -e --end "$work/err")"
report "frames into a file" "1 1" "$(ended_lines "$tools/frames" "$examples/passes.bin" "$work/a.txt")"
report "frames --end into a folder" "2 1" "$(ended_lines "$tools/frames" "$examples/passes.bin" "$work" --end)"
report "frames into what is named as a file makes no folder" "" "$(ls -d "$work/passes.png" 2> /dev/null)"
printf 'surface 1 2x1 xrgb\n000000ff\n' > "$work/short.txt"
printf 'surface 1 1x1 xrgb\n000000fg\n' > "$work/sign.txt"
printf 'nonsense\n' > "$work/words.txt"
for words in "picture $work/to.png --from $work/short.txt" "picture $work/to.png --from $work/sign.txt" \
    "picture --list --from $work/words.txt" "picture 9 $work/to.png --from $work/a.txt" \
    "picture $work/to.png --from $work/nothing.txt" "compare $work/a.txt $work/short.txt --of 1" \
    "compare $work/a.txt $work/words.txt" "compare $work/a.txt $work/cut.xz" "compare $work/a.txt $work/b.txt --of 9" \
    "stream list $work/cut.bin" "frames $examples/outside.bin $work/to" "frames $work/cut.bin $work/to" \
    "play $examples/desktop.bin" "gfx render $examples/outside.bin" "gfx encode $docs/gnome.png" \
    "check-script $docs/gnome.png"; do
    # shellcheck disable=SC2086
    "$tools/"$words > "$work/out" 2> "$work/err"
    named=0
    for word in $words; do
        [ -f "$word" ] && grep -qF "$word" "$work/err" "$work/out" && named=1
    done
    report "${words//$work/..}, its line names the file" "1" "$named"
done

# ---- record, over FreeRDP's decoder
if ! pkg-config --exists freerdp2 winpr2 2> /dev/null; then
    echo "left out: record; freerdp2-dev isn't there"
else
    make --silent -C "$here/freerdp" || exit 2
    freerdp=$here/freerdp/out/render
    "$tools/record" "$work/recorded.bin" "$freerdp" < "$work/gnome.bin" > "$work/out" 2> "$work/err"
    report "record of gnome" "0 same" "$? $(same "$work/recorded.bin" "$work/gnome.bin")"
    report "record, what it says" \
        "$work/recorded.bin: 706,899 bytes, 74 channel messages, 70 frames; the client ended with exit number 0" \
        "$(cat "$work/err")"
    report "record, the client's own output" "$("$freerdp" < "$work/gnome.bin" | sha256sum)" "$(sha256sum < "$work/out")"
    rewritten compressed "$tools" "$examples/desktop.bin" > "$work/compressed.bin"
    report "a compressed recording" "message 1: 5 BulkCompressed" "$("$program" render < "$work/compressed.bin" 2>&1)"
    "$tools/record" "$work/plain.bin" "$freerdp" < "$work/compressed.bin" > "$work/out" 2> "$work/err"
    report "record of a compressed one" "0 same" "$? $(same "$work/plain.bin" "$examples/desktop.bin")"
    report "record doesn't write over" "1 1" "$(ended_lines "$tools/record" "$work/plain.bin" "$freerdp")"
    report "record of a client without the channel" "1 1" "$(ended_lines "$tools/record" "$work/new.bin" true)"
    (ulimit -f 100 && "$tools/record" "$work/full.bin" sh -c "trap '' XFSZ; exec $freerdp" < "$work/gnome.bin" \
        > "$work/out" 2> "$work/err")
    report "record where no more can be written" "0 1 nothing more is recorded" \
        "$? $(grep -c . <(grep -o 'nothing more is recorded' "$work/err")) $(grep -o 'nothing more is recorded' "$work/err")"
    report "record where no more can be written keeps whole messages" "0" \
        "$("$tools/stream" stats "$work/full.bin" > /dev/null 2>&1; echo $?)"
fi

# shellcheck source=tests/tools-inputs.sh
. "$here/tools-inputs.sh"

[ "$failures" -eq 0 ]
