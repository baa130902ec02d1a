#!/usr/bin/env bash
# Runs the built program where the machine refuses it a stream, on the examples, at the limits of its input and of
# its tiles, on inputs that would show what takes too many steps or too much room, and, where a reference program
# is given, beside that one on many streams. It takes some minutes, and needs python3, xz and valgrind.
#
#     tests/by-hand.sh PROGRAM [REFERENCE [SEEDS]]
#
# REFERENCE has the same `render`, `audit`, `encode` and `session`, and brings the same choosers. It prints a stream
# of its own for `--random-stream SEED WORDS`, a script for `--random SEED WORDS`, and one with a fault for
# `--random-fault SEED WORDS`, where WORDS are the steps that may occur. 100 SEEDS are taken where none are named.
# Each case is a line, `ok` or `FAILED`; the exit number is 1 where one failed.
set -u
# shellcheck source-path=SCRIPTDIR source=common.sh
. "$(dirname "$0")/common.sh"
if [ $# -lt 1 ] || [ $# -gt 3 ]; then
    wrong_words
fi
need_programs "$1" ${2:+"$2"}
program=$(realpath "$1")
reference=${2:+$(realpath "$2")}
seeds=${3:-100}
examples=$(realpath "$(dirname "$0")")/../examples

# Writes a stream of whole messages, as many bytes as the first number says, in a few large channel
# messages; then, where there is a second word, what it names: `byte` a single byte, `refused` a frame's
# end that has no start, and a byte.
stream_of() {
    python3 - "$@" <<'PYTHON'
import struct, sys

def channel(payload):
    return struct.pack("<IBB", 2 + len(payload), 0xE0, 0x04) + payload

def message(number, body):
    return channel(struct.pack("<HHI", number, 0, 8 + len(body)) + body)

def fill(count):
    """A fill of surface 1 with this many empty rectangles."""
    return message(4, struct.pack("<H4BH", 1, 0, 0, 255, 255, count) + bytes(8 * count))

total, last = int(sys.argv[1]), sys.argv[2:]
surfaces = b"".join(message(9, struct.pack("<HHHB", number, 64, 64, 0x20)) for number in (1, 2))
end = message(12, struct.pack("<I", 1))
nothing = channel(b"")
large = fill(8000)
left = total - len(surfaces) - (len(end) if last == ["refused"] else 0)
out = sys.stdout.buffer
try:
    out.write(surfaces)
    while left > 2 * len(large):
        out.write(large)
        left -= len(large)
    # An even number is left: a small fill makes it a multiple of the 6 bytes of an empty channel message.
    small = {0: b"", 2: fill(2), 4: fill(0)}[left % 6]
    out.write(small)
    left -= len(small)
    out.write(nothing * (left // len(nothing)))
    if last == ["refused"]:
        out.write(end)
    if last:
        out.write(b"\0")
    out.flush()
except BrokenPipeError:
    sys.stderr.close()
PYTHON
}

# Writes a stream of a surface of 128 cells and as many simple tiles as the number says, each of a cell and an
# encoding context of its own; then, where there is a second word, `again`, the first of them once more.
tiles_of() {
    python3 - "$@" <<'PYTHON'
import struct, sys

CELLS = 128

def message(number, body):
    payload = struct.pack("<HHI", number, 0, 8 + len(body)) + body
    return struct.pack("<IBB", 2 + len(payload), 0xE0, 0x04) + payload

def block(kind, body):
    return struct.pack("<HI", kind, 6 + len(body)) + body

def tile(cell):
    """A simple tile without data: all its coefficients are 0."""
    return block(0xCCC5, struct.pack("<3B2HB4H", 0, 0, 0, cell, 0, 0, 0, 0, 0, 0))

def passes(context, count):
    """A region of tiles at the first so many cells, which paints none of them."""
    tiles = b"".join(map(tile, range(count)))
    region = block(0xCCC4, struct.pack("<BHBBBHI", 64, 0, 1, 0, 0, count, len(tiles)) + b"\x66" * 5 + tiles)
    return message(2, struct.pack("<HHIBI", 1, 9, context, 0x20, len(region)) + region)

total, last = int(sys.argv[1]), sys.argv[2:]
out = sys.stdout.buffer
out.write(message(9, struct.pack("<HHHB", 1, 64 * CELLS, 1, 0x20)))
for first in range(0, total, CELLS):
    out.write(passes(first // CELLS, min(CELLS, total - first)))
if last:
    out.write(passes(0, 1))
PYTHON
}

# Writes a stream that is refused for a size, as the word says: `side` a surface of 65,535 by 65,535, `cells` one of
# 8,192 by 8,192 beside a small one, `bitmap` a bitmap of one row more than the cache of a small client takes.
refused_of() {
    python3 - "$1" <<'PYTHON'
import struct, sys

def message(number, body):
    payload = struct.pack("<HHI", number, 0, 8 + len(body)) + body
    return struct.pack("<IBB", 2 + len(payload), 0xE0, 0x04) + payload

def surface(number, width, height):
    return message(9, struct.pack("<HHHB", number, width, height, 0x20))

small_client = message(19, struct.pack("<III", 0x80004, 4, 2))
whole_to_slot = message(6, struct.pack("<HQHHHHH", 1, 1, 1, 0, 0, 2048, 2049))
sys.stdout.buffer.write({
    "side": surface(1, 65535, 65535),
    "cells": surface(1, 1, 1) + surface(2, 8192, 8192),
    "bitmap": small_client + surface(1, 2048, 2049) + whole_to_slot,
}[sys.argv[1]])
PYTHON
}

# Writes an input with as many parts as the number says: `messages` a stream of channel messages without a payload,
# `columns` a script that paints a picture of noise, so wide, as bands, `paints` one that paints so many pictures
# of noise, each of two columns, as bands.
many_of() {
    python3 - "$@" <<'PYTHON'
import struct, sys

def script(pictures, width, height):
    """Paints noise of these names and this size, one on the other, in one frame."""
    size = f"width = {width}, height = {height}"
    yield "picture = ["
    for name in pictures:
        yield f'    {{ name = "{name}", {size}, pattern = "noise", seed = {name} }},'
    yield "]"
    yield "step = ["
    yield f'    {{ do = "surface", id = 1, {size} }},'
    for name in pictures:
        yield f'    {{ do = "paint", id = 1, picture = "{name}", at = [0, 0], kind = "bands" }},'
    yield '    { do = "frame" },'
    yield "]"

kind, count = sys.argv[1], int(sys.argv[2])
if kind == "messages":
    sys.stdout.buffer.write(struct.pack("<IBB", 2, 0xE0, 0x04) * count)
elif kind == "columns":
    print("\n".join(script(range(1), count, 52)))
else:
    print("\n".join(script(range(count), 2, 2)))
PYTHON
}

# Passes its input on in small pieces, whose sizes the seed decides.
in_pieces() {
    python3 -c '
import os, random, sys, time
chance = random.Random(int(sys.argv[1]))
data = sys.stdin.buffer.read()
at = 0
try:
    while at < len(data):
        count = chance.choice((1, 2, 3, 7, 20, 100, 500))
        os.write(1, data[at:at + count])
        at += count
        if chance.random() < 0.1:
            time.sleep(0.0005)
except BrokenPipeError:
    pass
' "$1"
}

# Streams that fail.
for name in fill desktop; do
    "$program" render < "$examples/$name.bin" > /dev/full 2> "$work/err"
    report "a full output, $name" "4 output: write failed" "$(ended $?)"
    "$program" render < "$examples/$name.bin" 2> "$work/err" >&-
    report "a closed output, $name" "4 output: write failed" "$(ended $?)"
done
"$program" render < "$examples/desktop.bin" 2> "$work/err" | true
report "an output that nobody reads" "4 output: write failed" "$(ended "${PIPESTATUS[0]}")"
"$program" render > "$work/out" 2> "$work/err" <&-
report "a closed input" "3 input: read failed" "$(ended $?)"
"$program" render < "$work" > "$work/out" 2> "$work/err"
report "a folder as input" "3 input: read failed" "$(ended $?)"
report "a read that fails prints nothing" "0" "$(stat -c %s "$work/out")"
"$program" render < "$examples/outside.bin" > "$work/out" 2> /dev/full
report "a full standard error" "4" "$?"
"$program" render < "$examples/outside.bin" > /dev/full 2> "$work/err"
report "a full output of a refused stream" "4 output: write failed" "$(ended $?)"
"$program" audit < "$examples/text.bin" > /dev/full 2> "$work/err"
report "a full output of an audit" "4 output: write failed" "$(ended $?)"

# A surface of 8,192 by 8,192, for which there is no room.
printf '\x11\0\0\0\xe0\x04\x09\0\0\0\x0f\0\0\0\x01\0\0\x20\0\x20\x20' |
    (ulimit -v 100000 && "$program" render > "$work/out" 2> "$work/err")
report "no memory" "5 memory: none left" "$(ended $?)$(cat "$work/out")"

# The same behind the start of a frame, which has its line.
printf '\x12\0\0\0\xe0\x04\x0b\0\0\0\x10\0\0\0\0\0\0\0\x01\0\0\0\x11\0\0\0\xe0\x04\x09\0\0\0\x0f\0\0\0\x01\0\0\x20\0\x20\x20' |
    (ulimit -v 100000 && "$program" audit > "$work/out" 2> "$work/err")
report "no memory in an audit" "5 memory: none left, 1 StartFrame 16" "$(ended $?), $(cat "$work/out")"

# What is refused for its size takes no room first: 64,000 KiB are enough for what was there before. A bitmap of the
# third stream would be 16 MiB more.
refused_case() {
    refused_of "$2" > "$work/input"
    (ulimit -v 64000 && "$program" render < "$work/input" > "$work/out" 2> "$work/err")
    report "no room for $1" "$3" "$(ended $?)"
}
refused_case "a side that is too long" side "1 message 1: 12 SurfaceSize"
refused_case "cells beyond the limit" cells "1 message 2: 13 SurfaceBudget"
refused_case "a bitmap that is too large" bitmap "1 message 3: 20 CacheBudget"

# Each part takes no more than so many instructions, and twice as many parts take about twice as many. What the
# program does without any is left out.
instructions() {
    valgrind --tool=callgrind --callgrind-out-file=/dev/null "$program" "$1" < "$work/input" 2>&1 > /dev/null |
        sed -n 's/.*Collected : //p'
}
growth_case() {
    local name=$1 word=$2 kind=$3 count=$4 most=$5 size steps=()
    for size in 1 "$count" $((2 * count)); do
        many_of "$kind" "$size" > "$work/input"
        steps+=("$(instructions "$word")")
    done
    local once=$((steps[1] - steps[0])) twice=$((steps[2] - steps[0])) growth=few
    [ $((once / count)) -le "$most" ] || growth="$((once / count)) each"
    [ $((2 * twice)) -le $((5 * once)) ] || growth="$once, and $twice for twice as many"
    report "the instructions of $name" few "$growth"
}
if command -v valgrind > /dev/null; then
    # A buffer that is moved at each message has 3,000 and more instructions each, and four times as many.
    growth_case "messages in one piece" render messages 5000 500
    # A search without an index has 380,000 each.
    growth_case "columns of noise" encode columns 1000 30000
    # An index that is made anew at each paint has
    growth_case "paints as bands" encode paints 1000 200000
else
    echo "not run instructions: there is no valgrind"
fi

# Words.
usage="2 usage: gfxpipe encode | render [--output] | audit | session | make N | trial N | import | fragment | join"
for words in "render --wide" "" "renders" "render 1 2" "audit --output" "audit 1" "--help" $'\xff' $'render \xff'; do
    # shellcheck disable=SC2086
    "$program" $words < "$examples/fill.bin" > "$work/out" 2> "$work/err"
    report "the words '$words'" "$usage" "$(ended $?)$(cat "$work/out")"
done

# The examples.
example() {
    "$program" render < "$examples/$1.bin" > "$work/out" 2> "$work/err"
    report "the example $1" "$2" "$(ended $?)"
    report "the example $1, the output" "same" "$(cmp -s "$work/out" "$examples/$1.txt" && echo same)"
}
example fill "0 "
example desktop "0 "
example pictures "0 "
example text "0 "
example video "0 "
example outside "1 message 4: 14 RectOutside"
"$program" join < "$examples/fill-fragments.bin" > "$work/out" 2> "$work/err"
report "fill as fragments, joined" "same" "$(cmp -s "$work/out" "$examples/fill.bin" && echo same)"
"$program" fragment < "$examples/fill.bin" > "$work/out" 2> "$work/err"
report "fill, cut into fragments" "same" "$(cmp -s "$work/out" "$examples/fill-fragments.bin" && echo same)"
"$program" import < "$examples/import.input" > "$work/out" 2> "$work/err"
report "the example import" "0 " "$(ended $?)"
report "the example import, the output" "same" "$(cmp -s "$work/out" "$examples/import.txt" && echo same)"
for size in 0 3 4 17 1213 1218 2503; do
    head -c $size "$examples/import.input" | "$program" import > "$work/out" 2> "$work/err"
    report "the example import, its first $size bytes" "1 kept: 54 KeptShape" "$(ended $?)$(cat "$work/out")"
done
"$program" render --output < "$examples/output.bin" > "$work/out" 2> "$work/err"
report "the example output" "0 " "$(ended $?)"
report "the example output, the output" "same" "$(cmp -s "$work/out" "$examples/output.txt" && echo same)"
report "the recording of a real server" "cd0976e038ed9c2cac37714d1eec4f5a36ba689aa7fb5ce8e61ebe6710708b53  -" \
    "$(xz -dc "$examples/gnome.bin.xz" | "$program" render | sha256sum)"
report "the recording of one that sends video" "607b775ca821336eb577e3be27f0ca59a95f6c5ac8f77d3752096666a51d9314  -" \
    "$(xz -dc "$examples/freerdp-video.bin.xz" | "$program" render | sha256sum)"
for name in fill desktop output pictures text passes video; do
    "$program" encode < "$examples/$name.toml" > "$work/out" 2> "$work/err"
    report "the script $name" "0 " "$(ended $?)"
    report "the script $name, its stream" "same" "$(cmp -s "$work/out" "$examples/$name.bin" && echo same)"
done

# A picture in passes, after each of its frames.
head -c 577 "$examples/passes.bin" | "$program" render > "$work/out" 2> "$work/err"
report "the first pass" "same" "$(cmp -s "$work/out" "$examples/passes-1.txt" && echo same)"
head -c 2636 "$examples/passes.bin" | "$program" render > "$work/out" 2> "$work/err"
report "the second pass" "same" "$(cmp -s "$work/out" "$examples/passes-2.txt" && echo same)"
"$program" render < "$examples/passes.bin" > "$work/out" 2> "$work/err"
report "the last pass" "same" "$(cmp -s "$work/out" "$examples/passes-3.txt" && echo same)"

"$program" session < "$examples/joined.toml" > "$work/out" 2> "$work/err"
report "the session joined" "0 " "$(ended $?)"
report "the session joined, its lines" "same" "$(cmp -s "$work/out" "$examples/joined.txt" && echo same)"
"$program" audit < "$examples/text.bin" > "$work/out" 2> "$work/err"
report "the audit of text" "0 " "$(ended $?)"
report "the audit of text, its lines" "same" "$(cmp -s "$work/out" "$examples/text-audit.txt" && echo same)"
"$program" trial 1 > "$work/out" 2> "$work/err"
report "the trial of 1" "0 " "$(ended $?)"
report "the trial of 1, its line" "same" "$(cmp -s "$work/out" "$examples/trial-1.txt" && echo same)"
"$program" make 1 | "$program" session 2> "$work/err" | tail -n 1 > "$work/out"
report "the script of 1, its session ends as the trial" "same" \
    "$([ "$(cut -d ' ' -f 3- "$work/out")" = "$(cut -d ' ' -f 5- "$examples/trial-1.txt")" ] && echo same)"

# The limit of the input: 1 GiB. Nothing of these streams is stored.
limit=$((1 << 30))
blank=$(for id in 1 2; do
    echo "surface $id 64x64 xrgb"
    for _ in $(seq 64); do printf '000000ff%.0s' $(seq 64); echo; done
done)
limit_case() {
    local name=$1 wanted=$2
    shift 2
    stream_of "$@" | "$program" render > "$work/out" 2> "$work/err"
    report "$name" "$wanted" "$(ended "${PIPESTATUS[1]}")"
    report "$name, the output" "$blank" "$(cat "$work/out")"
}
limit_case "1 GiB" "0 " "$limit"
limit_case "1 GiB and one byte" "1 input: TooLong" "$limit" byte
stream_of "$limit" refused | "$program" render > "$work/out" 2> "$work/err"
report "1 GiB whose last message is refused, and one byte" "1 22 FrameMismatch" \
    "$(ended "${PIPESTATUS[1]}" | sed 's/message [0-9]*: //')"
digest=$(sha256sum < /dev/null | cut -d ' ' -f 1)
nothing_held="slots 0
bars 0 0 $digest
shorts 0 0 $digest
glyphs 0 $digest
tiles 0"
stream_of "$limit" byte | "$program" audit > "$work/out" 2> "$work/err"
report "1 GiB and one byte, audited" "1 input: TooLong" "$(ended "${PIPESTATUS[1]}")"
report "1 GiB and one byte, audited, the last lines" "$nothing_held" "$(tail -n 5 "$work/out")"

# The limit of tile records: 16,384. Each message has 128 tiles.
tiles_case() {
    local name=$1 wanted=$2
    shift 2
    tiles_of "$@" > "$work/input"
    "$program" render < "$work/input" > "$work/out" 2> "$work/err"
    report "$name" "$wanted" "$(ended $?)"
    "$program" audit < "$work/input" 2> "$work/err" | tail -n 1 > "$work/out"
    report "$name, audited" "$wanted, tiles 16384" "$(ended "${PIPESTATUS[0]}"), $(cat "$work/out")"
}
tiles_case "16,384 tiles" "0 " 16384
tiles_case "16,384 tiles and one of them again" "0 " 16384 again
tiles_case "16,385 tiles" "1 message 130: 49 TileBudget" 16385

# Beside the reference program.
if [ -n "$reference" ]; then
    # What this program answered to an input, in small pieces of it where the second word is `pieces`.
    answer() {
        local way=$1 seed=$2
        shift 2
        if [ "$way" = pieces ]; then
            in_pieces "$seed" < "$work/input" | "$program" "$@" > "$work/out" 2> "$work/err"
            echo "exit ${PIPESTATUS[1]}" >> "$work/err"
        else
            "$program" "$@" < "$work/input" > "$work/out" 2> "$work/err"
            echo "exit $?" >> "$work/err"
        fi
    }
    # Both programs on one input; notes the seed where they differ.
    beside() {
        local way=$1 seed=$2
        shift 2
        "$reference" "$@" < "$work/input" > "$work/wanted" 2> "$work/wanted.err"
        echo "exit $?" >> "$work/wanted.err"
        answer "$way" "$seed" "$@"
        cmp -s "$work/out" "$work/wanted" && cmp -s "$work/err" "$work/wanted.err" || different="$different $seed"
    }
    built="surface delete reset map fill copy paint kinds=raw,residual,bands,palette,plain,progressive,auto,video improve difference glyph argb keep show forget clients thin"
    for way in whole cut pieces; do
        for words in "render" "render --output" "audit"; do
            different=
            for seed in $(seq "$seeds"); do
                # shellcheck disable=SC2086
                "$reference" --random-stream "$seed" $built > "$work/input"
                if [ $way = cut ]; then
                    RANDOM=$seed
                    size=$(stat -c %s "$work/input")
                    truncate -s $(((RANDOM * 32768 + RANDOM) % (size + 1))) "$work/input"
                fi
                # shellcheck disable=SC2086
                beside $way "$seed" $words
            done
            report "$seeds streams beside the reference, $way, $words" "" "$different"
        done
    done
    for kind in random random-fault; do
        different=
        for seed in $(seq "$seeds"); do
            # shellcheck disable=SC2086
            "$reference" "--$kind" "$seed" $built > "$work/input"
            beside whole "$seed" encode
        done
        report "$seeds scripts beside the reference, $kind" "" "$different"
    done
    for kind in random random-fault; do
        different=
        for seed in $(seq "$seeds"); do
            # shellcheck disable=SC2086
            "$reference" "--$kind" "$seed" $built turns > "$work/input"
            beside whole "$seed" session
        done
        report "$seeds sessions beside the reference, $kind" "" "$different"
    done
fi

[ "$failures" -eq 0 ]
