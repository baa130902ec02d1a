# shellcheck shell=bash disable=SC2154
# The part of tests/tools.sh that is about pictures in one pass, by live_client, beside those of a run of the program
# for each.

# How many files of a folder differ from those of another one, and how many there are.
differences() {
    local count=0 name
    for name in "$1"/*; do
        cmp -s "$name" "$2/${name##*/}" || count=$((count + 1))
    done
    echo "$count of $(find "$1" "$2" -type f | wc -l)"
}

# Draws with more words by runs of the program, and in one pass.
both_ways() {
    rm -rf "$work/runs" "$work/pass"
    "$tools/frames" "$1" "$work/runs" --runs "${@:2}" 2> "$work/err"
    "$tools/frames" "$1" "$work/pass" "${@:2}" 2> "$work/err"
    differences "$work/runs" "$work/pass"
}

# A recording of three frames: the second comes six seconds behind the first, the third two seconds behind that.
timed() {
    python3 - "$tools" <<'PYTHON'
import struct, sys
sys.path.insert(0, sys.argv[1])
from gfxtools import recording
def message(kind, body):
    return recording.wrap(struct.pack("<HHI", kind, 0, 8 + len(body)) + body)
out = sys.stdout.buffer
out.write(message(0x09, struct.pack("<3HB", 1, 8, 8, 0x20)))
for number, second in enumerate((7, 13, 15), 1):
    out.write(message(0x0B, struct.pack("<II", 9 << 22 | second << 10, number)))
    out.write(message(0x04, struct.pack("<H4BH4H", 1, 80 * number, 0, 0, 255, 1, 0, 0, 8, 8)))
    out.write(message(0x0C, struct.pack("<I", number)))
PYTHON
}

# A recording of so many frames, ten a second, each of which fills a square, of an output of these sides.
long_recording() {
    python3 - "$tools" "$@" <<'PYTHON'
import struct, sys
sys.path.insert(0, sys.argv[1])
from gfxtools import recording
count, width, height = map(int, sys.argv[2:])
def message(kind, body):
    return recording.wrap(struct.pack("<HHI", kind, 0, 8 + len(body)) + body)
out = sys.stdout.buffer
out.write(message(0x0E, struct.pack("<3I", width, height, 0).ljust(332, b"\0")))
out.write(message(0x09, struct.pack("<3HB", 1, width, height, 0x20)) + message(0x0F, struct.pack("<HHII", 1, 0, 0, 0)))
for number in range(count):
    left, top = number * 8 % (width - 8), number * 8 // (width - 8) * 8 % (height - 8)
    time = number // 600 << 16 | number // 10 % 60 << 10 | number % 10 * 100
    out.write(message(0x0B, struct.pack("<II", time, number)))
    out.write(message(0x04, struct.pack("<H4BH4H", 1, number % 256, number // 256, 99, 255, 1,
                                        left, top, left + 8, top + 8)))
    out.write(message(0x0C, struct.pack("<I", number)))
PYTHON
}

# A program in place of live_client, which answers each record by this kind and body.
answering() {
    cat > "$work/answering" <<PYTHON
#!/usr/bin/env python3
import struct, sys
while front := sys.stdin.buffer.read(5):
    sys.stdin.buffer.read(struct.unpack("<BI", front)[1])
    sys.stdout.buffer.write($1)
    sys.stdout.buffer.flush()
PYTHON
    chmod +x "$work/answering"
}

# Runs a tool on a terminal, and answers the lines of its frames, and whether it took eight seconds.
paced() {
    python3 - "$@" <<'PYTHON'
import os, pty, sys, time
begin, got = time.monotonic(), b""
child, end = pty.fork()
if child == 0:
    os.execv(sys.argv[1], sys.argv[1:])
try:
    while piece := os.read(end, 65536):
        got += piece
except OSError:
    pass
os.waitpid(child, 0)
frames = [line.split(b"\x1b[K")[-1].decode().strip() for line in got.split(b"\n") if b"frame" in line]
print(", ".join(frames), "|", "long enough" if time.monotonic() - begin >= 8 else "short")
PYTHON
}

timed > "$work/timed.bin"
"$tools/frames" "$work/timed.bin" "$work/timed.raw" --video 2> "$work/err"
report "frames --video says at what rate frames came" "0 which came at 0.25 a second -framerate 0.25" \
    "$? $(grep -o 'which came at [0-9.]* a second' "$work/err") $(grep -o -e '-framerate [0-9.]*' "$work/err")"
"$tools/frames" "$examples/gnome.bin.xz" "$work/timed.raw" --video --first 68 2> "$work/err"
report "frames --video of a clock that runs backwards" "0 1" "$? $(grep -c 'which came at [0-9]' "$work/err")"
"$tools/frames" "$examples/passes.bin" "$work/timed.raw" --video 2> "$work/err"
report "frames --video without times" "0 0 -framerate 10" \
    "$? $(grep -c 'which came at' "$work/err") $(grep -o -e '-framerate [0-9.]*' "$work/err")"
rm "$work/timed.raw"
for ending in mp4 mkv MP4 gif png; do
    report "frames --video into .$ending" "2 1 raw video" \
        "$(ended_lines "$tools/frames" "$examples/passes.bin" "$work/x.$ending" --video) $(grep -o 'raw video' "$work/err" |
            head -n 1)"
done
report "play on a terminal, as fast as it came" "frame 1 of 3, frame 2 of 3, frame 3 of 3 | long enough" \
    "$(paced "$tools/play" "$work/timed.bin" --columns 8)"
report "play --rate on a terminal" "frame 1 of 3, frame 2 of 3, frame 3 of 3 | short" \
    "$(paced "$tools/play" "$work/timed.bin" --columns 8 --rate 100)"
long_recording 12 64 64 > "$work/twelve.bin"
if [ ! -x "$here/../crates/live_client/out/live_client" ]; then
    LIVE_CLIENT='' "$tools/frames" "$work/twelve.bin" "$work/twelve" 2> "$work/err"
    number=$?
    report "frames without live_client says so" \
        "0 each of 12 pictures takes a run of the program; with live_client it would be one pass" \
        "$number $(grep -o 'each of .* one pass' "$work/err")"
fi
"$tools/frames" "$work/twelve.bin" "$work/twelve" --runs 2> "$work/err"
report "frames --runs" "0 $work/twelve: 12 pictures of output" "$(ended $?)"
rm -rf "$work/twelve"

if [ -z "$live_client" ]; then
    echo "left out: pictures in one pass; no LIVE_CLIENT is named"
else
    for what in "passes 0 of 6" "text 0 of 6" "video 0 of 4" "fill 0 of 2" "pictures 0 of 6 --of 2" \
        "desktop 0 of 52 --of 1" "desktop 0 of 52 --of 2" "desktop 0 of 52 --of 65535" "output 0 of 4" \
        "output 0 of 4 --of 1"; do
        read -r name count of all words <<< "$what"
        # shellcheck disable=SC2086
        report "frames of $name${words:+ $words} in one pass" "$count $of $all" "$(both_ways "$examples/$name.bin" $words)"
    done
    report "frames of gnome in one pass" "0 of 14" "$(both_ways "$examples/gnome.bin.xz" --every 10 --first 9)"
    report "frames of freerdp-video in one pass" "0 of 10" \
        "$(both_ways "$examples/freerdp-video.bin.xz" --every 20 --first 3 --last 83)"
    report "frames of gnome, a surface in one pass" "0 of 6" "$(both_ways "$examples/gnome.bin.xz" --of 0 --every 30)"
    report "frames in one pass, scaled, and one at a time" "0 of 6" "$(both_ways "$examples/passes.bin" --scale 3 --jobs 1)"
    rewritten joined "$tools" "$examples/desktop.bin" > "$work/joined.bin"
    report "frames that share a channel message, in one pass" "0 of 52" "$(both_ways "$work/joined.bin" --of 1)"
    cat "$examples/passes.bin" "$examples/outside.bin" > "$work/refused.bin"
    report "frames before a refusal, in one pass" "0 of 6" "$(both_ways "$work/refused.bin" --of 1)"
    "$tools/frames" "$examples/passes.bin" - --video > "$work/pass.raw" 2> "$work/err"
    "$tools/frames" "$examples/passes.bin" - --video --runs > "$work/runs.raw" 2> "$work/err"
    report "frames --video in one pass" "same" "$(same "$work/pass.raw" "$work/runs.raw")"
    "$tools/play" "$examples/passes.bin" --columns 40 > "$work/pass.txt"
    "$tools/play" "$examples/passes.bin" --columns 40 --runs > "$work/runs.txt"
    report "play in one pass" "same" "$(same "$work/pass.txt" "$work/runs.txt")"

    # A surface that is made anew with other sides, and messages of the output between.
    long_recording 3 40 24 > "$work/anew.bin"
    python3 -c 'import sys; sys.path.insert(0, sys.argv[1])
from gfxtools import recording
import struct
sys.stdout.buffer.write(recording.wrap(struct.pack("<HHIH", 0x0A, 0, 10, 1)))' "$tools" >> "$work/anew.bin"
    long_recording 3 24 40 >> "$work/anew.bin"
    report "frames of a surface that is made anew" "0 of 12" "$(both_ways "$work/anew.bin" --of 1)"
    report "frames of an output of other sides" "0 of 12" "$(both_ways "$work/anew.bin" --of output)"

    # Three thousand frames: by runs of the program it would take many minutes.
    long_recording 3000 320 240 > "$work/long.bin"
    (ulimit -v 524288 && "$tools/frames" "$work/long.bin" "$work/long" --every 100) 2> "$work/err"
    report "frames of three thousand" "0 $work/long: 30 pictures of output" "$(ended $?)"
    "$tools/frames" "$work/long.bin" "$work/last.png" --last 2901 --end 2> "$work/err"
    report "frames of three thousand, the last" "same" "$(cmp -s <(dump_of x "$work/last.png") \
        <(dump_of x "$work/long/frame-2901.png") && echo same)"
    (ulimit -v 524288 && "$tools/frames" "$work/long.bin" - --video 2> "$work/err" | wc -c > "$work/out")
    report "frames --video of three thousand" "921600000 at 10 a second" \
        "$(cat "$work/out") $(grep -o 'at 10 a second' "$work/err")"
    rm -rf "$work/long"

    # What may go wrong with live_client.
    mkdir "$work/empty"
    report "frames of a live_client that isn't there" "1 1" \
        "$(ended_lines "$tools/frames" "$examples/passes.bin" "$work/empty/x" --live-client "$work/none")"
    "$tools/frames" "$examples/passes.bin" "$work/empty/x" --live-client "$program" 2> "$work/err"
    report "frames of another program in its place" "1 frames: $examples/passes.bin: frame 1: live_client ends with 2" \
        "$(ended $? | cut -d : -f -4)"
    for case in "b'R' + struct.pack('<IQ', 19, 5) + b'RectOutside'|live_client refuses a message: RectOutside" \
        "b'N' + bytes(4)|live_client has no memory left" "b'W' + struct.pack('<I', 3) + b'Key'|live_client answers W Key" \
        "b'no'), sys.exit(7|live_client ends with 7"; do
        answering "${case%%|*}"
        "$tools/frames" "$examples/passes.bin" "$work/empty/x" --live-client "$work/answering" 2> "$work/err"
        report "frames, ${case#*|}" "1 ${case#*|}" "$? $(sed 's/^frames: [^:]*: frame 1: //' "$work/err")"
    done
    answering "b'A' + bytes(4)"
    report "frames of a live_client that says nothing of use" "1 1" \
        "$(ended_lines "$tools/frames" "$examples/passes.bin" "$work/empty/x" --live-client "$work/answering")"
    cat > "$work/sleeps" <<'SHELL'
#!/bin/sh
exec sleep 60
SHELL
    chmod +x "$work/sleeps"
    report "frames --video, interrupted in its one pass" "130 frames: interrupted" \
        "$(interrupted "$work/empty" "$tools/frames" "$examples/passes.bin" "$work/empty/x" --video \
            --live-client "$work/sleeps")"
    report "what fails in its one pass leaves nothing" "" "$(ls -A "$work/empty")"
    (ulimit -f 8 && trap '' XFSZ && exec "$tools/frames" "$examples/gnome.bin.xz" "$work/empty/x" --last 9 --scale 4 \
        > "$work/out" 2> "$work/err")
    report "frames where no more can be written, by workers" "1 File too large" \
        "$? $(grep -o 'File too large' "$work/err")"
    report "frames where no more can be written leaves nothing" "" "$(ls -A "$work/empty")"
    rm -rf "$work/empty" "$work/runs" "$work/pass"
fi
