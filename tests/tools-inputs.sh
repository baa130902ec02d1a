# The cases of what the tools take: kept bitmaps, files of each kind, frames that are cut out, PNGs; and loopback. A part
# of tests/tools.sh, which runs it in its own shell.

mkdir "$work/inputs"
inputs=$work/inputs
server=$examples/kept-server.kept client=$examples/kept-client.kept next=$examples/import.script
printf 'KEPT\0\0' > "$inputs/none.kept"

# ---- import
"$tools/gfx" import "$server" "$client" "$next" "$inputs/to" 2> "$work/err"
report "gfx import of three files" "0 same" "$(ended $?)$(same "$inputs/to" "$examples/import.txt")"
"$tools/gfx" import "$server" "$client" < "$next" > "$work/out" 2> "$work/err"
report "gfx import of two files" "1 1" "$? $(grep -c 'two of them and a script' "$work/err")"
"$tools/gfx" import "$server" "$client" - < "$next" > "$work/out" 2> "$work/err"
report "gfx import, its script from the standard input" "0 same" "$(ended $?)$(same "$work/out" "$examples/import.txt")"
"$tools/gfx" import "$examples/import.input" > "$work/out" 2> "$work/err"
report "gfx import of an input" "0 same" "$(ended $?)$(same "$work/out" "$examples/import.txt")"
report "gfx import, too many words" "2 1" "$(ended_lines "$tools/gfx" import "$server" "$client" "$next" to more)"
report "gfx import over its input" "2 1" "$(ended_lines "$tools/gfx" import "$server" "$client" "$next" "$next")"
report "gfx import of another file" "1 $examples/fill.bin: KeptShape (54)" \
    "$(ended_lines "$tools/gfx" import "$examples/fill.bin" "$client" "$next" | cut -c 1) \
$(sed -n 's/^gfx: \(.*(54)\): this looks like a recording: .*/\1/p' "$work/err")"
printf 'KEPT\1\0' > "$inputs/cut.kept"
report "gfx import of a cut file" "1 it ends within entry 1" \
    "$(ended_lines "$tools/gfx" import "$server" "$inputs/cut.kept" "$next" | cut -c 1) $(grep -o 'it ends.*' "$work/err")"
sed 's/\x80\xff/\x81\xff/' "$client" > "$inputs/other.kept"
report "gfx import of files that differ" "1 1 KeptDiffers" \
    "$(ended_lines "$tools/gfx" import "$server" "$inputs/other.kept" "$next") $(grep -o KeptDiffers "$work/err")"
report "check-script --kept" "good: 0 pictures, 10 steps, 2 frames, 0 turns, 2 bitmaps imported; key 11 isn't imported, \
nor is any behind it: the server's file hasn't it" "$("$tools/check-script" "$next" --kept "$server" "$client")"
report "check-script --kept of files that differ" "1 1" \
    "$(ended_lines "$tools/check-script" "$next" --kept "$server" "$inputs/other.kept")"
for end in "$server $inputs/none.kept" "$inputs/none.kept $client" "$client $server"; do
    # shellcheck disable=SC2086
    said=$("$tools/gfx" import $end "$next" 2>&1 > "$work/out" | grep -o 'step [0-9]* of the script is refused: [A-Za-z]*')
    # shellcheck disable=SC2086
    report "check-script --kept as import, ${end//$work/..}" "${said:-none}" "$("$tools/check-script" --line "$next" \
        --kept $end | sed 's/script: \(step [0-9]*\): /\1 of the script is refused: /; $!d' | grep . || echo none)"
done
"$tools/kept" script "$server" "$client" "$next" "$inputs/drawn.toml" 2> "$work/err"
report "kept script" "0 " "$(ended $?)"
report "kept script, its digests are those of import" "same" \
    "$("$program" session < "$inputs/drawn.toml" | sed 's/step [0-9]* //' | cmp -s - <(sed 's/step [0-9]* //' \
        "$examples/import.txt") && echo same)"
"$tools/frames" "$inputs/drawn.toml" "$inputs/drawn" --first 2 2> "$work/err"
report "kept script, its frames" "0 frame-0002.png frame-0003.png" "$? $(cd "$inputs/drawn" && echo *)"
report "kept script with a fault" "1 1" \
    "$(ended_lines "$tools/kept" script "$inputs/none.kept" "$client" "$next" "$inputs/new")"
"$program" audit < "$examples/pictures.bin" | sed -n 's/^slot [0-9]* //p' > "$work/wanted"
"$tools/kept" make "$examples/pictures.bin" "$inputs/made.kept" 2> "$work/err"
report "kept make" "0 $inputs/made.kept: 1 bitmap" "$(ended $?)"
report "kept make, as audit says" "same" "$("$tools/kept" list "$inputs/made.kept" |
    awk 'NR > 1 { print $4, $3, $6 }' | cmp -s - "$work/wanted" && echo same)"
report "kept make of a script" "same" \
    "$("$tools/kept" make "$examples/pictures.toml" 2> "$work/err" | cmp -s - "$inputs/made.kept" && echo same)"
report "kept make of nothing kept" "same" \
    "$("$tools/kept" make "$examples/fill.bin" | cmp -s - "$inputs/none.kept" && echo same)"
"$tools/kept" make "$inputs/drawn.toml" "$inputs/again.kept" 2> "$work/err"
report "a session's bitmaps, with those that were imported" "7 16x16 9 8x4" \
    "$("$tools/kept" list "$inputs/again.kept" | awk 'NR > 1 { print $2, $4 }' | paste -sd ' ')"
"$tools/kept" pictures "$client" "$inputs/pictures"
report "kept pictures" "0000000000000007.png 0000000000000009.png 000000000000000b.png 000000000000000c.png" \
    "$(cd "$inputs/pictures" && echo *)"
for words in "list $examples/fill.bin" "make $examples/outside.bin $inputs/new" "pictures $inputs/cut.kept $inputs/new" \
    "make $docs/gnome.png $inputs/new"; do
    # shellcheck disable=SC2086
    report "kept ${words//$work/..} fails" "1 1" "$(ended_lines "$tools/kept" $words)"
done
for words in "list" "make" "pictures $client" "script $server $client"; do
    # shellcheck disable=SC2086
    report "kept ${words//$here\/..\//}, too few words" "2 1" "$(ended_lines "$tools/kept" $words)"
done
report "what fails makes no file of kept bitmaps" "" "$(ls "$inputs/new" 2> /dev/null)"
# The limits of the cache: with the small one four bitmaps of 4 MiB fill it.
python3 - "$tools" "$inputs" <<'PYTHON'
import sys
sys.path.insert(0, sys.argv[1])
from gfxtools import kept
large = [kept.Bitmap(key, 1024, 1024, bytes(4 << 20)) for key in range(1, 5)]
open(sys.argv[2] + "/large.kept", "wb").write(kept.written([*large, kept.Bitmap(5, 1, 1, bytes(4))]))
turned = [kept.Bitmap(one.key, one.height, one.width, one.pixels) for one in kept.read(open(
    sys.argv[2] + "/large.kept", "rb").read())]
open(sys.argv[2] + "/turned.kept", "wb").write(kept.written([turned[0]]))
PYTHON
for small in false true; do
    printf '%s\n' "client = [{ version = \"10\", small = $small }]" \
        'step = [{ do = "surface", id = 1, width = 2, height = 2 }, { do = "show", key = 5, to = 1, points = [[0, 0]] },' \
        '{ do = "frame" }]' > "$inputs/small.toml"
    number=$("$tools/gfx" import "$inputs/large.kept" "$inputs/large.kept" "$inputs/small.toml" > "$work/out" 2>&1; echo $?)
    report "check-script --kept as import, small = $small" "$number" "$("$tools/check-script" "$inputs/small.toml" \
        --kept "$inputs/large.kept" "$inputs/large.kept" > "$work/out" 2>&1; echo $?)"
done

# ---- What kind of file it is
gzip -nc < "$examples/fill.bin" > "$inputs/fill.gz"
rewritten compressed "$tools" "$examples/fill.bin" > "$inputs/compressed.bin"
xz -dc "$examples/gnome.bin.xz" > "$inputs/gnome.bin"
"$program" fragment < "$inputs/gnome.bin" > "$inputs/gnome-fragments.bin"
tail -c +5 "$examples/fill.bin" > "$inputs/bare.bin"
cp "$examples/import.input" "$inputs"
printf '\24\0\0\0\15\0\0\0\24\0\0\0\0\0\0\0\1\0\0\0\1\0\0\0' > "$inputs/client.bin"
while read -r file name; do
    report "gfx kind of $file" "$name" "$("$tools/gfx" kind "$inputs/$file" 2>&1 | sed 's/^[^:]*: //; s/;.*//')"
done <<'TABLE'
fill.gz a .gz file
compressed.bin a recording whose blocks are compressed
gnome-fragments.bin a recording of fragments
bare.bin channel messages without their lengths
client.bin what a client sent
none.kept a file of kept bitmaps
drawn.toml a text, as a script is
TABLE
report "gfx kind of the examples" "2 a file of kept bitmaps,10 a recording,1 a recording of fragments,1 an input of import" \
    "$(for example in "$examples"/*.{bin,xz,input,kept}; do "$tools/gfx" kind "$example"; done |
        sed 's/^[^:]*: //; s/;.*//' | LC_ALL=C sort | uniq -c | sed 's/^ *//' | paste -sd ,)"
for example in fill-fragments.bin:fragments: import.input:import: kept-client.kept:'kept bitmaps:' fill.txt:render: \
    fill.toml:'a text'; do
    file=$examples/${example%%:*} like=${example#*:}
    for words in "gfx render" "gfx audit" "stream list"; do
        # shellcheck disable=SC2086
        report "$words of ${file##*/}" "1 1 1" "$(ended_lines "$tools/"$words "$file") $(grep -c "looks like.*$like" "$work/err")"
    done
done
for words in "gfx render" "stream stats" "gfx join"; do
    # shellcheck disable=SC2086
    report "$words of a compressed recording" "1 1 1" \
        "$(ended_lines "$tools/"$words "$inputs/compressed.bin") $(grep -c 'looks like.*compressed' "$work/err")"
done
for words in "gfx encode $client" "gfx session $examples/fill.bin" "gfx join $examples/fill.bin" \
    "picture --list --from $examples/fill.bin" "compare $examples/gnome.bin.xz $examples/fill.txt" "check-script $client"; do
    # shellcheck disable=SC2086
    report "${words//$here\/..\//}, what it is" "1 1 1" "$(ended_lines "$tools/"$words) $(grep -c "looks like" "$work/err")"
done
# What docs/TROUBLESHOOTING.md says that the program says of other files at message 1.
while read -r file refusal; do
    report "$file, as TROUBLESHOOTING says" "message 1: $refusal" "$("$program" render < "$inputs/$file" 2>&1 > "$work/out")"
done <<'TABLE'
bare.bin 1 ChannelTruncated
gnome-fragments.bin 1 ChannelTruncated
fill.gz 1 ChannelTruncated
none.kept 2 ChannelLength
drawn.toml 2 ChannelLength
client.bin 3 Descriptor
import.input 3 Descriptor
compressed.bin 5 BulkCompressed
TABLE

# ---- Frames that are cut out
# The pictures that a cut leaves, and those of the whole recording up to there, by the program.
cut_shows() {
    "$tools/stream" cut "$2" "$3" "$1" "$inputs/cut.bin" 2> "$work/err" || echo "cut ends with $?"
    "$tools/stream" cut 1 "$3" "$1" "$inputs/front.bin" 2> "$work/err" || echo "cut ends with $?"
    for how in render "render --output"; do
        # shellcheck disable=SC2086
        cmp <("$program" $how < "$inputs/cut.bin") <("$program" $how < "$inputs/front.bin")
    done
    "$tools/stream" frames "$inputs/cut.bin" | awk 'NR > 1 && $2 != "-"' | wc -l
}
for row in "passes.bin 2 3" "passes.bin 3 3" "text.bin 2 3" "pictures.bin 2 2" "desktop.bin 10 12" "output.bin 2 2" \
    "gnome.bin.xz 40 45" "gnome.bin.xz 1 2" "freerdp-video.bin.xz 50 52"; do
    read -r file first last <<< "$row"
    report "stream cut of $row" "$((last - first + 1))" "$(cut_shows "$examples/$file" "$first" "$last")"
done
"$tools/stream" cut 50 52 "$examples/freerdp-video.bin.xz" "$inputs/cut.bin" 2> "$work/err"
report "stream cut, a shorter one with pixels" "$inputs/cut.bin: 3 frames, 1,435,527 bytes" "$(cat "$work/err")"
# By both ways, on sessions that were made: copies, ClearCodec with its bars and glyphs, passes and what goes on them.
for number in 1 2; do "$program" make $number | "$program" encode > "$inputs/made-$number.bin"; done
python3 - "$tools" "$program" "$examples/passes.bin:2:3" "$examples/text.bin:3:3" "$examples/pictures.bin:2:2" \
    "$inputs/made-1.bin:50:52" "$inputs/made-2.bin:30:40" > "$work/out" <<'PYTHON'
import subprocess, sys
sys.path.insert(0, sys.argv[1])
from gfxtools import cut, entry, program
gfxpipe = program.Program(sys.argv[2])

def drawn(data, keeps_clear):
    """What is shown, and what ClearCodec keeps."""
    run = lambda word: subprocess.run([gfxpipe.place, word], input=data, capture_output=True)
    kept = [line for line in run("audit").stdout.splitlines() if line.startswith((b"bars", b"shorts", b"glyphs"))]
    return run("render"), kept if keeps_clear else []

for word in sys.argv[3:]:
    name, first, last = word.rsplit(":", 2)
    data = entry.whole_of(name, 1 << 30)
    found = cut.Range(data, name, int(first), int(last))
    wanted, kept = drawn(b"".join(cut.Range(data, name, 1, int(last)).within()), found.needs.has_clear)
    for way in (found.anew(gfxpipe), found.as_it_was()):
        got, held = drawn(b"".join([*cut.wrapped(way), *found.within()]), found.needs.has_clear)
        if (got.stdout, got.stderr, held) != (wanted.stdout, wanted.stderr, kept):
            print(word)
PYTHON
report "stream cut, by both ways" "" "$(cat "$work/out")"
"$tools/stream" cut 2 3 "$examples/passes.toml" 2> "$work/err" > "$work/out"
report "stream cut of a script" "0 the standard output: 2 frames, 4,632 bytes" "$(ended $?)"
for words in "cut 2 9 $examples/passes.bin" "cut 1 1 $examples/outside.bin" "cut 1 2 $docs/gnome.png" \
    "bytes 99 $examples/passes.bin" "cut 71 72 $examples/gnome.bin.xz"; do
    # shellcheck disable=SC2086
    report "stream ${words//$here\/..\//}" "1 1" "$(ended_lines "$tools/stream" $words)"
done
for words in "cut" "cut 1" "cut 2 1 x" "cut a 2" "cut 0 1" "bytes" "bytes 1 x y z" "list x y" "list x --only progresive" \
    "frames x --only clear" "list x --raw" "list x --first 3 --last 2"; do
    # shellcheck disable=SC2086
    report "stream $words" "2 1" "$(ended_lines "$tools/stream" $words)"
done
report "stream cut on a terminal" "2 0 terminal" "$(on_terminal "$tools/stream" cut 1 1 "$examples/fill.bin")"
report "stream cut over its input" "2 1" \
    "$(cp "$examples/passes.bin" "$inputs/own.bin"; ended_lines "$tools/stream" cut 1 2 "$inputs/own.bin" "$inputs/own.bin")"

# ---- Some messages, and their bytes
report "stream list --only" "6 7 10 11 12 13" \
    "$("$tools/stream" list "$examples/text.bin" --only clear --first 5 | awk 'NR > 1 { print $1 }' | paste -sd ' ')"
report "stream list --refused" "4" "$("$tools/stream" list "$examples/outside.bin" --refused 2> /dev/null |
    awk 'NR > 1 { print $1 }' | paste -sd ' ')"
report "stream list --frame --only" "8 9" "$("$tools/stream" list "$examples/passes.bin" --frame 3 \
    --only StartFrame,progressive | awk 'NR > 1 { print $1 }' | paste -sd ' ')"
report "stream json --surface --last" "1" "$("$tools/stream" json "$examples/desktop.bin" --surface 1 --last 3 | wc -l)"
report "stream stats --only" "progressive 3 14,753 73,728" \
    "$("$tools/stream" stats "$examples/gnome.bin.xz" --only progressive --first 10 --last 20 |
        sed -n '/^progressive/s/  */ /gp')"
report "stream bytes" "04 00 00 00 18 00 00 00 01 00 00 00 ff 00 01 00|00 00 00 00 02 00 01 00" \
    "$("$tools/stream" bytes 3 "$examples/fill.bin" | cut -c 11-58 | sed 's/  */ /g; s/ $//' | paste -sd '|')"
report "stream bytes --raw" "same" \
    "$("$tools/stream" bytes 3 "$examples/fill.bin" --raw | cmp -s - <(tail -c +50 "$examples/fill.bin" | head -c 24) && echo same)"

# ---- PNGs as pictures
report "PNGs of each kind" "300" "$("$here/pngs.py" "$tools")"
cp "$docs/gnome.png" "$inputs/gnome.png"
cat > "$inputs/png.toml" <<'TOML'
picture = [{ name = "g", pattern = "png", file = "gnome.png" }] # a desktop
[[step]]
do = "surface"
id = 1
width = 800
height = 600
[[step]]
do = "paint"
id = 1
picture = "g"
at = [0, 0]
kind = "raw"
[[step]]
do = "frame"
TOML
"$tools/check-script" "$inputs/png.toml" > "$work/out" 2> "$work/err"
report "check-script of a PNG" "0 good: 1 picture, 3 steps, 1 frame, 0 turns 1" "$? $(cat "$work/out") $(wc -l < "$work/err")"
"$tools/frames" "$inputs/png.toml" "$inputs/drawn.png" --end 2> "$work/err"
report "a PNG through a script and the program" "same" \
    "$(cmp -s <(dump_of x "$inputs/drawn.png") <(dump_of x "$inputs/gnome.png") && echo same)"
"$tools/gfx" encode "$inputs/png.toml" "$inputs/png.bin" 2> "$work/err"
report "gfx encode of a PNG" "0 $("$program" render < "$inputs/png.bin" | sha256sum)" \
    "$(ended $?)$("$tools/picture" --list --from "$examples/fill.txt" > /dev/null && {
        echo "surface 1 800x600 xrgb" && dump_of x "$inputs/gnome.png" | tail -n +2; } | sha256sum)"
report "the program alone takes no PNG" "script: Key" "$("$program" encode < "$inputs/png.toml" 2>&1)"
for change in 's/gnome.png/none.png/' 's/gnome.png/png.bin/' 's/"g", /&width = 801, /'; do
    sed "$change" "$inputs/png.toml" > "$inputs/fault.toml"
    report "check-script, $change" "1 Png" \
        "$("$tools/check-script" "$inputs/fault.toml" > "$work/out" 2> "$work/err"; echo $?) $(grep -o ': Png:' "$work/out" | tr -d ': ')"
    report "gfx session, $change" "1 1" "$(ended_lines "$tools/gfx" session "$inputs/fault.toml")"
done
head -c 20000 "$docs/gnome.png" > "$inputs/gnome.png"
report "gfx encode of a cut PNG" "1 it is cut" \
    "$(ended_lines "$tools/gfx" encode "$inputs/png.toml" "$inputs/new" | cut -c 1) $(grep -o 'it is cut' "$work/err")"

# ---- Pictures that have faults
for head in '[picture]' '[[pictures]]' '[[picture]]\nseed = 5'; do
    printf '%b\n' "$head" 'name = "p"' 'width = 2' 'height = 2' 'pattern = "ramp"' '[[step]]' 'do = "surface"' 'id = 1' \
        'width = 2' 'height = 2' '[[step]]' 'do = "paint"' 'id = 1' 'picture = "p"' 'at = [0, 0]' '[[step]]' \
        'do = "frame"' > "$inputs/fault.toml"
    report "check-script, a picture that has a fault isn't said not to be there, $head" "1 1" \
        "$("$tools/check-script" "$inputs/fault.toml" 2> "$work/err" | wc -l) $(grep -c '1 fault;' "$work/err")"
done

# ---- Versions
version=$(cat "$here/../VERSION")
for tool in check-script stream frames kept play picture compare record gfx load recorder/loopback; do
    report "$tool --version" "0 1" "$("$tools/$tool" --version > "$work/out"; echo $?) $(grep -c "gfxpipe $version\$" "$work/out")"
done
report "gfx --version, the program" "$(sha256sum < "$program" | cut -d ' ' -f 1)" \
    "$("$tools/gfx" --version | sed -n 's/.*SHA-256 //p')"

# ---- loopback
touch "$inputs/there.bin"
for words in "gnome" "other $inputs/x.bin" "gnome $inputs/x.bin ten" "shadow $inputs/x.bin /gfx" \
    "shadow $inputs/x.bin 3 gfx" "shadow $inputs/x.bin 3 /v:host"; do
    # shellcheck disable=SC2086
    report "loopback ${words//$work/..}" "2 1" "$(ended_lines "$tools/recorder/loopback" $words)"
done
for words in "gnome $inputs/none/x.bin" "gnome $inputs" "shadow $inputs/there.bin"; do
    # shellcheck disable=SC2086
    report "loopback ${words//$work/..}" "1 1" "$(ended_lines "$tools/recorder/loopback" $words)"
done
# Programs that stand in for those that it runs: the server listens, the client records a CapsConfirm and ends with it.
mkdir "$inputs/bin"
printf '#!/bin/sh\nexec sleep 60\n' | tee "$inputs/bin/xclock" > "$inputs/bin/xterm"
printf '#!/bin/sh\necho 77 >&5\nexec sleep 60\n' > "$inputs/bin/Xvfb"
cat > "$inputs/bin/freerdp-shadow-cli" <<'PYTHON'
#!/usr/bin/env python3
import socket, sys, time
port = next(int(word[6:]) for word in sys.argv if word.startswith("/port:"))
one = socket.socket()
one.bind(("127.0.0.1", port))
one.listen()
time.sleep(60)
PYTHON
cat > "$inputs/bin/xfreerdp" <<'PYTHON'
#!/usr/bin/env python3
import os, socket, sys, time
host, port = next(word[3:].split(":") for word in sys.argv if word.startswith("/v:"))
socket.create_connection((host, int(port))).close()
with open(os.environ["GFXPIPE_RECORDING"], "ab") as file:
    file.write(bytes.fromhex("16000000e004130000001400000002000a000400000020000000"))
with open(os.environ["GFXPIPE_PORTS"], "a") as file:
    file.write(port + "\n")
time.sleep(2)
PYTHON
chmod +x "$inputs"/bin/*
if command -v "${CC:-cc}" > /dev/null; then
    for number in 1 2; do
        PATH="$inputs/bin:$PATH" GFXPIPE_PORTS="$inputs/ports" "$tools/recorder/loopback" shadow \
            "$inputs/recorded-$number.bin" 1 2> "$inputs/said-$number" &
        runs[number]=$!
    done
    for number in 1 2; do
        wait "${runs[number]}"
        report "loopback, one of two at once, $number" "0 26 1" \
            "$? $(stat -c %s "$inputs/recorded-$number.bin") $(grep -c 'the word /gfx:AVC420' "$inputs/said-$number")"
    done
    report "loopback, each has a port of its own" "2" "$(sort -u "$inputs/ports" | wc -l)"
else
    echo "left out: loopback; there is no C compiler"
fi
rm -rf "$inputs"
