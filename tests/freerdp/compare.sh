#!/usr/bin/env bash
# Compares the pictures that PROGRAM and FreeRDP draw of the same streams, to the pixel and alpha.
#
#     tests/freerdp/compare.sh PROGRAM [SEEDS..]
#
# The streams are those of examples/, one in which the rings of ClearCodec's bands go round, two with more
# tiles than a message takes, and four for each seed: what PROGRAM makes of a script by chance, what it makes
# of one with pictures in passes and of one with RemoteFX video (script.py), and what another server might
# send (foreign.py). Without SEEDS they are 1 to 300. In pictures in passes and in video bytes of colour may
# be 1 apart, since FreeRDP rounds otherwise. There is a line for each difference, and at the end some with
# the counts; the exit number is 1 where there was a difference.
set -u
# shellcheck source-path=SCRIPTDIR source=../common.sh
. "$(dirname "$0")/../common.sh"
if [ $# -lt 1 ]; then
    wrong_words
fi
need_programs "$1"
if ! pkg-config --exists freerdp2 winpr2 2> /dev/null; then
    echo "FreeRDP's library isn't there: apt-get install freerdp2-dev pkg-config gcc make" >&2
    exit 2
fi
program=$(realpath "$1")
shift
[ $# -gt 0 ] || set -- $(seq 300)
cd "$(dirname "$0")" || exit 2
make --silent || exit 2
streams=0
differences=0

different() {
    echo "$1"
    differences=$((differences + 1))
}

# Both pictures of the stream in $work/stream, whose name is the first word; the second is how far bytes of
# colour may be apart. Where one end refuses a message, the other has to refuse it too.
compare() {
    streams=$((streams + 1))
    "$program" render < "$work/stream" > "$work/ours" 2> "$work/ours.end"
    local ours=$?
    out/render --count < "$work/stream" > "$work/theirs" 2> "$work/theirs.end"
    local theirs=$?
    head -n 1 "$work/theirs.end" >> "$work/counts"
    if [ $ours -ne $theirs ]; then
        different "$1: exit $ours $(cat "$work/ours.end"), FreeRDP exit $theirs $(tail -n +2 "$work/theirs.end")"
    elif { [ "$2" -gt 0 ] && [ -s "$work/ours" ]; } || ! cmp -s "$work/ours" "$work/theirs"; then
        local found
        found=$(../../tools/compare "$work/ours" "$work/theirs" --off "$2" --counts "$work/off") ||
            different "$1: ${found:-the dumps are none}"
    fi
}

# The stream of the script in $work/script.
compare_script() {
    if "$program" encode < "$work/script" > "$work/stream" 2> "$work/end"; then
        compare "$1" "$2"
    else
        different "$1: encode: $(cat "$work/end")"
    fi
}

# The sums of a file whose lines have words and counts by turns.
sums() {
    awk '{ for (i = 1; i < NF; i += 2) { if (!($i in sum)) order[++words] = $i; sum[$i] += $(i + 1) } }
         END { for (w = 1; w <= words; w++) printf "%s %d%s", order[w], sum[order[w]], w < words ? ", " : "\n" }' \
        "$1"
}

for example in ../../examples/*.bin; do
    cp "$example" "$work/stream"
    case $example in */video.bin) apart=1 ;; *) apart=0 ;; esac
    compare "$(basename "$example")" $apart
done
for name in gnome freerdp-video; do
    xz -dc "../../examples/$name.bin.xz" > "$work/stream"
    compare "$name.bin" 1
done
for example in ../../examples/*.toml; do
    cp "$example" "$work/script"
    [ -e "${example%.toml}.bin" ] || compare_script "$(basename "$example")" 0
done
./script.py rings > "$work/script"
compare_script "rings" 0
./script.py many > "$work/script"
compare_script "many" 1
./script.py paint video text 1920 1080 > "$work/script"
compare_script "many of video" 1
for seed in "$@"; do
    ./script.py "$seed" > "$work/script"
    compare_script "script $seed" 0
    ./script.py passes "$seed" > "$work/script"
    compare_script "passes $seed" 1
    ./script.py video "$seed" > "$work/script"
    compare_script "video $seed" 1
    ./foreign.py "$seed" > "$work/stream"
    compare "foreign $seed" 0
done

sums "$work/counts"
[ ! -e "$work/off" ] || echo "in passes and in video: $(sums "$work/off")"
echo "$streams streams, $differences differences"
[ "$differences" -eq 0 ]
