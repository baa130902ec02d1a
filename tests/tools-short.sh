# shellcheck shell=bash disable=SC2154
# The part of tests/tools.sh that is run in `.ci/run`, too: the tests of the tools' own parts, and of each tool that it
# begins, and does what it is for.

python3 -m unittest discover -s "$here/unit" > "$work/out" 2>&1 || cat "$work/out"
report "the tests of tests/unit" "OK" "$(tail -n 1 "$work/out")"
report "check-script of passes" "good: 1 picture, 7 steps, 3 frames, 0 turns" \
    "$("$tools/check-script" "$examples/passes.toml")"
report "check-script of a fault" "1 script: step 1: SurfaceAbsent" \
    "$(echo 'step = [{ do = "improve", id = 4 }, { do = "frame" }]' | "$tools/check-script" --line > "$work/out"
    echo "$? $(cat "$work/out")")"
"$tools/stream" list "$examples/outside.bin" > "$work/out" 2> "$work/err"
report "stream list of outside" "1 refused: 14 RectOutside" "$? $(grep -o 'refused: .*' "$work/out")"
"$tools/gfx" encode "$examples/passes.toml" "$work/passes.bin" 2> "$work/err"
report "gfx encode of passes" "0 same" "$(ended $?)$(same "$work/passes.bin" "$examples/passes.bin")"
"$tools/gfx" render "$examples/outside.bin" > "$work/out" 2> "$work/err"
report "gfx render of outside" "1 same RectOutside" \
    "$? $(same "$work/out" "$examples/outside.txt") $(grep -o RectOutside "$work/err")"
"$tools/frames" "$work/passes.bin" "$work/short" 2> "$work/err"
report "frames of passes" "0 $work/short: 3 pictures of surface 1" "$(ended $?)"
"$tools/frames" "$work/passes.bin" "$work/end.png" --end 2> "$work/err"
report "frames --end of passes" "0 $work/end.png: surface 1 at the end of frame 3" "$(ended $?)"
"$tools/picture" "$work/one.png" --from "$examples/passes-3.txt" 2> "$work/err"
report "picture of passes is that of frames --end" "0 same" "$(ended $?)$(same "$work/one.png" "$work/end.png")"
dump_of "surface 1 80x48 xrgb" "$work/short/frame-0003.png" > "$work/out"
report "frames of passes, the last" "same" "$(same "$work/out" "$examples/passes-3.txt")"
"$tools/compare" "$examples/passes-1.txt" "$examples/passes-3.txt" > "$work/out" 2> "$work/err"
report "compare of passes" "1 surface 1 80x48 xrgb: 3757 of 3840 pixels differ" "$(ended $?)$(cut -d , -f 1 "$work/out")"
"$tools/play" "$examples/fill.bin" > "$work/out" 2> "$work/err"
report "play of fill" "0 frame 1 of 1" "$(ended $?)$(tail -n 1 "$work/out")"
"$tools/load" blank > "$work/blank.bin" 2> "$work/err"
report "load blank" "0 0 0" "$(ended $?)$(ended_lines "$tools/stream" stats "$work/blank.bin")"
rm -rf "$work/short"
