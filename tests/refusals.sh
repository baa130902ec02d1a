#!/usr/bin/env bash
# Runs the built program on the recordings of refusals/table.txt, one for each number that a refusal of the
# client's end can have, and compares what it says, what it shows and what its caches then hold with the answers
# of an independent program.
#
#     tests/refusals.sh PROGRAM
#
# It takes some seconds. There is a line for each difference, and at the end one with the counts; the exit number is
# 1 where there was a difference.
set -u
# shellcheck source-path=SCRIPTDIR source=common.sh
. "$(dirname "$0")/common.sh"
if [ $# -ne 1 ]; then
    wrong_words
fi
need_programs "$1"
program=$(realpath "$1")
table=$(realpath "$(dirname "$0")")/refusals/table.txt
rows=0
differences=0

# What a command does with the recording: its exit number, its line, and the digest of its output.
answer() {
    "$program" "$1" < "$work/recording" > "$work/out" 2> "$work/err"
    local status=$?
    local said digest
    said=$(cat "$work/err")
    digest=$(sha256sum < "$work/out")
    echo "$status | ${said:--} | ${digest:0:16}"
}

# Compares the answer of a command with the one that is wanted.
compare() {
    local came
    came=$(answer "$2")
    if [ "$came" != "$3" ]; then
        echo "FAILED  $1, $2: wanted \"$3\", got \"$came\""
        differences=$((differences + 1))
    fi
}

while IFS='|' read -r name status line shown held digits; do
    case $name in '' | '#'*) continue ;; esac
    read -r name <<< "$name"
    read -r status <<< "$status"
    read -r line <<< "$line"
    read -r shown <<< "$shown"
    read -r held <<< "$held"
    read -r digits <<< "$digits"
    # shellcheck disable=SC2059
    for ((at = 0; at < ${#digits}; at += 2)); do printf "\x${digits:at:2}"; done > "$work/recording"
    compare "$name" render "$status | $line | $shown"
    compare "$name" audit "$status | $line | $held"
    rows=$((rows + 1))
done < "$table"
echo "$rows recordings, $differences differences"
[ "$rows" -gt 0 ] && [ "$differences" -eq 0 ]
