# shellcheck shell=bash
# What the scripts of this folder share. Each reads it first:
#
#     . "$(dirname "$0")/common.sh"
#
# It makes a folder for what a script writes, $work, which is taken away at the end.

# Ends with the line in the script's first comment that says its words.
wrong_words() {
    sed -n '/^#  *tests\//{s/^#  *//p; q}' "$0" >&2
    exit 2
}

# Ends where one of these is no program.
need_programs() {
    local named
    for named in "$@"; do
        if [ ! -f "$named" ] || [ ! -x "$named" ]; then
            echo "there is no program $named; rt run leaves the built ones as crates/NAME/out/NAME" >&2
            exit 2
        fi
    done
}

# The result of a case: its name, what is wanted, what came, and perhaps what was counted.
report() {
    if [ "$2" = "$3" ]; then
        echo "ok      $1${4:+: $4}"
    else
        echo "FAILED  $1: wanted \"$2\", got \"$3\""
        failures=$((failures + 1))
    fi
}

# The exit number of the last run, and what it wrote on the standard error.
ended() {
    echo "$1 $(cat "$work/err")"
}

# The exit number of a run, and how many lines it wrote on the standard error.
ended_lines() {
    "$@" > "$work/out" 2> "$work/err"
    echo "$? $(wc -l < "$work/err")"
}

# Whether two files are the same.
same() {
    cmp -s "$1" "$2" && echo same
}

failures=0
work=$(mktemp -d)
trap 'rm -rf "$work"' EXIT
