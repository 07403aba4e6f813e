#!/usr/bin/env bash
# How fast `gp run` answers lines, beside a C program that splits its input into lines
# and answers each by a fixed reply. It prints numbers and goals, and judges nothing.
#
#   bench/lines.sh         two measures: SELECT alone, and a mix of commands
#   bench/lines.sh FILE    the lines of FILE instead
#
# The lines of a measure are repeated to 60 MB, for a card that was just formatted. TRIES
# says how many times each run is timed, 3 if unset: more on a busy machine.
set -euo pipefail

here=$(dirname "$(readlink -f "${BASH_SOURCE[0]}")")
gp=$here/../crates/gp/out/gp
tries=${TRIES:-3}
file=${1:+$(readlink -f "$1")}

# The program takes fewer than 67,108,864 bytes, so the whole input stays below that.
readonly whole_bytes=60000000

tmp=$(mktemp -d "${TMPDIR:-/tmp}/gp-lines.XXXXXX")
trap 'rm -rf "$tmp"' EXIT

fail() {
    echo "lines: $1" >&2
    exit 1
}

gp_file() { "$gp" run <"$1" >/dev/null; }
gp_pipe() { cat "$1" | "$gp" run >/dev/null; }
c_file() { "$tmp/lines" <"$1" >/dev/null; }
c_pipe() { cat "$1" | "$tmp/lines" >/dev/null; }

# Makes the inputs of standard input's lines, once round: both hold whole rounds, and the
# whole just twice as many as the half.
make_inputs() {
    # awk also gives the last line a newline where it has none.
    awk 1 >"$tmp/round"
    [[ -s $tmp/round ]] || fail "there is no line"
    local rounds=$((whole_bytes / 2 / $(stat -c %s "$tmp/round")))
    ((rounds > 0)) || fail "the lines have more than $((whole_bytes / 2)) bytes"
    awk -v rounds="$rounds" '
        { round = round $0 "\n" }
        END { for (done = 0; done < rounds; done++) printf "%s", round }
    ' "$tmp/round" >"$tmp/half"
    cat "$tmp/half" "$tmp/half" >"$tmp/whole"
}

source "$here/race.sh"

# Prints all of one measure: its name, the goal for gp/C, and its lines on standard input.
measure() {
    local name=$1 goal=$2 lines from of_gp of_c of_half of_whole memory
    make_inputs
    lines=$(wc -l <"$tmp/whole")
    echo "$name: $lines lines, $(stat -c %s "$tmp/whole") bytes, best of $tries"

    for from in file pipe; do
        race "gp_$from whole" "c_$from whole"
        of_gp=${best["gp_$from whole"]}
        of_c=${best["c_$from whole"]}
        echo "from a $from"
        say gp "%s s  %9s lines a second" "$(seconds "$of_gp")" "$(rate "$lines" "$of_gp")"
        say C "%s s  %9s lines a second" "$(seconds "$of_c")" "$(rate "$lines" "$of_c")"
        say gp/C "%s of its lines a second (goal: %s)" "$(over "$of_c" "$of_gp")" "$goal"
    done

    race "gp_file half" "gp_file whole"
    of_half=${best["gp_file half"]}
    of_whole=${best["gp_file whole"]}
    echo "twice the input, from a file"
    say half "%s s" "$(seconds "$of_half")"
    say whole "%s s" "$(seconds "$of_whole")"
    say whole/half "%s of its time (goal: 2.0 within 0.1)" "$(over "$of_whole" "$of_half")"

    memory=$(peak)
    echo "memory"
    say gp "%s MB at its peak (goal: below 8)" "$memory"
}

# The peak is read while the program waits for more after the whole input. Linux keeps it
# for the program alone, so it counts nothing of the shell that started it.
peak() {
    local pid
    exec 3> >(exec "$gp" run >/dev/null)
    pid=$!
    cat "$tmp/whole" >&3
    sleep 1
    awk '/^VmHWM:/ { printf "%.1f", $2 * 1024 / 1e6 }' "/proc/$pid/status"
    exec 3>&-
    wait "$pid"
}

# The launcher builds what is missing. With no words the program only says its usage,
# and ends with 1.
"$here/../gp" >/dev/null || (($? == 1))
gcc -std=c99 -O2 -o "$tmp/lines" "$here/lines.c"

# The card stands in the folder that the program starts in.
cd "$tmp"
"$gp" format

if [[ -n $file ]]; then
    measure "$1" none <"$file"
else
    measure "SELECT" "at least 0.5" <<<00A4040008A000000151000000
    echo
    measure "a mix of commands" "at least 0.4" <<'END'
00A4040005A000000151
00700000
80CA00E000
00708001
END
fi
