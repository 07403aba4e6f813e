#!/usr/bin/env bash
# How long `gp mill` plays its workload, beside a C program that plays the same (mill.c): the ciphers of both ends of each session,
# and the calls on a file that the card makes. It prints numbers and the goal. It ends 1 where the two sum up their rounds in other
# words, where `gp run` answers the C program's commands other than that does, where that leaves another card than `gp mill`, or
# where the calls differ.
#
# The time of 2,000 rounds is compared; the two take turns, and the best of TRIES times counts, 5 if unset. 1,000 and 10,000 rounds
# of gp are timed beside, with the peak of its memory. Card and file stand in memory, in /dev/shm, or in TMPDIR if that is set.
#
# It wants a C compiler and the headers of OpenSSL (libssl-dev). The calls are counted by strace, and left out where it isn't there.
set -euo pipefail

here=$(dirname "$(readlink -f "${BASH_SOURCE[0]}")")
gp=$here/../crates/gp/out/gp
tries=${TRIES:-5}

readonly seed=7 few=100 rounds=2000
readonly counts=(1000 "$rounds" 10000)

tmp=$(mktemp -d "${TMPDIR:-/dev/shm}/gp-mill.XXXXXX")
trap 'rm -rf "$tmp"' EXIT

fail() {
    echo "mill: $1" >&2
    exit 1
}

ours() { "$gp" mill "$seed" "$1"; }
theirs() { "$tmp/mill" "$seed" "$1"; }

# Both play so many rounds, and say the same of them: nine lines of each end with 9000.
compare_words() {
    ours "$1" >ours.out || fail "gp ended with status $?"
    theirs "$1" >theirs.out || fail "the C program ended with status $?"
    cmp ours.out theirs.out || fail "$1 rounds: the words differ"
    grep -qx "9000 $((9 * $1))" ours.out || fail "$1 rounds: a line is refused"
}

# The card of `gp run` answers each command of the C program as its own does, and is left as by `gp mill`, to the byte.
compare_replies() {
    ./mill "$seed" "$few" talk >exchanges
    sed -n 's/^> //p' exchanges >commands
    sed -n 's/^< //p' exchanges >replies
    rm -f card.img
    "$gp" format
    "$gp" run <commands >ours.out || fail "gp ended with status $?"
    cmp ours.out replies || fail "the replies differ"
    mv card.img run.img
    ours "$few" >ours.out || fail "gp ended with status $?"
    cmp card.img run.img || fail "the cards differ"
}

# How often a program makes each call on this file: lines with the name and the number.
calls_of() {
    local name=$1
    shift
    strace -c -o counted -P "$tmp/$name" -e trace=pread64,pwrite64,fdatasync "$@" >/dev/null
    awk '$NF ~ /^(pread64|pwrite64|fdatasync)$/ { print $NF, $4 }' counted
}

compare_calls() {
    if ! strace -o counted true 2>/dev/null; then
        echo "calls on the file: left out, since strace is not there or may not trace"
        return
    fi
    rm -f card.img
    calls_of card.img "$gp" mill "$seed" "$few" | sort >ours.calls
    ./mill "$seed" "$few" calls | grep -E '^(pread64|pwrite64|fdatasync) ' | sort >theirs.calls
    echo "$few rounds: calls on the file"
    printf '  %-10s %9s %9s\n' "" gp C
    join -a 1 -a 2 -e 0 -o 0,1.2,2.2 ours.calls theirs.calls | while read -r call one other; do
        printf '  %-10s %9d %9d\n' "$call" "$one" "$other"
    done
    cmp ours.calls theirs.calls || fail "the calls differ"
}

# The peak of gp's memory in a run of so many rounds. Linux keeps it for the program alone; it is read again and again, and what was
# read last counts.
peak() {
    local pid now last=0
    "$gp" mill "$seed" "$1" >/dev/null &
    pid=$!
    while now=$(awk '/^VmHWM:/ { print $2 }' "/proc/$pid/status" 2>/dev/null) && [[ -n $now ]]; do
        if [[ $(readlink "/proc/$pid/exe") == */gp ]]; then last=$now; fi
        sleep 0.002
    done
    wait "$pid"
    awk -v kb="$last" 'BEGIN { printf "%.1f", kb * 1024 / 1e6 }'
}

# The launcher builds what is missing. With no words the program only says its usage, and ends with 1.
"$here/../gp" >/dev/null || (($? == 1))
cc -std=c99 -D_DEFAULT_SOURCE -O2 -o "$tmp/mill" "$here/mill.c" -lcrypto
cd "$tmp"
compare_words "$few"
compare_words "$rounds"
compare_replies
compare_calls

declare -A best
for ((try = 0; try < tries; try++)); do
    for run in "theirs $rounds" "${counts[@]/#/ours }"; do
        read -r who count <<<"$run"
        begin=${EPOCHREALTIME//[!0-9]/}
        "$who" "$count" >/dev/null
        took=$((${EPOCHREALTIME//[!0-9]/} - begin))
        if [[ -z ${best[$run]-} ]] || ((took < best[$run])); then
            best[$run]=$took
        fi
    done
done

echo "$rounds rounds of ten lines, best of $tries"
awk -v rounds="$rounds" -v ours="${best[ours $rounds]}" -v theirs="${best[theirs $rounds]}" 'BEGIN {
    printf "  gp    %8.2f microseconds a round\n", ours / rounds
    printf "  C     %8.2f microseconds a round\n", theirs / rounds
    printf "  gp/C  %8.2f of the time (goal: at most 1.3)\n", ours / theirs
}'
echo "gp alone"
for count in "${counts[@]}"; do
    awk -v count="$count" -v took="${best[ours $count]}" -v memory="$(peak "$count")" 'BEGIN {
        printf "  %5d rounds  %7.3f s  %8.2f microseconds a round  %s MB at its peak\n", count, took / 1e6, took / count, memory
    }'
done
