#!/usr/bin/env bash
# How fast `gp run` answers sessions of SCP03 at level 33, beside a C program that does the same
# over OpenSSL's AES_encrypt, with keys of 16, 24 and 32 bytes. That works by a table whatever the
# processor has, so there are no AES instructions to switch off. It prints numbers and the goal, and
# ends 1 where the replies differ or one of them doesn't end with 9000.
#
#   bench/session.sh          1,000 sessions
#   bench/session.sh COUNT    so many sessions, 18,000 at most
#
# A session is INITIALIZE UPDATE, EXTERNAL AUTHENTICATE and 100 times GET DATA. They come one after
# the other on channel 0 of one card, whose keys were put by PUT KEY where they have not 16 bytes.
# What begins a session is timed by as many commands in sessions without GET DATA. INITIALIZE UPDATE
# commits a page, and the C program makes the same writes and syncs of a file of its own: both stand
# in memory, in /dev/shm, so that no disk is measured.
#
# The two take turns, and the best of TRIES times counts, 5 if unset. It wants a C compiler and
# the headers of OpenSSL (libssl-dev).
set -euo pipefail

here=$(dirname "$(readlink -f "${BASH_SOURCE[0]}")")
gp=$here/../crates/gp/out/gp
tries=${TRIES:-5}
count=${1:-1000}

readonly gets=100
readonly sizes=(16 24 32)
commands=$((count * (2 + gets)))
begun=$((commands / 2))

tmp=$(mktemp -d "${TMPDIR:-/dev/shm}/gp-session.XXXXXX")
trap 'rm -rf "$tmp"' EXIT

fail() {
    echo "session: $1" >&2
    exit 1
}

# A run begins with a card that has had no session with its keys, which no time is counted for.
renew() { cp "$tmp/new-$1.img" "$tmp/card.img"; }
ours() { "$gp" run <"$tmp/$2-$1"; }
theirs() { "$tmp/session" answers "$1" <"$tmp/$2-$1"; }

# A card with keys of this size: the factory card, or one on which PUT KEY has put them.
make() {
    rm -f card.img
    "$gp" format
    if [[ $1 != 16 ]]; then
        "$tmp/session" keys "$1" | "$gp" run >"$tmp/put"
        [[ $(grep -c '9000$' "$tmp/put") == 3 ]] || fail "the keys of $1 bytes are not put"
    fi
    cp card.img "new-$1.img"
}

# Every command has the same reply from both, and is accepted.
check() {
    renew "$1"
    ours "$1" "$2" >"$tmp/ours" || fail "gp ended with status $?"
    theirs "$1" "$2" >"$tmp/theirs" || fail "the C program ended with status $?"
    cmp "$tmp/ours" "$tmp/theirs" || fail "the replies differ"
    [[ $(grep -c '9000$' "$tmp/ours") == "$commands" ]] || fail "a command is refused"
}

# The launcher builds what is missing. With no words the program only says its usage,
# and ends with 1.
"$here/../gp" >/dev/null || (($? == 1))
cc -std=c99 -D_DEFAULT_SOURCE -O2 -o "$tmp/session" "$here/session.c" -lcrypto
cd "$tmp"
for size in "${sizes[@]}"; do
    "$tmp/session" lines "$size" "$count" "$gets" >"$tmp/sessions-$size"
    "$tmp/session" lines "$size" "$begun" 0 >"$tmp/begins-$size"
    make "$size"
    check "$size" sessions
    check "$size" begins
done

# The best times, in microseconds.
declare -A best
for ((try = 0; try < tries; try++)); do
    for size in "${sizes[@]}"; do
        for run in "ours $size sessions" "theirs $size sessions" "ours $size begins" "theirs $size begins"; do
            read -r who _ input <<<"$run"
            renew "$size"
            begin=${EPOCHREALTIME//[!0-9]/}
            "$who" "$size" "$input" >/dev/null
            took=$((${EPOCHREALTIME//[!0-9]/} - begin))
            if [[ -z ${best[$run]-} ]] || ((took < best[$run])); then
                best[$run]=$took
            fi
        done
    done
done

echo "$count sessions of $((2 + gets)) commands at level 33, and $begun of INITIALIZE UPDATE with EXTERNAL AUTHENTICATE alone, best of $tries"
for size in "${sizes[@]}"; do
    awk -v bits=$((8 * size)) -v ours="${best[ours $size sessions]}" -v theirs="${best[theirs $size sessions]}" -v commands="$commands" \
        -v begins="${best[ours $size begins]}" -v their_begins="${best[theirs $size begins]}" -v begun="$begun" 'BEGIN {
        printf "AES-%d\n", bits
        printf "  gp    %9.0f commands a second, %6.2f microseconds to begin a session\n", commands * 1e6 / ours, begins / begun
        printf "  C     %9.0f commands a second, %6.2f microseconds to begin a session\n", commands * 1e6 / theirs, their_begins / begun
        printf "  gp/C  %9.2f of its commands a second\n", theirs / ours
    }'
done
awk -v short="${best[ours 16 sessions]}" -v long="${best[ours 32 sessions]}" -v begins="${best[ours 16 begins]}" -v long_begins="${best[ours 32 begins]}" 'BEGIN {
    printf "AES-256 / AES-128: %.2f of the time (goal: at most 1.5), %.2f to begin a session\n", long / short, long_begins / begins
}'
