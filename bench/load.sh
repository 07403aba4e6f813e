#!/usr/bin/env bash
# How fast `gp run` loads an Executable Load File at level 33, beside a C program that makes the same CMACs, CBC, SHA-256,
# writes and syncs (session.c). It prints numbers and the goal, and ends 1 where the replies or the load pages differ, or a
# command doesn't end with 9000.
#
#   bench/load.sh          100 runs
#   bench/load.sh COUNT    so many runs
#
# A run is a session on a new factory card that loads 32,768 bytes in blocks of 239, with their SHA-256: 128 pages are
# written, and a commit of one page. What a run costs besides is taken off: that of as many runs of the same session without
# a load. Card and file stand in memory, in /dev/shm, and then on a disk, in TMPDIR, or in /var/tmp if that is unset. The two
# take turns, and the best of TRIES times counts, 5 if unset.
#
# It wants a C compiler and the headers of OpenSSL (libssl-dev), whose SHA-256 works without vectors here, as ours does.
set -euo pipefail

# No vector permutation and no AES instructions, as in ciphers.sh; and of those that SHA-256 takes no AVX2, BMI and SHA.
export OPENSSL_ia32cap="~0x200020000000000:~0x20000128"

here=$(dirname "$(readlink -f "${BASH_SOURCE[0]}")")
gp=$here/../crates/gp/out/gp
tries=${TRIES:-5}
count=${1:-100}

readonly bytes=32768 blocks=138 first_page=96 page_size=256

memory=$(mktemp -d /dev/shm/gp-load.XXXXXX)
disk=$(mktemp -d "${TMPDIR:-/var/tmp}/gp-load.XXXXXX")
trap 'rm -rf "$memory" "$disk"' EXIT

fail() {
    echo "load: $1" >&2
    exit 1
}

ours() { "$gp" run <"$memory/$1"; }
theirs() { "$memory/session" answers 16 <"$memory/$1"; }
load_pages() { dd if="$1" bs=$page_size skip=$first_page count=$((bytes / page_size)) status=none; }

# The microseconds of COUNT runs, each on a new card.
timed() {
    local begin total=0
    for ((run = 0; run < count; run++)); do
        cp "$memory/new.img" card.img
        begin=${EPOCHREALTIME//[!0-9]/}
        "$1" "$2" >/dev/null
        total=$((total + ${EPOCHREALTIME//[!0-9]/} - begin))
    done
    echo "$total"
}

# Both load the file once: each reply, and each load page, is the same.
compare() {
    cp "$memory/new.img" card.img
    ours loads >"$memory/ours" || fail "gp ended with status $?"
    theirs loads >"$memory/theirs" || fail "the C program ended with status $?"
    cmp "$memory/ours" "$memory/theirs" || fail "the replies differ"
    [[ $(grep -c '9000$' "$memory/ours") == $((blocks + 3)) ]] || fail "a command is refused"
    cmp <(load_pages card.img) <(load_pages c.img) || fail "the load pages differ"
}

# Measures in the current folder, and prints the lines under this name.
measure() {
    local -A best=()
    local try run who input took
    for ((try = 0; try < tries; try++)); do
        for run in "ours loads" "theirs loads" "ours begins" "theirs begins"; do
            read -r who input <<<"$run"
            took=$(timed "$who" "$input")
            if [[ -z ${best[$run]-} ]] || ((took < best[$run])); then
                best[$run]=$took
            fi
        done
    done
    awk -v name="$1" -v all=$((count * bytes)) -v ours=$((${best[ours loads]} - ${best[ours begins]})) \
        -v theirs=$((${best[theirs loads]} - ${best[theirs begins]})) 'BEGIN {
        printf "%s\n", name
        printf "  gp    %10.0f bytes a second\n", all * 1e6 / ours
        printf "  C     %10.0f bytes a second\n", all * 1e6 / theirs
        printf "  gp/C  %10.2f of its bytes a second (goal: at least 0.8)\n", theirs / ours
    }'
}

# The launcher builds what is missing. With no words the program only says its usage, and ends with 1.
"$here/../gp" >/dev/null || (($? == 1))
cc -std=c99 -D_DEFAULT_SOURCE -O2 -o "$memory/session" "$here/session.c" -lcrypto
cd "$memory"
./session loads 16 "$bytes" 1 >loads
./session loads 16 "$bytes" 0 >begins
"$gp" format
mv card.img new.img

echo "$bytes bytes at level 33, in blocks of 239, $count times, best of $tries"
for place in "$memory" "$disk"; do
    cd "$place"
    compare
    if [[ $place == "$memory" ]]; then
        measure "in memory"
    else
        measure "on a disk"
    fi
done
