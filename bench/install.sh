#!/usr/bin/env bash
# How fast `gp run` answers INSTALL [for install and make selectable] at level 33, beside a C program that makes the same
# CMACs, CBC and writes (session.c). It prints numbers and judges nothing, but ends 1 where the replies differ or one of them
# doesn't end with 9000.
#
#   bench/install.sh          200 runs
#   bench/install.sh COUNT    so many runs
#
# A run is a session that installs 30 security domains on the factory card, and each INSTALL commits a page. What a run costs
# besides is taken off: that of as many runs of the same session without INSTALL. Card and file stand in /dev/shm, so that no
# disk is measured. The two take turns, and the best of TRIES times counts, 5 if unset. It wants a C compiler and the headers
# of OpenSSL (libssl-dev).
set -euo pipefail

here=$(dirname "$(readlink -f "${BASH_SOURCE[0]}")")
gp=$here/../crates/gp/out/gp
tries=${TRIES:-5}
count=${1:-200}

readonly installs=30

tmp=$(mktemp -d "${TMPDIR:-/dev/shm}/gp-install.XXXXXX")
trap 'rm -rf "$tmp"' EXIT

fail() {
    echo "install: $1" >&2
    exit 1
}

ours() { "$gp" run <"$tmp/$1"; }
theirs() { "$tmp/session" answers 16 <"$tmp/$1"; }

# The microseconds of COUNT runs, each on a new card.
timed() {
    local begin total=0
    for ((run = 0; run < count; run++)); do
        cp new.img card.img
        begin=${EPOCHREALTIME//[!0-9]/}
        "$1" "$2" >/dev/null
        total=$((total + ${EPOCHREALTIME//[!0-9]/} - begin))
    done
    echo "$total"
}

# The launcher builds what is missing. With no words the program only says its usage, and ends with 1.
"$here/../gp" >/dev/null || (($? == 1))
cc -std=c99 -D_DEFAULT_SOURCE -O2 -o "$tmp/session" "$here/session.c" -lcrypto
cd "$tmp"
"$tmp/session" installs 16 "$installs" >"$tmp/installs"
"$tmp/session" installs 16 0 >"$tmp/begins"
"$gp" format
cp card.img new.img
ours installs >ours.out || fail "gp ended with status $?"
theirs installs >theirs.out || fail "the C program ended with status $?"
cmp ours.out theirs.out || fail "the replies differ"
[[ $(grep -c '9000$' ours.out) == $((installs + 2)) ]] || fail "a command is refused"

declare -A best
for ((try = 0; try < tries; try++)); do
    for run in "ours installs" "theirs installs" "ours begins" "theirs begins"; do
        read -r who input <<<"$run"
        took=$(timed "$who" "$input")
        if [[ -z ${best[$run]-} ]] || ((took < best[$run])); then
            best[$run]=$took
        fi
    done
done

ours=$((${best[ours installs]} - ${best[ours begins]}))
theirs=$((${best[theirs installs]} - ${best[theirs begins]}))
awk -v all=$((count * installs)) -v ours="$ours" -v theirs="$theirs" 'BEGIN {
    printf "%d INSTALLs at level 33\n", all
    printf "  gp    %8.2f microseconds each\n", ours / all
    printf "  C     %8.2f microseconds each\n", theirs / all
    printf "  gp/C  %8.2f of the time\n", ours / theirs
}'
