#!/usr/bin/env bash
# What a part of a listing costs beside GET DATA, in a session at level 33 on a card with 32 entries. It prints numbers and the
# goal, and ends 1 where a command is refused.
#
#   bench/list.sh          20,000 commands of each kind
#   bench/list.sh COUNT    so many
#
# A part has six templates, 222 bytes, and things are left behind it. No GET DATA has so many bytes, so what one would cost is
# drawn from those of 12 and of 121 bytes. What begins a run is taken off: that of a run without these commands. The card stands
# in /dev/shm, so that no disk is measured. The best of TRIES times counts, 5 if unset. It wants a C compiler and the headers of
# OpenSSL (libssl-dev).
set -euo pipefail

here=$(dirname "$(readlink -f "${BASH_SOURCE[0]}")")
gp=$here/../crates/gp/out/gp
tries=${TRIES:-5}
count=${1:-20000}

tmp=$(mktemp -d "${TMPDIR:-/dev/shm}/gp-list.XXXXXX")
trap 'rm -rf "$tmp"' EXIT

fail() {
    echo "list: $1" >&2
    exit 1
}

# The launcher builds what is missing. With no words the program only says its usage, and ends with 1.
"$here/../gp" >/dev/null || (($? == 1))
cc -std=c99 -D_DEFAULT_SOURCE -O2 -o "$tmp/session" "$here/session.c" -lcrypto
cd "$tmp"
"$gp" format
cp card.img new.img
"$tmp/session" lists 16 parts 0 >none
for what in parts short long; do
    "$tmp/session" lists 16 "$what" "$count" >"$what"
done

declare -A best
for ((try = 0; try < tries; try++)); do
    for what in none parts short long; do
        cp new.img card.img
        begin=${EPOCHREALTIME//[!0-9]/}
        "$gp" run <"$what" >"$what.out" || fail "gp ended with status $?"
        took=$((${EPOCHREALTIME//[!0-9]/} - begin))
        if [[ -z ${best[$what]-} ]] || ((took < best[$what])); then
            best[$what]=$took
        fi
    done
done
# Protected, 222, 12 and 121 bytes are 224, 16 and 128, with 8 of R-MAC and the status word behind them. The reply to an INSTALL
# is as long as that to the short GET DATA.
[[ $(grep -cE '^.{464}6310$' parts.out) == "$count" ]] || fail "a part has not six templates"
[[ $(grep -cE '^.{48}9000$' short.out) == $((31 + count)) && $(grep -cE '^.{272}9000$' long.out) == "$count" ]] || fail "a GET DATA is refused"

awk -v count="$count" -v none="${best[none]}" -v parts="${best[parts]}" -v short="${best[short]}" -v long="${best[long]}" 'BEGIN {
    part = (parts - none) / count
    few = (short - none) / count
    many = (long - none) / count
    as_many = few + (many - few) * (222 - 12) / (121 - 12)
    printf "%d commands of each kind at level 33, 32 entries, microseconds each\n", count
    printf "  GET STATUS, a part of 222 bytes  %6.2f\n", part
    printf "  GET DATA of 12 bytes             %6.2f\n", few
    printf "  GET DATA of 121 bytes            %6.2f\n", many
    printf "  GET DATA of 222 bytes would be   %6.2f\n", as_many
    printf "  GET STATUS / GET DATA            %6.2f of the time (goal: at most 4)\n", part / as_many
}'
