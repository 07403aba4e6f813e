#!/usr/bin/env bash
# Plays long workloads with the built program, on a card in memory, in /dev/shm: `crates/cases` has no room for as many
# calls on a device. Each is played twice: the same words are to give the same text and the same card. It is no part of
# `rt ci`.
#
# It says what differs, then 'N passed, M failed', and ends with 0 where nothing failed.
set -euo pipefail

top=$(dirname "$(dirname "$(readlink -f "${BASH_SOURCE[0]}")")")
gp=$top/crates/gp/out/gp

if [[ ! -x $gp ]]; then
    echo "mill: $gp is not built: ./gp builds it" >&2
    exit 1
fi

tmp=$(mktemp -d "${TMPDIR:-/dev/shm}/mill.XXXXXX")
trap 'rm -rf "$tmp"' EXIT
cd "$tmp"

passed=0
failed=0

# Counts a check: its name, what was wanted, what came.
wants() {
    if [[ $2 == "$3" ]]; then
        passed=$((passed + 1))
    else
        failed=$((failed + 1))
        echo "FAIL $1: wanted '$2', got '$3'"
    fi
}

# The summary of a workload in which each line that prints has gone well: nine lines of a round.
summary() { printf 'mill %s %s\nrounds %s\n9000 %s\nother 0\ncounter %06x\nstatus 0' "$1" "$2" "$2" $((9 * $2)) "$2"; }

# A seed, and a number of rounds.
try() {
    local text card
    text=$("$gp" mill "$1" "$2" && echo "status $?")
    card=$(sha256sum <card.img)
    wants "mill $1 $2" "$(summary "$1" "$2")" "$text"
    wants "mill $1 $2 again" "$text" "$("$gp" mill "$1" "$2" && echo "status $?")"
    wants "the card of mill $1 $2 again" "$card" "$(sha256sum <card.img)"
    wants "the counter of mill $1 $2" "counter a000000151000000 30 $(printf %06x "$2")" "$("$gp" show | grep '^counter')"
}

try 7 2000
try 18446744073709551615 10000

echo "$passed passed, $failed failed"
((failed == 0))
