#!/usr/bin/env bash
# Times commits of 1, 2 and 8 pages to a file: those of `page_journal` over `FileFlash`, beside a C program that makes
# the same writes and fdatasyncs, and beside SQLite (full sync, its default journal) that updates one row of 256 bytes.
# It is no test: it prints times and ratios, and ends 0 where it ran.
#
# COUNT is how many commits each run makes, 10,000 if unset. TRIES says how often each run is timed, 1 if unset: the
# best counts. TMPDIR should lie on the disk that is meant.
set -euo pipefail

here=$(cd "$(dirname "$0")/.." && pwd)
count=${COUNT:-10000}
tries=${TRIES:-1}

tmp=$(mktemp -d "${TMPDIR:-/tmp}/commits.XXXXXX")
trap 'rm -rf "$tmp"' EXIT

program=$("$here/bench/built.sh" commit_bench "$tmp/first.img" 1 1)
cc -O2 -o "$tmp/commit" "$here/bench/commit.c"

ours() { "$program" "$tmp/ours.img" "$count" "$1"; }
c_program() { "$tmp/commit" "$tmp/c.img" "$count" "$1"; }
sqlite() { sqlite3 "$tmp/rows.db" <"$tmp/updates.sql"; }

# COUNT transactions, each of which updates one row of 256 bytes
make_updates() {
    sqlite3 "$tmp/rows.db" "CREATE TABLE rows (id INTEGER PRIMARY KEY, bytes BLOB); INSERT INTO rows VALUES (1, zeroblob(256));"
    {
        echo "PRAGMA synchronous = FULL;"
        awk -v count="$count" 'BEGIN {
            for (turn = 0; turn < count; turn++) {
                digits = ""
                for (i = 0; i < 256; i++) digits = digits sprintf("%02x", turn % 251)
                printf "UPDATE rows SET bytes = x%c%s%c WHERE id = 1;\n", 39, digits, 39
            }
        }'
    } >"$tmp/updates.sql"
}

# Times two calls with the same word, in turns, so that a busy moment of the machine meets both alike. It prints the
# best time of each, in microseconds.
race() {
    local first="" second="" begin took
    for _ in $(seq "$tries"); do
        begin=${EPOCHREALTIME//[!0-9]/}
        "$1" "$3"
        took=$((${EPOCHREALTIME//[!0-9]/} - begin))
        if [ -z "$first" ] || [ "$took" -lt "$first" ]; then first=$took; fi
        begin=${EPOCHREALTIME//[!0-9]/}
        "$2" "$3"
        took=$((${EPOCHREALTIME//[!0-9]/} - begin))
        if [ -z "$second" ] || [ "$took" -lt "$second" ]; then second=$took; fi
    done
    echo "$first $second"
}

line() {
    awk -v pages="$1" -v ours="$2" -v theirs="$3" -v count="$count" \
        'BEGIN { printf "%d pages  %9.0f commits/s  the C program %9.0f commits/s  time ratio %.2f  (goal 1.10 at most)\n", pages, count * 1e6 / ours, count * 1e6 / theirs, ours / theirs }'
}

for pages in 1 2 8; do
    read -r ours theirs <<<"$(race ours c_program "$pages")"
    line "$pages" "$ours" "$theirs"
done

if command -v sqlite3 >/dev/null; then
    make_updates
    read -r ours theirs <<<"$(race ours sqlite 1)"
    awk -v ours="$ours" -v theirs="$theirs" -v count="$count" \
        'BEGIN { printf "1 page   %9.0f commits/s  SQLite        %9.0f commits/s  ratio %.2f  (goal 6.00 at least)\n", count * 1e6 / ours, count * 1e6 / theirs, theirs / ours }'
fi
