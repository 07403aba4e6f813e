#!/usr/bin/env bash
# Times `gp access` on a card with many deeds: 32 security domains in a line, each with Authorized Management, so that 32 times
# 1,124 deeds are judged. It prints numbers and the goal, and judges nothing.
#
# TRIES says how often it is timed, 9 if unset: the best counts.
set -euo pipefail

here=$(cd "$(dirname "$0")/.." && pwd)
tries=${TRIES:-9}

tmp=$(mktemp -d "${TMPDIR:-/tmp}/access.XXXXXX")
trap 'rm -rf "$tmp"' EXIT

# The launcher builds what is missing. With no words the program only says its usage, and ends with 1.
"$here/gp" >/dev/null || (($? == 1))
gp=$here/crates/gp/out/gp

# Writes the pages of the card, as bench/power.sh does.
python3 - "$tmp/card.img" <<'END'
import sys

FACTORY_FILE = bytes.fromhex("A0000001515350")
FACTORY_MODULE = FACTORY_FILE + b"\x41"
pages = bytearray(608 * 256)


def put(page, size, slot, content):
    at = page * 256 + slot * size
    pages[at : at + size] = content.ljust(size, b"\0")


def counted(content, room):
    return bytes([len(content)]) + content.ljust(room, b"\0")


def entry(slot, aid, domain, privileges):
    put(1, 64, slot, b"\x01" + counted(aid, 16) + bytes([domain, 0]) + counted(FACTORY_MODULE, 16) + b"\x0F" + privileges.to_bytes(3, "big"))


put(0, 256, 0, b"GPCD\x03\x01")
entry(0, bytes.fromhex("A000000151000000"), 0, 0x9EFE80)
for slot in range(1, 32):
    entry(slot, bytes.fromhex("D0000000") + bytes([slot]), slot - 1, 0x804000)

# The factory's file has no bytes.
put(9, 256, 0, b"\x01" + counted(FACTORY_FILE, 16) + bytes(3))

# One key set, of the Issuer Security Domain, which all use.
for identifier in (1, 2, 3):
    put(25, 64, identifier - 1, b"\x01\x00\x30" + bytes([identifier]) + counted(bytes([0x40]) * 16, 32) + bytes(3))

open(sys.argv[1], "wb").write(pages)
END
cd "$tmp"
"$gp" access >lines || {
    echo "access: the card is no card" >&2
    exit 1
}
best=
for ((try = 0; try < tries; try++)); do
    begin=${EPOCHREALTIME//[!0-9]/}
    "$gp" access >lines
    took=$((${EPOCHREALTIME//[!0-9]/} - begin))
    if [[ -z $best ]] || ((took < best)); then
        best=$took
    fi
done
awk -v best="$best" -v lines="$(wc -l <lines)" 'BEGIN {
    printf "%d deeds judged, %d lines: %.0f milliseconds (goal: below 200)\n", 32 * 1124, lines, best / 1000
}'
