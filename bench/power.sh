#!/usr/bin/env bash
# Times power on: `gp run` of an empty input, on the factory card and on one that is full: 32 entries in a line of 31
# security domains, 48 keys and 16 data objects. It prints numbers and the goal, and judges nothing.
#
# COUNT says how many times each card is powered on, 2,000 if unset. TRIES says how often that is timed, 3 if unset:
# the best counts.
set -euo pipefail

here=$(cd "$(dirname "$0")/.." && pwd)
count=${COUNT:-2000}
tries=${TRIES:-3}

tmp=$(mktemp -d "${TMPDIR:-/tmp}/power.XXXXXX")
trap 'rm -rf "$tmp"' EXIT

# The launcher builds what is missing. With no words the program only says its usage, and ends with 1.
"$here/gp" >/dev/null || (($? == 1))
gp=$here/crates/gp/out/gp

# The card stands in the folder that the program starts in.
mkdir "$tmp/factory" "$tmp/full"
(cd "$tmp/factory" && "$gp" format)

# Writes the pages of a full card: a superblock, and each slot of entries, keys and data objects.
python3 - "$tmp/full/card.img" <<'END'
import sys

FACTORY_FILE = bytes.fromhex("A0000001515350")
FACTORY_MODULE = FACTORY_FILE + b"\x41"
pages = bytearray(608 * 256)


def put(page, size, slot, content):
    at = page * 256 + slot * size
    pages[at : at + size] = content.ljust(size, b"\0")


def counted(content, room):
    return bytes([len(content)]) + content.ljust(room, b"\0")


def entry(slot, aid, domain, file, module, life, privileges):
    put(1, 64, slot, b"\x01" + counted(aid, 16) + bytes([domain, file]) + counted(module, 16)
        + bytes([life]) + privileges.to_bytes(3, "big"))


def file(slot, aid, size):
    put(9, 256, slot, b"\x01" + counted(aid, 16) + b"\x00" + size.to_bytes(2, "big"))


put(0, 256, 0, b"GPCD\x02\x01")

# Behind the Issuer Security Domain each domain is in the one before it, and an application is in the last.
entry(0, bytes.fromhex("A000000151000000"), 0, 0, FACTORY_MODULE, 0x0F, 0x9EFE80)
for slot in range(1, 31):
    entry(slot, bytes.fromhex("D0000000") + bytes([slot]), slot - 1, 0, FACTORY_MODULE, 0x0F, 0x800000)
entry(31, bytes.fromhex("F00000000001"), 30, 1, bytes.fromhex("F0000000000101"), 0x07, 0)

# The application's Executable Load File has one byte, in the first load page.
file(0, FACTORY_FILE, 0)
file(1, bytes.fromhex("F000000000"), 1)

# Four key sets of each of the last four domains, and four data objects.
for number in range(48):
    key = bytes([27 + number // 12, 1 + number % 12 // 3, 1 + number % 3])
    put(25, 64, number, b"\x01" + key + counted(bytes([0x40 + number]) * 16, 32) + bytes(3))
for number in range(16):
    tag, size = [(0x42, 10), (0x45, 10), (0x66, 120), (0x5F50, 120)][number % 4]
    put(37, 128, number, b"\x01" + bytes([27 + number // 4]) + tag.to_bytes(2, "big") + counted(bytes([number]) * size, 120))

open(sys.argv[1], "wb").write(pages)
END
(cd "$tmp/full" && "$gp" show >"$tmp/shown") || {
    echo "power: the full card is no card" >&2
    exit 1
}
shown() { grep -c "^$1 " "$tmp/shown"; }
echo "the full card: $(shown domain) domains, $(shown app) application, $(shown key) keys, $(shown object) data objects"

power_on() (
    local turn
    cd "$tmp/$1"
    for ((turn = 0; turn < count; turn++)); do
        "$gp" run </dev/null >/dev/null
    done
)

# They take turns, so that a busy moment of the machine meets both. The best time of each is left, in microseconds.
declare -A best
for ((try = 0; try < tries; try++)); do
    for card in factory full; do
        begin=${EPOCHREALTIME//[!0-9]/}
        power_on "$card"
        took=$((${EPOCHREALTIME//[!0-9]/} - begin))
        if [[ -z ${best[$card]-} ]] || ((took < best[$card])); then
            best[$card]=$took
        fi
    done
done

awk -v factory="${best[factory]}" -v full="${best[full]}" -v count="$count" 'BEGIN {
    printf "the factory card  %8.1f microseconds each\n", factory / count
    printf "the full card     %8.1f microseconds each\n", full / count
    printf "full/factory      %8.2f (goal: at most 2.0)\n", full / factory
}'
