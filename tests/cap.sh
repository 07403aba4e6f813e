#!/usr/bin/env bash
# Tries `gp cap` on CAP files, from the zip to the applet that is selected. It is no part of `rt ci`.
#
#   tests/cap.sh
#
# examples/applet_cap.py makes the zip, and the recipe of docs/DESK.md, with unzip and xxd (in Debian the packages of these names),
# makes the lines for `gp cap`. What comes is compared with a script that a second implementation packs, here in Python, and for the
# CAP file of the examples with examples/applet.script, and then played: the file is on the card with the digest of its bytes, and the
# applet is selected. It also tries CAP files of one block, of two and of many, the longest that is packed, and one byte more.
#
# Where unzip or xxd is missing, it says so and ends with 77. Else it says what differs, then 'N passed, M failed', and ends with 0
# where nothing failed.
set -euo pipefail

top=$(dirname "$(dirname "$(readlink -f "${BASH_SOURCE[0]}")")")
gp=$top/crates/gp/out/gp
if [[ ! -x $gp ]]; then
    echo "cap: $gp is not built: ./gp builds it" >&2
    exit 1
fi
for needed in unzip xxd; do
    if ! command -v "$needed" >/dev/null; then
        echo "cap: skipped: there is no $needed"
        exit 77
    fi
done

tmp=$(mktemp -d "${TMPDIR:-/tmp}/cap.XXXXXX")
trap 'rm -rf "$tmp"' EXIT
cd "$tmp"
mkdir examples
cp "$top"/examples/applet* examples
cp "$gp" gp

passed=0
failed=0

# Counts a check: its name, what was wanted, what came.
wants() {
    if [[ $2 == "$3" ]]; then
        passed=$((passed + 1))
    else
        failed=$((failed + 1))
        echo "FAIL $1: wanted '${2:0:2000}', got '${3:0:2000}'"
    fi
}

# The second implementation: what a zip packs to, and the digest of the joined components with their number of bytes.
cat >pack.py <<'PYTHON'
import hashlib
import sys
import zipfile

ORDER = "Header Directory Import Applet Class Method StaticField Export ConstantPool RefLocation".split()


def with_length(field):
    return bytes([len(field)]) + field


def command(ins, p1, p2, data):
    print("send " + (bytes([0x80, ins, p1, p2]) + with_length(data)).hex())


def aid_at(content, at):
    return content[at + 1 : at + 1 + content[at]]


with zipfile.ZipFile(sys.argv[1]) as file:
    parts = {name.rsplit("/", 1)[1][:-4]: file.read(name) for name in file.namelist()}
joined = b"".join(parts.get(name, b"") for name in ORDER)
digest = hashlib.sha256(joined).digest()
if sys.argv[2:] == ["digest"]:
    print(f"bytes {len(joined)} sha256 {digest.hex()}")
    sys.exit()
package = aid_at(parts["Header"], 3 + 4 + 5)
applet = aid_at(parts["Applet"], 3 + 1)
command(0xE6, 0x02, 0, b"".join(map(with_length, [package, b"", digest, b"", b""])))
size = len(joined)
length = [size] if size < 0x80 else [0x81, size] if size < 0x100 else [0x82, size >> 8, size & 0xFF]
element = bytes([0xC4, *length]) + joined
blocks = [element[at : at + 239] for at in range(0, len(element), 239)]
for number, block in enumerate(blocks):
    command(0xE8, 0x80 if number == len(blocks) - 1 else 0, number, block)
command(0xE6, 0x0C, 0, b"".join(map(with_length, [package, applet, applet, b"\0", b"\xc9\0", b""])))
PYTHON

# The recipe, as docs/DESK.md has it: the line of the tour that makes applet.hex.
recipe=$(sed -n 's/^\$ \(for part in .* >applet\.hex\)$/\1/p' "$top/docs/DESK.md")
wants "the recipe is in docs/DESK.md once" 1 "$(grep -c . <<<"$recipe")"

# Makes a CAP file with so many bytes of code, packs it, and compares the script. What gp answered stands in status.
try_pack() {
    python3 examples/applet_cap.py applet.cap "$@"
    bash -c "$recipe"
    status=0
    ./gp cap <applet.hex >packed || status=$?
}

# Plays what was packed on a new card, and looks at the card.
try_load() {
    rm -f card.img
    ./gp format
    (echo "open 00 33 0001020304050607" && cat packed) | ./gp play >printed
    wants "$1: all is accepted" "000000 9000 009000" "$(sort -u printed | xargs)"
    wants "$1: the file" "$(python3 pack.py applet.cap digest)" "$(./gp show | sed -n 's/^file f00000000101 in [0-9a-f]* //p')"
    wants "$1: SELECT" "6f0f8407f0000000010101a5049f6501ff9000" "$(echo 00A4040007F0000000010101 | ./gp run)"
}

try_pack
wants "applet: the status" 0 "$status"
wants "applet: the script" "$(grep '^send' examples/applet.script)" "$(<packed)"
for code in 0 20 103 104 122 123 400 5000 32635; do
    try_pack "$code"
    wants "$code: the status" 0 "$status"
    wants "$code: the script" "$(python3 pack.py applet.cap)" "$(<packed)"
    try_load "$code"
done
wants "the longest" "bytes 32768" "$(python3 pack.py applet.cap digest | cut -d ' ' -f 1,2)"
try_pack 32636
wants "one byte more: the status" 11 "$status"
wants "one byte more: the stop" "cap large" "$(<packed)"

# A zip is no CAP file yet, and joined in the order of the zip neither is it: the Applet component comes first.
xxd -p applet.cap >zip.hex
status=0
./gp cap <zip.hex >packed || status=$?
wants "the zip itself: the status" 11 "$status"
try_pack 20
unzip -p applet.cap | xxd -p >applet.hex
status=0
./gp cap <applet.hex >packed || status=$?
wants "the order of the zip: the status" 11 "$status"
wants "the order of the zip: the stop" "cap header" "$(<packed)"

echo "$passed passed, $failed failed"
((failed == 0))
