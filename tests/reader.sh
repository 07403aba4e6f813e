#!/usr/bin/env bash
# Tries tools/reader, which shows the card of `gp run` to PC/SC clients. It is no part of `rt ci`.
#
#   tests/reader.sh              the built program
#   tests/reader.sh WORD...      the one that these words call
#
# First against a stand-in for pcscd's virtual reader (tests/vpcd.py), which wants Python alone. Then against pcscd itself, with
# opensc-tool and scriptor as clients (in Debian pcscd, vsmartcard-vpcd, opensc and pcsc-tools): what they print of each reply is
# compared with what the program answers by itself. Where one of these is not there, or pcscd runs already, or may not be
# started, this part is skipped, and it is said why.
#
# It says what differs, then 'N passed, M failed' for each part, and ends with 0 where nothing failed.
set -euo pipefail

top=$(dirname "$(dirname "$(readlink -f "${BASH_SOURCE[0]}")")")
if (($# == 0)); then
    set -- "$top/crates/gp/out/gp"
fi
program=("$@")
if ! command -v "${program[0]}" >/dev/null; then
    echo "reader: ${program[0]} is not there: ./gp builds the program" >&2
    exit 1
fi

python3 "$top/tests/vpcd.py" "${program[@]}"

skip() {
    echo "the part with pcscd is skipped: $1"
    exit 0
}

for tool in pcscd opensc-tool scriptor; do
    command -v "$tool" >/dev/null || skip "$tool is not installed"
done
driver=$(sed -n 's/^LIBPATH *//p' /etc/reader.conf.d/vpcd 2>/dev/null) || skip "vsmartcard-vpcd is not installed"
[[ -e $driver ]] || skip "$driver is not there"
if pgrep -x pcscd >/dev/null; then skip "pcscd runs already"; fi

tmp=$(mktemp -d "${TMPDIR:-/tmp}/reader.XXXXXX")
pcscd=
bridge=
ends() {
    for process in $bridge $pcscd; do
        kill "$process" 2>/dev/null || true
        wait "$process" 2>/dev/null || true
    done
    rm -rf "$tmp"
}
trap ends EXIT
mkdir "$tmp/readers" "$tmp/card" "$tmp/twin"

passed=0
failed=0

# Counts a check: its name, what was wanted, what came.
wants() {
    if [[ $2 == "$3" ]]; then
        passed=$((passed + 1))
    else
        failed=$((failed + 1))
        echo "FAIL $1: wanted '$2', got '$3'"
    fi
}

# Waits until a command succeeds, up to ten seconds.
comes() {
    for _ in {1..100}; do
        if "$@" >/dev/null 2>&1; then return 0; fi
        sleep 0.1
    done
    return 1
}

# A card in each of two folders: one for the reader, one for the program alone.
for folder in card twin; do (cd "$tmp/$folder" && "${program[@]}" format); done

# The virtual reader has two slots, on two ports one behind the other.
port=$(python3 -c '
import socket
while True:
    with socket.create_server(("", 0)) as one:
        try:
            with socket.create_server(("", one.getsockname()[1] + 1)):
                print(one.getsockname()[1])
                break
        except (OSError, OverflowError):
            pass
')
cat >"$tmp/readers/vpcd" <<END
FRIENDLYNAME "Turacoeasel"
DEVICENAME   /dev/null:$(printf '0x%04X' "$port")
LIBPATH      $driver
CHANNELID    $(printf '0x%04X' "$port")
END
pcscd -f -c "$tmp/readers" >"$tmp/pcscd.log" 2>&1 &
pcscd=$!
has_reader() { opensc-tool -l | grep -q Turacoeasel; }
comes has_reader || skip "pcscd doesn't start: $(tail -n 1 "$tmp/pcscd.log")"

(cd "$tmp/card" && exec "$top/tools/reader" --port "$port" "${program[@]}" run) 2>"$tmp/reader.log" &
bridge=$!
has_card() { opensc-tool -l | grep -q '^0 *Yes .*Turacoeasel'; }
comes has_card || true
wants "a card is in the reader" "reader: the card is in the reader on localhost:$port" "$(<"$tmp/reader.log")"
wants "its ATR" 3b:84:01:80:62:67:70:70 "$(opensc-tool -a 2>/dev/null)"

# What a client prints of replies, each in a line of digits. opensc-tool prints a line for 16 bytes, in digits and then as
# text, which stands in one column from the second line on.
from_opensc() {
    awk '
        function put() { if (words != "") print body words; body = words = "" }
        /^Sending:/ { put() }
        /^Received/ { words = substr($0, 17, 2) substr($0, 27, 2); lines = 0; next }
        words != "" { body = body substr($0, 1, 3 * (lines++ ? length($0) - 48 : length($0) / 4)) }
        END { put() }
    ' "$1" | tr -d ' ' | tr A-F a-f
}
from_scriptor() {
    awk '
        function put() { if (reply != "") print reply; reply = "" }
        /^> / { put() }
        /^< / { reply = substr($0, 3); open = 1; next }
        /^[0-9A-F][0-9A-F] / && open { reply = reply $0; next }
        { open = 0 }
        END { put() }
    ' "$1" | sed 's/ : .*//; s/^OK:.*/reset/; s/ //g' | grep -v '^reset' | tr A-F a-f
}

# Each line is given by opensc-tool in a call of its own, at whose end the card is reset, and to the program alone in one run.
lines=(00A4040008A000000151000000 80CA00E000 80500000080001020304050607 80CA00C100 01A40400 00A4040005D200000001 10A40400)
for line in "${lines[@]}"; do
    timeout 20 opensc-tool -c default -s "$line" >"$tmp/opensc" 2>/dev/null || true
    from_opensc "$tmp/opensc"
done >"$tmp/got"
for line in "${lines[@]}"; do printf '%s\nreset\n' "$line"; done >"$tmp/lines"
(cd "$tmp/twin" && "${program[@]}" run <"$tmp/lines") >"$tmp/wanted"
wants "opensc-tool, line by line" "$(<"$tmp/wanted")" "$(<"$tmp/got")"

# In one call of opensc-tool: a channel that is opened stays until the end of it.
words=()
for line in "${lines[@]}" 00700000 01A40400; do
    words+=(-s "$line")
    echo "$line"
done >"$tmp/lines"
timeout 20 opensc-tool -c default "${words[@]}" >"$tmp/opensc" 2>/dev/null || true
(cd "$tmp/twin" && "${program[@]}" run <"$tmp/lines") >"$tmp/wanted"
wants "opensc-tool, in one call" "$(<"$tmp/wanted")" "$(from_opensc "$tmp/opensc")"

# scriptor: the sessions of ./demo on a fresh card, with secure messaging, and a reset within.
kill "$bridge"
wait "$bridge" || true
has_none() { opensc-tool -l | grep -q '^0 *No .*Turacoeasel'; }
comes has_none || true
for folder in card twin; do (cd "$tmp/$folder" && "${program[@]}" format); done
(cd "$tmp/card" && exec "$top/tools/reader" --port "$port" "${program[@]}" run) 2>"$tmp/reader.log" &
bridge=$!
comes has_card || true
sed -n 's/^step \([0-9A-F]*\) .*/\1/p' "$top/demo" >"$tmp/lines"
{
    echo reset
    cat "$tmp/lines"
    printf 'reset\n01A40400\n80CA00C100\n'
} >"$tmp/script"
timeout 60 scriptor <"$tmp/script" >"$tmp/scriptor" 2>&1 || true
(cd "$tmp/twin" && "${program[@]}" run <"$tmp/script") >"$tmp/wanted"
wants "scriptor" "$(<"$tmp/wanted")" "$(from_scriptor "$tmp/scriptor")"

# The card goes, and then the reader.
kill "$bridge"
wait "$bridge" && status=0 || status=$?
bridge=
wants "tools/reader ends" 0 "$status"
comes has_none && status=0 || status=$?
wants "the card is out of the reader" 0 "$status"
wants "the registry" "$(cd "$tmp/twin" && "${program[@]}" show)" "$(cd "$tmp/card" && "${program[@]}" show)"

(cd "$tmp/card" && exec "$top/tools/reader" --port "$port" "${program[@]}" run) 2>"$tmp/reader.log" &
bridge=$!
comes has_card || true
kill "$pcscd"
wait "$pcscd" || true
pcscd=
wait "$bridge" && status=0 || status=$?
bridge=
wants "pcscd ends" "0 reader: the reader went away" "$status $(tail -n 1 "$tmp/reader.log")"

echo "$passed passed, $failed failed"
((failed == 0))
