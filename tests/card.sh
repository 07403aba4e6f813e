#!/usr/bin/env bash
# Tries `gp_host` and tools/card, by which a script is played on a card in a reader. It is no part of `rt ci`.
#
#   tests/card.sh              the built program gp_host
#   tests/card.sh WORD...      the host that these words call, as `python3 -m model.stream_host`, that of tests/model
#   GP=WORDS tests/card.sh     another gp, whose card stands in the reader
#
# First without a reader: gp_host over pipes with `gp run` at their other end, with replies of each form, with streams that are closed
# or full; and tools/card over a stand-in for pyscard (tests/pcsc), with the failures of readers, and a card that speaks T=0. Then over
# pcscd, its virtual reader and tools/reader (in Debian pcscd, vsmartcard-vpcd and python3-pyscard). The days of examples/ and a load of
# the longest file at level 33 are played both ways: text and registry have to be those of `gp play`, and `gp replay` finds no difference
# in the log. Cards are taken out in the middle, and cards answer random bytes: the text is compared with that of tests/model. Where one
# of these is not there, or pcscd runs already, or may not be started, the second part is skipped, and it is said why.
#
# It says what differs, then 'N passed, M failed' for each part, and ends with 0 where nothing failed.
set -euo pipefail

top=$(dirname "$(dirname "$(readlink -f "${BASH_SOURCE[0]}")")")
if (($# == 0)); then
    set -- "$top/crates/gp_host/out/gp_host"
fi
gp=${GP:-$top/crates/gp/out/gp}
for program in "$1" "${gp%% *}"; do
    if ! command -v "$program" >/dev/null; then
        echo "card: $program is not there: ./gp builds gp, and (cd crates/gp_host && rt run </dev/null) the host" >&2
        exit 1
    fi
done

# Debian's Python has the modules of Debian.
export PATH=/usr/bin:$PATH PYTHONPATH=$top/tests

python3 "$top/tests/card.py" --gp "$gp" "$@"

skip() {
    echo "the part with pcscd is skipped: $1"
    exit 0
}

command -v pcscd >/dev/null || skip "pcscd is not installed"
python3 -c 'import smartcard' 2>/dev/null || skip "python3-pyscard is not installed"
driver=$(sed -n 's/^LIBPATH *//p' /etc/reader.conf.d/vpcd 2>/dev/null) || skip "vsmartcard-vpcd is not installed"
[[ -e $driver ]] || skip "$driver is not there"
if pgrep -x pcscd >/dev/null; then skip "pcscd runs already"; fi

tmp=$(mktemp -d "${TMPDIR:-/tmp}/card.XXXXXX")
pcscd=
ends() {
    if [[ -n $pcscd ]]; then
        kill "$pcscd" 2>/dev/null || true
        wait "$pcscd" 2>/dev/null || true
    fi
    rm -rf "$tmp"
}
trap ends EXIT
mkdir "$tmp/readers"

# The virtual reader has two slots, on two ports one after the other.
port=$(python3 -c '
import socket
while True:
    with socket.create_server(("", 0)) as one:
        try:
            with socket.create_server(("", one.getsockname()[1] + 1)):
                print(one.getsockname()[1])
                break
        except (OSError, OverflowError):
            pass
')
cat >"$tmp/readers/vpcd" <<END
FRIENDLYNAME "Turacoeasel"
DEVICENAME   /dev/null:$(printf '0x%04X' "$port")
LIBPATH      $driver
CHANNELID    $(printf '0x%04X' "$port")
END
pcscd -f -c "$tmp/readers" >"$tmp/pcscd.log" 2>&1 &
pcscd=$!
has_reader() { [[ $("$top/tools/card" --list 2>/dev/null) == *Turacoeasel* ]]; }
for _ in {1..100}; do
    if has_reader; then break; fi
    sleep 0.1
done
has_reader || skip "pcscd doesn't start: $(tail -n 1 "$tmp/pcscd.log")"

python3 "$top/tests/card.py" --pcscd "$port" --gp "$gp" "$@"
