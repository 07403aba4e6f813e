#!/usr/bin/env bash
# Plays the scripts of examples/ by `gp play`, each on a card that `gp format` has just made, and compares what is printed, to
# the byte. It is no part of `rt ci`.
#
#   tests/examples.sh
#
# Receipts, check values and the token of a script are compared with those of OpenSSL (tests/receipt.py). cut.script is ended by
# tests/power_cut.py at the write that it names, and then at each write in turn, and recovery.script is played after it. That is
# skipped where ptrace is refused.
#
# The commands of commands.lines are given to `gp why`, part by part, each on a new card.
#
# The lines of auditor.desk and issuer.desk are given to `gp desk`. tools/receipts has to make the receipts of auditor.desk out of the
# provider's day, on the factory card and on one that has been in use.
#
# It says what differs, then 'N passed, M failed', and ends with 0 where nothing failed.
set -euo pipefail

top=$(dirname "$(dirname "$(readlink -f "${BASH_SOURCE[0]}")")")
gp=$top/crates/gp/out/gp
examples=$top/examples
readonly cut_at=24 writes=38 skipped=77

if [[ ! -x $gp ]]; then
    echo "examples: $gp is not built: ./gp builds it" >&2
    exit 1
fi

tmp=$(mktemp -d "${TMPDIR:-/tmp}/examples.XXXXXX")
trap 'rm -rf "$tmp"' EXIT
cd "$tmp"

passed=0
failed=0

# Counts a check: its name, what was wanted, what came.
wants() {
    if [[ $2 == "$3" ]]; then
        passed=$((passed + 1))
    else
        failed=$((failed + 1))
        echo "FAIL $1: wanted '$2', got '$3'"
    fi
}

# Counts the comparison of what was printed with the text of an example.
wants_text() {
    local difference
    difference=$(diff "$examples/$1.text" printed) || true
    wants "$1: the text" "" "$difference"
}

# Makes a card.
make_card() {
    rm -f card.img
    "$gp" format
}

# Plays an example on the card that is there.
play() {
    local status=0
    "$gp" play <"$examples/$1.script" >printed 2>errors || status=$?
    wants "$1: the status" 0 "$status"
    wants "$1: standard error" "" "$(<errors)"
    wants_text "$1"
}

# Compares receipts, check values and tokens with those of OpenSSL.
compare_macs() {
    local status=0
    python3 "$top/tests/receipt.py" "$examples/$1.script" "$examples/$1.text" >computed || status=$?
    wants "$1: receipts ($(tail -n 1 computed))" 0 "$status"
    sed '$d' computed
}

for example in issuer provider auditor; do
    make_card
    play "$example"
    compare_macs "$example"
done

make_card
play applet

# Each part of commands.lines.
csplit --quiet --elide-empty-files --prefix part. "$examples/commands.lines" '/^# ----/' '{*}'
for part in part.*; do
    make_card
    "$gp" why <"$part"
done >printed
wants_text commands

# Gives lines to the desk, and compares what it writes: the example, its lines, the wanted text, the wanted status.
ask_desk() {
    local status=0
    "$gp" desk <"$2" >written || status=$?
    wants "$1: the status of desk" "$4" "$status"
    wants "$1: what desk writes" "" "$(diff "$3" written)"
}

ask_desk auditor "$examples/auditor.desk" "$examples/auditor.verdicts" 10
ask_desk issuer "$examples/issuer.desk" "$examples/issuer.tokens" 0

# The receipts of the provider's day: its eight lines, which fit. The day is then played in two parts, and the second one audited
# from what `gp show` wrote between them.
key=$(grep '^key' "$examples/auditor.desk")
"$top/tools/receipts" "$examples/provider.script" "$examples/provider.text" >day
wants "provider: the receipts" "$(grep '^receipt' "$examples/auditor.desk" | head -n 8)" "$(<day)"
head -n 20 "$examples/provider.text" >half
status=0
"$top/tools/receipts" "$examples/provider.script" half >half.day 2>errors || status=$?
wants "receipts: the status for a text that is cut" 1 "$status"
(echo "$key" && cat day) >lines
seq -f 'ok %04g' 8 >fitting
ask_desk provider lines fitting 0

cut=$(grep -n '^extradite' "$examples/provider.script" | tail -n 1 | cut -d : -f 1)
opening=$(grep -E '^(keys|tokenkey) ' "$examples/provider.script" | sort -u)
head -n "$((cut - 1))" "$examples/provider.script" >morning
(echo select d100000001 && echo "$opening" && echo open 01 33 0001020304050607 && tail -n "+$cut" "$examples/provider.script") >evening
make_card
for part in morning evening; do
    "$gp" show >shown
    status=0
    "$gp" play <"$part" >printed || status=$?
    wants "provider: the status of the $part" 0 "$status"
done
"$top/tools/receipts" --before shown evening printed >day
wants "provider: the receipts of the evening" "$(grep '^receipt' "$examples/auditor.desk" | sed -n 5,8p)" "$(<day)"
(echo "$key" && echo from 0004 && cat day) >lines
seq -f 'ok %04g' 5 8 >fitting
ask_desk provider lines fitting 0

# Who may do what on the auditor's card.
make_card
play auditor
status=0
"$gp" access >printed || status=$?
wants "auditor: the status of access" 0 "$status"
wants "auditor: who may do what" "" "$(diff "$examples/auditor.access" printed)"

# Power goes within cut.script, and recovery.script goes on.
make_card
status=0
python3 "$top/tests/power_cut.py" "$cut_at" "$gp" play <"$examples/cut.script" >printed || status=$?
if [[ $status == "$skipped" ]]; then
    echo "examples: cut and recovery are skipped"
else
    wants "cut: the status" 0 "$status"
    wants_text cut
    play recovery

    # At each write in turn, to the end.
    status=0
    python3 "$top/tests/power_cut.py" --each "$gp" "$examples/"{cut,recovery}.script >each || status=$?
    wants "cut at each write" 0 "$status"
    wants "cut at each write: how many" "$((writes + 1)) passed, 0 failed: $writes writes" "$(tail -n 1 each)"
    sed '$d' each
fi

echo "$passed passed, $failed failed"
((failed == 0))
