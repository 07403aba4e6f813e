#!/usr/bin/env bash
# Times examples/personalise: cards a second, with 1, 2 and 4 at once, in memory (/dev/shm) and on a disk (TMPDIR says which), and where the
# time of a card goes. It prints numbers, and judges nothing.
#
#   bench/personalise.sh [COUNT]     cards of each row, 400 if unset
#
# It wants openssl.
set -euo pipefail

here=$(cd "$(dirname "$0")/.." && pwd)
count=${1:-400}
disk=$(mktemp -d "${TMPDIR:-/var/tmp}/personalise.XXXXXX")
memory=$(mktemp -d /dev/shm/personalise.XXXXXX)
trap 'rm -rf "$disk" "$memory"' EXIT

# The launcher builds what is missing. With no words the program only says its usage, and ends with 1.
gp=${GP:-$here/crates/gp/out/gp}
if [[ -z ${GP-} ]]; then
    "$here/gp" >/dev/null || (($? == 1))
fi
export GP=$gp

# Seconds that a command takes by the clock, and those of processors; what it writes is kept apart.
TIMEFORMAT='%R %U %S'
times() {
    { time "$@" >"$memory/written"; } 2>"$memory/times"
    read -r clock user system <<<"$(tail -n 1 "$memory/times")"
}

# A row: its name, and numbers by these seconds.
row() {
    awk -v name="$1" -v count="$count" -v clock="$clock" -v processor="$(awk "BEGIN { print $user + $system }")" 'BEGIN {
        printf "%-28s %7.1f cards a second, %6.1f a second of processors; %6.2f milliseconds a card, %6.2f of processors\n",
            name, count / clock, count / processor, clock * 1000 / count, processor * 1000 / count
    }'
}

for place in memory disk; do
    for jobs in 1 2 4; do
        export JOBS=$jobs
        times "$here/examples/personalise" "${!place}/$jobs" 1 "$count"
        [[ $(grep -c ' made$' "$memory/written") == "$count" ]] || echo "personalise: some cards failed" >&2
        row "$place, $jobs at once"
    done
    times "$here/examples/personalise" "${!place}/4" 1 "$count"
    row "$place, 4 at once, all there"
done

# One card after the other in memory, part by part, as the script has them.
each() {
    local number
    for ((number = 0; number < count; number++)); do "$@" >/dev/null; done
}
derive() {
    openssl kdf -keylen 64 -kdfopt mac:CMAC -kdfopt cipher:AES-128-CBC -kdfopt hexkey:000102030405060708090a0b0c0d0e0f -kdfopt hexsalt:6b657973 \
        -kdfopt hexinfo:0000000001 KBKDF
}
part() {
    times "${@:2}"
    row "$1"
}
number=0000000001
script=$(sed "s/@NUMBER@/$number/g; s/@CHALLENGE@/0001020304050607/g; s/@[A-Z]*@/000102030405060708090a0b0c0d0e0f/g" "$here/examples/personalise.template")
play() { "$gp" format && "$gp" play <<<"$script"; }
for place in memory disk; do
    mkdir "${!place}/one"
    cd "${!place}/one"
    part "$place: gp format" each "$gp" format
    part "$place: format and play" each play
    part "$place: gp show" each "$gp" show
done
part "four keys by openssl" each derive
part "a process, true" each /bin/true
