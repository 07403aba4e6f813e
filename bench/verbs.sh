#!/usr/bin/env bash
# How fast the other verbs over lines are, beside `gp run` on the same commands. It prints numbers
# and goals, and ends 1 where a verb does not write what it should.
#
#   bench/verbs.sh          300 sessions
#   bench/verbs.sh COUNT    so many sessions, 18,000 at most
#
# `why` and `replay` get the lines of `run`: sessions of SCP03 at level 33 with GET DATA (session.sh),
# and plain commands. `replay` gets the sessions also with the wanted reply behind each command.
# `play` gets a script whose commands are those of the sessions; there both ends are computed.
# `desk` judges 200,000 receipts that fit, beside a C program over the CMAC of OpenSSL (desk.c). `cap` packs the largest CAP file, and `run`
# reads as many lines of the same length that are no commands: medians of PACKS runs each, 1,000 if unset. `cap` has two rates, by the lines
# that it reads and by those that it makes, which are more.
# `mill` plays 1,000, 2,000 and 10,000 rounds, and is timed alone.
#
# The verbs take turns, and the best of TRIES times counts, 5 if unset. The card stands in memory,
# in /dev/shm. It wants a C compiler and the headers of OpenSSL (libssl-dev).
set -euo pipefail

here=$(dirname "$(readlink -f "${BASH_SOURCE[0]}")")
gp=$here/../crates/gp/out/gp
tries=${TRIES:-5}
packs=${PACKS:-1000}
count=${1:-300}

readonly gets=100
commands=$((count * (2 + gets)))

tmp=$(mktemp -d "${TMPDIR:-/dev/shm}/gp-verbs.XXXXXX")
trap 'rm -rf "$tmp"' EXIT

fail() {
    echo "verbs: $1" >&2
    exit 1
}

source "$here/race.sh"

# Each run begins with the factory card.
renew() { cp "$tmp/new.img" "$tmp/card.img"; }
run() { renew && "$gp" run <"$1" >/dev/null; }
why() { renew && "$gp" why <"$1" >/dev/null; }
replay() { renew && "$gp" replay <"$1" >/dev/null; }
play() { renew && "$gp" play <"$1" >/dev/null; }
desk() { "$gp" desk <"$1" >/dev/null; }
openssl_desk() { "$tmp/desk" judge <"$1" >/dev/null; }
cap() { "$gp" cap <"$1" >/dev/null; }
# They are refused, so the card stays as it is.
read_lines() { "$gp" run <"$1" >/dev/null; }

# The largest CAP file: a header, and a component of 32,747 bytes. 125 lines of 261 bytes and one of 143.
make_cap() {
    awk 'BEGIN {
        text = "01000fdecaffed010204000105d2000000aa" "027feb"
        while (length(text) < 65536)
            text = text "00"
        for (at = 1; at <= length(text); at += 522)
            print substr(text, at, 522)
    }'
}

# The script that sends what the sessions send: the first host challenge is 00 to 07, and each one
# behind it is higher by one.
make_script() {
    awk -v count="$count" -v gets="$gets" 'BEGIN {
        for (session = 0; session < count; session++) {
            printf "open 00 33 00010203%08x\n", 67438087 + session
            for (get = 0; get < gets; get++)
                print get % 2 == 0 ? "send 80ca00c1" : "send 80ca00e0"
        }
    }'
}

# The replies are those of `run`, with the reasons or without.
check() {
    renew
    "$gp" run <"$tmp/sessions" >"$tmp/replies" || fail "run ended with status $?"
    [[ $(grep -c '9000$' "$tmp/replies") == "$commands" ]] || fail "a command is refused"
    renew
    "$gp" why <"$tmp/sessions" | sed 's/ -$//' | cmp - "$tmp/replies" || fail "why has other replies"
    paste -d '\n' "$tmp/sessions" <(sed 's/^/= /' "$tmp/replies") >"$tmp/log"
    renew
    [[ -z $("$gp" replay <"$tmp/log") ]] || fail "replay has a difference"
    renew
    "$gp" play <"$tmp/script" >"$tmp/printed" || fail "play ended with status $?"
    [[ $(grep -c '9000$' "$tmp/printed") == $((count * (1 + gets))) ]] || fail "a line of the script is refused"
}

# The launcher builds what is missing. With no words the program only says its usage,
# and ends with 1.
"$here/../gp" >/dev/null || (($? == 1))
cc -std=c99 -D_DEFAULT_SOURCE -O2 -o "$tmp/session" "$here/session.c" -lcrypto
cd "$tmp"
"$gp" format
mv card.img new.img
"$tmp/session" lines 16 "$count" "$gets" >"$tmp/sessions"
for ((i = 0; i < 500000; i++)); do
    printf '00A4040005A000000151\n00700000\n80CA00E000\n00708001\n'
done >"$tmp/plain"
make_script >"$tmp/script"
cc -std=c99 -D_DEFAULT_SOURCE -O2 -o "$tmp/desk" "$here/desk.c" -lcrypto
"$tmp/desk" lines 200000 >"$tmp/receipts"
make_cap >"$tmp/cap_file"
sed 's/./f/g' "$tmp/cap_file" >"$tmp/no_commands"
check
cmp <("$gp" desk <"$tmp/receipts") <("$tmp/desk" judge <"$tmp/receipts") || fail "desk has other verdicts"
"$gp" cap <"$tmp/cap_file" >"$tmp/packed" || fail "cap ended with status $?"

echo "$commands commands in sessions, and 2,000,000 in plain, best of $tries"
race "run sessions" "why sessions" "replay sessions" "replay log" "play script" "run plain" "why plain" "replay plain"
for input in sessions plain; do
    of_run=${best["run $input"]}
    echo "$input"
    say run "%s s" "$(seconds "$of_run")"
    for verb in why replay; do
        say "$verb" "%s s  %s of the commands a second of run (goal: at least 0.9)" "$(seconds "${best["$verb $input"]}")" "$(over "$of_run" "${best["$verb $input"]}")"
    done
done
echo "each reply wanted"
say replay "%s s  %s of run's" "$(seconds "${best["replay log"]}")" "$(over "${best["run sessions"]}" "${best["replay log"]}")"
echo "the same commands by a script"
say play "%s s  %s of run's (goal: at least 0.6)" "$(seconds "${best["play script"]}")" "$(over "${best["run sessions"]}" "${best["play script"]}")"

race "desk receipts" "openssl_desk receipts"
echo "200,000 receipts judged"
say desk "%s s  %s of the receipts a second of the C program (goal: at least 0.8)" "$(seconds "${best["desk receipts"]}")" "$(over "${best["openssl_desk receipts"]}" "${best["desk receipts"]}")"
renew
race_short "$packs" "cap cap_file" "read_lines no_commands"
echo "a CAP file of 32,768 bytes packed, median of $packs"
of_cap=${median["cap cap_file"]}
of_run=${median["read_lines no_commands"]}
taken=$(wc -l <"$tmp/cap_file")
made=$(wc -l <"$tmp/packed")
say cap "%s microseconds, run %s" "$of_cap" "$of_run"
say made "%s lines  %s of the lines a second that run reads (goal: at least 1.0)" "$made" "$(over $((made * of_run)) $((taken * of_cap)))"
say read "%s lines  %s" "$taken" "$(over "$of_run" "$of_cap")"

if "$gp" mill 1 1 >/dev/null; then
    mill() { "$gp" mill 7 "${1##*-}" >/dev/null; }
    race "mill rounds-1000" "mill rounds-2000" "mill rounds-10000"
    echo "mill"
    for rounds in 1000 2000 10000; do
        say "$rounds" "%s s  %s microseconds a round" "$(seconds "${best["mill rounds-$rounds"]}")" "$(over "${best["mill rounds-$rounds"]}" "$rounds")"
    done
fi
