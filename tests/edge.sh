#!/usr/bin/env bash
# Tries the built program where its surroundings are at fault: standard streams that are closed, two programs on one
# card, a program that is killed, a file limit. It is no part of `rt ci`.
#
#   tests/edge.sh             two programs at once 200 times, of each pair of words
#   TURNS=10 tests/edge.sh    so many times
#
# It says what differs, then 'N passed, M failed', and ends with 0 where nothing failed.
set -euo pipefail

top=$(dirname "$(dirname "$(readlink -f "${BASH_SOURCE[0]}")")")
gp=$top/crates/gp/out/gp
turns=${TURNS:-200}

if [[ ! -x $gp ]]; then
    echo "edge: $gp is not built: ./gp builds it" >&2
    exit 1
fi

tmp=$(mktemp -d "${TMPDIR:-/tmp}/edge.XXXXXX")
holder=
trap '[[ -z $holder ]] || kill -9 "$holder" 2>/dev/null || true; rm -rf "$tmp"' EXIT
cd "$tmp"

passed=0
failed=0

# Counts a check: its name, what was wanted, what came.
wants() {
    if [[ $2 == "$3" ]]; then
        passed=$((passed + 1))
    else
        failed=$((failed + 1))
        echo "FAIL $1: wanted '$2', got '$3'"
    fi
}

wants_file() { wants "$1" "$(sha256sum <"$2")" "$(sha256sum <"$3")"; }

# Puts bytes, given in hexadecimal digits, at a place of the card.
put() { printf '%b' "$(sed 's/../\\x&/g' <<<"$2")" | dd of=card.img bs=1 seek=$((16#$1)) conv=notrunc status=none; }

# The factory card with one Executable Load File more, in the first 128 load pages.
make_card() {
    truncate -s 155648 card.img
    put 0000 475043440301
    put 0100 0108a000000151
    put 0114 08a000000151535041
    put 0125 0f9efe80
    put 0900 0107a0000001515350
    put 0a00 0105f5f5f5f5f5
    put 0a13 80
    put 0a40 "$(printf '%02x' {0..127})"
    put 1900 0100300110404142434445464748494a4b4c4d4e4f
    put 1940 0100300210404142434445464748494a4b4c4d4e4f
    put 1980 0100300310404142434445464748494a4b4c4d4e4f
    head -c 32768 /dev/zero | tr '\0' Z | dd of=card.img bs=256 seek=96 conv=notrunc status=none
}

# The sequence counter of the card, as a number.
counter() { printf '%d' "0x$("$gp" show | awk '$1 == "counter" { print $4 }')"; }

# The status of the program with this word. The files `out` and `err` get what it writes.
status=0
call() {
    status=0
    "$gp" "$1" <"$2" >out 2>err || status=$?
}

# The same with some of the descriptors 0, 1 and 2 closed. `out` and `err` are empty where theirs is.
call_without() {
    status=0
    (
        exec <"$3" >out 2>err
        if [[ $1 == *0* ]]; then exec <&-; fi
        if [[ $1 == *1* ]]; then exec >&-; fi
        if [[ $1 == *2* ]]; then exec 2>&-; fi
        exec "$gp" "$2"
    ) || status=$?
}

readonly select_line=00A4040008A000000151000000
readonly update_line=80500000080001020304050607
for _ in 1 2 3; do echo "$select_line"; done >selects
for _ in {1..20}; do echo "$update_line"; done >updates
: >nothing

make_card
cp card.img whole
call show nothing
wants "the card is one" 0 "$status"
wants "it has a load file" 1 "$(grep -c ' bytes 32768 ' out)"

# What each word does where nothing is closed: the text, and the card that it leaves.
cp out show.text
cp whole show.card
call format nothing
cp out format.text
cp card.img format.card
for input in selects updates; do
    cp whole card.img
    call run "$input"
    cp out "$input.text"
    cp card.img "$input.card"
done
wants_file "SELECT changes nothing" whole selects.card
wants "each INITIALIZE UPDATE counts" 20 "$(counter)"

# A call with these descriptors closed: the wanted status, and the files with the text and the card that are wanted.
tries_closed() {
    local name="$2 without '$1'"
    cp whole card.img
    call_without "$1" "$2" "$3"
    wants "$name: status" "$4" "$status"
    wants_file "$name: text" "$5" out
    wants_file "$name: standard error" nothing err
    wants_file "$name: card" "$6" card.img
}

# With no standard output the first reply is refused, and the command was done.
cp whole card.img
head -n 1 updates >update
call run update
cp card.img update.card

for closed in '' 0 1 2 01 02 12 012; do
    tries_closed "$closed" format nothing 0 format.text format.card
    case $closed in
    *0*)
        tries_closed "$closed" run selects 5 nothing whole
        tries_closed "$closed" run updates 5 nothing whole
        ;;
    *1*)
        tries_closed "$closed" run selects 6 nothing whole
        tries_closed "$closed" run updates 6 nothing update.card
        ;;
    *)
        tries_closed "$closed" run selects 0 selects.text selects.card
        tries_closed "$closed" run updates 0 updates.text updates.card
        ;;
    esac
    case $closed in
    *1*) tries_closed "$closed" show nothing 6 nothing whole ;;
    *) tries_closed "$closed" show nothing 0 show.text show.card ;;
    esac
done

# Starts a run that holds the card: one reply of it has come, and it waits for another line.
mkfifo lines replies
hold() {
    "$gp" run <lines >replies &
    holder=$!
    exec 3>lines 4<replies
    echo "$select_line" >&3
    read -r _ <&4
}

# Ends it by kill -9.
kill_holder() {
    kill -9 "$holder"
    wait "$holder" 2>/dev/null || true
    holder=
    exec 3>&- 4<&-
}

# A call is refused, in the folder given: it reads nothing, writes nothing, and the card stays.
tries_refused() {
    status=0
    (cd "$1" && { "$gp" "$2" || exit $?; } <"$tmp/updates" >"$tmp/out" 2>"$tmp/err") || status=$?
    wants "$2 of a held card in $1: status" 3 "$status"
    wants_file "$2 of a held card in $1: text" nothing out
    wants_file "$2 of a held card in $1: standard error" nothing err
    wants_file "$2 of a held card in $1: card" whole card.img
}

cp whole card.img
mkdir linked named
ln card.img linked/card.img
ln -s ../card.img named/card.img
hold
for folder in . linked named; do
    for word in format run show; do
        tries_refused "$folder" "$word"
    done
done
wants "a refused run leaves its input" 20 "$({ "$gp" run >out || true; cat; } <updates | wc -l)"
kill_holder
call show nothing
wants "a killed run holds no card: status" 0 "$status"
wants_file "a killed run holds no card: text" show.text out
call run updates
wants "a killed run holds no card: run" 0 "$status"
rm -r linked named

# Two programs at once, on the card in the file given, or on none: `one` and `other` are the two statuses, `answered` is
# how many commands both have answered. A status is 0, or 3 for one of the two, and that one has written nothing.
refusals=0
at_once() {
    local name="$1 with $2"
    if [[ -n $3 ]]; then cp "$3" card.img; else rm -f card.img; fi
    one=0
    other=0
    "$gp" "$1" <updates >one.text &
    local first=$!
    "$gp" "$2" <updates >other.text || other=$?
    wait "$first" || one=$?
    case $one$other in
    00) ;;
    03) wants "$name: the refused text" "" "$(<other.text)" ;;
    30) wants "$name: the refused text" "" "$(<one.text)" ;;
    *) wants "$name: statuses" "00, 03 or 30" "$one$other" ;;
    esac
    if [[ $one$other != 00 ]]; then refusals=$((refusals + 1)); fi
    answered=$(cat one.text other.text | grep -c '9000$' || true)
}

# The card before: its counter stands at 5, so that a formatted one shows.
cp whole card.img
head -n 5 updates | "$gp" run >nothing.more
cp card.img five

for ((turn = 0; turn < turns; turn++)); do
    at_once run run five
    wants "run with run: each answered command counts" $((5 + answered)) "$(counter)"
done

# `show` shows the card before the run or behind it.
for ((turn = 0; turn < turns; turn++)); do
    at_once run show five
    wants "run with show: each answered command counts" $((5 + answered)) "$(counter)"
    case $one$other$(awk '$1 == "counter" { print $4 }' other.text) in
    00000005 | 00000019 | 30000005 | 03) passed=$((passed + 1)) ;;
    *) wants "run with show: the text" "before or behind" "$one$other $(<other.text)" ;;
    esac
done

# The run is before `format`, or behind it, or one of the two was refused.
for ((turn = 0; turn < turns; turn++)); do
    at_once run format five
    case $one$other:$(counter) in
    00:0 | 00:20 | 03:25 | 30:0) passed=$((passed + 1)) ;;
    *) wants "run with format: statuses and counter" "00:0, 00:20, 03:25 or 30:0" "$one$other:$(counter)" ;;
    esac
done

# Where there is no file one of the two makes it.
for ((turn = 0; turn < turns; turn++)); do
    at_once format format ''
    call run selects
    wants "format with format: a card" 0 "$status"
done
echo "of $((4 * turns)) pairs $refusals had one program refused"

# A file limit below the pages of the journal: with a signal ignored or none, and the wanted status.
tries_limit() {
    cp whole card.img
    status=0
    {
        (
            ulimit -c 0
            ulimit -f 11
            if [[ -n $1 ]]; then trap '' "$1"; fi
            exec "$gp" run <update >out
        ) || status=$?
    } 2>/dev/null
    wants "a file limit with '$1' ignored: status" "$2" "$status"
    wants_file "a file limit with '$1' ignored: text" nothing out
    call show nothing
    wants_file "a file limit with '$1' ignored: the registry" show.text out
}

tries_limit '' $((128 + $(kill -l XFSZ)))
tries_limit XFSZ 3

echo "$passed passed, $failed failed"
((failed == 0))
