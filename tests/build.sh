#!/usr/bin/env bash
# Tries how ./gp and ./demo build: the look before anything is proved, what a build says, builds that are
# cut off, two at once, and tools that are missing. It is no part of `rt ci`.
#
#   tests/build.sh          with an rt that proves nothing and writes down what it is asked for, in a minute or two
#   tests/build.sh real     besides, ./demo look by the real rt, with no C compiler on the path
#
# Each command runs in a copy of the repository and finds only the commands that this script gives it.
# It says what differs, then 'N passed, M failed', and ends with 0 where nothing failed.
set -euo pipefail

top=$(dirname "$(dirname "$(readlink -f "${BASH_SOURCE[0]}")")")
tmp=$(mktemp -d "${TMPDIR:-/tmp}/build.XXXXXX")
trap 'rm -rf "$tmp"' EXIT
copy=$tmp/copy
mkdir "$copy" "$tmp/bin" "$tmp/logs"
git -C "$top" ls-files -z | (cd "$top" && xargs -0 cp --parents -t "$copy")
mkdir "$copy/.git"
cd "$copy"

passed=0
failed=0

# Counts a check: its name, what was wanted, what came.
wants() {
    if [[ $2 == "$3" ]]; then
        passed=$((passed + 1))
    else
        failed=$((failed + 1))
        echo "FAIL $1: wanted '$2', got '$3'"
    fi
}

# Counts a check: its name, a regular expression that some line of the file matches.
wants_line() {
    if grep -qE -- "$2" "$3"; then
        passed=$((passed + 1))
    else
        failed=$((failed + 1))
        echo "FAIL $1: no line like '$2' in:"
        sed 's/^/    /' "$3"
    fi
}

# The commands that the scripts use, and no others.
for it in awk basename bash cat chmod cp cut date diff dirname env find flock grep head ln ls mkdir mktemp mv nice nproc \
    readlink rm rmdir sed setsid sh sleep sort stat stty tail tee touch tr wc; do
    ln -s "$(command -v "$it")" "$tmp/bin/$it"
done

# An rt that proves nothing. It writes a line as it begins and one as it ends, refuses to build where a
# library below is not built, and makes what the scripts look for.
cat >"$tmp/bin/rt" <<'END'
#!/usr/bin/env bash
set -eu
crate=$(basename "$PWD")

# The libraries below the crate, by the crates.txt above it.
below() {
    local it
    for it in $(sed -n "s/^$1://p" ../../crates.txt); do
        if [[ -d ../$it ]]; then
            echo "$it"
            below "$it"
        fi
    done
}

case $1 in
version)
    echo "$SAYS_VERSION"
    exit
    ;;
try)
    echo "try $*" >>"$JOURNAL"
    cat >"$TRIED"
    cat "$PRINTS"
    exit "$TRY_STATUS"
    ;;
esac
for it in $(below "$crate"); do
    [[ -e ../$it/out/rlib/stamp ]] || { echo "$it is not built" | tee -a "$JOURNAL"; exit 1; }
done
echo "begin $crate" >>"$JOURNAL"
trap 'echo "cut $crate" >>"$JOURNAL"; exit 143' TERM
sleep "$TAKES" &
wait $!
if [[ $crate == "$FAILS" ]]; then
    echo "$SAYS"
    exit 1
fi
mkdir -p out/rlib
if [[ $1 == run ]]; then
    printf '#!/bin/sh\necho "the program: $*"\n' >out/gp
    chmod +x out/gp
else
    echo "$crate" >out/rlib/stamp
fi
echo "end $crate" >>"$JOURNAL"
END
chmod +x "$tmp/bin/rt"

export JOURNAL=$tmp/journal TRIED=$tmp/tried PRINTS=$tmp/prints TMPDIR=$tmp/logs
export TAKES=0.1 FAILS='' SAYS='' TRY_STATUS=0 SAYS_VERSION
SAYS_VERSION=$(grep -m 1 '^rattle-kit' README.md)

# Runs words with the path of this script alone; $tmp/out and $tmp/err get what they write.
status=0
runs() {
    : >"$JOURNAL"
    status=0
    PATH=$tmp/bin "$@" >"$tmp/out" 2>"$tmp/err" </dev/null || status=$?
}

forget() { rm -rf crates/*/out .git/prove; }
count() { grep -c "$1" "$2" || true; }
crates_in() { sed -n "s/^$1 //p" "$JOURNAL" | sort | tr '\n' ' '; }

# gp and what it stands on, each line of crates.txt followed to its end.
needed=$(
    awk -F: '{ uses[$1] = $2 }
        function visit(crate, words, i, n) {
            if (crate in seen || !(crate in uses)) return
            seen[crate]
            n = split(uses[crate], words, " ")
            for (i = 1; i <= n; i++) visit(words[i])
        }
        END { visit("gp"); for (it in seen) print it }' crates.txt | sort
)
needed_count=$(wc -l <<<"$needed")
all_needed=$(tr '\n' ' ' <<<"$needed")

# From nothing: each crate once, and the program gets its words.
runs ./gp some words
wants "from nothing, status" 0 "$status"
wants "from nothing, the program's text" "the program: some words" "$(cat "$tmp/out")"
wants "from nothing, each crate once" "$all_needed" "$(crates_in end)"
wants "from nothing, the last crate" "end gp" "$(tail -n 1 "$JOURNAL")"
wants_line "the first line" "^gp: proving $needed_count of $needed_count crates, up to [0-9]+ at a time; logs: $tmp/logs/gp-build\..*CRATE\.log$" "$tmp/err"
wants_line "the look is named" '\./demo look' "$tmp/err"
wants_line "progress" "^gp: [0-9]+ of $needed_count crates proved, [0-9]+:[0-9]{2} so far, about [0-9]+ min to go; now( [a-z0-9_]+)+$" "$tmp/err"
wants_line "the end" "^gp: all $needed_count crates are proved, after [0-9]+:[0-9]{2}$" "$tmp/err"
wants "no control characters in a pipe" 0 "$(count $'[\r\e]' "$tmp/err")"
wants "nothing is left in the folder for logs" "" "$(ls "$tmp/logs")"
wants "no folder is left" "" "$(ls .git)"

# On a terminal one line is written anew.
forget
: >"$JOURNAL"
PATH=$tmp/bin "$(python3 -c 'import sys; print(sys.executable)')" -c '
import os, pty, sys
with open(sys.argv[1], "wb") as out:
    def read(it):
        data = os.read(it, 1024)
        out.write(data)
        return data
    pty.spawn(["./gp"], read)
' "$tmp/seen" </dev/null >/dev/null 2>&1
wants "on a terminal, each crate once" "$all_needed" "$(crates_in end)"
wants "on a terminal, one line is written anew" 1 "$(count 'so far' "$tmp/seen")"
wants_line "on a terminal, it goes back" $'\rgp: [0-9]+ of' "$tmp/seen"

# Where nothing has changed rt is not asked; where a source has, that crate is proved and those above it.
runs ./gp again
wants "up to date, rt is not asked" "" "$(cat "$JOURNAL")"
wants "up to date, no word" "" "$(cat "$tmp/err")"
touch crates/gp_tool/src/lib.rt
runs ./gp again
wants "after an edit, what stands above it" "gp gp_tool " "$(crates_in end)"

# As many at once as are asked for.
at_once() { awk '/^begin/ { n++ } /^end/ { n-- } n > most { most = n } END { print most + 0 }' "$JOURNAL"; }
forget
RT_JOBS=1 runs ./gp
wants "one at a time" 1 "$(at_once)"
forget
TAKES=1 RT_JOBS=3 runs ./gp
wants "three at a time" 3 "$(at_once)"

# Two builds at once: the second waits, and finds all done.
forget
: >"$JOURNAL"
PATH=$tmp/bin ./gp one >"$tmp/one" 2>/dev/null &
first=$!
until [[ -s $JOURNAL ]]; do sleep 0.05; done
PATH=$tmp/bin ./gp two >"$tmp/two" 2>"$tmp/err"
wait "$first"
wants "two at once, the second waits" "gp: waiting for another build in $copy to end" "$(head -n 1 "$tmp/err")"
wants "two at once, each crate once" "$all_needed" "$(crates_in end)"
wants "two at once, both run" "the program: one the program: two" "$(cat "$tmp/one" "$tmp/two" | tr '\n' ' ' | sed 's/ $//')"

# Cut off after some crates by a signal: what was proved stays, and nothing runs on. By kill -9 of the
# script alone, what was at work is ended by itself; by kill -9 of all, it is lost.
cut_off() {
    local signal=$1 whom=$2 build
    forget
    : >"$JOURNAL"
    # A shell has its background commands ignore SIGINT.
    TAKES=0.4 PATH=$tmp/bin env --default-signal=INT setsid ./gp >"$tmp/out" 2>"$tmp/err" </dev/null &
    build=$!
    until (($(count '^end' "$JOURNAL") >= 5)); do sleep 0.05; done
    if [[ $whom == all ]]; then kill -"$signal" -- "-$build"; else kill -"$signal" "$build"; fi
    wait "$build" 2>/dev/null || true
    before=$(crates_in end)
}
for it in "TERM one" "INT all" "KILL one" "KILL all"; do
    read -r signal whom <<<"$it"
    cut_off "$signal" "$whom"
    runs ./gp later
    wants "after $it, the program runs" "the program: later" "$(cat "$tmp/out")"
    for crate in $before; do
        wants "after $it, $crate is kept" 0 "$(count "^begin $crate$" "$JOURNAL")"
    done
    wants "after $it, no folder is left" "" "$(ls .git)"
done

# A crate that isn't proved.
forget
FAILS=rec_store SAYS='a goal is open' runs ./gp
wants "not proved, status" 70 "$status"
wants_line "not proved, the crate and its log" "^gp: rec_store is not proved; the end of $tmp/logs/.*/rec_store\.log:$" "$tmp/err"
wants_line "not proved, the last lines" '^    a goal is open$' "$tmp/err"
wants_line "not proved, what to do" "cd crates/rec_store && rt check" "$tmp/err"
before=$(crates_in end)
runs ./gp
wants "not proved, then proved" 0 "$(comm -12 <(tr ' ' '\n' <<<"$before" | sort) <(crates_in begin | tr ' ' '\n' | sort) | grep -c . || true)"
forget
FAILS=gp SAYS='a goal is open' runs ./gp
wants "the program isn't proved, status" 70 "$status"
wants_line "the program isn't proved" '^gp: gp is not proved' "$tmp/err"

# What is missing is said.
lacks() {
    forget
    mv "$tmp/bin/$1" "$tmp/aside"
    runs ./gp
    mv "$tmp/aside" "$tmp/bin/$1"
    wants "no $1, status" 70 "$status"
    wants_line "no $1" "^gp: the command $1 is not on the path" "$tmp/err"
}
for it in awk find flock rt; do lacks "$it"; done
wants_line "no rt, which kit" "$SAYS_VERSION" "$tmp/err"

mv "$tmp/bin/rt" "$tmp/aside"
printf '#!/usr/bin/env python3\n' >"$tmp/bin/rt"
chmod +x "$tmp/bin/rt"
runs ./gp
wants "no python3, status" 70 "$status"
wants_line "no python3" "rt doesn't run; it wants Python" "$tmp/err"
runs ./demo look
wants "no python3 for the look, status" 1 "$status"
wants_line "no python3 for the look" "rt doesn't run; it wants Python" "$tmp/err"
rm "$tmp/bin/rt"
runs ./demo look
wants "no rt for the look, status" 1 "$status"
wants_line "no rt for the look" "the command rt is not on the path" "$tmp/err"
mv "$tmp/aside" "$tmp/bin/rt"

SAYS_VERSION='rattle-kit-1 logic 00' FAILS=faults SAYS='unknown word' runs ./gp
wants "another kit, status" 70 "$status"
wants_line "another kit" "rt is of rattle-kit-1 logic 00, and the sources are proved with $SAYS_VERSION: take that kit" "$tmp/err"
forget
FAILS=faults SAYS='error: No space left on device (os error 28)' runs ./gp
wants "a full disk, status" 70 "$status"
wants_line "a full disk" "^gp: the disk is full: [0-9]+ MB are left" "$tmp/err"
TMPDIR=$tmp/nowhere runs ./gp
wants "no folder for logs, status" 70 "$status"
wants_line "no folder for logs" "there is no place for logs in $tmp/nowhere" "$tmp/err"

# The look: the factory card, the issuer's script, its replies, and no proof.
cp examples/issuer.text "$PRINTS"
runs ./demo look
wants "the look, status" 0 "$status"
wants "the look, what rt is asked" "try try --data card.img=data/card.img -- play" "$(cat "$JOURNAL")"
wants "the look, its input" "" "$(diff "$TRIED" examples/issuer.script)"
wants "the look, its replies" "$(cat examples/issuer.text)" "$(sed -n 's/^< //p' "$tmp/out")"
wants_line "the look says what it is" '^# An unproved run: .*\./gp and \./demo prove' <(head -n 1 "$tmp/out")
sed 's/9000/6985/' examples/issuer.text >"$PRINTS"
runs ./demo look
wants "a look that differs, status" 1 "$status"
wants_line "a look that differs" "the issuer's day should be another" "$tmp/err"
TRY_STATUS=6 runs ./demo look
wants "a look with no answer, status" 1 "$status"
wants_line "a look with no answer" "the unproved run gave no answer" "$tmp/err"

# With nothing kept the demo looks before it proves anything; where that differs it ends there.
forget
runs ./demo
wants "a first demo whose look differs, status" 1 "$status"
wants "a first demo whose look differs proves nothing" "" "$(crates_in begin)"
cp examples/issuer.text "$PRINTS"
runs ./demo
wants_line "a first demo says what it is" '^# Nothing is proved yet' <(head -n 1 "$tmp/out")
wants "a first demo looks first" "try try --data card.img=data/card.img -- play" "$(head -n 1 "$JOURNAL")"
wants "a first demo then proves" "$all_needed" "$(crates_in end)"

if [[ ${1-} == real ]]; then
    python=$(python3 -c 'import sys; print(sys.executable)')
    rm "$tmp/bin/rt"
    ln -s "$(readlink -f "$(command -v rt)")" "$tmp/bin/rt"
    ln -s "$python" "$tmp/bin/python3"
    forget
    SECONDS=0
    runs ./demo look
    echo "the look by the real rt took $SECONDS seconds"
    wants "the look by the real rt, status" 0 "$status"
    wants "the look by the real rt, its replies" "$(cat examples/issuer.text)" "$(sed -n 's/^< //p' "$tmp/out")"
    wants "the look by the real rt keeps nothing" "" "$(ls -d crates/*/out 2>/dev/null)"
fi

echo "$passed passed, $failed failed"
((failed == 0))
