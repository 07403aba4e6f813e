#!/usr/bin/env bash
# What the merge gate costs: it runs `rt ci` from nothing in a copy, and prints for each crate the
# processor seconds of the prover: proofs, tests, and must-fail edits. Where the gate passes it writes the
# table to bench/costs.txt, which tools/prove reads.
#
# It looks twice a second, so what a process does in its last half second is not counted. It
# ends as the gate does, and prints the gate's last lines where that fails.
set -euo pipefail

top=$(dirname "$(dirname "$(readlink -f "${BASH_SOURCE[0]}")")")
copy=$(mktemp -d "${TMPDIR:-/tmp}/gate.XXXXXX")
trap 'rm -rf "$copy"' EXIT

git -C "$top" ls-files -z | (cd "$top" && xargs -0 cp --parents -t "$copy")
cd "$copy"
git init -q
# The edits' own copies lie below this folder too, so that nobody else's processes count.
mkdir tmp
chmod 1777 . tmp
# A kit that keeps proofs between runs has the flag; any other proves from nothing always.
anew=()
help=$(rt help 2>&1 || true)
if [[ $help == *--anew* ]]; then anew=(--anew); fi
TMPDIR=$copy/tmp rt ci "${anew[@]}" >tmp/log 2>&1 </dev/null &
gate=$!

declare -A spent
while kill -0 "$gate" 2>/dev/null; do
    while read -r pid seconds command; do
        folder=$(readlink "/proc/$pid/cwd") || continue
        [[ $folder == "$copy"/* && $command =~ --crate-name\ ([a-z0-9_]+) ]] || continue
        crate=${BASH_REMATCH[1]}
        case $folder:$command in
        */rt-edit-*) part=edits ;;
        *\ --test*) part=tests ;;
        *) part=proofs ;;
        esac
        spent["$crate $part $pid"]=$seconds
    done < <(ps -C rattle -o pid=,cputimes=,args= || true)
    sleep 0.5
done
status=0
wait "$gate" || status=$?

for what in "${!spent[@]}"; do
    echo "$what ${spent[$what]}"
done | awk '
    { spent[$1, $2] += $4; crates[$1] }
    function row(crate, proofs, tests, edits) {
        return sprintf("%-15s %6d %6d %6d %6d", crate, proofs, tests, edits, proofs + tests + edits)
    }
    END {
        printf "%-15s %6s %6s %6s %6s\n", "crate", "proofs", "tests", "edits", "sum"
        fflush()
        for (crate in crates) {
            print row(crate, spent[crate, "proofs"], spent[crate, "tests"], spent[crate, "edits"]) | "sort"
            proofs += spent[crate, "proofs"]
            tests += spent[crate, "tests"]
            edits += spent[crate, "edits"]
        }
        close("sort")
        print row("all", proofs, tests, edits)
    }' | tee tmp/costs
echo "minutes $((SECONDS / 60))"
if ((status == 0)); then
    cp tmp/costs "$top/bench/costs.txt"
    tail -n 1 tmp/log
else
    tail -n 40 tmp/log >&2
fi
exit "$status"
