#!/usr/bin/env bash
# Checks that README.md stays short, that the clauses which README.md, docs/PROOFS.md, docs/DESK.md and the README.md of each crate
# cite are there, by tests/citations.py that definitions stand where README.md, docs/ and those pages say, and by tools/lists that the
# lists which it has made in docs/ are those of the code.
#
# A citation is a code span of a crate, a function and one or more labels: `card_core Card::process step changes`. The
# function stands with its type or trait, where it has one. It is there where the crate's src has that function with a
# clause `ensures LABEL`; the label - is a clause that has none. What a clause says is not checked: that is for the reader.
#
# It prints what is missing, and then 'N passed, M failed', and ends with 1 where something is missing.
set -euo pipefail

cd "$(dirname "$(dirname "$(readlink -f "${BASH_SOURCE[0]}")")")"
readonly most_bytes=20480
passed=0
failed=0

judge() {
    if [[ $1 == 0 ]]; then
        passed=$((passed + 1))
    else
        failed=$((failed + 1))
        echo "claims: $2"
    fi
}

# Every clause of the crates, one a line: crate, function, label.
clauses() {
    find crates/*/src -name '*.rt' -print0 | xargs -0 awk '
        FNR == 1 { split(FILENAME, path, "/"); type = ""; name = "" }
        /^}/ { type = "" }
        /^(pub )?trait / { type = $0; sub(/^(pub )?trait /, "", type); sub(/[^A-Za-z0-9_].*/, "", type) }
        /^impl/ {
            type = $0
            if (!sub(/^.* for /, "", type)) type = substr(type, /^impl</ ? index(type, "> ") + 2 : 6)
            sub(/[^A-Za-z0-9_].*/, "", type)
        }
        /^ *(pub(\([a-z]+\))? )?fn / {
            name = $0
            sub(/^.*fn /, "", name)
            sub(/[^A-Za-z0-9_].*/, "", name)
            if (type != "") name = type "::" name
        }
        /^ *ensures\*? / { print path[2], name, $2 == "{" ? "-" : $2 }
    '
}

# The citations of a file, one a line: line number, crate, function, labels. The crate gp has no clause, and its name is
# also that of the program.
citations() {
    grep -no '`[^`]*`' "$1" | tr -d '`' | sed 's/:/ /' |
        awk 'NR == FNR { crates[$1]; next } $2 in crates && NF > 2' <(basename -a crates/*/ | grep -vx gp) -
}

bytes=$(wc -c <README.md)
judge "$((bytes > most_bytes))" "README.md has $bytes bytes, more than $most_bytes"

misplaced=0
tests/citations.py || misplaced=1
judge "$misplaced" "a definition stands elsewhere"

stale=0
tools/lists --check || stale=1
judge "$stale" "a list differs: run tools/lists"

declare -A there
while read -r clause; do
    there[$clause]=1
done < <(clauses)

for file in README.md docs/PROOFS.md docs/DESK.md crates/*/README.md; do
    [[ -f $file ]] || continue
    while read -r line crate name labels; do
        if [[ -z $labels ]]; then
            judge 1 "$file:$line: $crate $name: no label"
        fi
        for label in $labels; do
            if [[ -n ${there["$crate $name $label"]-} ]]; then
                judge 0 ""
            else
                judge 1 "$file:$line: $crate $name has no clause $label"
            fi
        done
    done < <(citations "$file")
done

echo "$passed passed, $failed failed"
((failed == 0))
