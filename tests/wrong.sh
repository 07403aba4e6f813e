#!/usr/bin/env bash
# Tries the mutants in crates/*/wrong: edits of the code, each named by a sentence
# that would be wrong. The prover has to refuse each of them, as it has to refuse those in
# crates/*/must-fail, which `rt ci` tries. These take too long for every run, so they are
# tried before a crate is closed.
#
#   tests/wrong.sh            the mutants of every crate
#   tests/wrong.sh CRATE...   those of these crates
#
# It works in a copy, and ends with 0 where each mutant is refused.
set -euo pipefail

top=$(dirname "$(dirname "$(readlink -f "${BASH_SOURCE[0]}")")")
copy=$(mktemp -d "${TMPDIR:-/tmp}/wrong.XXXXXX")
trap 'rm -rf "$copy"' EXIT

cp "$top/crates.txt" "$top/HANDLES" "$copy"
mkdir "$copy/crates"
for crate in "$top"/crates/*/; do
    name=$(basename "$crate")
    mkdir "$copy/crates/$name"
    find "$crate" -mindepth 1 -maxdepth 1 ! -name out ! -name must-fail ! -name wrong \
        -exec cp -r {} "$copy/crates/$name" \;
    if [[ -d $crate/wrong ]]; then
        cp -r "$crate/wrong" "$copy/crates/$name/must-fail"
    fi
done

cd "$copy"
if (($# == 0)); then
    set -- $(for edits in crates/*/must-fail; do basename "$(dirname "$edits")"; done)
fi
for name; do
    if [[ ! -d crates/$name/must-fail ]]; then
        echo "wrong: crates/$name has no mutants" >&2
        exit 1
    fi
    # The edits are tried over what a check of the crate keeps.
    (cd "crates/$name" && rt check >check.log 2>&1) || {
        tail -n 20 "crates/$name/check.log" >&2
        exit 1
    }
done
rt must-fail "$@"
