#!/usr/bin/env bash
# Prints the path of a program's binary. Where it is missing or a source is newer, it is
# proved, built and linked first, which takes some minutes.
#
#   bench/built.sh CRATE WORD...   the words are for the run that rt makes behind the build
set -euo pipefail

top=$(dirname "$(dirname "$(readlink -f "${BASH_SOURCE[0]}")")")
crate=$1
shift
binary=$top/crates/$crate/out/$crate

# The folders count too, since a file that was taken away leaves its trace only there.
is_stale() {
    [[ -x $binary ]] || return 0
    [[ -n $(find "$top/crates.txt" "$top"/crates/*/{src,specs,proofs} -newer "$binary" -print -quit 2>/dev/null) ]]
}

if is_stale; then
    echo "building $crate" >&2
    started=$(date +%s.%N)
    rm -f "$binary"
    (cd "$top/crates/$crate" && rt run -- "$@" </dev/null >&2)
    # A source that was changed during the build is then newer than the binary.
    touch -d "@$started" "$binary"
fi
echo "$binary"
