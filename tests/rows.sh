#!/usr/bin/env bash
# Plays the worked rows of a folder as cases of crates/cases. tests/rows.py says what a row is.
#
#   tests/rows.sh FOLDER                    plays them, and says 'N passed, M failed' at last
#   tests/rows.sh --write PREFIX FOLDER     writes PREFIX.in, the cases, and PREFIX.out, the wanted text
#
# The program is the built one where no source is newer, and else what `rt try` builds without a proof.
# It ends with 0 where each case was answered as wanted.
set -euo pipefail

top=$(dirname "$(dirname "$(readlink -f "${BASH_SOURCE[0]}")")")
rows=$top/tests/rows.py
binary=$top/crates/cases/out/cases

# True where the binary is there and no source is newer. The folders count too, since
# a file that was taken away leaves its trace only there.
is_current() {
    [[ -x $binary ]] || return 1
    [[ -z $(find "$top/crates.txt" "$top"/crates/*/{src,specs} -newer "$binary" -print -quit) ]]
}

if [[ ${1-} == --write ]]; then
    exec python3 "$rows" "$@"
fi
if (($# != 1)); then
    sed -n '2,8s/^# \?//p' "${BASH_SOURCE[0]}" >&2
    exit 1
fi
folder=$(readlink -f "$1")
cd "$top/crates/cases"
if is_current; then
    exec python3 "$rows" "$folder" "$binary"
fi
exec python3 "$rows" "$folder" rt try
