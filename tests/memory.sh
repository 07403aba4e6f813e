#!/usr/bin/env bash
# Refuses the allocations of one run of `gp` one by one: in the first call the first, in the next call the second, and so
# on. Each call is built and made by `rt try`, unproved and with checks. It is no part of `rt ci`.
#
#   tests/memory.sh           from the first one on, up to three calls in a row that are as usual
#   tests/memory.sh 5 [12]    from the fifth on, and no further than the twelfth
#
# A run without memory ends with 7 and has written nothing, or with 3, 5 or 6 where the device or a stream had none, and
# has written the start of its text. It says what differs, then how many allocations were tried and what came of them, and
# ends with 0 where nothing differs.
set -euo pipefail

top=$(dirname "$(dirname "$(readlink -f "${BASH_SOURCE[0]}")")")
first=${1:-1}
last=${2:-1000}

# INITIALIZE UPDATE, which commits a page.
readonly line=80500000080001020304050607
readonly reply=000000000000000000003003704d2614d48b5a55725102ce101bd723570000009000

tmp=$(mktemp -d "${TMPDIR:-/tmp}/memory.XXXXXX")
trap 'rm -rf "$tmp"' EXIT
cd "$top/crates/gp"

# Makes a call with this allocation refused: `status` is that of the program, or nothing where it did not end by itself.
refuse() {
    rt try --fail-alloc "$1" --data card.img=data/card.img -- run <<<"$line" >"$tmp/out" 2>"$tmp/err" || true
    status=$(sed -n 's/^run=ended status=\([0-9]*\) .*/\1/p' "$tmp/err")
    text=$(<"$tmp/out")
}

# Whether this text goes with this status.
fits() {
    case $status in
    0) [[ $text == "$reply" ]] ;;
    3 | 5 | 6) [[ $reply == "$text"* ]] ;;
    7) [[ -z $text ]] ;;
    *) false ;;
    esac
}

declare -A calls=([0]=0 [3]=0 [5]=0 [6]=0 [7]=0)
failed=0
usual=0
unharmed=
for ((number = first; number <= last && usual < 3; number++)); do
    refuse "$number"
    if fits; then
        calls[$status]=$((calls[$status] + 1))
        usual=$((status == 0 ? usual + 1 : 0))
        if ((status == 0)); then unharmed+=" $number"; fi
    else
        failed=$((failed + 1))
        echo "FAIL allocation $number: status '$status', text '$text'"
        tail -n 3 "$tmp/err"
    fi
done

echo "$((number - first)) allocations tried: ${calls[7]} ended with 7, ${calls[3]} with 3, ${calls[5]} with 5, ${calls[6]} with 6, ${calls[0]} as usual${unharmed:+ (those of$unharmed)}, $failed failed"
((failed == 0))
