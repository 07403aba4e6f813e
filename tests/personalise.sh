#!/usr/bin/env bash
# Tries examples/personalise: twenty cards, two at once, that a kill cuts off in the middle of a card, and a second run that goes on.
# It is no part of `rt ci`.
#
#   tests/personalise.sh [PROGRAM]
#
# The keys of each card are compared with those of another implementation of CMAC (tests/model), and a session is opened with them. It
# wants openssl, and Python with the module cryptography.
#
# It says what differs, then 'N passed, M failed', and ends with 0 where nothing failed.
set -euo pipefail

top=$(dirname "$(dirname "$(readlink -f "${BASH_SOURCE[0]}")")")
gp=${1:-$top/crates/gp/out/gp}
personalise=$top/examples/personalise
readonly master=000102030405060708090a0b0c0d0e0f

if ! command -v "$gp" >/dev/null; then
    echo "personalise: $gp is not there: ./gp builds it" >&2
    exit 1
fi

tmp=$(mktemp -d "${TMPDIR:-/tmp}/personalise.XXXXXX")
trap 'rm -rf "$tmp"' EXIT
cd "$tmp"

passed=0
failed=0

# Counts a check: its name, what was wanted, what came.
wants() {
    if [[ $2 == "$3" ]]; then
        passed=$((passed + 1))
    else
        failed=$((failed + 1))
        echo "FAIL $1: wanted '${2:0:500}', got '${3:0:500}'"
    fi
}

# A gp that plays half of the script on the card 13, and then kills all that the first call has started.
cat >half <<END
#!/usr/bin/env bash
if [[ \$1 == play && \${PWD##*/} == 0000000013 ]]; then
    head -n 20 | $gp play >/dev/null
    kill -9 0
fi
exec $gp "\$@"
END
chmod +x half

# Each card that is there and done, with the digest of its file.
done_cards() {
    local folder
    for folder in cards/*; do
        if [[ $(cd "$folder" && "$gp" show | head -n 1) == "card 0f" ]]; then sha256sum "$folder/card.img"; fi
    done
}

status=0
{ GP=$tmp/half JOBS=2 setsid --wait "$personalise" cards 1 20 >first 2>&1 || status=$?; } 2>/dev/null
wants "the kill" 137 "$status"
done_cards >before
wants "what was done before the kill" "$(sort first | sed -n 's/ made$//p')" "$(sed 's,.*/\(0.*\)/card.img,\1,' before)"
wants "some cards were done" 1 "$((0 < $(wc -l <before) && $(wc -l <before) < 20))"
wants "the card 13 was begun" "card 01" "$(cd cards/0000000013 && "$gp" show | head -n 1)"

status=0
GP=$gp JOBS=2 "$personalise" cards 1 20 >second 2>errors || status=$?
wants "the second run" "0 " "$status $(<errors)"
wants "cards that were there" "$(sort first | sed 's/ made$/ is there/')" "$(sort second | grep 'is there$')"
wants "all cards" "$(seq -f %010.0f 1 20)" "$(sort second | cut -d ' ' -f 1)"
wants "cards that were done are as they were" "" "$(sha256sum --check --quiet before 2>&1)"

status=0
GP=$gp "$personalise" cards 1 20 >third || status=$?
wants "the third run" "0 $(seq -f '%010.0f is there' 1 20)" "$status $(sort third)"

# The keys of a card, by another implementation of CMAC (SP 800-108, 4.1: a counter, the label, 00, the context, the length in bits).
keys_of() {
    PYTHONPATH=$top/tests python3 -c '
import sys
from model.crypto import cmac
master, number = map(bytes.fromhex, sys.argv[1:])
print(*(cmac(master, bytes((0, 0, 0, counter)) + b"keys\0" + number + bytes((0, 0, 2, 0))).hex() for counter in range(1, 5)))
' "$master" "$1"
}

for folder in cards/*; do
    number=${folder##*/}
    read -r enc mac dek receipt <<<"$(keys_of "$number")"
    cp "$folder/card.img" card.img
    wants "$number: the number" "object a000000151000000 0045 $number" "$("$gp" show | tail -n 1)"
    printf 'open 31 33 0001020304050607\nwant 9000\n' >factory
    (printf 'keys %s %s %s\n' "$enc" "$mac" "$dek" && cat factory) >own
    status=0
    "$gp" play <own >text || status=$?
    wants "$number: its keys" "0 000001 9000" "$status $(<text)"
    status=0
    "$gp" play <factory >text || status=$?
    wants "$number: the factory's keys" "8 000002 cryptogram" "$status $(head -n 1 text)"
    echo "$enc $mac $dek $receipt" >>keys
done
wants "no key twice" 80 "$(tr ' ' '\n' <keys | sort -u | wc -l)"
# The check value of the receipt key, by which the card answers when the same key is put again.
cp cards/0000000020/card.img card.img
read -r enc mac dek receipt <<<"$(tail -n 1 keys)"
printf 'keys %s %s %s\n- open 31 33 0001020304050607\nputkey 71 71 %s\n' "$enc" "$mac" "$dek" "$receipt" >again
wants "the receipt key is put again" "9000 71" "$("$gp" play <again | tr '\n' ' ' | cut -c 1-7)"

# A card whose folder can't have a file, and one whose template is refused: the others are made.
mkdir -p others/0000000002/card.img
status=0
GP=$gp "$personalise" others 1 3 >text 2>errors || status=$?
wants "a card that fails" "123 0000000001 made 0000000003 made personalise: 0000000002 failed" "$status $(sort text | tr '\n' ' ')$(tail -n 1 errors)"
sed 's/^open 31 33/open 32 33/' "$top/examples/personalise.template" >template
status=0
GP=$gp TEMPLATE=$tmp/template "$personalise" --card wrong 0000000001 >text 2>errors || status=$?
wants "a template that is refused" "1 " "$status $(<text)"
wants "what is said of it" "0000000001: 000000 9000, 9000, 6a88, want 9000 got 6a88, 9000" "$(head -n 1 errors | cut -d , -f 1-5)"

for words in "" "cards" "cards 1" "cards 0 1" "cards 1 x" "cards 1 10000000000" "--card cards"; do
    status=0
    # shellcheck disable=SC2086
    GP=$gp "$personalise" $words >text 2>errors || status=$?
    wants "words '$words'" "1 personalise: usage: examples/personalise FOLDER FIRST LAST" "$status $(<text)$(<errors)"
done

echo "$passed passed, $failed failed"
((failed == 0))
