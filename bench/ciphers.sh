#!/usr/bin/env bash
# Times the ciphers beside nettle and OpenSSL, both without the AES instructions and OpenSSL
# without vector permutation, and prints a table. It is no test, but ends 1 where a checksum of
# another library differs.
#
#   bench/ciphers.sh         every row
#   bench/ciphers.sh CALL    the rows of one call, as cmac
#
# The three take turns on one core, CORE if set, and the best of TRIES times counts, 5 if unset.
# It wants a C compiler and the headers of nettle and OpenSSL (nettle-dev, libssl-dev).
set -euo pipefail

here=$(dirname "$(readlink -f "${BASH_SOURCE[0]}")")
tries=${TRIES:-5}
core=${CORE:-$(($(nproc) - 1))}
only=${1:-}

# nettle: another vendor's processor, so no AES instructions.
export NETTLE_FAT_OVERRIDE=vendor:other
# OpenSSL: neither the AES instructions (bit 57) nor SSSE3 (bit 41).
export OPENSSL_ia32cap="~0x200020000000000"

tmp=$(mktemp -d "${TMPDIR:-/tmp}/ciphers.XXXXXX")
trap 'rm -rf "$tmp"' EXIT

ours=$("$here/built.sh" cipher_bench seal 16 1)
cc -O2 -o "$tmp/ciphers" "$here/ciphers.c" -lnettle -lcrypto

# Runs one library's call and leaves the checksum in `sum` and the processor time in `took`, in milliseconds.
measure() {
    local library=$1
    shift
    local program=("$tmp/ciphers" "$library")
    if [[ $library == ours ]]; then
        program=("$ours")
    fi
    { TIMEFORMAT=%3U; time taskset -c "$core" "${program[@]}" "$@" >"$tmp/sum"; } 2>"$tmp/took"
    sum=$(<"$tmp/sum")
    took=$((10#$(tr -d . <"$tmp/took")))
}

# One row: the name, the call, the size of a message, and how often the call is made.
row() {
    local name=$1 call=$2 size=$3 count=$4 library try expected
    if [[ -n $only && $only != "$call" ]]; then
        return
    fi
    local -A best=()
    for ((try = 0; try < tries; try++)); do
        for library in ours nettle openssl; do
            measure "$library" "$call" "$size" "$count"
            if [[ $library == ours ]]; then
                expected=$sum
            elif [[ $sum != "$expected" ]]; then
                echo "$name: $library gives $sum, ours $expected" >&2
                exit 1
            fi
            if [[ -z ${best[$library]-} ]] || ((took < best[$library])); then
                best[$library]=$took
            fi
        done
    done
    awk -v name="$name" -v ours="${best[ours]}" -v nettle="${best[nettle]}" -v openssl="${best[openssl]}" -v count="$count" 'BEGIN {
        printf "| %-34s | %9.1f | %9.1f | %9.1f | %6.2f | %7.2f |\n",
            name, ours * 1e6 / count, nettle * 1e6 / count, openssl * 1e6 / count, nettle / ours, openssl / ours
    }'
}

echo "| AES-128, nanoseconds a call        |      ours |    nettle |   OpenSSL | nettle | OpenSSL |"
echo "|------------------------------------|----------:|----------:|----------:|-------:|--------:|"
row "one block sealed" seal 16 5000000
row "one block unsealed" unseal 16 5000000
row "new sealing key, one block" key 16 2000000
row "new key both ways, one block" both 16 2000000
for size in 16 32 64 280; do
    row "CMAC of $size bytes" cmac "$size" $((60000000 / (size + 8)))
done
row "CMAC of 16384 bytes" cmac 16384 4000
row "CMAC of 32 bytes, new key" new-cmac 32 1000000
row "derivation of 16 bytes" derive 16 2000000
for size in 32 256; do
    row "CBC of $size bytes, sealed" cbc-seal "$size" $((60000000 / size))
    row "CBC of $size bytes, unsealed" cbc-unseal "$size" $((60000000 / size))
done
row "CBC of 16384 bytes, sealed" cbc-seal 16384 4000
row "CBC of 16384 bytes, unsealed" cbc-unseal 16384 4000
row "session, sealing keys" session 16 200000
row "session, keys both ways" both-session 16 200000
