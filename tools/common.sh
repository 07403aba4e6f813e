# Read by ./gp, ./demo and tools/prove, which have set `top` and have a function `fail`.
# shellcheck shell=bash

binary=${top:?}/crates/gp/out/gp

# True where the binary is missing or a source is newer. The folders count too,
# since a file that was taken away leaves its trace only there.
is_stale() {
    [[ -x $binary ]] || return 0
    local sources=("$top/crates.txt") folder
    for folder in "$top"/crates/*/{src,specs,proofs}; do
        if [[ -d $folder ]]; then
            sources+=("$folder")
        fi
    done
    [[ -n $(find "${sources[@]}" -newer "$binary" -print -quit) ]]
}

# The kit that README.md names under "Made with".
wanted_kit() { grep -m 1 '^rattle-kit' "$top/README.md"; }

# Fails where rt is not there or doesn't run. `kit` gets the kit that it is of.
check_rt() {
    command -v rt >/dev/null ||
        fail "the command rt is not on the path: it is in bin/ of the kit that README.md names, $(wanted_kit)"
    kit=$(rt version 2>&1 </dev/null) || fail "rt doesn't run; it wants Python 3.8 or later, as python3. It said: $kit"
}

# Kits with the same logic prove the same.
is_other_kit() { [[ ${kit#* } != "$(wanted_kit | cut -d ' ' -f 2-)" ]]; }
tell_kits() { echo "rt is of $kit, and the sources are proved with $(wanted_kit)"; }
