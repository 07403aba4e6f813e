# Times of runs that take turns, and how they are printed. A script that sources this has `tries`,
# how many times each run is timed, `tmp`, the folder of the inputs, and `fail`.

# Makes a run that is given as 'HOW INPUT', and leaves in `took` how many microseconds that was.
time_run() {
    local how input begin
    read -r how input <<<"$1"
    begin=${EPOCHREALTIME//[!0-9]/}
    "$how" "$tmp/$input" || fail "$how ended with status $?"
    took=$((${EPOCHREALTIME//[!0-9]/} - begin))
}

# Times runs, each given as 'HOW INPUT', and leaves the best time of each in `best`, in
# microseconds. They take turns, so that a busy moment of the machine meets them alike.
declare -A best
race() {
    local try run took
    best=()
    for ((try = 0; try < tries; try++)); do
        for run in "$@"; do
            time_run "$run"
            if [[ -z ${best[$run]-} ]] || ((took < best[$run])); then
                best[$run]=$took
            fi
        done
    done
}

# Times runs of a millisecond or two, TIMES each, and leaves the median of each in `median`, in microseconds. Of many
# such runs in one time, what else the machine did meanwhile would be a part.
declare -A median
race_short() {
    local times=$1 turn run took
    local -A all=()
    shift
    for ((turn = 0; turn < times; turn++)); do
        for run in "$@"; do
            time_run "$run"
            all[$run]+="$took "
        done
    done
    median=()
    for run in "$@"; do
        median[$run]=$(printf '%s\n' ${all[$run]} | sort -n | sed -n "$(((times + 1) / 2))p")
    done
}

say() { printf "  %-10s $2\n" "$1" "${@:3}"; }
seconds() { awk -v t="$1" 'BEGIN { printf "%.3f", t / 1e6 }'; }
rate() { awk -v n="$1" -v t="$2" 'BEGIN { printf "%.0f", n * 1e6 / t }'; }
over() { awk -v a="$1" -v b="$2" 'BEGIN { printf "%.2f", a / b }'; }
