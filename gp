#!/usr/bin/env bash
# Runs the program gp with the words given here, in the caller's folder. Where its
# binary is missing or older than the sources, it is proved, built and linked first.
set -euo pipefail

top=$(dirname "$(readlink -f "${BASH_SOURCE[0]}")")
. "$top/tools/common.sh"

# tools/prove then runs the program itself: so a signal to this process ends the build.
if is_stale; then
    exec "$top/tools/prove" "$binary" "$@"
fi
exec "$binary" "$@"
