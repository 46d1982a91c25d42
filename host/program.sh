#!/usr/bin/env bash
# program.sh CRATE: proves the program, unless it is proved, and prints where it is.
set -euo pipefail
. "$(dirname "$0")/common.sh"
crate=$1

need_rt
if ! host/left_by_ci.sh of "$crate"; then
    log=$(mktemp)
    trap 'rm -f "$log"' EXIT
    # rt runs it too, on its own input.
    if ! in_crate "$crate" run >"$log" 2>&1 </dev/null; then
        tail -n 20 "$log" >&2
        exit 1
    fi
fi
echo "$PWD/crates/$crate/out/$crate"
