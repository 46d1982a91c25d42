#!/usr/bin/env bash
# The whole gate: what needs no proof, then proofs, must-fail edits and programs, then the archive: compared with the Rust (seeds as arguments), called from C, Rust and Python, installed, put into a page, and
# run on another machine. What was left out is said before the last line, which is rt ci's.
set -euo pipefail
. "$(dirname "$0")/../host/common.sh"
[[ $target == "$PWD/target" ]] || stop "the gate writes to target/: run it without TARGET"
need_rt
need_cargo

log=$(mktemp)
made=$(mktemp)
told=$(mktemp)
GAUGE_SKIPPED=$(mktemp)
export GAUGE_SKIPPED
trap 'wait; rm -f "$log" "$made" "$told" "$GAUGE_SKIPPED"' EXIT
host/kit.sh 2> >(tee -a "$GAUGE_SKIPPED" >&2)
tests/quick.sh
rt ci 2>&1 | tee "$log"
tests/bad_edits.sh "$log"
host/left_by_ci.sh note

# Always the archive of what was just proved. Making it keeps one core busy, so the edits are tried beside it; what it says comes after them.
unset GAUGE_ARCHIVE
host/archive.sh >"$made" 2>"$told" &
archive=$!
tests/edits
wait "$archive" || stop "$(<"$told")"
cat "$told" >&2
GAUGE_ARCHIVE=$(<"$made")
export GAUGE_ARCHIVE
tests/oracle/run.sh "$@"
tests/host/run.sh
tests/build/run.sh
tests/page/run.sh
targets/run.sh cortex_m4

# What would have the next `rt ci` turn this checkout back.
stray=$(find target \( -type l -o -name '*.rt' -o -name '*.antt' -o -name crates.txt -o -name .git \) -print)
[[ -z $stray ]] || stop "gate: these stand where rt ci wants nothing of their kind:"$'\n'"$stray"
awk '!said[$0]++' "$GAUGE_SKIPPED"
tail -n 1 "$log"
