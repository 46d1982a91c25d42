#!/usr/bin/env bash
# Runs the archive beside plain C of the same formulas on the board of cortex_m4, and prints instructions a sample as a table: QEMU counts them, so they are the same on every run, but for the
# 40 in which its timer goes on. A chip's cycles are other numbers. Fails where an output differs.
set -euo pipefail
. "$(dirname "$0")/../host/common.sh"
to=$target/targets
. targets/machines.sh

missing=$(cortex_m4_needs | xargs)
if [[ -n $missing ]]; then
    skip "instructions beside plain C" "not installed: $missing"
    exit
fi
targets/firmware.sh >/dev/null
cortex_m4_link "$to/beside_plain" -Itargets/plain targets/plain/*.c targets/beside_plain/*.c targets/program/samples.c "$target/firmware/libgauge_line.a"
cortex_m4_run "$to/beside_plain" -icount shift=0 >"$to/beside_plain.txt" || stop "targets: outputs differ from those of plain C: $(tail -n 1 "$to/beside_plain.txt")"
printf '| | ours | plain C | ours/plain |\n|---|---|---|---|\n'
awk -F '|' '{ printf "| %s | %.1f | %.1f | %.2f |\n", $1, $2 / $4, $3 / $4, $2 / $3 }' "$to/beside_plain.txt" | tee "$to/beside_plain.md"
