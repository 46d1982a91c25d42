#!/usr/bin/env bash
# Leaves in target/firmware libgauge_line.a, the proved module for Cortex-M4F, with its headers, and table.md: code size and stack of each function. Needs the kit, and readelf of binutils.
set -euo pipefail
. "$(dirname "$0")/../host/common.sh"
to=$target/targets
out=$target/firmware
. targets/machines.sh

need readelf "binutils has it; the table is made of what it says"
targets/module.sh
rm -rf "$out"
mkdir -p "$out"

# A stack is a fixed number only where no function comes back to itself.
awk -f targets/calls.awk "$to/module.ll" >"$to/calls.txt"
tsort "$to/calls.txt" >/dev/null

cortex_m4_object
"$to/bin/llvm-ar" rcs "$out/libgauge_line.a" "$to/cortex_m4.o"
cp include/*.h "$out/"
readelf -SWrs "$to/cortex_m4.o" >"$to/cortex_m4.elf.txt"
awk -f targets/firmware.awk "$to/cortex_m4.su" "$to/cortex_m4.elf.txt" >"$out/table.md"
cat "$out/table.md"
