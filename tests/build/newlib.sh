#!/usr/bin/env bash
# The C programs with Debian's newlib for arm-none-eabi: those of docs/c.md compiled, the examples linked to the archive of `make firmware` and run on QEMU's board, where each prints what it
# prints here.
set -euo pipefail
. "$(dirname "$0")/../../host/common.sh"
to=$target/targets
. targets/machines.sh
out=$target/newlib

missing=$(cortex_m4_needs | xargs)
if [[ -n $missing ]]; then
    skip "examples/c with newlib" "not installed: $missing"
    exit
fi
targets/firmware.sh >/dev/null
rm -rf "$out"
mkdir -p "$out"

# compiled SOURCE WORDS..: as C99, with no warning.
compiled() {
    local source=$1
    shift
    arm-none-eabi-gcc "${strict[@]}" -pedantic -Wconversion -Wshadow -mthumb "${m4[@]}" "$@" -c "$source" -o "${out}/$(basename "$source" .c).o"
}

awk -v out="$out" '/^```/ { inside = $0 == "```c"; count += inside; next } inside { print >(out "/page" count ".c") }' docs/c.md
for source in "$out"/page*.c; do
    compiled "$source"
done
for source in examples/c/*.c; do
    name=$(basename "$source" .c)
    compiled "$source" -Dmain=example
    cortex_m4_link "$out/$name" tests/build/newlib.c "$out/$name.o" "$target/firmware/libgauge_line.a" --specs=rdimon.specs -Wl,--defsym=end=bss_end
    cortex_m4_run "$out/$name" | diff "examples/c/$name.txt" -
done
echo "build: examples/c and docs/c.md with newlib on Cortex-M4F"
