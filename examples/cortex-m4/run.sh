#!/usr/bin/env bash
# Builds the firmware for Cortex-M4F, runs it under QEMU and on this computer, and compares its levels with those that are stored; then prints what a sample costs in instructions, and how
# much code of the archive a program keeps. Where the packages are missing that targets/README.md names for cortex_m4, that machine is skipped.
set -euo pipefail
. "$(dirname "$0")/../../host/common.sh"
to=$target/targets
. targets/machines.sh
here=examples/cortex-m4
out=$target/cortex-m4

# same WHERE PRINTED: fails where the firmware did not print what is stored.
same() {
    diff "$here/levels.txt" "$2" >&2 || stop "cortex-m4: the firmware $1 does not print $here/levels.txt"
    echo "cortex-m4: the firmware $1 prints its levels"
}

on_this_computer() {
    gcc "${strict[@]}" "$here"/{main,cell,number,host}.c "$target/staticlib/libgauge_line.a" -o "$out/host"
    "$out/host" >"$out/host.txt"
    same "on this computer" "$out/host.txt"
}

# linked NAME SOURCES..: links a program without what it does not call; beside it, what the linker kept.
linked() {
    local name=$1
    shift
    cortex_m4_link "$out/$name" "$@" -ffunction-sections -fdata-sections -Wl,--gc-sections -Wl,-Map,"$out/$name.map" \
        "$target/firmware/libgauge_line.a"
}

# kept NAME: bytes of code in the program, of the archive. The map has a section's name, then its address, size and file.
kept() {
    local sum=0 size
    while read -r size; do
        sum=$((sum + size))
    done < <(awk '/^Linker script and memory map/ { on = 1 } on && /libgauge_line\.a/ && name ~ /^\.text/ { print $2 } { name = $1 }' "$out/$1.map")
    echo "$sum"
}

# Nothing of the program asks for memory. Its time is counted in instructions, so that another load of this computer makes no half late.
under_qemu() {
    linked firmware "$here/main.c"
    ! nm "$out/firmware" | grep -wE 'malloc|_sbrk' || stop "cortex-m4: the firmware asks for memory"
    cortex_m4_run "$out/firmware" -icount shift=0 >"$out/firmware.txt"
    same "under QEMU" "$out/firmware.txt"
}

# With too little time between two halves the firmware says so, and fails.
overrun() {
    linked late "$here/main.c" -DPERIOD=60
    ! cortex_m4_run "$out/late" -icount shift=0 >"$out/late.txt" || stop "cortex-m4: the firmware does not fail where halves overrun"
    grep -q '^not refused, [1-9][0-9]* halves overrun$' "$out/late.txt" || stop "cortex-m4: the firmware does not say how many halves overran"
    echo "cortex-m4: the firmware sees halves that overrun"
}

costs() {
    local name row
    printf '| program | instructions a sample | bytes of code kept |\n|---|---|---|\n'
    for name in line cic fir half_band resampler; do
        linked "$name" "$here/cost.c" "$here/cost/$name.c"
        cortex_m4_run "$out/$name" -icount shift=0 >"$out/$name.txt"
        while IFS='|' read -ra row; do
            printf '| %s | %d | %d |\n' "${row[0]}" "${row[1]}" "$(kept "$name")"
        done <"$out/$name.txt"
    done
}

missing=$(cortex_m4_needs | xargs)
targets/firmware.sh >/dev/null
mkdir -p "$out"
on_this_computer
if [[ -n $missing ]]; then
    skip "examples/cortex-m4 under QEMU" "not installed: $missing"
    exit
fi
under_qemu
overrun
costs | tee "$out/costs.md"
