# shellcheck shell=bash disable=SC2034,SC2154
# The machines, for run.sh and firmware.sh, which set `to`. NAME_needs prints the Debian packages that are missing; NAME_prints recompiles the module, links the test program to it and runs it.

machines=(aarch64 riscv64 cortex_m4 wasm32)
program=(targets/program/*.c)
strict=(-std=c99 -Wall -Wextra -Werror -Iinclude -Itargets/program -O2 -ffp-contract=off)
m4=(-mcpu=cortex-m4 -mfpu=fpv4-sp-d16 -mfloat-abi=hard)

# tool NAME PACKAGE: prints the package where the tool is missing.
tool() {
    command -v "$1" >/dev/null || echo "$2"
}

# library COMPILER FILE PACKAGE: the same for a file of a compiler's C library.
library() {
    [[ -e $("$1" -print-file-name="$2" 2>/dev/null) ]] || echo "$3"
}

# linux NAME: a static program under QEMU's user mode.
linux() {
    targets/recompile.sh "$1-unknown-linux-gnu" "$to/$1.o" -fPIC &&
        "$1-linux-gnu-gcc" "${strict[@]}" -static "${program[@]}" targets/stdio.c "$to/$1.o" -o "$to/$1" &&
        "qemu-$1" "$to/$1"
}

aarch64_needs() {
    tool aarch64-linux-gnu-gcc gcc-aarch64-linux-gnu
    library aarch64-linux-gnu-gcc libc.a libc6-dev-arm64-cross
    tool qemu-aarch64 qemu-user
}

aarch64_prints() {
    linux aarch64
}

riscv64_needs() {
    tool riscv64-linux-gnu-gcc gcc-riscv64-linux-gnu
    library riscv64-linux-gnu-gcc libc.a libc6-dev-riscv64-cross
    tool qemu-riscv64 qemu-user
}

riscv64_prints() {
    linux riscv64
}

cortex_m4_needs() {
    tool arm-none-eabi-gcc gcc-arm-none-eabi
    library arm-none-eabi-gcc libc.a libnewlib-arm-none-eabi
    tool qemu-system-arm qemu-system-arm
}

# The object that firmware.sh puts in the archive; beside it, the frame of each function.
cortex_m4_object() {
    targets/recompile.sh thumbv7em-none-eabihf "$to/cortex_m4.o" "${m4[@]}" -fstack-usage
}

# cortex_m4_link PROGRAM WORDS..: links a program for the bare board of examples/cortex-m4.
cortex_m4_link() {
    local linked=$1 board=examples/cortex-m4
    shift
    arm-none-eabi-gcc "${strict[@]}" -I"$board" -mthumb "${m4[@]}" -nostartfiles -T "$board/link.ld" -Wl,--no-warn-execstack \
        "$board"/{start,board,cell,number}.c "$@" -o "$linked"
}

# cortex_m4_run PROGRAM WORDS..: runs it on the board MPS2 AN386 of QEMU; the words go to QEMU. A program that hangs is stopped.
cortex_m4_run() {
    local linked=$1
    shift
    timeout 300 qemu-system-arm -M mps2-an386 -cpu cortex-m4 -nographic -monitor none -serial none -chardev stdio,id=out \
        -semihosting-config enable=on,target=native,chardev=out "$@" -kernel "$linked" </dev/null
}

cortex_m4_prints() {
    cortex_m4_object &&
        cortex_m4_link "$to/cortex_m4" "${program[@]}" targets/cortex_m4/main.c "$to/cortex_m4.o" &&
        cortex_m4_run "$to/cortex_m4"
}

wasm32_needs() {
    tool node nodejs
}

# The kit's clang compiles the program too and finds the linker by PATH. There is no C library: targets/wasm32 has the little that is needed of one.
wasm32_prints() {
    targets/recompile.sh wasm32-unknown-unknown "$to/wasm32.o" &&
        PATH=$to/bin:$PATH "$to/bin/clang" --target=wasm32-unknown-unknown --no-default-config "${strict[@]}" -Itargets/wasm32 -nostdlib \
            -Wl,--no-entry,--export=outputs,-z,stack-size=262144 "${program[@]}" targets/wasm32/*.c "$to/wasm32.o" -o "$to/wasm32" &&
        node targets/wasm32/run.mjs "$to/wasm32"
}
