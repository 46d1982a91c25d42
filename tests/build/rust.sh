#!/usr/bin/env bash
# The build script of host/gauge-line: which archive it links for which machine, and what it says where there is none. The script is run as cargo runs it, from another folder.
set -euo pipefail
. "$(dirname "$0")/../../host/common.sh"
. tests/build/expect.sh
scratch=$(mktemp -d)
trap 'rm -rf "$scratch"' EXIT
rustc --edition 2024 -o "$scratch/script" host/gauge-line/build.rs
mkdir -p "$scratch/top/host/gauge-line" "$scratch/top/target/staticlib" "$scratch/top/other"
touch "$scratch/top/target/staticlib/libgauge_line.a" "$scratch/top/other/named.a"

# builds MACHINE ARCHIVE TARGET: what the script says, below a top of its own.
builds() {
    (cd / && CARGO_MANIFEST_DIR=$scratch/top/host/gauge-line TARGET=$1 GAUGE_ARCHIVE=$2 GAUGE_TARGET=$3 "$scratch/script" 2>&1)
}

x86=x86_64-unknown-linux-gnu
m4=thumbv7em-none-eabihf
expect "native=$scratch/top/target/staticlib" builds $x86 '' ''
expect "native=$scratch/top/other" builds $x86 other/named.a ''
expect "native=$scratch/top/other" builds $m4 "$scratch/top/other/named.a" ''
expect_not "$scratch/top/other/missing.a: No such file" builds $x86 other/missing.a ''
expect_not 'run `make firmware`' builds $m4 '' ''
expect_not 'run `make` at the top' builds $x86 '' elsewhere
expect_not 'make has no archive for riscv32imc-unknown-none-elf' builds riscv32imc-unknown-none-elf '' ''
mkdir -p "$scratch/top/elsewhere/firmware"
touch "$scratch/top/elsewhere/firmware/libgauge_line.a"
expect "native=$scratch/top/elsewhere/firmware" builds $m4 '' elsewhere
echo "build: the crate links the archive of its machine"
