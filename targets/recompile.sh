#!/usr/bin/env bash
# recompile.sh TRIPLE OBJECT [WORDS..]: compiles the proved module, which module.sh left, for another machine. The words go to clang.
set -euo pipefail
. "$(dirname "$0")/../host/common.sh"
triple=$1 object=$2 from=$target/targets
shift 2

# Probes of the stack stay where the system has a guard page for them to meet.
case $triple in
*linux*) probes='' ;;
*) probes='s/ "probe-stack"="inline-asm"//' ;;
esac
sed -f targets/anywhere.sed -e "$probes" "$from/module.ll" >"${object%.o}.ll"

# Pairs that hold a pointer and have the same places on every machine; with another one the outputs may be wrong where addresses have 32 bits.
pairs=$(grep -oE '\{[^{}]*\bptr\b[^{}]*\}' "${object%.o}.ll" | grep -vxF -e '{ ptr, i64 }' -e '{ i8, [7 x i8], ptr }' | sort -u || true)
[[ -z $pairs ]] || stop "recompile: targets/anywhere.sed has to say where the parts of these stand: ${pairs//$'\n'/, }"

# The kit's own words for x86-64 but for those that no other machine has, and no fused operation: each rounds once.
"$from/bin/clang" --target="$triple" -O3 -ffp-contract=off -ffunction-sections -fdata-sections \
    -mllvm -trap-unreachable -mllvm -no-trap-after-noreturn -mllvm -disable-machine-licm -mllvm -disable-postra-machine-licm \
    -mllvm -sink-common-insts=false --no-default-config -fno-crash-diagnostics \
    -Werror -Wno-override-module "$@" -c -x ir "${object%.o}.ll" -o "$object"
