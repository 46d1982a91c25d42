#!/usr/bin/env bash
# Leaves in target/targets, of the proof that made the archive: module.ll, the proved LLVM module as text; bin/, the compiler, linker and archiver of the kit. Nothing is proved that is proved.
set -euo pipefail
. "$(dirname "$0")/../host/common.sh"
to=$target/targets
from=$target/staticlib

GAUGE_ARCHIVE='' host/archive.sh >/dev/null
! cmp -s "$from/gauge_line.digest" "$to/made_of" || exit 0
rm -rf "$to"
mkdir -p "$to/bin"

# One program, which is each of these by its name. No links: `rt ci` wants none in target/.
clang=$(dirname "$(rt doc)")/toolchain/bin/clang
for tool in clang wasm-ld llvm-ar; do
    printf '#!/bin/bash\nexec -a %q %q "$@"\n' "$tool" "$clang" >"$to/bin/$tool"
    chmod +x "$to/bin/$tool"
done
"$to/bin/clang" -x ir "$from/module.bc" -S -emit-llvm -O0 -Xclang -disable-llvm-passes -o "$to/module.ll"
cp "$from/gauge_line.digest" "$to/made_of"
