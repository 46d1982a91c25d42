#!/usr/bin/env bash
# Proves the crate gauge_line and what it stands on; archive.sh says when. One proof leaves in target/staticlib the archive for x86-64, the LLVM module of which the kit made it, for
# targets/ to recompile, and the digests of both beside that of their sources. What rt says of each crate goes to standard error, all of it to staticlib.log.
set -euo pipefail
. "$(dirname "$0")/common.sh"

need_rt
. host/crates.sh
to=$target/staticlib
log=$target/staticlib.log
like=$(mktemp -d)
trap 'rm -rf "$like"' EXIT

# The kit's toolchain once more, with a clang that keeps the module it is handed, so that the archive is made of this module; and that lets no branch cross a border of 32 bytes, nor end at one:
# Intel's processors from Skylake to Cascade Lake are slow at those, so that the same code at another address took up to 40 % longer. What the code does stays.
like_toolchain() {
    local one
    mkdir "$like/bin"
    for one in "$kit"/toolchain/*; do
        [[ ${one##*/} == bin ]] || ln -s "$one" "$like/"
    done
    for one in "$kit"/toolchain/bin/*; do
        [[ ${one##*/} == clang ]] || ln -s "$one" "$like/bin/"
    done
    cat >"$like/bin/clang" <<END
#!/bin/sh
for word; do
    case \$word in *.bc) cp "\$word" "$to/module.bc" ;; esac
done
exec "$kit/toolchain/bin/clang" -mbranches-within-32B-boundaries "\$@"
END
    chmod +x "$like/bin/clang"
}

# The crate and what it stands on, over what rt kept. Behind `rt ci` the libraries stand, so that the crate alone is left, which the build proves.
proved() {
    if host/left_by_ci.sh below gauge_line; then
        kept=(--jobs 1)
    else
        kept=(--jobs 1 --incremental out/incremental)
        in_crate gauge_line check
    fi
}

# The code is for every x86-64, as it always was; the kit's own default asks for a later one.
built() {
    words_for gauge_line
    (cd crates/gauge_line && "$kit/bin/rattle" build "${words[@]}" "${kept[@]}" --cpu x86-64 --toolchain "$like" --backend llvm -o "$to/libgauge_line.a")
}

[[ -x $kit/toolchain/bin/clang ]] || stop "the kit has no toolchain/bin/clang: targets/README.md says what it is for"
rm -rf "$to"
mkdir -p "$to"
like_toolchain
sources=$(made_of)
echo "proving the archive: minutes from a fresh clone, less where crates are unchanged" >&2
if ! { proved && built; } 2>&1 | tee "$log" | { grep --line-buffered '^rt: ' || true; } >&2; then
    tail -n 20 "$log" >&2
    exit 1
fi
digests=$(cd "$to" && sha256sum libgauge_line.a module.bc)
printf '%s\n' "$sources" "$digests" >"$to/gauge_line.digest"
