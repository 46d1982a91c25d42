#!/usr/bin/env bash
# Builds the race of the archive with liquid-dsp, libsamplerate, soxr and speexdsp, and prints its tables; a number is that of rounds. What is not installed is skipped by name.
# GAUGE_ARCHIVE names another archive to link.
set -euo pipefail
. "$(dirname "$0")/../host/common.sh"

need cc "a C compiler builds the race"
archive=$(host/archive.sh)
sources=(bench/peers/{main,ours}.c)
flags=()

# peer NAME LIBRARY HEADER: has the library take part where pkg-config or the compiler finds it.
peer() {
    local found=("-l$2")
    if pkg-config --exists "$2" 2>/dev/null; then
        read -ra found < <(pkg-config --cflags --libs "$2")
    elif ! cc -E -include "$3" -x c /dev/null >/dev/null 2>&1; then
        skip "$1" "not installed"
        return
    fi
    sources+=("bench/peers/$2.c")
    flags+=("-DWITH_${2^^}" "${found[@]}")
}

peer liquid-dsp liquid liquid/liquid.h
peer libsamplerate samplerate samplerate.h
peer soxr soxr soxr.h
peer speexdsp speexdsp speex/speex_resampler.h
mkdir -p "$target/peers"
cc -std=c11 -Wall -Wextra -Werror -O2 -ffp-contract=off -Iinclude "${sources[@]}" "$archive" "${flags[@]}" -lm -o "$target/peers/peers"
exec "$target/peers/peers" "$@"
