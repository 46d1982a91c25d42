#!/usr/bin/env bash
# Builds target/oracle/oracle with rustc alone: the unchanged Rust as a crate of its own, then the program over it and over the archive.
# GAUGE_ARCHIVE names another archive to link.
set -euo pipefail
. "$(dirname "$0")/../../host/common.sh"

from=tests/oracle
to=$target/oracle

need_cargo
(cd "$from/rust" && sha256sum --check --quiet SHA256SUMS)

mkdir -p "$to/embedded_dsp"
cp "$from/rust/types.rs" "$from/rust/pipeline.rs" "$to/embedded_dsp/"
cat "$from/rust/resampling.rs" "$from/accessors.rs" >"$to/embedded_dsp/resampling.rs"
printf 'pub mod pipeline;\npub mod resampling;\npub mod types;\n' >"$to/embedded_dsp/lib.rs"

# With overflow checks a call that the Rust does not define stops the oracle.
flags=(--edition 2024 -C overflow-checks=on)

# The crates with the Rust in them are built again only where they, this script or the compiler have changed.
now=$(rustc --version && sha256sum "$to"/embedded_dsp/*.rs "$from/resamplers.rs" "$from/filters.rs" "$from/build.sh")
if [ "$now" != "$(cat "$to/built" 2>/dev/null)" ]; then
    rustc "${flags[@]}" -C opt-level=3 --crate-name embedded_dsp --crate-type rlib --cap-lints allow \
        --cfg 'feature="pipeline"' -o "$to/libembedded_dsp.rlib" "$to/embedded_dsp/lib.rs"
    # Smaller code: there are a thousand pairs of P and T.
    rustc "${flags[@]}" -C opt-level=s --crate-name resamplers --crate-type rlib \
        --extern "embedded_dsp=$to/libembedded_dsp.rlib" \
        -o "$to/libresamplers.rlib" "$from/resamplers.rs"
    # As small for the same reason: four kinds, 23 lengths and five chunks.
    rustc "${flags[@]}" -C opt-level=s --crate-name filters --crate-type rlib \
        --extern "embedded_dsp=$to/libembedded_dsp.rlib" \
        -o "$to/libfilters.rlib" "$from/filters.rs"
    echo "$now" >"$to/built"
fi

archive=$(host/archive.sh)

mkdir -p "$to/gauge_raw"
cp host/gauge-line/src/raw.rs host/gauge-line/src/limits.rs "$to/gauge_raw/"
printf 'pub mod limits;\nmod raw;\npub use raw::*;\n' >"$to/gauge_raw/lib.rs"
rustc --edition 2024 -O --crate-name gauge_raw --crate-type rlib \
    -o "$to/libgauge_raw.rlib" "$to/gauge_raw/lib.rs"
rustc "${flags[@]}" -C opt-level=3 --crate-name oracle -L "dependency=$to" \
    --extern "embedded_dsp=$to/libembedded_dsp.rlib" \
    --extern "resamplers=$to/libresamplers.rlib" \
    --extern "filters=$to/libfilters.rlib" \
    --extern "gauge_raw=$to/libgauge_raw.rlib" \
    -C link-arg="$archive" -o "$to/oracle" "$from/src/main.rs"
