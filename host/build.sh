#!/usr/bin/env bash
# Builds the tools over the archive and says where everything is. GAUGE_ARCHIVE names another archive to link.
set -euo pipefail
. "$(dirname "$0")/common.sh"

need_cargo
which="the proved archive"
[[ -z ${GAUGE_ARCHIVE:-} ]] || which="the archive that GAUGE_ARCHIVE names"
GAUGE_ARCHIVE=$(host/archive.sh)
export GAUGE_ARCHIVE CARGO_TARGET_DIR=$target/host/cargo
for crate in host/gauge examples/demo; do
    cargo build --offline --quiet --release --manifest-path "$crate/Cargo.toml"
done

built=$(shown "$CARGO_TARGET_DIR/release")
echo "$(shown "$GAUGE_ARCHIVE")  $which: docs/c.md and docs/rust.md say how to link it"
echo "$built/gauge  the fitter's tool: docs/gauge.md"
echo "$built/demo  what \`make run\` runs"
