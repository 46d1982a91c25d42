#!/usr/bin/env bash
# Builds target/bench/release/bench: the program over the unchanged Rust and the crate gauge-line. GAUGE_ARCHIVE names another archive to link.
set -euo pipefail
export LC_ALL=C
cd "$(dirname "$0")/.."

(cd tests/oracle/rust && sha256sum --check --quiet SHA256SUMS)
GAUGE_ARCHIVE=$(host/archive.sh)
export GAUGE_ARCHIVE
CARGO_TARGET_DIR=${GAUGE_TARGET:-target}/bench cargo build --offline --quiet --release --manifest-path bench/Cargo.toml
