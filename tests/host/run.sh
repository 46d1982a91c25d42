#!/usr/bin/env bash
# The interfaces for C, Rust and Python, the fitter's tool, the demo and the pages, checked; arguments name some of the checks, as cargo test takes them. GAUGE_ARCHIVE names another archive to link,
# GAUGE_TARGET another folder than target/ for what is built.
set -euo pipefail
export LC_ALL=C
cd "$(dirname "$0")/../.."

GAUGE_ARCHIVE=$(host/archive.sh)
export GAUGE_ARCHIVE
RUSTFLAGS="-D warnings" CARGO_TARGET_DIR=${GAUGE_TARGET:-target}/host/tests \
    cargo test --offline --quiet --manifest-path tests/host/Cargo.toml -- "$@"
