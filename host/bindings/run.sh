#!/usr/bin/env bash
# Prints what C, Rust and Python see of the archive from what the crates declare, into the tracked files; with --check says where they differ from that and fails.
set -euo pipefail
export LC_ALL=C
cd "$(dirname "$0")/../.."

CARGO_TARGET_DIR=${GAUGE_TARGET:-target}/host/cargo \
    cargo run --offline --quiet --manifest-path host/bindings/Cargo.toml -- "$@"
