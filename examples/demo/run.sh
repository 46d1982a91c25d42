#!/usr/bin/env bash
# Runs the demo; its files go to the directory that is given, else to target/demo. GAUGE_ARCHIVE names another archive to link.
set -euo pipefail
. "$(dirname "$0")/../../host/common.sh"

need_cargo
GAUGE_ARCHIVE=$(host/archive.sh)
export GAUGE_ARCHIVE CARGO_TARGET_DIR=$target/host/cargo

cargo run --offline --quiet --release --manifest-path examples/demo/Cargo.toml -- examples/demo/tail.settings "${1:-$(shown "$target/demo")}"
