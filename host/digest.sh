#!/usr/bin/env bash
# digest.sh [CRATE]: prints the digest of all that a crate is proved of, else that of the archive's crate, gauge_line.
set -euo pipefail
. "$(dirname "$0")/common.sh"
need_rt
. host/crates.sh
digest_of "${1:-gauge_line}"
