#!/usr/bin/env bash
# Builds the benchmark and prints its tables. --callgrind counts instructions instead; the other options are the program's own.
set -euo pipefail
export LC_ALL=C
cd "$(dirname "$0")/.."

bench/build.sh
if [[ ${1:-} == --callgrind ]]; then
    shift
    exec bench/instructions.sh "$@"
fi
exec "${GAUGE_TARGET:-target}/bench/release/bench" "$@"
