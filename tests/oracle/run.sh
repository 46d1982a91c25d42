#!/usr/bin/env bash
# Compares the port with the unchanged Rust: the archive in one process with it, and the Rattle program `replay` over a list. Arguments: seeds of the former.
set -euo pipefail
. "$(dirname "$0")/../../host/common.sh"

oracle=$target/oracle/oracle
stored=(--seed 1 --cases 60000 --each 24)
listed=20000
compared=(--cases 300000 --samples 60000000)
[ "$#" -gt 0 ] || set -- 20261115 577215664 6180339887

tests/oracle/build.sh

# The stored list, which the gate replays, is what the oracle lists.
"$oracle" list "${stored[@]}" | cmp - crates/replay/stdin

# Nothing is proved again that has not changed.
replay=$(host/program.sh replay)

tests/oracle/damage.sh "$replay"

said=$("$oracle" list --seed 2 --cases "$listed" | "$replay") || true
echo "replay, seed 2: $said"
[ "$said" = "$listed records, 0 differences" ]

for seed in "$@"; do
    "$oracle" compare --seed "$seed" "${compared[@]}"
done
"$oracle" compare --seed "$1" --cases 1000000 --only tap_sheet
"$oracle" compare --seed "$1" --cases 300000 --only parked_line
"$oracle" compare --seed "$1" --cases 30000 --only parked_history
