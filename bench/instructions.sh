#!/usr/bin/env bash
# Counts instructions with callgrind: each side of each case runs once and three times, and half the difference is one run without its set-up. --only SUBSTRING restricts the cases.
set -euo pipefail
export LC_ALL=C
cd "$(dirname "$0")/.."

if ! command -v valgrind >/dev/null; then
    echo 'valgrind is not installed' >&2
    exit 1
fi

bench=${GAUGE_TARGET:-target}/bench/release/bench
log=$(mktemp)
trap 'rm -f "$log"' EXIT

# instructions CASE SIDE REPEAT: prints samples of one run, what a sample is, and the instructions of all.
instructions() {
    valgrind --tool=callgrind --callgrind-out-file=/dev/null --log-file="$log" \
        "$bench" --case "$1" --side "$2" --repeat "$3" | tr '\n' ' '
    awk '/Collected/ { print $NF }' "$log"
}

# per_sample CASE SIDE
per_sample() {
    local samples unit one three
    read -r samples unit one < <(instructions "$1" "$2" 1)
    read -r samples unit three < <(instructions "$1" "$2" 3)
    awk -v one="$one" -v three="$three" -v samples="$samples" -v unit="$unit" \
        'BEGIN { printf "%.2f %s\n", (three - one) / 2 / samples, unit }'
}

printf '5. Instructions per sample, by callgrind\n\n'
printf 'Blocks of 4096 for converters, one piece of 65536 for lines.\n\n'
printf '%-52s%-8s%10s%10s%10s\n' case sample ours Rust ours/Rust
"$bench" --list "$@" | while read -r case; do
    read -r ours unit < <(per_sample "$case" ours)
    read -r rust unit < <(per_sample "$case" rust)
    awk -v name="$case" -v unit="$unit" -v ours="$ours" -v rust="$rust" \
        'BEGIN { printf "%-52s%-8s%10.2f%10.2f%10.2f\n", name, unit, ours, rust, ours / rust }'
done
