#!/usr/bin/env bash
# damage.sh [REPLAY]: damages the stored list in each way that a list can be wrong, and sees the program say which record differs.
set -euo pipefail
. "$(dirname "$0")/../../host/common.sh"
replay=${1:-$(host/program.sh replay)}

list=crates/replay/stdin
damaged=$target/oracle/damaged
count=$(wc -l <"$list")
tries=0

# replayed: what `replay` writes of the damaged list.
replayed() {
    tries=$((tries + 1))
    said=$("$replay" <"$damaged")
}

# differs WHY RECORDS DIFFERENCES FIRST OPERATION: sees it say so.
differs() {
    local expected
    expected=$(printf '%s records, %s differences\nfirst difference: record %s, operation %s' "${@:2}")
    replayed
    [[ $said == "$expected" ]] || stop "replay, $1: it says '$said', not '$expected'"
}

# change RECORD PROGRAM: the list with one record changed, by awk. `flipped` makes another word of a word, by its lowest bit.
change() {
    awk -v record="$1" '
        function flipped(word) { return substr(word, 1, 7) substr("1032547698badcfe", index("0123456789abcdef", substr(word, 8)), 1) }
        NR == record || record == "every" { '"$2"' }
        { print }' "$list" >"$damaged"
}

# operation_of RECORD: its code.
operation_of() {
    awk -v record="$1" 'NR == record { print $2 }' "$list"
}

# The last word of a record is always an answer.
change every '$NF = flipped($NF)'
differs "an answer of every record" "$count" "$count" 1 "$(operation_of 1)"
for record in 1 $((count / 2)) "$count"; do
    operation=$(operation_of "$record")
    change "$record" '$NF = flipped($NF)'
    differs "an answer of record $record" "$count" 1 "$record" "$operation"
    change "$record" '$2 = "000000ff"'
    differs "the operation of record $record" "$count" 1 "$record" 000000ff
    change "$record" '$1 = sprintf("%08x", NF); $0 = $0 " 00000000"'
    differs "a word more in record $record" "$count" 1 "$record" "$operation"
    change "$record" '$1 = sprintf("%08x", NF - 2); NF -= 1'
    differs "a word less in record $record" "$count" 1 "$record" "$operation"
    # What is no record ends the run.
    change "$record" '$0 = "no record"'
    differs "text in place of record $record" "$record" 1 "$record" 00000000
    change "$record" '$2 = "0000000G"'
    differs "no digit in record $record" "$record" 1 "$record" 00000000
    change "$record" '$1 = "00030d41"'
    differs "too many words in record $record" "$record" 1 "$record" 00000000
    head -n "$record" "$list" | head -c -10 >"$damaged"
    differs "record $record cut short" "$record" 1 "$record" 00000000
done

# Some inputs may change and leave the answer as it is: of each operation a record has to differ. The tap table (55) has no input, and a line that is
# refused for its state (c3) stays so with other settings.
cut -d ' ' -f 2 "$list" | sort -u >"$target/oracle/operations"
while read -r operation; do
    [[ $operation != 00000055 && $operation != 000000c3 ]] || continue
    change every '$3 = flipped($3)'
    grep "^[^ ]* $operation " "$damaged" >"$damaged.some"
    mv "$damaged.some" "$damaged"
    replayed
    [[ $said == *"first difference: record "*", operation $operation" ]] || stop "replay, inputs of operation $operation: it says '$said'"
done <"$target/oracle/operations"
echo "replay: $tries damaged lists, a difference found in each"
