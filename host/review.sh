#!/usr/bin/env bash
# For a reviewer, in ten minutes with the archive made: what the archive is made of, 01's readings as it answers them, and three mistakes put into a copy of the crate integer, each of which
# the prover has to refuse.
set -euo pipefail
. "$(dirname "$0")/common.sh"

crate=integer
edits=(integrator_holds_at_the_top moving_sums_of_holding_integrators state_changed_on_refusal)

# changes FILE: the replacements that the edit has.
changes() {
    local line file=''
    while IFS= read -r line; do
        case $line in
        'file: '*) file=crates/$crate/${line#file: } ;;
        'old: '*) printf '    in %s\n    - %s\n' "$file" "${line#old: }" ;;
        'new: '*) printf '    + %s\n' "${line#new: }" ;;
        esac
    done <"$1"
}

# refused NAME: what the edit by this name changes, and what came of it.
refused() {
    local edit said log=$target/edits/$crate/$1.log
    edit=$(find "crates/$crate/must-fail" "crates/$crate/edits" -name "$1.edit")
    echo "$1: $(sed -n '1s/^# //p' "$edit")"
    changes "$edit"
    said=$(grep "^$crate/$1 refused" "$tried")
    said=${said#*refused (}
    echo "    refused after ${said%%)*}, $(grep -cE '^fn .*: (no proof|not proved)' "$log") functions without a proof; the first error:"
    echo "    ${said#*): }"
}

archive=$(GAUGE_ARCHIVE='' host/archive.sh)
echo "1. The archive: $(shown "$archive"), $(wc -c <"$archive") bytes, SHA-256 $(sha256sum "$archive" | cut -c 1-64)"
echo "   proved of sources with the digest $(host/digest.sh)"
echo "   by the kit $(rt version)"
grep '^logic=' "$target/staticlib.log" | tail -n 1 | sed 's/^/   what the kit said: /'
echo "   exports $(nm -g --defined-only "$archive" | grep -c ' T ') functions; wants $(nm -u "$archive" | awk 'NF == 2 { print $2 }' | sort -u | xargs)"
echo
echo "2. 01's readings, by a program over the same crates:"
host/readings.sh | sed 's/^/   /'
echo
echo "3. Three edits of crates/$crate, each in a copy of it: $(shown "$target/edits/$crate")"
tried=$(mktemp)
trap 'rm -f "$tried"' EXIT
tests/edits "$crate" "${edits[@]}" >"$tried" || stop "review: not each edit was refused: $(<"$tried")"
echo "   as it stands: $(grep '^logic=' "$target/edits/$crate/clean.log" | tail -n 1)"
for edit in "${edits[@]}"; do
    refused "$edit"
done
echo "review: the archive, the readings and ${#edits[@]} edits, in $SECONDS s"
