#!/usr/bin/env bash
# compare.sh EXPECTED PRINTED: fails where a machine did not print what x86-64 prints, and shows the first lines that differ. The program prints every NaN as one word, so nothing is left out here.
set -euo pipefail
export LC_ALL=C
cmp -s "$1" "$2" && [[ -s $1 ]] && exit
diff "$1" "$2" | head -n 10 | cut -c 1-200 >&2
exit 1
