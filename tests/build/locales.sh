#!/usr/bin/env bash
# Under German and Turkish locales, where a decimal point is a comma and I is not the capital of i, the scripts do and print what they do under C.
set -euo pipefail
. "$(dirname "$0")/../../host/common.sh"
scratch=$(mktemp -d)
trap 'rm -rf "$scratch"' EXIT
if [[ ! -e /usr/share/i18n/locales/tr_TR ]] || ! command -v localedef >/dev/null; then
    skip "scripts under other locales" "not installed: locales"
    exit
fi

# printed: what depends on how text is read and sorted.
printed() {
    host/digest.sh
    targets/firmware.sh
    MAKEFLAGS='' make --no-print-directory help
    tests/build/archive.sh
}

printed >"$scratch/C.txt"
export LOCPATH=$scratch
for locale in de_DE tr_TR; do
    # Only warnings: the locale is made, in a folder of its own.
    localedef -i "$locale" -f UTF-8 "$scratch/$locale.UTF-8" || [[ -d $scratch/$locale.UTF-8 ]]
    export LC_ALL=$locale.UTF-8
    [[ $(locale decimal_point) == , ]]
    printed >"$scratch/$locale.txt"
    cmp "$scratch/C.txt" "$scratch/$locale.txt"
done
echo "build: the same under de_DE and tr_TR"
