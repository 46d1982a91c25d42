#!/usr/bin/env bash
# left_by_ci.sh note: right behind `rt ci`, notes the libraries and programs that it left in crates/NAME/out, each with the digest of its sources.
# left_by_ci.sh below CRATE.. | of CRATE..: whether the libraries below the crates, or what was made of them themselves, are those, of today's sources. `rt` takes none of them for its own and would
# prove them again; who asks here need not.
set -euo pipefail
. "$(dirname "$0")/common.sh"
need_rt
. host/crates.sh
noted=$target/left_by_ci

# made CRATE: the file that stands for what was made of it: of a library the one that holds the sums of its others.
made() {
    if [[ -f crates/$1/src/main.rt ]]; then
        echo "crates/$1/out/$1"
    else
        echo "$(rlib "$1")/format"
    fi
}

# line CRATE: what is noted of it. Nothing of a library that rt counts as its own, by the file stamp.
line() {
    local file
    file=$(made "$1")
    [[ -f $file && ! -e crates/$1/out/rlib/stamp ]] || return 0
    echo "$1 $(digest_of "$1") $(sha256sum <"$file" | cut -c 1-64)"
}

case $1 in
note)
    mkdir -p "$target"
    for name in $(listed | sed 's/:.*//'); do
        line "$name"
    done >"$noted"
    exit
    ;;
below) names=$(all_below "${@:2}") ;;
of) names=${*:2} ;;
*) stop "left_by_ci: $1 is none of note, below, of" ;;
esac
[[ -f $noted ]] || exit 1
for name in $names; do
    said=$(line "$name")
    [[ -n $said ]] && grep -qFx "$said" "$noted" || exit 1
done
