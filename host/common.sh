# shellcheck shell=bash disable=SC2034 # target is for those who source it
# What the scripts share; each sources it first. It goes to the top of the repository and has text read as bytes.
# GAUGE_TARGET names the folder for all that is built, else it is target/; GAUGE_ARCHIVE another archive to link, else it is the proved one. Either
# may be relative, which means to the top of the repository whatever the caller's folder is, and empty is the same as not set.
# What rt keeps of a proof stands in crates/NAME/out. In the checkout `rt ci` turns back links and every .rt or .antt file that is of no crate: a script that makes some makes them elsewhere.
set -euo pipefail
export LC_ALL=C
cd "$(dirname "${BASH_SOURCE[0]}")/.."
GAUGE_TARGET=$(realpath --canonicalize-missing "${GAUGE_TARGET:-target}")
export GAUGE_TARGET
target=$GAUGE_TARGET

# stop WHY: ends the script with one line.
stop() {
    echo "$1" >&2
    exit 1
}

# need TOOL WHY: stops where the tool is missing.
need() {
    command -v "$1" >/dev/null || stop "no $1 on the PATH: $2"
}

need_rt() {
    need rt "the Rattle kit proves the archive"
}

need_cargo() {
    need cargo "rustc and cargo build the tools and the tests"
    need cc "a C compiler links what rustc builds"
}

# skip NAME WHY: says what is left out, also in the file that GAUGE_SKIPPED names, which the gate prints at its end.
skip() {
    echo "skipped: $1: $2" | tee -a "${GAUGE_SKIPPED:-/dev/null}"
}

# shown PATH: the path as it is said, from the top of the repository where it lies below it.
shown() {
    realpath --canonicalize-missing --relative-base=. "$1"
}

# in_crate NAME WORDS: rt with these words, for the crate.
in_crate() {
    (cd "crates/$1" && rt "${@:2}")
}

# made_of: the digest of all that the archive is proved of, and that of the script that has it made.
made_of() {
    echo "$(host/digest.sh) $(sha256sum <host/prove.sh | cut -c 1-64)"
}
