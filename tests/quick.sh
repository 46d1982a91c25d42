#!/usr/bin/env bash
# What needs no proof and no archive: layouts, lints and the version. What is not installed is skipped by name.
set -euo pipefail
. "$(dirname "$0")/../host/common.sh"

# tracked PATTERNS: the files of the repository by these names, one a line.
tracked() {
    git ls-files --cached --others --exclude-standard "$@"
}

# have TOOL: whether it is installed; where it is not, what it checks is skipped.
have() {
    command -v "$1" >/dev/null || { skip "$1" "not installed" && false; }
}

# The crates that a user meets and the header say the version of the file VERSION.
one_version() {
    local version file
    version=$(<VERSION)
    while read -r file; do
        grep -qx "version = \"$version\"" "$file" || stop "version: $file does not say $version, as VERSION does"
    done < <(tracked 'host/*/Cargo.toml' 'examples/*/Cargo.toml')
    grep -qx "#define GAUGE_VERSION \"$version\"" include/gauge_line.h || stop "version: include/gauge_line.h does not say $version, as VERSION does"
    echo "quick: version $version"
}

# make help prints each command with how long it takes.
commands_told() {
    local names name
    read -ra names < <(sed -n 's/^\.PHONY: //p' Makefile)
    for name in "${names[@]}"; do
        grep -q "^$name: ## .* | ." Makefile || stop "quick: make help does not tell of $name"
    done
}

# By name, or by what the first line says.
shell_scripts() {
    have shellcheck || return 0
    { tracked '*.sh' && tracked | xargs awk 'FNR == 1 && /^#!.*sh$/ { print FILENAME } { nextfile }'; } | sort -u | xargs shellcheck
    echo "quick: shell scripts"
}

# `rt fmt` writes; this only looks, as `rt ci` does once more.
rattle_layout() {
    local files
    mapfile -t files < <(tracked 'crates/*.rt' 'crates/*.antt')
    "$(dirname "$(rt doc)")/bin/rattle" fmt --check "${files[@]}" || stop "quick: the files named above are not in the layout: run rt fmt in their crates' folders"
    echo "quick: layout of Rattle"
}

# What rt ci turns back before it proves anything: a source that is of no crate, a link.
nothing_stray() {
    local crates file
    crates=$(sed -n -e 's/#.*//' -e 's/^ *\([A-Za-z_0-9]*\)[^:]*:.*/\1/p' crates.txt | paste -sd '|')
    while read -r file; do
        [[ $file =~ ^crates/($crates)/(src/.*\.rt|(specs|proofs)/.*\.antt)$ ]] || stop "quick: $file is of no crate"
    done < <(tracked '*.rt' '*.antt')
    file=$(git ls-files -s | sed -n 's/^120000 [^\t]*\t//p' | head -n 1)
    [[ -z $file ]] || stop "quick: $file is a link"
}

c_layout() {
    have clang-format || return 0
    tracked '*.c' '*.h' | xargs clang-format --dry-run -Werror
    echo "quick: layout of C"
}

# The crates, and the programs that rustc builds without cargo.
rust_layout() {
    local crate
    while read -r crate; do
        cargo fmt --check --manifest-path "$crate"
    done < <(tracked '*Cargo.toml')
    rustfmt --check --edition 2024 bench/src/main.rs tests/oracle/src/main.rs tests/oracle/resamplers.rs tests/oracle/filters.rs
    echo "quick: layout of Rust"
}

# clippy links nothing, so an archive with nothing in it does.
rust_lints() {
    local crate nothing=$target/quick/libgauge_line.a
    cargo clippy --version >/dev/null 2>&1 || { skip clippy "not installed" && return; }
    mkdir -p "$target/quick"
    printf '!<arch>\n' >"$nothing"
    while read -r crate; do
        GAUGE_ARCHIVE=$nothing CARGO_TARGET_DIR=$target/quick/cargo \
            cargo clippy --offline --quiet --all-targets --no-deps --manifest-path "$crate" -- -D warnings
    done < <(tracked '*Cargo.toml')
    echo "quick: lints of Rust"
}

need_rt
need_cargo
commands_told
one_version
nothing_stray
rattle_layout
shell_scripts
c_layout
rust_layout
rust_lints
