#!/usr/bin/env bash
# When the archive is proved again and when not, what GAUGE_ARCHIVE and GAUGE_TARGET mean, and what is said of another kit or a missing tool. In a tree of its own, with a stand-in for rt.
set -euo pipefail
. "$(dirname "$0")/../../host/common.sh"
. tests/build/expect.sh
scratch=$(mktemp -d)
trap 'rm -rf "$scratch"' EXIT
unset GAUGE_ARCHIVE GAUGE_TARGET GAUGE_SKIPPED
tree=$scratch/tree
export KIT=$scratch/kit COUNT=$scratch/count

# The tree has the scripts and four crates; the kit a clang, a stand-in for its compiler and a name; bin the stand-in for rt and what the scripts call.
set_up() {
    local tool tools=$KIT/toolchain/bin
    mkdir -p "$tree/tests" "$tree/crates/gauge_line/src" "$tree/crates/low/proofs" "$tree/crates/low/must-fail" "$tree/crates/deep/specs" "$tree/crates/other/src" "$tools" "$KIT/bin" "$scratch/bin"
    cp -r host "$tree/"
    cp tests/kit.txt "$tree/tests/"
    cp tests/kit.txt "$KIT/KIT-ID"
    ln -s /bin/true "$tools/clang"
    cp tests/build/rattle "$KIT/bin/"
    printf 'deep:\nlow: deep std\ngauge_line staticlib: low\nother: low\n' >"$tree/crates.txt"
    echo code >"$tree/crates/gauge_line/src/lib.rt"
    echo proof >"$tree/crates/low/proofs/Lib.antt"
    echo definition >"$tree/crates/deep/specs/Lib.antt"
    touch "$KIT/START-HERE.md" "$COUNT"
    cp tests/build/rt "$scratch/bin/rt"
    for tool in env bash sh awk cat chmod cp cut dirname find grep head ln mkdir mktemp realpath rm sed sha256sum sort tail tee xargs; do
        ln -s "$(type -P "$tool")" "$scratch/bin/$tool"
    done
}

# in_tree COMMAND..: from another folder, with the tools of bin alone.
in_tree() {
    (cd / && PATH=$scratch/bin "$@")
}

# proved TIMES WHY: asking for the archive once more, it has been proved so often in all.
proved() {
    in_tree "$tree/host/archive.sh" >/dev/null 2>&1 || stop "build: no archive: $2"
    [[ $(wc -l <"$COUNT") -eq $1 ]] || stop "build: proved $(wc -l <"$COUNT") times, not $1: $2"
}

set_up
proved 1 "at first"
proved 1 "nothing has changed"
find "$tree/crates" -exec touch -d '2001-01-01' {} +
proved 1 "dates are older"
find "$tree" -exec touch {} +
proved 1 "dates are newer"
touch "$tree/crates/low/must-fail/one.edit"
proved 1 "an edit is no source"
touch "$tree/crates/other/src/lib.rt"
sed -i 's/^other: low/other: deep/' "$tree/crates.txt"
proved 1 "another crate is no source"
echo 'proof ' >"$tree/crates/low/proofs/Lib.antt"
proved 2 "a proof has changed"
mv "$tree/crates/low/proofs/Lib.antt" "$tree/crates/low/proofs/Bil.antt"
proved 3 "a file has another name"
rm "$tree/crates/low/proofs/Bil.antt"
proved 4 "a file is gone"
echo more >>"$tree/target/staticlib/libgauge_line.a"
proved 5 "the archive is not what was made"
rm "$tree/target/staticlib/module.bc"
proved 6 "the module is gone"
sed -i 's/^low: deep std/low: deep io/' "$tree/crates.txt"
proved 7 "a crate depends on another"
echo another >>"$tree/crates/deep/specs/Lib.antt"
proved 8 "a crate below has changed, that only another one names"
[[ $(tail -n 1 "$COUNT") == kept ]] || stop "build: the archive is not made over what rt kept"
in_tree "$tree/host/left_by_ci.sh" note
echo more >>"$tree/crates/gauge_line/src/lib.rt"
proved 9 "the crate itself has changed"
[[ $(tail -n 1 "$COUNT") == left ]] || stop "build: the archive is not made of what rt ci left, where it left it"
echo yet another >>"$tree/crates/low/proofs/Lib.antt"
proved 10 "a crate that rt ci had left has changed"
[[ $(tail -n 1 "$COUNT") == kept ]] || stop "build: the archive is made of what rt ci left of other sources"
echo "another kit" >"$KIT/KIT-ID"
proved 11 "the kit has changed"
expect "this is \"another kit\", tests/kit.txt names \"$(<tests/kit.txt)\"" in_tree "$tree/host/archive.sh"
cp "$tree/tests/kit.txt" "$KIT/KIT-ID"
proved 12 "the kit is the one before"
echo "# more" >>"$tree/host/prove.sh"
proved 13 "the script that makes it has changed"

touch "$tree/named.a"
expect "$tree/named.a" in_tree env GAUGE_ARCHIVE=named.a "$tree/host/archive.sh"
expect "$tree/target/staticlib/libgauge_line.a" in_tree env GAUGE_ARCHIVE= "$tree/host/archive.sh"
expect_line "GAUGE_ARCHIVE: no file missing.a (a relative name begins at the top of the repository)" in_tree env GAUGE_ARCHIVE=missing.a "$tree/host/archive.sh"

rm -rf "$tree/target"
expect "$scratch/out/staticlib/libgauge_line.a" in_tree env GAUGE_TARGET="$scratch/out" "$tree/host/archive.sh"
expect "$tree/out/staticlib/libgauge_line.a" in_tree env GAUGE_TARGET=out "$tree/host/archive.sh"
[[ ! -e $tree/target ]] || stop "build: target/ was made beside GAUGE_TARGET"

rm "$scratch/bin/rt"
expect_line "no rt on the PATH: the Rattle kit proves the archive" in_tree "$tree/host/archive.sh"
expect_line "no cargo on the PATH: rustc and cargo build the tools and the tests" in_tree "$tree/host/build.sh"
ln -s /bin/true "$scratch/bin/cargo"
expect_line "no cc on the PATH: a C compiler links what rustc builds" in_tree "$tree/host/build.sh"
echo "build: the archive is proved where its sources, the kit, the script that makes it or it have changed, and else not"
