#!/usr/bin/env bash
# tests/packages.sh, with stand-ins for Debian's tools: it asks for what is missing, one package that can't be had does not cost the others, and where it may install nothing it goes on.
# And tests/packages.txt has every package that a machine of targets/ is skipped without.
set -euo pipefail
. "$(dirname "$0")/../../host/common.sh"
. tests/build/expect.sh
scratch=$(mktemp -d)
trap 'rm -rf "$scratch"' EXIT
installed=$scratch/installed
mkdir "$scratch/bin"

# stand_in TOOL TEXT: a script by this name, before all others.
stand_in() {
    printf '#!/bin/bash\n%s\n' "$2" >"$scratch/bin/$1"
    chmod +x "$scratch/bin/$1"
}

packages() {
    PATH=$scratch/bin:$PATH tests/packages.sh
}

# The packages are installed that the file names; installing adds to it, but for nodejs, which can't be had.
touch "$installed"
stand_in dpkg-query "grep -qx \"\${@: -1}\" $installed && echo installed"
stand_in apt-get "[[ \$1 == install && \" \$* \" != *' nodejs '* ]] && printf '%s\\n' \"\$@\" >>$installed"
stand_in id 'echo 1000'
expect "may not install clang-format shellcheck" packages
[[ ! -s $installed ]] || stop "build: packages were installed by one who is not root"
stand_in id 'echo 0'
expect "not to be had: nodejs" packages
grep -qx valgrind "$installed" || stop "build: valgrind was not installed"
echo nodejs >>"$installed"
[[ -z $(packages) ]] || stop "build: packages are wanted that are installed"

to=$scratch
. targets/machines.sh
for machine in "${machines[@]}"; do
    for package in $(PATH='' "${machine}_needs"); do
        grep -q "^$package " tests/packages.txt || stop "build: tests/packages.txt does not name $package, which $machine needs"
    done
done
echo "build: packages are installed where they may be"
