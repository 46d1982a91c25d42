#!/usr/bin/env bash
# make install: a program outside of the tree finds what was installed, after it was moved, by pkg-config and by CMake, and prints what it should. Nothing lands beside DESTDIR and PREFIX.
set -euo pipefail
. "$(dirname "$0")/../../host/common.sh"
. tests/build/expect.sh
scratch=$(mktemp -d)
trap 'rm -rf "$scratch"' EXIT
top=$PWD
version=$(<VERSION)

# prints_levels PROGRAM: it prints what the example does.
prints_levels() {
    "$1" | diff "$top/examples/c/levels.txt" -
}

by_pkg_config() {
    command -v pkg-config >/dev/null || { skip "make install by pkg-config" "not installed: pkg-config" && return; }
    export PKG_CONFIG_PATH=$scratch/moved/lib/pkgconfig
    expect "$version" pkg-config --modversion gauge_line
    local words
    read -ra words < <(pkg-config --cflags --libs gauge_line)
    gcc -std=c99 "$scratch/mine/levels.c" "${words[@]}" -o "$scratch/mine/by_pkg_config"
    prints_levels "$scratch/mine/by_pkg_config"
    echo "build: installed, and found by pkg-config"
}

# configured VERSION: CMake looks for this version in a folder of its own.
configured() {
    sed "s/VERSION_WANTED/$1/" "$top/tests/build/CMakeLists.txt" >"$scratch/mine/CMakeLists.txt"
    cmake -S "$scratch/mine" -B "$scratch/mine/$1" -DCMAKE_PREFIX_PATH="$scratch/moved" >"$scratch/cmake.log" 2>&1
}

by_cmake() {
    command -v cmake >/dev/null || { skip "make install by CMake" "not installed: cmake" && return; }
    configured "$version" || stop "build: CMake does not find it: $(<"$scratch/cmake.log")"
    cmake --build "$scratch/mine/$version" >/dev/null
    prints_levels "$scratch/mine/$version/levels"
    ! configured 99.0 || stop "build: CMake finds version 99.0"
    echo "build: installed, and found by CMake"
}

MAKEFLAGS='' make --no-print-directory install PREFIX=/opt/gauge DESTDIR="$scratch/root" >/dev/null
[[ $(cd "$scratch/root" && echo ./* ./*/*) == "./opt ./opt/gauge" ]] || stop "build: more than PREFIX was installed to"
mv "$scratch/root/opt/gauge" "$scratch/moved"
mkdir "$scratch/mine"
cp examples/c/levels.c "$scratch/mine/"
cd "$scratch"
[[ -x moved/bin/gauge && -f moved/share/doc/gauge_line/LICENSE ]]
by_pkg_config
by_cmake
cd "$top"
expect_not "does not begin at the root" packaging/install.sh opt ''
