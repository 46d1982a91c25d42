#!/usr/bin/env bash
# install.sh PREFIX DESTDIR: puts archive, headers, tool, pkg-config and CMake files below PREFIX, all below DESTDIR where that is not empty. What is installed finds itself from its own
# place, so that it can be moved. PREFIX begins at the root.
set -euo pipefail
. "$(dirname "$0")/../host/common.sh"

[[ $1 == /* ]] || stop "PREFIX: $1 does not begin at the root"
to=$2$1
host/build.sh >/dev/null
archive=$(host/archive.sh)
version=$(<VERSION)

# put FILE PLACE: one file, for all to read.
put() {
    install -D -m 644 "$1" "$to/$2"
}

# filled FILE PLACE: the same with the version in it.
filled() {
    install -d "$(dirname "$to/$2")"
    sed "s/@VERSION@/$version/" "$1" >"$to/$2"
    chmod 644 "$to/$2"
}

put "$archive" lib/libgauge_line.a
for header in include/*.h; do
    put "$header" "include/gauge_line/${header##*/}"
done
install -D -m 755 "$target/host/cargo/release/gauge" "$to/bin/gauge"
filled packaging/gauge_line.pc.in lib/pkgconfig/gauge_line.pc
put packaging/gauge_line-config.cmake lib/cmake/gauge_line/gauge_line-config.cmake
filled packaging/gauge_line-config-version.cmake.in lib/cmake/gauge_line/gauge_line-config-version.cmake
for text in LICENSE LICENSE-APACHE LICENSE-MIT NOTICE docs/c.md; do
    put "$text" "share/doc/gauge_line/${text##*/}"
done
echo "gauge_line $version in $to: docs/c.md says how a program links it"
