#!/usr/bin/env bash
# Leaves in target/python the package gauge_line with its shared object, which is the archive linked as one, and the version. GAUGE_ARCHIVE names another archive to link.
set -euo pipefail
. "$(dirname "$0")/../host/common.sh"
to=$target/python/gauge_line

need cc "a C compiler links the shared object"
archive=$(host/archive.sh)
rm -rf "$to"
mkdir -p "$to"
cp python/gauge_line/*.py python/gauge_line/py.typed VERSION "$to/"
cc -shared -Wl,--whole-archive "$archive" -Wl,--no-whole-archive -Wl,-z,defs,-z,text -o "$to/libgauge_line.so"
echo "$(shown "$to")  the package for Python: docs/python.md"
