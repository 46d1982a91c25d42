#!/usr/bin/env bash
# Prints the path of the archive that callers link: the one that GAUGE_ARCHIVE names, else the proved one. That one is trusted by digests: of its sources, the kit and the script that makes it, and of itself.
# Where one differs it is proved again.
set -euo pipefail
. "$(dirname "$0")/common.sh"

if [[ -n ${GAUGE_ARCHIVE:-} ]]; then
    [[ -f $GAUGE_ARCHIVE ]] || stop "GAUGE_ARCHIVE: no file $GAUGE_ARCHIVE (a relative name begins at the top of the repository)"
    realpath "$GAUGE_ARCHIVE"
    exit
fi
host/kit.sh
made=$target/staticlib/gauge_line.digest
if ! { [[ -f $made && $(head -n 1 "$made") == "$(made_of)" ]] &&
    (cd "$target/staticlib" && tail -n +2 "$made" | sha256sum --check --status --strict); }; then
    host/prove.sh
fi
echo "$target/staticlib/libgauge_line.a"
