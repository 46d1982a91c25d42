#!/usr/bin/env bash
# The page in headless Chromium: what a script clicks, drops, types and saves there is compared with what `gauge` prints. Skipped where chromium or node is missing.
set -euo pipefail
. "$(dirname "$0")/../../host/common.sh"

missing=$(for tool in node chromium; do command -v "$tool" >/dev/null || echo "$tool"; done | xargs)
if [[ -n $missing ]]; then
    skip page "not installed: $missing"
    exit 0
fi
host/build.sh >/dev/null
host/page/build.sh
node tests/page/test.mjs "$target"
