#!/usr/bin/env bash
# Proves the program readings, unless it is proved, and runs it: it prints 01's readings as the converters answer them.
set -euo pipefail
. "$(dirname "$0")/common.sh"

readings=$(host/program.sh readings)
"$readings"
