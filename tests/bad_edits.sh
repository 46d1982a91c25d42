#!/usr/bin/env bash
# bad_edits.sh LOG: fails where `rt ci` passed must-fail edits that it could not apply, compile or read: it only counts them, as bad. It says so on its line `rt: ok`, which has to be there.
set -euo pipefail
. "$(dirname "$0")/../host/common.sh"

line=$(grep '^rt: ok; ' "$1" | tail -n 1) || stop "gate: rt ci did not say rt: ok"
[[ ! $line =~ \ must-fail\ edits:\ [^\;]*,\ ([0-9]+)\ bad\; ]] || stop "gate: rt ci says of ${BASH_REMATCH[1]} must-fail edits that they are bad: mend them"
