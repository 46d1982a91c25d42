#!/usr/bin/env bash
# Names the kit where it is another one than that of tests/kit.txt, and what to do. It stops nothing: what is proved is proved by the kit that is here.
set -euo pipefail
. "$(dirname "$0")/common.sh"

need_rt
here=$(rt version)
named=$(<tests/kit.txt)
[[ $here != "$named" ]] || exit 0
cat >&2 <<END
kit: this is "$here", tests/kit.txt names "$named"
kit: all is proved anew with the kit that is here. Where \`make test\` ends with 0 failed, put its line into tests/kit.txt; else install the kit named there
END
