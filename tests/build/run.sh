#!/usr/bin/env bash
# How it is built: when the archive is proved again, what the Rust crate links, the C example with another C library, what is installed, the packages, and other locales.
set -euo pipefail
. "$(dirname "$0")/../../host/common.sh"

need_cargo
tests/build/archive.sh
tests/build/rust.sh
tests/build/newlib.sh
tests/build/install.sh
tests/build/packages.sh
tests/build/locales.sh
