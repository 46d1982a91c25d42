#!/usr/bin/env bash
# Installs the packages of tests/packages.txt that are missing, where it may: as root, with apt-get at hand. Fails nothing: the gate goes on without them and names what it left out.
set -euo pipefail
export LC_ALL=C DEBIAN_FRONTEND=noninteractive
cd "$(dirname "$0")/.."

# missing: the packages that are not installed.
missing() {
    local package
    while read -r package; do
        [[ $(dpkg-query -W -f '${db:Status-Status}' "$package" 2>/dev/null) == installed ]] || echo "$package"
    done < <(sed -e 's/#.*//' -e 's/ *$//' -e '/^$/d' tests/packages.txt)
}

# install PACKAGES: quietly, and with no wait for a network that is not there.
install() {
    timeout 900 apt-get install -y -qq --no-install-recommends -o Acquire::Retries=1 -o DPkg::Lock::Timeout=120 "$@" >/dev/null 2>&1
}

mapfile -t wanted < <(missing)
[[ ${#wanted[@]} -gt 0 ]] || exit 0
if [[ $(id -u) -ne 0 ]] || ! command -v apt-get >/dev/null; then
    echo "packages: may not install ${wanted[*]}"
    exit 0
fi
timeout 120 apt-get update -qq -o Acquire::Retries=1 >/dev/null 2>&1 || true
# One that can't be had is no reason to do without the others.
if ! install "${wanted[@]}"; then
    for package in "${wanted[@]}"; do
        install "$package" || true
    done
fi
mapfile -t left < <(missing)
echo "packages: wanted ${wanted[*]}; not to be had: ${left[*]:-none}"
