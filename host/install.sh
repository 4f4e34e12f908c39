#!/bin/bash
# Installs, by Debian package name, the two libraries that the Rust's type checker is compiled against. Quiet; does nothing where
# they are there.
set -euo pipefail

missing=()
for package in librust-petgraph-dev librust-thiserror-dev; do
    dpkg-query -W -f='${Status}' "$package" 2>/dev/null | grep -q 'install ok installed' || missing+=("$package")
done
[ ${#missing[@]} -eq 0 ] && exit 0

export DEBIAN_FRONTEND=noninteractive
log=$(mktemp)
if ! { apt-get update -qq && apt-get install -y -qq --no-install-recommends "${missing[@]}"; } >"$log" 2>&1; then
    cat "$log" >&2
    echo "could not install: ${missing[*]}" >&2
    exit 1
fi
rm -f "$log"
