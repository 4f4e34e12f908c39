#!/usr/bin/env bash
# Builds the archive that a host links, target/staticlib/libpesukoymi.a, from the static library pesukoymi_c.
set -euo pipefail
cd "$(dirname "$0")/.."

(cd crates/pesukoymi_c && rt lib >/dev/null)
mkdir -p target/staticlib
cp crates/pesukoymi_c/out/libpesukoymi_c.a target/staticlib/libpesukoymi.a
