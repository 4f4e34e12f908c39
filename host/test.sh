#!/bin/bash
# All tests of this folder. Quiet where they pass; fails where one does. What needs the Rust's source, the sample answers or the proved
# library's archive is left out, with a line that says so, where that is not there.
set -euo pipefail

# Folders are named from where the caller stands.
for variable in PESUKOYMI_RUST PESUKOYMI_VECTORS PESUKOYMI_ARCHIVE; do
    if [ -n "${!variable:-}" ]; then export "$variable=$(realpath -m "${!variable}")"; fi
done

cd "$(dirname "$0")"
./install.sh

if [ -f "${PESUKOYMI_RUST:-../../shared/docs/src}/typing.rs" ]; then
    packages=(-p model -p oracle -p compare)
else
    packages=(-p model -p compare --no-default-features)
    echo "left out: the comparison with the Rust, whose source is not beside the repository"
fi

log=$(mktemp)
trap 'rm -f "$log"' EXIT
if ! cargo test --release --offline -q --no-fail-fast "${packages[@]}" >"$log" 2>&1; then
    cat "$log"
    echo "host tests failed"
    exit 1
fi
grep '^left out' "$log" || true
echo "host: $(awk '/^test result/ { passed += $4 } END { print passed }' "$log") tests passed"
