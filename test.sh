#!/usr/bin/env bash
# Passes all tests: proves every crate and tries its must-fail edits (rt ci), holds the definitions to the sample answers, builds the
# archive, and runs the host's comparison with the Rust. The last line is rt ci's verdict, printed only where all of it passed.
set -euo pipefail
cd "$(dirname "$0")"

command -v python3 >/dev/null || { apt-get update -qq && apt-get install -y -qq python3 >/dev/null; }

log=$(mktemp)
trap 'rm -f "$log"' EXIT
if ! rt ci >"$log" 2>&1; then
    tail -n 60 "$log"
    exit 1
fi
ok=$(grep '^rt: ok' "$log" || true)
printf '%s\n' "$ok"
# rt ci passes an edit that it cannot apply or compile; here that is a fault, and so is a run that does not say how it went.
if [ -z "$ok" ] || grep -qE ', [1-9][0-9]* bad' <<<"$ok"; then
    grep -F 'BAD EDIT' "$log" || true
    exit 1
fi
verdict=$(tail -n 1 "$log")

python3 tools/edits.py
python3 tests/definitions.py
bash tests/archive.sh
bash host/test.sh

printf '%s\n' "$verdict"
