#!/usr/bin/env bash
# Runs the main job on an example image: the check of a program that applies U to a register nobody declared.
set -eu
cd "$(dirname "$0")"
if ! grep -q '^admit:' crates.txt; then
    echo "The program is not there yet: this proves the crates that are."
    exec rt all check
fi
told=$(mktemp)
trap 'rm -f "$told"' EXIT
# The first time the program, and what it stands on, is proved and built.
program=crates/admit/out/admit
if [ ! -x "$program" ]; then
    (cd crates/admit && rt run </dev/null) >"$told" 2>&1 || { tail -n 20 "$told"; exit 1; }
fi
for image in examples/*.image; do
    "$program" <"$image" >"$told"
    printf '%s: %s\n' "$(basename "$image")" "$(head -n 1 "$told")"
    tail -n +2 "$told" | od -An -tx1 -w32
done
