#!/usr/bin/env bash
# Tries the further must-fail edits, crates/*/further: each costs a check of its crate, and test.sh has no time for all of them.
# With names of crates: theirs alone. Fails where one is not refused, or is bad.
set -euo pipefail
cd "$(dirname "$0")/.."

work=$(mktemp -d)
trap 'rm -rf "$work"' EXIT
tar -c --exclude='crates/*/out' --exclude='crates/*/must-fail' crates crates.txt | tar -x -C "$work"
[ ! -e HANDLES ] || cp HANDLES "$work"
cd "$work"
names=()
for folder in crates/*/further; do
    name=$(basename "$(dirname "$folder")")
    if [ $# -eq 0 ] || [[ " $* " == *" $name "* ]]; then
        mv "$folder" "crates/$name/must-fail"
        names+=("$name")
    fi
done
rt must-fail "${names[@]}"
