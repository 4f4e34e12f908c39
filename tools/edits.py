#!/usr/bin/env python3
"""Prints each must-fail and further edit whose file is gone, or whose `old:` text does not stand exactly once in it. Run at the top."""
import glob
import os
import sys


def faults(path):
    """What is wrong with an edit; later pairs apply to what the earlier ones made."""
    named, old, pairs, texts = None, "", 0, {}
    for line in open(path, encoding="utf-8").read().split("\n"):
        word, _, rest = line.partition(":")
        rest = rest[1:] if rest.startswith(" ") else rest
        if word == "file":
            named = os.path.join(os.path.dirname(os.path.dirname(path)), rest)
            if not os.path.exists(named):
                return ["no file " + rest]
            texts.setdefault(named, open(named, encoding="utf-8").read())
        elif word == "old":
            old = rest
        elif word == "new":
            pairs += 1
            stands = texts.get(named, "").count(old) if old else 0
            if stands != 1:
                return [f"stands {stands} times: {old}"]
            texts[named] = texts[named].replace(old, rest)
    return [] if pairs else ["no pair of old: and new:"]


edits = sorted(glob.glob("crates/*/must-fail/*.edit") + glob.glob("crates/*/further/*.edit"))
bad = [(path, fault) for path in edits for fault in faults(path)]
for path, fault in bad:
    print(f"{path}: {fault}")
print(f"edits: {len(edits)}, of which {len(bad)} do not fit")
sys.exit(1 if bad else 0)
