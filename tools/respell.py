#!/usr/bin/env python3
"""Brings this repository's own definitions and lemmas to the spelling of today's Rattle, after the kit's port.py: words in snake case
(`valueSize` and `value-low` become `value_size` and `value_low`), a lemma that would have its definition's name gets `_lem`.
Run once, at the top, on what port.py left. It turns specs/, proofs/, the clauses and comments of src/, and the names that stand between
backticks in README and docs/. Functions of src/, strings and must-fail edits keep their text."""
import glob
import re

TOKEN = r"[^\s(){}\[\].,;:«»\"`λ→×⊎∵!]+"
NAME = r"[^\s(){}\[\].,;:«»\"`λ→×⊎∵!=]+"
# Names that Rattle makes: a lemma's name never has these forms.
MADE = re.compile(r"invariant-|decreases-|μ-")
# Lemmas that would have their definition's name, whichever way they were spelled.
LEMMAS = {
    "number-of": "number_of_lem", "pass_all": "pass_all_lem", "too_wide": "too_wide_lem", "reg_in": "reg_in_lem", "reg_row": "reg_row_lem",
    "T-left": "or_left", "T-right": "or_right",
}


def snake(name):
    return re.sub(r"([a-z0-9])([A-Z])", lambda m: m.group(1) + "_" + m.group(2).lower(), name).replace("-", "_")


def texts():
    found = []
    for pattern in ("crates/*/specs/**/*.antt", "crates/*/proofs/**/*.antt"):
        found += sorted(glob.glob(pattern, recursive=True))
    return found


def declared():
    """The names that a line of specs/ or proofs/ declares, and which of them are fields of records."""
    names, fields = set(), set()
    for path in texts():
        in_record = False
        for line in open(path, encoding="utf-8"):
            if re.match(r"\s*(pub )?record ", line):
                in_record = True
            elif re.match(r"\S", line):
                in_record = False
            m = re.match(r"\s*(?:(?:abbrev|unfoldable|pub|data|record|ruleset)\s+)*(" + NAME + r"(?:\s+" + NAME + r")*)\s*(?:\(.*)?(?::|=)", line)
            if m and not re.match(r"\s*(use|module|let|infixl?r?)\b|\s*--", line):
                for name in m.group(1).split():
                    names.add(name)
                    if in_record and re.match(r"\s+pub ", line):
                        fields.add(name)
    return names, fields


def spelling(names):
    """Old spelling to new, of those that change; no two names fall together."""
    words = [n for n in names if re.match(r"\+?[a-z0-9]", n) and re.search(r"[a-z0-9][A-Z]|-", n) and not MADE.match(n)]
    new = {n: snake(n) for n in words if "-" not in n}
    taken = set(new.values())
    for n in words:
        if "-" in n:
            new[n] = snake(n) + ("_lem" if snake(n) in taken else "")
    new.update(LEMMAS)
    return new


def of_the_kit(text, crates):
    """The names that a file takes from a module of the kit: those stay."""
    kept = set()
    for m in re.finditer(r"use ([\w.+'∙·-]+)\.\{([^}]*)\}", text):
        path = m.group(1).split(".")
        if not (path[0] == "Rattle" and len(path) > 1 and path[1] in crates):
            kept |= {n.split(" as ")[0].strip() for n in m.group(2).split(",")}
    return kept


def respell_antt(text, new, fields, kept):
    new = {old: to for old, to in new.items() if old not in kept}

    def token(m):
        word, before = m.group(0), m.string[: m.start()]
        if word not in new and re.match(r"[a-z]", word) and re.search(r"[a-z0-9][A-Z]", word) and "-" not in word:
            return snake(word)
        if word not in new:
            return word
        # A path of the facts at a goal: its steps are named by Rattle, and only a record's field is ours.
        path = re.search(r"(?:^|[\s(,])([cwl](?:\.[^\s(){}\[\],;]+)*\.)$", before)
        if path and "-" in word and word not in fields:
            return word
        return new[word]

    out = []
    for line in text.split("\n"):
        code, dashes, comment = line, "", ""
        m = re.search(r"(^|\s)--(?=\s|$)", line)
        if m:
            code, dashes, comment = line[: m.start()], m.group(0), line[m.end():]
        out.append(re.sub(TOKEN, token, code) + dashes + respell_words(comment, new))
    return "\n".join(out)


def respell_words(text, new):
    """A comment: only names in camel case are surely names there."""
    def word(m):
        name = m.group(0)
        return snake(name)
    return re.sub(r"(?<![\w.])[a-z][a-z0-9]*(?:[A-Z][a-z0-9]*)+(?![\w])", word, text)


def respell_source(text, new, fields, kept):
    """A .rt file: clauses, ghost lines and comments; strings stay."""
    out = []
    for line in text.split("\n"):
        if re.match(r"\s*//", line):
            out.append(respell_words(line, new))
        elif re.match(r"\s*(ghost|requires|ensures)\b", line):
            out.append(respell_antt(line, new, fields, kept))
        else:
            out.append(line)
    return "\n".join(out)


def respell_page(text, new):
    def quoted(m):
        inner = m.group(1)
        if "/" in inner or " " in inner.strip() and not re.search(r"[a-z][A-Z]", inner):
            return m.group(0)
        inner = inner.replace("·", ".").replace("′", "'")
        return "`" + re.sub(r"[A-Za-z0-9_+'-]+", lambda w: new.get(w.group(0), w.group(0)) if re.search(r"[a-z0-9][A-Z]|-", w.group(0)) else w.group(0), inner) + "`"
    return re.sub(r"`([^`\n]+)`", quoted, text)


def rewrite(path, turn):
    old = open(path, encoding="utf-8").read()
    new = turn(old)
    if new != old:
        open(path, "w", encoding="utf-8").write(new)
        return 1
    return 0


def main():
    names, fields = declared()
    new = spelling(names)
    fallen = {}
    for old, to in new.items():
        fallen.setdefault(to, set()).add(old)
    for to, olds in sorted(fallen.items()):
        if len(olds) > 1:
            print("fall together:", to, sorted(olds))
    crates = {line.split(":")[0].split()[0] for line in open("crates.txt") if line.strip() and not line.startswith("#")}
    changed = 0
    for path in texts():
        changed += rewrite(path, lambda t: respell_antt(t, new, fields, of_the_kit(t, crates)))
    for path in sorted(glob.glob("crates/*/src/**/*.rt", recursive=True)):
        changed += rewrite(path, lambda t: respell_source(t, new, fields, of_the_kit(t, crates)))
    for path in sorted(glob.glob("*.md") + glob.glob("docs/*.md") + glob.glob("host/*.md")):
        changed += rewrite(path, lambda t: respell_page(t, new))
    print("respelled", len(new), "names in", changed, "files")


if __name__ == "__main__":
    main()
