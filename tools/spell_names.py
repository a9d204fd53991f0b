#!/usr/bin/env python3
"""Brings the repository's own definitions and lemmas to one spelling: words in snake case, types and modules in camel case.

usage: python3 tools/spell_names.py     at the top, once, on the tree that the kit's port.py left

It reads which names the pages of specs/ and proofs/ declare, and writes the new spelling of each wherever such a name stands as a
whole word: in specs/ and proofs/, in the clauses of src/, and in the texts of must-fail edits. Names that the prover makes (those
of Answers.antt and Invariants.antt) and names of the standard library stay. Where two names would fall together, one is told apart
by its ending `_lem`.
"""
import os
import re
import sys

MADE = ("Answers.antt", "Invariants.antt")
DECLARED = re.compile(r"\s*((?:pub|abbrev|unfoldable|record|data)\s+)*([^\s(){}:]+)\s*:(?!:)")
# lemmas that would have the name of a definition or of another lemma; a name that port.py wrote over; and names that imports give
APART = {
    "tables": {"head-fields": "head_fields_lem", "entry-verdict": "entry_verdict_lem"},
    "packets": {"all-ones": "all_ones_lem", "all_ones": "all_ones_lem"},
    "tries": {"same-key": "same_key_lem", "same_key": "same_key_lem"},
    "grid": {"node-of": "node_of_lem", "node-at": "node_at_lem", "node_at": "node_at_lem", "same-key": "same_key_lem", "same_key": "same_key_lem", "field_own": "own_at", "nodesOf": "nodes_of"},
    "book": {"entryLabels": "entry_labels"},
}
# who uses the lemma of another crate by such a name
FROM = {"grid": ["tries"], "gateway": ["grid", "tries"], "packet_tests": ["packets"]}
WORD = re.compile(r"[^\s(){}\[\];,.«»\"|⌜⌝]+")


def spelt(name):
    if name[0].isupper():
        return "".join(w[:1].upper() + w[1:] for w in name.split("-"))
    name = name.replace("′", "'").replace("-", "_")
    return re.sub(r"([a-z0-9])([A-Z])", lambda m: m.group(1) + "_" + m.group(2).lower(), name)


def pages():
    for folder, dirs, files in os.walk("crates"):
        dirs[:] = sorted(d for d in dirs if d not in ("out", "target"))
        for f in sorted(files):
            if f.endswith((".antt", ".rt", ".edit")):
                yield os.path.join(folder, f)


def names():
    found = set()
    for path in pages():
        if path.endswith(".antt") and not path.endswith(MADE):
            for line in open(path, encoding="utf-8"):
                m = DECLARED.match(line)
                if m and not line.lstrip().startswith("--") and re.match(r"[A-Za-z]", m.group(2)):
                    found.add(m.group(2))
    return {n: spelt(n) for n in found if spelt(n) != n}


def turned(line, words, comment):
    code, mark, rest = line.partition(comment)
    code = WORD.sub(lambda m: words.get(m.group(0), m.group(0)), code)
    camel = {a: b for a, b in words.items() if "-" not in a or a[0].isupper()}
    rest = re.sub(r"[A-Za-z][\w'′-]*", lambda m: camel.get(m.group(0), m.group(0)), rest)
    return code + mark + rest.replace("′", "'")


def main():
    words = names()
    if not words:
        print("every name is spelt so")
        return 0
    for path in pages():
        crate = path.split(os.sep)[1]
        mine = dict(words)
        for c in FROM.get(crate, []) + [crate]:
            mine.update(APART.get(c, {}))
        old = open(path, encoding="utf-8").read()
        comment = "--" if path.endswith(".antt") else "//"
        new = "".join(turned(line, mine, comment) for line in old.splitlines(keepends=True))
        if path.endswith(".antt"):
            new = new.replace("′", "'")
        if new != old:
            open(path, "w", encoding="utf-8").write(new)
    print(f"{len(words)} names")
    return 0


if __name__ == "__main__":
    sys.exit(main())
