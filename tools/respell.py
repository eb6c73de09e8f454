#!/usr/bin/env python3
"""Spells the definitions and lemmas of this repository in snake case, where port.py left them.

usage: python3 tools/respell.py [--check] [FOLDER]

It goes over crates/, docs/ and README.md below FOLDER (the current one), once, after port.py. A definition `twoWords` becomes
`two_words`, a lemma `two-words` becomes `two_words`, or `two_words_lem` where a definition or a function has that name. Types, modules,
names that Rattle makes and names of the library stay. --check writes nothing.
"""
import collections
import os
import re
import sys

# A name whose new spelling another name has.
OTHER = {"byCases": "cases_by_sign"}
WORD = re.compile(r"[^\s(){}.;,@\"«»`]+")
DECLARED = re.compile(r"^\s*(?:abbrev |unfoldable |pub )*([^\s:(){}.]+)((?: \{[^{}\n]*\}| \([^()\n]*\))*)\s*:(?![=:])")
ITEM = re.compile(r"\b(?:const|static|struct|enum|type|trait|fn|mod) (\w+)")
CAMEL = re.compile(r"[a-z][a-z0-9]*(?:[A-Z][a-z0-9]*)+'?$")
DASHED = re.compile(r"[a-z0-9]+(?:[-_][a-z0-9]+)+'?$")


def texts(root):
    for top in ("crates", "docs"):
        for folder, dirs, files in os.walk(os.path.join(root, top)):
            dirs[:] = sorted(d for d in dirs if d not in ("out", "target"))
            for name in sorted(files):
                if name.endswith((".antt", ".rt", ".edit", ".md")):
                    yield os.path.join(folder, name)
    yield os.path.join(root, "README.md")


def snake(name):
    return re.sub(r"(?<=[a-z0-9])[A-Z]", lambda m: "_" + m[0].lower(), name).replace("-", "_")


def is_lemma_file(path):
    """A file of lemmas or definitions: right in specs/ or proofs/."""
    return os.path.basename(os.path.dirname(path)) in ("specs", "proofs") and path.endswith(".antt")


def main(words):
    check = "--check" in words
    root = ([w for w in words if not w.startswith("--")] or ["."])[0]
    files = {}
    for path in texts(root):
        with open(path, encoding="utf-8") as f:
            files[path] = f.read()
    declared, items, fields = set(), set(), set()
    for path, text in files.items():
        if path.endswith(".antt"):
            for line in text.splitlines():
                m = DECLARED.match(line)
                if m and (is_lemma_file(path) or CAMEL.match(m[1])):
                    declared.add(m[1])
                    if line[0] == " ":
                        fields.add(m[1])
        if path.endswith(".rt"):
            items.update(ITEM.findall(text))
    tokens = {path: set(WORD.findall(text)) for path, text in files.items() if path.endswith((".antt", ".rt", ".edit"))}
    where = collections.defaultdict(set)
    for path, ts in tokens.items():
        for t in ts:
            where[t].add(path)
    table, met = {}, []
    for name in sorted(declared, key=lambda n: ("-" in n, n)):
        if not (CAMEL.match(name) or "-" in name and DASHED.match(name)):
            continue
        new = OTHER.get(name) or snake(name)
        # a definition may have the name of a function of src/, and its lemma then has an ending
        if "-" in name and (new in declared or new in items or new in table.values()):
            new += "_lem"
        if new in declared or new in table.values() or where[new] & where[name] and "-" in name:
            met.append((name, new))
            continue
        table[name] = new
    for row in met:
        print("stays:", *row)
    changed = 0
    for path, text in files.items():
        dashes = path.endswith(".antt") or path.endswith(".edit") or path.endswith(".md")

        def turned(m):
            name = m[0]
            if name not in table:
                return name
            if "-" in name:
                # behind a dot a name of Rattle's own may be spelled alike, but for a record's field
                behind = m.start() and text[m.start() - 1] == "."
                if not dashes or behind and not is_lemma_file(path) and name not in fields:
                    return name
                if path.endswith(".md") and text[m.start() - 1: m.start()] != "`":
                    return name
            return table[name]

        new = WORD.sub(turned, text)
        if new != text:
            changed += 1
            if not check:
                with open(path, "w", encoding="utf-8") as f:
                    f.write(new)
    print(f"respell: {len(table)} names, {changed} files, {len(met)} stay")


main(sys.argv[1:])
