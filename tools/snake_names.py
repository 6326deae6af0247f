#!/usr/bin/env python3
"""Brings the definitions and lemmas of this repository to today's spelling of names: words in snake case, a dash only where it joins two names.

usage: python3 tools/snake_names.py        at the top of the repository, once, right after the toolchain's port.py

It reads which names the crates' specs/ and proofs/ define (a function's own folder proofs/F/ aside, whose names the toolchain makes), decides a new
spelling for each, and writes it wherever the name stands in .antt files, in .rt files outside strings, and between backticks in docs/ and README.md.
Functions of src/, types, modules, strings and what a file imports from another library keep their names. Names that would fall together with another
one are in KEPT_APART.
"""

import collections
import os
import re
import sys

TOKEN = re.compile(r"[^\s(){}\[\].,;⌜⌝λ`\"\\|]+")
CAMEL = re.compile(r"(?<=[a-z0-9])(?=[A-Z])|(?<=[A-Z])(?=[A-Z][a-z])")

# Where the mechanical name is another definition's, or a word of std with another meaning.
KEPT_APART = {
    "bit-and": "bit-bit_and",
    "bit-or": "bit-bit_or",
    "is-arbitration": "is_arbitration_lem",
    "kind-verdict": "kind_verdict_lem",
    "list-of-long": "list_of_long",
    "list-ok": "list_ok_lem",
    "memory-address": "memory_address_lem",
    "memory-counter": "memory_counter_lem",
    "no-dma": "no_dma_lem",
    "oneWay": "one_direction",
    "page-byte": "page_byte_lem",
    "record_of": "record_of_lem",
    "record-ok": "record_ok_lem",
    "records-ok": "records_ok_lem",
    "same_bytes": "same_bytes_lem",
    "boundBy": "bound_by",
    "triggerKind": "trigger_kind",
}

# Words of the library that names of lemmas join by a dash.
LIBRARY = {"length", "set", "append", "take", "drop", "map"}

DEFINED = re.compile(r"^\s*(?:abbrev\s+|unfoldable\s+)?(?:pub\s+)?([^\s:(){}.,]+)\s*(?:\{[^}]*\}\s*)*:(?:\s|$)")
TYPE = re.compile(r"^\s*(?:pub\s+)?(?:record|data)\s+([^\s:(){}]+)")


def files(root, ends):
    for folder, dirs, names in os.walk(os.path.join(root, "crates")):
        dirs[:] = sorted(d for d in dirs if d != "out")
        for name in sorted(names):
            if name.endswith(ends):
                yield os.path.join(folder, name)


def own(path):
    """Whether the file is of specs/, or of proofs/ itself: not of a function's own folder."""
    parts = path.split(os.sep)
    return parts[-2] in ("specs", "proofs")


def read(path):
    with open(path, encoding="utf-8") as f:
        return f.read()


def imports(text):
    """The names that a file takes from the libraries, and those that it takes from this repository."""
    foreign, mine = set(), set()
    for path, names in re.findall(r"^\s*(?:ghost )?use\s+([^{;\s]+)\.\{([^}]*)\}", text, re.M):
        words = {w.strip().split(" as ")[0].strip() for w in names.split(",")}
        (foreign if not re.match(r"Rattle\.(?!std\b)", path) else mine).update(words)
    return foreign, mine


def snake(segment):
    if not segment or segment[0].isupper() or segment.isupper():
        return segment
    return "_".join(w if w.isupper() and len(w) > 1 else w[0].lower() + w[1:] for w in CAMEL.split(segment))


def respelled(name, known):
    parts = [snake(s) for s in name.split("-")]
    if "" in parts:
        return name
    out = parts[0]
    for i in range(1, len(parts)):
        rest = ["_".join(parts[i:j]) for j in range(i + 1, len(parts) + 1)]
        joins = any(r in known for r in rest) and out in known
        out += ("-" if joins else "_") + parts[i]
    return out


def main():
    root = os.getcwd()
    where, words = collections.defaultdict(set), set()
    for path in files(root, ".antt"):
        text = read(path)
        if own(path):
            for line in text.splitlines():
                m = TYPE.match(line) or DEFINED.match(line)
                if m and not line.lstrip().startswith("--"):
                    where[m.group(1)].add(path)
        words.update(imports(text)[0])
    functions = set()
    for path in files(root, ".rt"):
        functions.update(re.findall(r"\bfn (\w+)", read(path)))
        functions.update(re.findall(r"\bconst (\w+)", read(path)))
    known = {"-".join([snake(n)]) for n in where if "-" not in n} | functions | LIBRARY
    new = {}
    for name in sorted(set(where) | set(KEPT_APART)):
        if name in words and name not in KEPT_APART:
            continue
        to = KEPT_APART.get(name) or respelled(name, known)
        if to != name and (not name[0].isupper() or "-" in name):
            new[name] = to
    taken = collections.defaultdict(list)
    for name in where:
        taken[new.get(name, name)].append(name)
    bad = {to: names for to, names in taken.items() if len(names) > 1}
    bad.update({to: names for to, names in taken.items() if to in words and names != [to]})
    for to in sorted(bad):
        print(f"falls together: {to}: {sorted(bad[to])}" + (" (a library's)" if to in words else ""))
    if "--list" in sys.argv:
        for name in sorted(new):
            print(name, new[name])
    if bad or "--list" in sys.argv:
        return 1 if bad else 0

    def turn(text, foreign):
        return TOKEN.sub(lambda m: new.get(m.group(0), m.group(0)) if m.group(0) not in foreign else m.group(0), text)

    changed = 0
    for path in files(root, (".antt", ".rt")):
        text = read(path)
        foreign = imports(text)[0]
        if path.endswith(".rt"):
            pieces = re.split(r'("(?:[^"\\\n]|\\.)*")', text)
            to = "".join(p if i % 2 else turn(p, foreign) for i, p in enumerate(pieces))
        else:
            to = turn(text, foreign)
        if to != text:
            changed += 1
            with open(path, "w", encoding="utf-8") as f:
                f.write(to)
    for folder, dirs, names in os.walk(os.path.join(root, "docs")):
        pages = [os.path.join(folder, n) for n in names if n.endswith(".md")]
        for path in pages + ([os.path.join(root, "README.md")] if folder.endswith("docs") else []):
            text = read(path)
            to = re.sub(r"`[^`\n]+`", lambda m: turn(m.group(0), set()), text)
            if to != text:
                changed += 1
                with open(path, "w", encoding="utf-8") as f:
                    f.write(to)
    print(f"{len(new)} names in {changed} files")
    return 0


if __name__ == "__main__":
    sys.exit(main())
