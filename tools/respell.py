#!/usr/bin/env python3
"""Brings the repository's own definitions and lemmas to today's spelling, once, after the toolchain's port.py.

usage: python3 tools/respell.py [FOLDER]

Words are in snake case (levelFor, all-below become level_for, all_below), types in camel case (First-full becomes FirstFull). Names that Rattle
makes (a goal's name, a step's name behind a dot), names of the library and names of src/ keep their spelling. Where the plain new name would fall
together with another one, OTHERWISE says what stands for it. Nothing is written if two names fall together.
"""
import collections
import glob
import os
import re
import sys

# a new name that is not the plain one
OTHERWISE = {"takeAfter": "after_take", "held-at": "held_at_lem", "size-at": "size_at_lem", "atMost": "most_fields"}
# names that stay
KEPT = set()

NAME = r"[^\s(){}\[\];,.«»⌜⌝]+"
TOKEN = re.compile(r"(--[^\n]*|//[^\n]*|\"[^\"\n]*\")|(" + NAME + r")")
DEFINED = re.compile(r"(?:\s*)(?:\|\s)?(?:(?:abbrev|unfoldable|pub|data|record)\s+)*(" + NAME + r") :(?: |$)")
TYPE = re.compile(r"(?:pub )?(?:data|record) (" + NAME + r")")
IMPORT = re.compile(r"\buse ([^\s{]+)\.\{([^}]*)\}")


def read(path):
    with open(path, encoding="utf-8") as f:
        return f.read()


def new_name(old):
    if old in OTHERWISE:
        return OTHERWISE[old]
    if old[0].isupper():
        return "".join(p[:1].upper() + p[1:] for p in old.split("-"))
    return re.sub(r"(?<=[a-z0-9])([A-Z])", lambda m: "_" + m.group(1).lower(), old).replace("-", "_")


def is_odd(name):
    plain = re.fullmatch(r"[A-Za-z][\w'-]*", name)
    return bool(plain) and name not in KEPT and new_name(name) != name


def sources(root):
    for kind in ("specs", "proofs"):
        yield from sorted(glob.glob(os.path.join(root, "crates", "*", kind, "**", "*.antt"), recursive=True))


def definitions(root):
    found = collections.defaultdict(set)
    for path in sources(root):
        text = read(path)
        made = set(re.findall(r"\bgoal\.(" + NAME + ")", text))
        for line in text.splitlines():
            for pattern in (DEFINED, TYPE):
                m = pattern.match(line)
                if m and m.group(1) not in made and not m.group(1).startswith("--"):
                    found[m.group(1)].add(path)
    return found


def kept_here(text):
    """Names that in this file are the library's or made by Rattle."""
    kept = set(re.findall(r"\bgoal\.(" + NAME + ")", text))
    for path, names in IMPORT.findall(text):
        own = re.match(r"Rattle\.(table|book|bank|lanes|fabric|manager|text|daysheet|sheet|runner)\.", path)
        if not own or path.endswith((".Goals", ".Given")) or ".declared." in path:
            kept |= {n.strip().split(" as ")[0] for n in names.split(",")}
    return kept


def turn(text, table, kept, fields):
    def one(m):
        if m.group(1):
            return re.sub(r"\b[a-z]+(?:[A-Z][a-z]*)+\b", lambda n: table.get(n.group(0), n.group(0)), m.group(1)) if m.group(1)[0] != '"' else m.group(1)
        name, start = m.group(2), m.start()
        if name not in table or name in kept:
            return name
        if start > 0 and text[start - 1] == "." and name not in fields:
            return name
        return table[name]

    return TOKEN.sub(one, text)


def main():
    root = sys.argv[1] if len(sys.argv) > 1 else "."
    found = definitions(root)
    table = {n: new_name(n) for n in found if is_odd(n)}
    fields = set()
    for path in sources(root):
        inside = False
        for line in read(path).splitlines():
            if re.match(r"(?:pub )?(?:record|data) ", line):
                inside = True
            elif line and not line[0].isspace():
                inside = False
            elif inside:
                m = DEFINED.match(line)
                if m:
                    fields.add(m.group(1))
    wrong = []
    # a lemma that would have the name of a definition ends in _lem
    taken = set(found) | {table[n] for n in table if "-" not in n}
    for old in table:
        if "-" in old and table[old] in taken:
            table[old] += "_lem"
    back = collections.defaultdict(set)
    for old, new in table.items():
        back[new].add(old)
    for old, new in table.items():
        if new in found:
            wrong.append(f"{old} would be {new}, which is defined")
    for new, olds in back.items():
        if len(olds) > 1:
            wrong.append(f"{sorted(olds)} would all be {new}")
    out = {}
    paths = list(sources(root)) + sorted(glob.glob(os.path.join(root, "crates", "*", "src", "**", "*.rt"), recursive=True))
    for path in paths:
        text = read(path)
        kept = kept_here(text)
        names = {m.group(2) for m in TOKEN.finditer(text) if m.group(2) and text[m.start() - 1] != "."}
        for old in names & set(table):
            if old not in kept and table[old] in names and not (path.endswith(".rt")):
                wrong.append(f"{path}: {old} would be {table[old]}, which stands there")
            if old not in kept and table[old] in names and path.endswith(".rt"):
                print(f"note: {path}: {old} becomes {table[old]}, which stands there")
        out[path] = turn(text, table, kept, fields)
    if wrong:
        print("\n".join(wrong), file=sys.stderr)
        raise SystemExit(1)
    changed = 0
    for path, text in out.items():
        if text != read(path):
            with open(path, "w", encoding="utf-8") as f:
                f.write(text)
            changed += 1
    print(f"{len(table)} names in {changed} files")
    print("fields:", sorted(f for f in fields if f in table))


main()
