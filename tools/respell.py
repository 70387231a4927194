#!/usr/bin/env python3
"""Brings the names of this repository's definitions and lemmas to the spelling of the installed Rattle.

usage: tools/respell.py          at the top of the repository, once, after the kit's port.py
       tools/respell.py --list   only says what it would rename

A definition, a field or a constructor in camelCase gets snake_case. In a lemma's name a dash stays where it joins the names of two
definitions, as in length-stretch, and is an underscore elsewhere; a lemma that would take a name that stands already gets _lem.
Names of functions of src/, of types and facts, of goals, and texts stay as they are; turnEdges is turned_edges, since a constructor
has the other name. Names are turned in specs/, proofs/, src/
(clauses alone have such names), must-fail/, README.md and docs/.
"""
import glob
import re
import sys

LETTER = r"[\w\-'ℕ≡≤<∷+₀-₉]"
TOKEN = re.compile(r"(?<!" + LETTER + r")[A-Za-z_]" + LETTER + r"*")
HEAD = re.compile(r"^(\s*)((?:(?:abbrev|unfoldable|pub|data|record|ruleset)\s+)*)(" + TOKEN.pattern + r")(?:\s*[({][^:]*:[^)}]*[)}])*\s*:\s(.*)$")
STD = set("length map take drop get_or append set mem reverse concat filter zip all any min max cond and or not sum replicate from "
          "cons nil add sub mul le lt eq suc zero ltb leb eqb index_of".split())
OLD = {"getD": "get_or", "turnEdges": "turned_edges"}


def snake(name):
    name = OLD.get(name, name)
    if not re.match(r"^[a-z]", name) or not re.search(r"[A-Z]", name):
        return name
    name = re.sub(r"([a-z0-9])([A-Z])", r"\1_\2", name)
    return re.sub(r"([a-z])(\d)", r"\1_\2", name).lower() if re.search(r"[A-Za-z]\d\d?$", name) and "_" in name else name.lower()


def fields():
    """The fields of the repository's records: they stand behind a dot, in a record { .. }, or where the record is declared."""
    found = set()
    for f in sorted(glob.glob("crates/*/specs/*.antt") + glob.glob("crates/*/proofs/**/*.antt", recursive=True)):
        inside = False
        for line in open(f, encoding="utf-8"):
            if re.match(r"^\s*(abbrev |unfoldable |pub )*record \S", line) and line.rstrip().endswith("where"):
                inside, depth = True, len(line) - len(line.lstrip())
                continue
            if inside and line.strip() and not line.strip().startswith("--"):
                m = re.match(r"^(\s*)(?:pub )?(\S+)\s*:", line)
                here = len(line) - len(line.lstrip())
                if here <= depth:
                    inside = False
                elif m and here == depth + 2:
                    found.add(m.group(2))
    return found


def library_files():
    specs = sorted(glob.glob("crates/*/specs/*.antt"))
    proofs = sorted(glob.glob("crates/*/proofs/*.antt"))
    return specs, proofs


def declared(path):
    for line in open(path, encoding="utf-8"):
        m = HEAD.match(line)
        if m and not line.strip().startswith("--"):
            words = m.group(2).split()
            yield m.group(3), bool({"abbrev", "unfoldable", "data", "record"} & set(words))


def plan():
    specs, proofs = library_files()
    names, lemmas = set(), set()
    for f in specs:
        for n, _ in declared(f):
            names.add(n)
    for f in proofs:
        for n, is_definition in declared(f):
            (names if is_definition or "-" not in n and snake(n) != n else lemmas).add(n)
    words = {snake(n) for n in names} | STD
    used = set()
    for f in glob.glob("crates/*/specs/**/*.antt", recursive=True) + glob.glob("crates/*/proofs/**/*.antt", recursive=True):
        used |= set(TOKEN.findall(open(f, encoding="utf-8").read()))
    turned = {}
    members = fields()
    for n in sorted(members):
        if snake(n).replace("-", "_") != n and n[0].islower():
            turned[n] = snake(n).replace("-", "_")
    for n in sorted(names | lemmas):
        if n[0].isupper() or n in members:
            continue
        parts = [snake(p) for p in n.split("-")]
        new = parts[0]
        for before, after in zip(parts, parts[1:]):
            new += ("-" if before in words and after in words else "_") + after
        if new != n:
            turned[n] = new
    functions = set()
    for f in glob.glob("crates/*/src/*.rt"):
        functions |= set(re.findall(r"\bfn (\w+)", open(f, encoding="utf-8").read()))
    # a definition keeps the short name, and a lemma makes room for it
    clashes = []
    for n in sorted(turned):
        new = turned[n]
        same = [m for m in turned if turned[m] == new and m != n]
        if n in members:
            continue
        if n in names and new in lemmas:
            turned[new] = new + "_lem"
            clashes.append((new, n))
        if n in lemmas and (new in used or new in functions or any(m in names or m < n for m in same)):
            turned[n] = new + "_lem"
            clashes.append((n, new))
    return turned, clashes, used, members


def main():
    turned, clashes, used, members = plan()
    if "--list" in sys.argv:
        for n in sorted(turned):
            print(n, turned[n])
        for c in clashes:
            print("clash:", *c)
        for n, new in turned.items():
            if new in used:
                print("in use:", n, new)
        print(len(turned), "names,", len(clashes), "clashes")
        return

    def turn(m):
        word, text, at = m.group(0), m.string, m.start()
        new = turned.get(word)
        if new is None:
            return word
        if at and text[at - 1] == "." and "-" in word and word not in members and not line_is_use(text, at):
            return word
        return new

    def line_is_use(text, at):
        line = text[text.rfind("\n", 0, at) + 1:at]
        return re.match(r"\s*(pub )?(ghost )?use\b", line) is not None

    files = [f for pattern in ("crates/*/specs/**/*.antt", "crates/*/proofs/**/*.antt", "crates/*/src/*.rt", "crates/*/must-fail/*.edit",
                               "README.md", "docs/*.md") for f in sorted(glob.glob(pattern, recursive=True))]
    changed = 0
    for f in files:
        text = open(f, encoding="utf-8").read()
        new = TOKEN.sub(turn, text)
        if new != text:
            open(f, "w", encoding="utf-8").write(new)
            changed += 1
    print(f"respell: {len(turned)} names, {changed} files")


if __name__ == "__main__":
    main()
