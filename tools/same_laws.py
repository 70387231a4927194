#!/usr/bin/env python3
"""Laws that are stated twice: statements in the proofs that are the same up to the names of their bound variables.

    tools/same_laws.py

Each group is a statement and the places that have it. A group is a place to look, not a fault: two local abbreviations of the same type
are one too. A law that two crates need belongs into the lower one."""
import collections
import pathlib
import re

SIGNATURE = re.compile(r"^(\s*)(?:pub )?([^\s:(){}]+) : (.*)$")
MODULE = re.compile(r"^(\s*)module _ (.*) where$")
NOT_A_LAW = ("--", "use ", "abbrev ", "unfoldable ", "let ", "where")


def indent(line):
    return len(line) - len(line.lstrip())


def statements(text):
    """(line number, name, statement) of each law, with the parameters of the modules that it stands in."""
    lines, modules, at = text.split("\n"), [], 0
    while at < len(lines):
        line = lines[at]
        at += 1
        if line.strip():
            modules = [m for m in modules if m[0] < indent(line)]
        if module := MODULE.match(line):
            modules.append((len(module[1]), module[2]))
        law = SIGNATURE.match(line)
        if not law or line.strip().startswith(NOT_A_LAW):
            continue
        words = [parameters for _, parameters in modules] + [law[3]]
        first = at
        while at < len(lines) and lines[at].strip() and indent(lines[at]) > len(law[1]) and not lines[at].strip().startswith(("unfolding", "where")):
            words.append(lines[at].strip())
            at += 1
        yield first, law[2], " ".join(words)


def renamed(statement):
    """The statement with its bound variables numbered in the order in which they come, one binder to a variable."""
    bound = {name for binder in re.findall(r"[({]([^(){}:]+) :", statement) for name in binder.split()}
    bound |= set(re.findall(r"λ ([^\s.(]+)\.", statement))
    numbers = {}
    words = [f"v{numbers.setdefault(w, len(numbers))}" if w in bound else w for w in re.findall(r"[^\s(){}\[\],.]+|[(){}\[\],.]", statement)]
    single = lambda m: " ".join(f"( {v} : {m[2]})" for v in m[1].split())
    return re.sub(r"[({] ((?:v\d+ )+): ([^(){}]*?)[)}]", single, " ".join(words)).replace("{", "(").replace("}", ")")


def main():
    root = pathlib.Path(__file__).resolve().parent.parent / "crates"
    places = collections.defaultdict(list)
    for path in sorted(root.glob("*/proofs/*.antt")):
        for line, name, statement in statements(path.read_text(encoding="utf-8")):
            if re.search(r"[≡≤<⊥⊎]", statement):
                places[renamed(statement)].append(f"{path.relative_to(root)}:{line} {name}")
    twice = {law: where for law, where in places.items() if len(where) > 1}
    for law, where in twice.items():
        print(law, *where, sep="\n    ")
    print(len(twice), "statements stand in more than one place")


if __name__ == "__main__":
    main()
