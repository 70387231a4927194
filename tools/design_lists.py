#!/usr/bin/env python3
"""tools/design_lists.py COMMIT FOLDER: what changed between the commit and the files as they stand, old and new side by side, for docs/DESIGN-PASS.md.

FOLDER/signatures.md: public functions and types of crates/*/src, with their clauses, ghost fields and laws. FOLDER/definitions.md: what specs/ states.
FOLDER/lemmas.md: the statements of proofs/*.antt and of proofs/TYPE or proofs/F other than a function's own invariants and answers.
An item is found again under its name in its own crate first; in another where its text is the same, or where MOVED says so; layout does not count."""
import collections, glob, re, subprocess, sys

MOVED = {("sheet", "Answers.scanned_as"): "reports"}

def tree(commit):
    if commit:
        names = subprocess.run(["git", "ls-tree", "-r", "--name-only", commit, "crates"], capture_output=True, text=True, check=True).stdout.split("\n")
        names = [n for n in names if re.match(r"crates/\w+/(src/.*\.rt|(specs|proofs)/.*\.antt)$", n)]
        blob = subprocess.run(["git", "cat-file", "--batch"], input="".join("%s:%s\n" % (commit, n) for n in names).encode(), capture_output=True, check=True).stdout
        out, at = {}, 0
        for n in names:
            end = blob.index(b"\n", at); size = int(blob[at:end].split()[2])
            out[n] = blob[end + 1:end + 1 + size].decode(); at = end + 2 + size
        return out
    return {n: open(n).read() for p in ("src/**/*.rt", "specs/**/*.antt", "proofs/**/*.antt") for n in sorted(glob.glob("crates/*/" + p, recursive=True))}

flat = lambda s: re.sub(r" ([,)\]])", r"\1", re.sub(r"([(\[]) ", r"\1", re.sub(r",\s*([)\]}])", r"\1", re.sub(r"\s+", " ", s)))).strip()

def signatures(text):
    text = re.sub(r"^\s*//.*\n", "", text, flags=re.M)
    owner = [(m.start(), m.group(1)) for m in re.finditer(r"^impl(?:<[^>]*>)? ([^{]*?) \{", text, re.M)] + [(m.start(), m.group(1)) for m in re.finditer(r"^pub trait (\w+)", text, re.M)]
    for m in re.finditer(r"^( *)(pub (?:const )?fn (\w+)[^{]*?(?:\{(?:[^{}]|\{[^{}]*\})*\}[^{]*?)*?)\n?%s" % r"\s*\{\n", text, re.M):
        where = [o for a, o in owner if a < m.start()]
        name = (re.sub(r"<.*?>", "", where[-1]) + "::" if m.group(1) and where else "") + m.group(3)
        yield name, flat(m.group(2))
    for m in re.finditer(r"^((?:#\[.*\]\n)*)pub (struct|enum|trait|const) (\w+)(?:[^;{]*;|[^{;]*\{\n(?:.*\n)*?\}$)", text, re.M):
        yield m.group(3), flat(m.group(0))

def items(text):
    """(name, text) of each top declaration of an .antt file, with what `module _` it stands in"""
    lines, module, at = text.split("\n"), [], 0
    while at < len(lines):
        line = lines[at]; at += 1
        if not line.strip() or line.strip().startswith("--") or re.match(r"\s*(pub )?(use|mod|infix\w*) ", line): continue
        pad = len(line) - len(line.lstrip())
        module = [x for x in module if x[0] < pad]
        m = re.match(r"\s*module _ (.*) where$", line)
        if m: module.append((pad, m.group(1))); continue
        m = re.match(r"\s*(?:(?:abbrev|unfoldable|pub|data|record|ruleset) +)*([^\s:(){}]+)((?: *[({].*?[)}])*) *:(?: |$)(.*)", line)
        if not m or pad > 2 * len(module): continue
        body = [line.strip()]
        while at < len(lines) and (not lines[at].strip() or len(lines[at]) - len(lines[at].lstrip()) > pad or re.match(r"\s*(unfolding|%s)[ (]" % re.escape(m.group(1)), lines[at])):
            if lines[at].strip() == "" and not (at + 1 < len(lines) and len(lines[at + 1]) - len(lines[at + 1].lstrip()) > pad): break
            if not lines[at].strip().startswith("--"): body.append(lines[at].strip())
            at += 1
        yield m.group(1), [x for _, x in module], body

def collect(files, part):
    out = collections.OrderedDict()
    for n, text in files.items():
        _, crate, folder, rest = n.split("/", 3)
        if part == "signatures" and folder == "src":
            for name, t in signatures(text): out[crate, name] = (n, t)
        elif part == "definitions" and folder == "specs":
            for name, module, body in items(text): out[crate, rest[:-5] + "." + name] = (n, flat(" ".join(module + body)))
        elif part == "lemmas" and folder == "proofs" and not re.search(r"/(Answers|Invariants|Proof|Lib)\.antt$", "/" + rest):
            for name, module, body in items(text):
                statement = [body[0]]
                for b in body[1:]:
                    if re.match(r"(unfolding|where)\b|%s[ =]" % re.escape(name), b): break
                    statement.append(b)
                out[crate, rest[:-5] + "." + name] = (n, flat(" ".join(module + statement)))
    return out

def main():
    commit, folder = sys.argv[1:]
    old, new = tree(commit), tree(None)
    for part, head in (("signatures", "Public functions and types that changed"), ("definitions", "Definitions and theorems of specs/ that changed"), ("lemmas", "Lemmas of proofs/ whose statement changed")):
        a, b = collect(old, part), collect(new, part)
        by_name = collections.defaultdict(list)
        for k in b: by_name[k[1].split(".")[-1].split("::")[-1]].append(k)
        same, changed, gone, used = 0, [], [], set()
        for k, (where, t) in a.items():
            if k in b: k2 = k
            else:
                near = [x for x in by_name[k[1].split(".")[-1].split("::")[-1]] if x not in a]
                near = [x for x in near if b[x][1] == t] or [x for x in near if x[0] in (k[0], MOVED.get(k))]
                k2 = near[0] if near else None
            if k2 is None: gone.append((k, t)); continue
            used.add(k2)
            if b[k2][1] == t: same += 1
            else: changed.append((k, t, k2, b[k2][1]))
        fresh = [(k, b[k][1]) for k in b if k not in used]
        with open("%s/%s.md" % (folder, part), "w") as f:
            f.write("# %s\n\nFrom %s on: %d are as they were, %d changed, %d stand nowhere under their name, %d are new. Written by tools/design_lists.py.\n" % (head, commit[:7], same, len(changed), len(gone), len(fresh)))
            for k, t, k2, t2 in changed: f.write("\n`%s` `%s`%s\n\n- old: `%s`\n- new: `%s`\n" % (k[0], k[1], "" if k == k2 else ", now `%s` `%s`" % k2, t, t2))
            f.write("\n## Under no name any more\n" if gone else "")
            for k, t in gone: f.write("\n- `%s` `%s`: `%s`\n" % (k[0], k[1], t))
            f.write("\n## New\n" if fresh else "")
            for k, t in fresh: f.write("\n- `%s` `%s`: `%s`\n" % (k[0], k[1], t))
        print(part, "same", same, "changed", len(changed), "gone", len(gone), "new", len(fresh))

main()
