#!/usr/bin/env python3
"""tools/design_places.py [COMMIT]: the places of docs/DESIGN-PASS.md, counted in crates/*/src/*.rt, of a commit or of the files as they stand.

    1  own enums; fields of type bool in structs; refusals written as numbers; results whose comment names a value for 'none'; matches on numbers
    2  pairs of functions, in one crate or two, whose texts are the same but for names of types, numbers and identifiers
    3  while and loop
    4  casts by `as`, calls of functions that only convert or compare numbers
    5  functions with three or more parameters that stand together in three or more functions; requires clauses that stand three times or more
    6  parameters that are a slice with its length or end beside it; groups of arrays that are lent together
    7  matches whose arms are numbers and whose results are calls
A line for each place with --list."""
import collections, re, subprocess, sys

def files(commit):
    if commit:
        names = subprocess.run(["git", "ls-tree", "-r", "--name-only", commit, "crates"], capture_output=True, text=True, check=True).stdout.split("\n")
        for n in names:
            if re.match(r"crates/\w+/src/.*\.rt$", n):
                yield n, subprocess.run(["git", "show", commit + ":" + n], capture_output=True, text=True, check=True).stdout
    else:
        import glob
        for n in sorted(glob.glob("crates/*/src/**/*.rt", recursive=True)):
            yield n, open(n).read()

def functions(text):
    """(line, comment above, name, parameters, clauses, body) of each function"""
    for m in re.finditer(r"^( *)(?:pub(?:\(crate\))? )?(?:const )?fn (\w+)(?:<(?:->|[^<>]|<[^<>]*>)*>)?\(", text, re.M):
        i = m.end(); depth = 1; start = i
        while depth:
            depth += {"(": 1, ")": -1}.get(text[i], 0); i += 1
        params = [re.sub(r"\s+", " ", p).strip() for p in split(text[start:i - 1])]
        end = re.compile(r"^%s\}$" % m.group(1), re.M).search(text, i)
        brace = re.compile(r"^%s\{$|\{$" % m.group(1), re.M).search(text, i)
        head = text[i:brace.start()] if brace else ""
        body = text[brace.start():end.end()] if brace and end else ""
        above = re.findall(r"((?:^ *//.*\n)+)\Z", text[:m.start()], re.M)
        yield text[:m.start()].count("\n") + 1, above[0] if above else "", m.group(2), [p for p in params if p], head, body

def split(s):
    out, depth, cur = [], 0, ""
    for ch in s:
        depth += {"(": 1, "[": 1, "<": 1, ")": -1, "]": -1, ">": -1}.get(ch, 0)
        if ch == "," and depth == 0:
            out.append(cur); cur = ""
        else:
            cur += ch
    return out + [cur]

def shape(body):
    """the body with every identifier and number by the order of its first use"""
    names = {}
    def name(m):
        w = m.group(0)
        if w in ("fn", "let", "mut", "if", "else", "while", "for", "in", "return", "match", "loop", "true", "false", "as"):
            return w
        return names.setdefault(w, "x%d" % len(names))
    return re.sub(r"[A-Za-z_]\w*|\d+", name, re.sub(r"//.*", "", re.sub(r"\s+", " ", body)))

def main():
    args = [a for a in sys.argv[1:] if a != "--list"]
    found = collections.OrderedDict((k, []) for k in range(1, 8))
    together, clauses, shapes = collections.defaultdict(set), collections.defaultdict(list), collections.defaultdict(list)
    params_of = {}
    for n, text in files(args[0] if args else None):
        code = re.sub(r"//.*", lambda m: " " * len(m.group(0)), text)
        at = lambda i: "%s:%d" % (n, text[:i].count("\n") + 1)
        for m in re.finditer(r"^ *(?:pub )?enum (\w+)", code, re.M): found[1].append((at(m.start()), "enum " + m.group(1)))
        for m in re.finditer(r"struct (\w+)[^{;]*\{(.*?)\n\}", code, re.S):
            for f in re.findall(r"(\w+): bool\b", m.group(2)): found[1].append((at(m.start()), "flag %s.%s" % (m.group(1), f)))
        for m in re.finditer(r"(?:Refused|Unfit|refuse|refused|refusal)\((?:\w+, )?(\d+), ", code): found[1].append((at(m.start()), "refusal " + m.group(1)))
        for m in re.finditer(r"\b(while|loop)\b", code): found[3].append((at(m.start()), m.group(1)))
        for m in re.finditer(r"\bas (usize|u8|u16|u32|u64|i64)\b|numbers::wide_\w+|\bwide_(?:byte|word)\(", code): found[4].append((at(m.start()), m.group(0)))
        for m in re.finditer(r"match ([^{;]*?) \{\s*((?:\d+(?:\.\.=\d+)?|_) => [^,]*,\s*)+", code):
            arms = re.findall(r"=> ([^,]*)", m.group(0))
            found[7 if any("(" in a for a in arms) else 1].append((at(m.start()), "match %s on numbers" % m.group(1)))
        for line, above, name, params, head, body in functions(text):
            here = "%s:%d" % (n, line)
            params_of[here + " " + name] = params
            if re.search(r"if there is none|if none does|where there is none|where none does|if it does not|0 where it says nothing|or n\b", above) and "-> usize" in head:
                found[1].append((here, "a number for none: " + name))
            for i, p in enumerate(params):
                for q in params[i + 1:]:
                    for r in params[params.index(q) + 1:]: together[(p, q, r)].add(here + " " + name)
                if re.search(r": &(?:'a )?(?:mut )?\[u\d+\]", p) and i + 1 < len(params) and re.fullmatch(r"(m|q|k|e|len|count|total): usize", params[i + 1]):
                    found[6].append((here, "%s: %s, %s" % (name, p, params[i + 1])))
            arrays = [p for p in params if re.search(r"\[u\d+(?:; \d+)?\]", p)]
            if len(arrays) >= 3: found[6].append((here, "%s: %d arrays" % (name, len(arrays))))
            for c in re.findall(r"requires(?: \w+)? \{(.*?)\}", head): clauses[c.strip()].append(here + " " + name)
            if body.count("\n") > 2: shapes[shape(" ".join(params) + body)].append(here + " " + name)
    for s, where in shapes.items():
        for w in where[1:]: found[2].append((w.split(" ")[0], "%s is as %s" % (w.split(" ")[1], where[0])))
    many = {t for t, f in together.items() if len(f) >= 3}
    hit = set()
    for t in many: hit |= together[t]
    for w in sorted(hit): found[5].append((w.split(" ")[0], "parameters together: " + w.split(" ")[1]))
    for c, where in clauses.items():
        if len(where) >= 3:
            for w in where: found[5].append((w.split(" ")[0], "requires { %s }" % c))
    for k, places in found.items():
        print("point %d: %d" % (k, len(places)))
        if "--list" in sys.argv:
            for p in places: print("    %s  %s" % p)

main()
