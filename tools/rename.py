#!/usr/bin/env python3
"""Makes the renaming of the table under "## Names" in docs/changes/base-7.md, in one step, from names alone.

    tools/rename.py                renames in this repository, at its top; folders and files move by git mv
    tools/rename.py --check        changes nothing: says which old names stand, which rows have nothing left to do, and which new
                                   names are taken where they would come (a clash: then the renaming refuses to run)
    tools/rename.py --over DIR..   renames in folders of crates that were written for an older tree: there every row holds

A row is `| kind | where | before | now |`; where and before are as things were called before. The kinds:

    crate    a crate: its folder, crates.txt, paths, imports
    file     a file of a crate's specs/, proofs/ or src/, and its module
    moved    a file of specs/ or proofs/ that came into another crate meanwhile; only --over reads it
    name     a definition or law of a file of specs/ or proofs/: there, and in each file that imports it from there
    code     a function, type or constant of a crate's src/: there, by path, by `use`, as a method, and in goals
    library  a definition that gives way to one of the kit: it goes, and who imported it imports that
    comment  a plain word of comments (where: the crate; if none, in all crates and on all pages)
    text     words of a page (where: the page)

What a name means in a file its `use` lines say: names that are spelled alike are told apart, locals and fields keep theirs. In comments
and pages a word changes where it stands in backticks or has a `_`. History stays (docs/changes, docs/design-pass, docs/DESIGN-PASS.md,
docs/PORT.md); elsewhere outside crates/ only paths crates/NAME change. What it has done it does not do again."""
import collections
import pathlib
import re
import shutil
import subprocess
import sys

TABLE = "docs/changes/base-7.md"
HISTORY = ("docs/changes/", "docs/design-pass/", "docs/DESIGN-PASS.md", "docs/PORT.md", "tools/rename.py")
KINDS = ("crate", "file", "moved", "name", "code", "library", "comment", "text")
W = r"[A-Za-z_ℕ][\w\-'◌]*"
ANTT = re.compile(r"(?m)(?P<comment>(?<!\S)--(?!\S).*)|\buse (?P<use>Rattle(?:\.\w+)+)(?:\.\{(?P<items>[^}]*)\}| as (?P<alias>\w+))?"
                  r"|\b(?P<crate>\w+)::(?P<kind>specs|proofs)::(?P<module>(?:\w+::)+)(?P<last>[\w'-]+)|(?P<word>" + W + ")")
RUST = re.compile(r"\buse (?P<use>(?:\w+::)+)(?P<items>\{[^}]*\}|\w+)|(?P<word>[A-Za-z_]\w*)")
GHOST = re.compile(r"""//[^\n]*|b?"(?:\\.|[^"\\])*"|b?'(?:\\.|[^\\'])'|\bghost use [^;]*;|\#!?\[tactic\("""
                   r"""|\b(?:(?:requires|ensures|invariant|decreases)\s+(?:\w+\s+)?|ghost \w+\s*[:=]\s*)\{""")
HEAD = r"(?m)^\s*(?:(?:abbrev|unfoldable|pub|data|record) )*%s(?:\s*[({][^:]*:[^)}]*[)}])* :"
MARKS = "\1\2"


def text(file):
    return file.read_text(encoding="utf-8")


def before(m):
    """What stands before a match, without the marks that show where an edit's text begins and ends."""
    return m.string[max(0, m.start() - 80):m.start()].rstrip(MARKS)


class Table:
    """The rows, by what they are about; crates and files by what they are called afterwards."""

    def __init__(self, rows, over):
        self.over = over
        self.crates = {b: n for k, w, b, n in rows if k == "crate"}
        self.moved = {tuple(b.split("/")): tuple(n.split("/")) for k, w, b, n in rows if k == "moved" and over}
        self.files = {(self.crate(w.split("/")[0]), w.split("/")[1], b): n for k, w, b, n in rows if k == "file"}
        self.names, self.code, self.library = collections.defaultdict(dict), collections.defaultdict(dict), {}
        self.texts = [(w, b, n) for k, w, b, n in rows if k == "text"]
        self.words = [(self.crate(w), b, n) for k, w, b, n in rows if k == "comment"]
        self.gone = []
        for k, w, b, n in rows:
            if k in ("name", "library"):
                key = self.module(w.split("/"))
                if over or self.declares(key, b):
                    self.names[key][b] = n.split(".")[-1]
                    if k == "library":
                        self.library[key, n.split(".")[-1]] = n.rpartition(".")[0]
                else:
                    self.gone.append((k, w, b, n))
            elif k == "code":
                sought = re.compile(r"\b(?:fn|struct|enum|trait|const) %s\b" % b)
                if over or any(sought.search(text(f)) for it in self.folders(self.crate(w)) for f in it.glob("src/**/*.rt")):
                    self.code[self.crate(w)][b] = n
                else:
                    self.gone.append((k, w, b, n))
            elif k == "crate" and not pathlib.Path("crates", b).is_dir() and not over:
                self.gone.append((k, w, b, n))
            elif k == "file":
                self.code[self.crate(w.split("/")[0])] |= {b: n} if w.endswith("/src") else {}
        for f in () if over else pathlib.Path("crates").glob("*/specs/*.antt"):  # what a file passes on it lists too
            for path, items in re.findall(r"pub use Rattle\.([\w.]+)\.\{([^}]*)\}", text(f)):
                _, crate, kind, name = f.with_suffix("").parts
                key, of = self.module((crate, kind, name)), self.module(path.split("."))
                self.names[key] |= {it: self.names[of][it] for it in items.split(", ") if it in self.names[of]}
        self.goals = {b: n for found in self.code.values() for b, n in found.items() if b[0].islower()}
        self.declared = collections.defaultdict(set)
        for f in pathlib.Path("crates").glob("*/*/**/*.*"):
            heads = re.findall(HEAD % f"({W})", text(f)) if f.suffix == ".antt" else re.findall(r"\b(?:fn|struct|enum|trait|const) (\w+)", text(f)) if f.suffix == ".rt" else ()
            for name in heads if "out" not in f.parts else ():
                self.declared[name].add(f if f.suffix == ".antt" else f.parts[1])
        self.known = {it.name for it in pathlib.Path("crates").glob("*")} | set(self.crates) | set(self.crates.values())

    def crate(self, name):
        return self.crates.get(name, name)

    def module(self, parts):
        crate, kind, name = self.moved.get(tuple(parts[:3]), parts[:3])
        return self.crate(crate), kind, self.files.get((self.crate(crate), kind, name), name)

    def plain(self, crate, piece):
        for where, b, n in self.words:
            piece = re.sub(r"(?<![`\w])%s(?![`\w(:]|\.\w)" % b, n, piece) if where in ("", crate) else piece
        return piece

    def folders(self, crate):
        return [it for name in (crate, *(b for b, n in self.crates.items() if n == crate)) if (it := pathlib.Path("crates", name)).is_dir()]

    def declares(self, key, name):
        files = {key[2], *(b for (c, k, b), n in self.files.items() if (c, k, n) == key)}
        return any(re.search(HEAD % re.escape(name), text(f)) for it in self.folders(key[0]) for at in files for f in it.glob(f"{key[1]}/{at}.antt"))

    def path(self, parts):
        """The path CRATE.KIND.. in new names, and the module whose names it has."""
        if parts[0] not in self.known or len(parts) < 3:
            return parts, None
        crate, kind, rest = self.crate(parts[0]), parts[1], parts[2:]
        if rest[0] == "declared":
            return [crate, kind, rest[0], *(self.coded(crate, it) for it in rest[1:])], (crate, "declared", "")
        if rest[-1] in ("Goals", "Given"):
            return [crate, kind, *(self.coded(crate, it) for it in rest)], None
        key = self.module(parts)
        return [*key, *rest[1:]], key

    def coded(self, crate, name):
        """A function, module or type of a crate's code, or a type with the trait that it implements."""
        code = self.code[crate]
        whole = next((it for it in code if it[0].isupper() and name.startswith(it) and name[len(it):][:1].isupper()), None)
        return code[whole] + name[len(whole):] if whole else code.get(name, name)

    def listed(self, key, name):
        return (self.code[key[0]] if key[1] == "declared" else self.names[key]).get(name, name) if key else name

    def code_at(self, first, own):
        """The code that a path speaks of which begins with this word."""
        if first in self.known:
            return self.code[self.crate(first)]
        return {} if first in ("std", "core", "io", "itoa") else self.code[own] | self.goals if first[:1].isupper() else self.code[own]


class File:
    """One file of a crate, and what the names in it mean."""

    def __init__(self, table, crate, kind, path, whole):
        self.table, self.crate, self.kind, self.path, self.whole = table, table.crate(crate), kind, path, whole
        self.own = table.module((crate, kind, path.stem)) if kind != "src" and path.parent.name == kind else None
        self.local, self.alias, self.code, self.shadows = {}, {}, dict(table.code[self.crate]), set()
        self.caught = []
        for m in ANTT.finditer(whole):
            key = m["use"] and table.path(m["use"].split(".")[1:])[1]
            if key and m["alias"]:
                self.alias[m["alias"]] = key
            for item in filter(None, re.split(r",\s*", m["items"] or "")):
                if table.listed(key, item) != item:
                    self.local[item] = table.listed(key, item)
        if self.own:
            self.local |= table.names[self.own]
        self.answers = {it for m in re.findall(r"\bgoal\.([\w-]+)|\.(?:Goals|Given)\.\{([^}]*)\}", whole) for it in (m[0], *m[1].split(", "))}
        for m in RUST.finditer(whole) if kind == "src" else ():
            if m["use"]:
                code = table.code_at(m["use"].split("::")[0], self.crate)
                self.code |= {it: code[it] for it in re.findall(r"\w+", m["items"]) if it in code}

    def clashes(self):
        """New names that stand in the file already and do not go."""
        if self.kind == "src":
            words = [it for m in re.finditer(r"ghost use [\w.]+\.\{([^}]*)\}", self.whole) for it in re.split(r"[, ]+", m[1])]
        else:
            words = [m["word"] for m in ANTT.finditer(self.whole) if m["word"] and not before(m).endswith(".")]
            words += [it for m in ANTT.finditer(self.whole) for it in re.split(r"[, ]+", m["items"] or "")]
        taken = set(words) - set(self.local) - {now for _, now in self.table.library}
        declared = {b: n for b, n in self.table.code[self.crate].items() if self.kind == "src" and re.search(r"\b(?:fn|struct|enum|trait|const) %s\b" % n, self.whole)}
        return sorted((b, n) for b, n in [*self.local.items(), *declared.items()] if n in taken or b in declared)

    def comment(self, piece):
        known = self.code | self.local

        def word(m):
            quoted = "`" in piece[m.start() - 1:m.start()] + piece[m.end():m.end() + 1]
            return self.table.crates.get(m[0], known.get(m[0], m[0])) if quoted else known.get(m[0], m[0]) if "_" in m[0] else m[0]
        piece = re.sub(r"(?<=^-- )\w+(?= meets its contract)|(?<=the loops of )\w+(?= keep)", lambda m: self.table.coded(self.crate, m[0]), piece)
        return self.table.plain(self.crate, re.sub(W, word, piece))

    def goal(self, name):
        """A name of a goal: functions stand in it between dashes."""
        return "-".join(self.table.goals.get(it, it) for it in name.split("-"))

    def antt(self, m):
        table, name = self.table, m["word"]
        if m["comment"]:
            return self.comment(m[0])
        if m["use"]:
            path, key = table.path(m["use"].split(".")[1:])
            now = self.goal if path[-1] in ("Goals", "Given") else lambda it: table.listed(key, it)
            end = ".{" + re.sub(W, lambda it: now(it[0]), m["items"]) + "}" if m["items"] else f" as {m['alias']}" if m["alias"] else ""
            return "use Rattle." + ".".join(path) + end
        if m["crate"]:
            path, key = table.path([self.crate if m["crate"] == "crate" else m["crate"], m["kind"], *m["module"].split("::")[:-1]])
            return "::".join(["crate" if m["crate"] == "crate" else path[0], *path[1:], table.listed(key, m["last"])])
        head = re.search(r"([\w'\-)\]}]*)\.$", before(m))
        if head and head[1]:
            return table.listed(self.alias[head[1]], name) if head[1] in self.alias else self.goal(name) if self.kind != "specs" and head[1] != "ensures" else name
        if name in self.answers:
            return self.goal(name)
        label = re.search(r"[{;]\s*$", before(m)) and m.string.startswith(" = ", m.end()) or re.search(r"\n +pub $", before(m)) and m.string.startswith(" :", m.end())
        if label and not (self.own and name in table.names[self.own]):  # a field of a record
            return name
        if name in self.local and name not in self.shadows and self.local[name] in self.shadows:
            self.caught.append((name, self.local[name]))
        return name if name in self.shadows else self.local.get(name, name)

    def rust(self, m):
        table, name, after = self.table, m["word"], m.string[m.end():m.end() + 80].lstrip(MARKS)
        if m["use"]:
            first = m["use"].split("::")[0]
            code = table.code_at(first, self.crate)
            return "use " + re.sub(r"\w+", lambda it: self.rust_crate(it[0]) if it[0] == first else code.get(it[0], it[0]), m["use"]) + re.sub(r"\w+", lambda it: code.get(it[0], it[0]), m["items"])
        path = re.search(r"((?:\w+::)+)$", before(m))
        if path:
            return table.code_at(path[1].split("::")[0], self.crate).get(name, name)
        if re.search(r"[^.]\.$", before(m)):
            return table.goals.get(name, name) if re.match(r"\(|::<", after) else name
        if after.startswith("::") and self.rust_crate(name) != name:
            return self.rust_crate(name)
        return self.code.get(name, name) if name[0].isupper() or re.match(r"\(|::|<", after) or re.search(r"\b(?:fn|mod) $", before(m)) else name

    def rust_crate(self, name):
        return name if re.search(r"\bmod %s;" % name, self.whole) else self.table.crate(name)

    def renamed(self, whole):
        """The text in new names. In a file of src/, clauses and what speaks of proofs are antt."""
        if self.kind != "src":
            return ANTT.sub(self.antt, whole)
        done, at = [], 0
        while m := GHOST.search(whole, at):
            end = m.end()
            depth = int(m[0][-1] in "{(" and m[0][0] not in "/\"'b")
            while depth:
                depth += (whole[end] in "{(") - (whole[end] in "})")
                end += 1
            piece, start = whole[m.start():end], m[0]
            heads = re.findall(r"\bfn \w+[^(]*\(([^)]*)\)", whole[:m.start()]) if re.match("requires|ensures", start) else whole[:m.start()].split("struct ")[1:]
            self.shadows = set(re.findall(r"(\w+): ", heads[-1])) if heads and start[:2] in ("re", "en", "gh") and start[:9] != "ghost use" else set()
            done += [RUST.sub(self.rust, whole[at:m.start()]), self.comment(piece) if start[:2] == "//" else piece if start[0] in "\"'b" else ANTT.sub(self.antt, piece)]
            at = end
        return "".join(done) + RUST.sub(self.rust, whole[at:])

    def given_way(self, whole):
        """The text without definitions that give way to the kit's, which are imported instead."""
        for (key, now), module in self.table.library.items():
            here, used = ".".join(key), r"(?<![\w'-])%s(?![\w'-])" % now
            if self.own == key:
                whole = re.sub(r"(?m)(?:^ *--.*\n)?^ *(?:abbrev |unfoldable |pub )*%s :.*\n(?:^ *%s .*\n)+\n?" % (now, now), "", whole)
            line = re.search(r"(?m)^(ghost |pub )?use Rattle\.%s\.\{([^}]*)\}(;?)\n" % re.escape(here), whole)
            if not (line and re.search(used, line[2])) and not (self.own == key and re.search(used, whole)):
                continue
            if line:
                items = ", ".join(it for it in line[2].split(", ") if it != now)
                whole = whole[:line.start()] + (line[0].replace(line[2], items) if items else "") + whole[line.end():]
            into = re.search(r"use %s\.\{([^}]*)\}" % re.escape(module), whole)
            if into:
                whole = whole if re.search(used, into[1]) else whole[:into.end(1)] + ", " + now + whole[into.end(1):]
            else:
                at = line.start() if line else re.search(r"(?m)^(?:pub |ghost )?use ", whole).start()
                ghost, semicolon = ("ghost ", ";") if self.kind == "src" else ("", "")
                whole = whole[:at] + f"{ghost}use {module}.{{{now}}}{semicolon}\n" + whole[at:]
        return whole


def edited(table, crate, file):
    """A must-fail edit, whose texts are renamed where they stand in the file that they change."""
    done, name, whole, old = [], None, "", ""
    for line in text(file).split("\n"):
        key, _, rest = line.partition(": ")
        if key == "file":
            name = pathlib.Path(rest)
            whole = text(file.parent.parent / name)
            at = File(table, crate, name.parts[0], file.parent.parent / name, whole)
            line = f"file: {moved(table, table.crate(crate), name)}"
        elif key in ("old", "new"):
            old = rest if key == "old" else old
            if whole.count(old) != 1:
                print(f"{file}: its old text stands {whole.count(old)} times in {name}")
            marked = at.renamed(whole.replace(old, MARKS[0] + rest + MARKS[1], 1) if old in whole else MARKS[0] + rest + MARKS[1])
            line = f"{key}: " + re.sub(f"(?s).*{MARKS[0]}(.*){MARKS[1]}.*", r"\1", marked)
            if key == "new":
                whole = whole.replace(old, rest, 1)
        elif line.startswith("#") and name is None:
            line = table.plain(table.crate(crate), re.sub(W, lambda m: table.goals.get(m[0], m[0]) if "_" in m[0] else m[0], line))
        done.append(line)
    return "\n".join(done)


def moved(table, crate, file):
    """Where a file of a crate stands afterwards, below the crate's folder."""
    kind, *parts = file.parts
    if kind == "must-fail" or len(parts) == 0:
        return file
    if kind != "src" and len(parts) == 1:
        return pathlib.Path(kind, table.files.get((crate, kind, file.stem), file.stem) + file.suffix)
    return pathlib.Path(kind, *(table.coded(crate, it) for it in parts[:-1]), table.files.get((crate, kind, file.stem), file.stem) + file.suffix)


def page(table, file, whole, by_hand):
    """A page in new names: a crate, and a name of which each meaning moves alike, in backticks or with a `_`; in a row of a crate, and behind a
    FILE, its names. What is in backticks and may be one thing or another is said, and stays."""
    moves = collections.defaultdict(set)
    for key, found in [*table.names.items(), *(((crate, "src"), it) for crate, it in table.code.items())]:
        for b, n in found.items():
            moves[b].add(n)
    stay = {b for b in moves if len(moves[b]) > 1 or len(table.declared[b]) > sum(b in it for it in [*table.names.values(), *table.code.values()])}

    def line(text):
        head = re.match(r"\| (\w+) `", text)
        crate = table.crate(head[1]) if head and file.name == "CLAIMS.md" else ""
        near = {b: n for key, found in table.names.items() if key[0] == crate for b, n in found.items()} | table.code.get(crate, {})

        def word(m):
            name, span = m[0], m.string
            around = span[m.start() - 1:m.start()] + " " + span[m.end():m.end() + 1]
            alone = len(span) == len(name) + 2 or around[-1] in "/:"
            if around[0] in "/-" or around[-1] == "/":
                return table.crates.get(name, name) if around[-1] == "/" and around[0] in "`/" else name
            if name in near:
                return near[name]
            if name in table.crates and alone and (file.name == "README.md" or name not in table.declared):
                return table.crates[name]
            if name in moves and name not in stay and not (name in table.crates and alone):
                return min(moves[name])
            if name in moves or name in table.crates and alone:
                by_hand.append((file, name))
            return name

        def named(m):
            keys = [key for key in table.names if m[1] in (key[2], *(b for (c, k, b), n in table.files.items() if (c, k, n) == key))]
            here = {b: n for key in keys for b, n in table.names[key].items()}
            return next((key[2] for key in keys), m[1]) + m[2] + re.sub(W, lambda it: here.get(it[0], it[0]), m[3]).replace("`", "\0")
        text = re.sub(r"\b([A-Z]\w+)([.:] ?)((?:`[^`]+`(?:,? (?:to |and )?)?)+)", named, text)
        text = re.sub(r"`[^`\n]+`", lambda m: re.sub(W, word, m[0]), text).replace("\0", "`")
        if file.name == "CLAIMS.md":
            text = re.sub(r"(?<![\w`/-])(%s)(?=:? `| crate\b| [A-Z]\w+[.:`])" % "|".join(table.crates), lambda m: table.crates[m[1]], text)
        return re.sub(r"(?<![`\w])\w+_\w+(?![`\w])", lambda m: min(moves[m[0]]) if m[0] in moves and m[0] not in stay else m[0], text)

    def path(m):
        """A path of a file of specs/ or proofs/; where two crates have one of that name, it says the crate, or stays."""
        crates = [m[1]] if m[1] in table.known else [it.parts[1] for it in pathlib.Path("crates").glob(f"*/{m[2]}/{m[3]}.antt")]
        now = {table.module((it, m[2], m[3]))[2] for it in crates}
        if len(now) > 1:
            by_hand.append((file, m[0]))
        return m[0].replace(f"/{m[3]}.", f"/{min(now)}.") if len(now) == 1 else m[0]
    whole = re.sub(r"(?:\b(\w+)/)?\b(specs|proofs)/(\w+)\.antt", path, whole)
    for glob, b, n in table.texts:
        whole = whole.replace(b, n) if file.match(glob) else whole
    return table.plain(None, "\n".join(line(it) for it in whole.split("\n")))


def main(args):
    rows, on = [], False
    for line in text(pathlib.Path(__file__).resolve().parent.parent / TABLE).split("\n"):
        on = line == "## Names" or on and not line.startswith("## ")
        cells = [it.strip().strip("`") for it in line.strip().strip("|").split("|")]
        if on and len(cells) == 4 and cells[0] in KINDS:
            rows.append(cells)
    over = [pathlib.Path(it) for it in args[1:]] if args[:1] == ["--over"] else []
    table = Table(rows, bool(over))
    folders = over or sorted(it for it in pathlib.Path("crates").iterdir() if (it / "src").is_dir())
    after, moves, clashes, by_hand = {}, [], [], []
    for folder in folders:
        crate = folder.name
        for f in sorted(it for kind in ("src", "specs", "proofs", "must-fail") for it in (folder / kind).rglob("*") if it.is_file()):
            name = f.relative_to(folder)
            if f.suffix == ".edit":
                after[f] = edited(table, crate, f)
            else:
                whole = text(f)
                at = File(table, crate, name.parts[0], f, whole)
                now = at.given_way(at.renamed(whole))
                clashes += [(f, b, n) for b, n in [*at.clashes(), *at.caught]]
                if name.name == "Lib.antt":
                    now = re.sub(r"(?<=\bmod )\w+", lambda m: table.files.get((table.crate(crate), name.parts[0], m[0]), m[0]), now)
                after[f] = now
            if moved(table, table.crate(crate), name) != name:
                moves.append((folder / name, folder / moved(table, table.crate(crate), name)))
        if table.crate(crate) != crate:
            clashes += [(folder, crate, it) for it in [table.crate(crate)] if (folder.parent / it / "src").is_dir()]
            moves.append((folder, folder.parent / table.crate(crate)))
    if not over:
        tracked = [pathlib.Path(it) for it in subprocess.run(["git", "ls-files"], capture_output=True, text=True, check=True).stdout.split("\n") if it]
        for f in tracked:
            if str(f) == "crates.txt":
                after[f] = re.sub(r"(?m)^[^#].*$", lambda m: re.sub(r"\w+", lambda it: table.crate(it[0]), m[0]), text(f))
            elif f.parts[0] != "crates" and not str(f).startswith(HISTORY) and f.suffix not in (".plan", ".drawn", ".lock"):
                whole = page(table, f, text(f), by_hand) if f.suffix == ".md" else text(f)
                after[f] = re.sub(r"(?<=\bcrates/)\w+", lambda m: table.crate(m[0]), whole)
    for f, b, n in clashes:
        print(f"clash: {f}: {b} would become {n}, which stands there")
    for row in table.gone if "--check" in args else ():
        print("nothing to do:", *row, *(f"(there is one in {it})" for it in sorted(map(str, table.declared[row[2]])) if row[0] in ("name", "code")))
    meanings = collections.defaultdict(set)
    for f, now in after.items():
        for name in re.findall(r"(?m)^ {0,2}(?:(?:abbrev|unfoldable) pub|pub (?:record|data)) (%s)" % W, now) if f.parent.name == "specs" else ():
            meanings[name].add(str(f))
    for name, files in sorted(meanings.items()) if "--check" in args else ():
        if len(files) > 1:
            print(f"two meanings: {name}:", *sorted(files))
    for f, n in sorted(set(by_hand)) if "--check" in args else ():
        print(f"by hand: {f}: {n}")
    changed = [f for f, now in after.items() if now != text(f)]
    print(f"{len(rows)} rows, {len(table.gone)} of them with nothing to do; {len(changed)} files change, {len(moves)} move; {len(clashes)} clashes")
    if "--check" in args or clashes:
        return len(clashes) > 0
    for f in changed:
        f.write_text(after[f], encoding="utf-8")
    for f, to in moves:
        if to.is_dir() and not (to / "src").exists():  # what an earlier check left there
            shutil.rmtree(to)
        to.parent.mkdir(parents=True, exist_ok=True)
        if over or subprocess.run(["git", "mv", f, to]).returncode:
            f.rename(to)
    return 0


if __name__ == "__main__":
    if sys.argv[1:2] in ([], ["--check"]) or sys.argv[1:2] == ["--over"] and len(sys.argv) > 2:
        sys.exit(main(sys.argv[1:]))
    sys.exit(__doc__)
