#!/usr/bin/env python3
"""The names of docs/CLAIMS.md that nothing in the crates has.

    tools/claimed_names.py

FILE.`name` and FILE: `name`, with a crate before FILE or else of model, must be declared in that file of the crate's proofs/ or specs/; a
function in the first column of a table of code, in the crates that the cell names; any other name in backticks, somewhere in the crates or in the
kit's words that the contracts use. It prints what is not, and ends with 1 if there is such a name."""
import pathlib
import re
import sys

ROOT = pathlib.Path(__file__).resolve().parent.parent
CRATES = ROOT / "crates"
NAMES = sorted(it.name for it in CRATES.iterdir())
NAME = r"[A-Za-zℕ_][\w'ℕ-]*"
# Words of Rattle and of its library, and files and texts that the page names.
KIT = set("min set get_or requires List Result io rt name itoa".split())


def declared(path):
    """The names that a file declares: of proofs/ and specs/ whatever stands before a colon, of src/ each function, type, field and case."""
    text = path.read_text(encoding="utf-8")
    if path.suffix == ".rt":
        return set(re.findall(r"\b(?:fn|struct|enum|trait|mod|const)\s+(\w+)", text)) | set(re.findall(r"(?m)^\s+(?:pub )?(\w+)(?=\(|:|,|$)", text))
    found = set()
    for line in text.split("\n"):
        head = re.match(r"\s*(?:(?:abbrev|unfoldable|pub|data|record|ruleset)\s+)*(" + NAME + r")(?:\s*[({][^:]*:[^)}]*[)}])*\s*:(?:\s|$)", line)
        if head and not line.strip().startswith("--"):
            found.add(head[1])
    return found


def names_of(crate, kind):
    return {it: declared(it) for it in (CRATES / crate / kind).rglob("*.rt" if kind == "src" else "*.antt")}


HAS = {(crate, kind): names_of(crate, kind) for crate in NAMES for kind in ("src", "specs", "proofs")}
ALL = {name for found in HAS.values() for names in found.values() for name in names}


def in_file(crate, file, name):
    found = {**HAS[crate, "proofs"], **HAS[crate, "specs"]}
    return any(path.stem == file and name in names for path, names in found.items())


def in_code(crate, name):
    return any(name in names for names in HAS[crate, "src"].values())


def lost(line):
    """The names of a line of the page that are not where it says."""
    quoted = r"`(" + NAME + r")`"
    for at in re.finditer(r"(?:\b(\w+) )?\b([A-Z]\w+)[.:] ?((?:" + quoted + r"(?:,? (?:to |and )?)?)+)", line):
        crate = at[1] if at[1] in NAMES else None
        for name in re.findall(quoted, at[3]):
            if at[2] != "FILE" and not any(in_file(it, at[2], name) for it in ([crate] if crate else ["model", *NAMES])):
                yield f"{at[2]}.{name}"
    # a first cell such as `single `f`, `g`; mutual `h`` names functions behind their crates
    cell = line.split(" | ")[0].removeprefix("| ")
    of = []
    for crates, name in re.findall(r"([^`]*)`(\w+)[^`]*`", cell):
        of = re.findall(r"\w+", crates) or of
        if of and set(of) <= set(NAMES) and line.startswith("| ") and not any(in_code(it, name) for it in of):
            yield f"{' '.join(of)} {name}"
    for text in re.findall(r"`([^`]+)`", line):
        if "/" in text or "." in text:
            if not (list(ROOT.glob(text)) or list(CRATES.glob(text)) or list(CRATES.glob(f"*/{text}")) or list(ROOT.glob(f"rust/*/tests/{text}"))):
                yield text
        elif (start := re.match(NAME, text)) and start[0] not in ALL | KIT | set(NAMES) and not any(list(CRATES.glob(f"*/must-fail/{text}.edit"))) and text != "must-fail":
            yield text


def main():
    count = 0
    for number, line in enumerate((ROOT / "docs/CLAIMS.md").read_text(encoding="utf-8").split("\n"), 1):
        for name in lost(line):
            count += 1
            print(f"docs/CLAIMS.md:{number}: {name}")
    print(count, "names are not where the page says")
    return count > 0


if __name__ == "__main__":
    sys.exit(main())
