#!/usr/bin/env python3
"""Whether there is all that docs/PROOFS.md names as what refuses a wrong body, contradicts a wrong definition, or holds a worked row.

`measure/held.py` reads the last column of the tables under "Wrong bodies", "Worked examples" and "Worked rows". What stands there in
backquotes is an edit, as CRATE/NAME or as NAME behind one of the same crate, a test, a worked example, a function, a definition, a crate or
a file of the repository; a file of rows, a study or a script may stand there without. It prints a line for each name that there is not,
and one with what it found, and ends with status 1 where it printed a name.
"""
import glob
import os
import re
import sys

root = os.path.dirname(os.path.dirname(os.path.abspath(__file__)))


def found(pattern, *places):
    """What the pattern finds in the files of the places, which are patterns of paths."""
    paths = (path for place in places for path in glob.glob(f"{root}/crates/{place}", recursive=True))
    return {name for path in paths for name in re.findall(pattern, open(path, encoding="utf-8").read(), re.M)}


edits = {it[len(root) + 8 : -5].replace("/must-fail/", "/") for it in glob.glob(f"{root}/crates/*/must-fail/*.edit")}
crates = set(os.listdir(f"{root}/crates"))
tests = found(r"#\[test\]\s*fn (\w+)", "*/src/*.rt")
examples = found(r"^ *(?:pub )?(\w+) :", "*/proofs/*Examples.antt", "word_laws/specs/*.antt")
functions = found(r"\bfn (\w+)", "*/src/**/*.rt") | found(r"^(?:(?:abbrev|unfoldable|pub) )*(\w+) :", "*/specs/**/*.antt")
kinds = {"tests": tests, "worked examples": examples, "functions and definitions": functions, "crates": crates}
seen, missing = {}, []


def look(name, crate):
    """Notes what a name is, and returns the crate of an edit, or the one before."""
    of, _, edit = name.partition("/")
    if name in edits or f"{crate}/{name}" in edits:
        seen.setdefault("edits", set()).add(name if edit else f"{crate}/{name}")
        return of if edit else crate
    if os.path.exists(f"{root}/{name}"):
        seen.setdefault("files", set()).add(name)
    elif re.fullmatch(r"\w+(::\w+)*", name):
        kind = next((kind for kind, names in kinds.items() if name.split("::")[-1] in names), None)
        if kind:
            seen.setdefault(kind, set()).add(name)
        elif "_" in name.strip("_"):
            missing.append(name)
    elif edit and of in crates:
        missing.append(name)
    return crate


page = open(f"{root}/docs/PROOFS.md", encoding="utf-8").read()
for part in ("Wrong bodies", "Worked examples", "Worked rows"):
    text = page.split(f"\n## {part}\n", 1)[1].split("\n## ", 1)[0]
    for line in text.split("\n"):
        cells = re.split(r"(?<!\\)\|", line)
        if not line.startswith("| "):
            continue
        crate = ""
        for name in re.findall(r"`([^`]*)`", cells[-2]):
            crate = look(name, crate)
        plain = re.sub(r"`[^`]*`|\([^)]*\.md[^)]*\)", "", cells[-2])
        for name in re.findall(r"\b(\w+\.rows|(?:studies|measure|crates|pages)/[\w./]*\w)", plain):
            path = f"crates/rows/data/{name}" if name.endswith(".rows") else name
            if glob.glob(f"{root}/{path}") or glob.glob(f"{root}/{path}.toml"):
                seen.setdefault("files", set()).add(name)
            else:
                missing.append(name)
for name in missing:
    print(f"docs/PROOFS.md names what there is not: {name}")
print(", ".join(f"{kind} {len(names)}" for kind, names in sorted(seen.items())))
sys.exit(bool(missing))
