#!/usr/bin/env python3
"""Counts the definitions that a claim rests on, for the table in docs/PROVED.md: python3 measure/believed.py [FILE.NAME ..]

From the names that a claim is stated in it follows each definition of crates/*/specs to the ones that it is stated in, and counts their
lines, with their comments, file by file, and the words and signs in them, with blanks between, of which one reads some 150 a minute aloud.
Types of the program (`declared`) are not followed, nor definitions of the kit, of which it says how many names are used. Each row counts what the
rows that it names do not; then comes all that laws give, and that a call promises. With words it follows these names alone, as
verdicts/Claims.HasNoRule.
"""
import collections
import glob
import os
import re
import sys

ROOT = os.path.join(os.path.dirname(os.path.abspath(__file__)), "..", "crates")
HEAD = re.compile(r"^( *)(?:pub )?(?:abbrev|unfoldable|record|data)(?: mutual)?(?: pub)? +([^\s:(]+)")
USE = re.compile(r"^(?:pub )?use Rattle\.(\w+)\.specs\.([\w.]+)\.\{([^}]*)\}$")
# What a claim says, the names that say it, and the rows whose definitions are counted there.
CLAIMS = [
    ("a rule", ["verdicts/Claims.IsRuleFor"], []),
    ("an impossibility", ["verdicts/Claims.HasNoRule", "meaning/Cores.is_core_right"], ["a rule"]),
    ("the study of a file", ["answers/Studies.GivesStudy"], ["an impossibility"]),
    ("the text of a verdict", ["verdicts/Report.report_text"], ["an impossibility"]),
    ("the words and devices of a call", ["words/Words.request_of", "answers/Devices.Devices"], ["an impossibility", "the study of a file"]),
    ("right reports", ["verdicts/Report.IsReport"], ["an impossibility", "the study of a file", "the text of a verdict"]),
    ("right sharp texts", ["sharp_laws/Laws.IsSharpText"], ["right reports", "the study of a file"]),
    ("instances that are all needed", ["answers/SharpenLaws.AreAllNeeded"], ["an impossibility", "the study of a file"]),
    ("a core that a proof names", ["answers/RowLaws.AreCited"], ["an impossibility", "the study of a file"]),
    ("clauses that say a study", ["answers/RowLaws.SaysStudy"], ["an impossibility", "the study of a file"]),
    ("a refutation of a study", ["answers/RowLaws.IsProofRight"], ["clauses that say a study", "an impossibility", "the study of a file"]),
    ("clauses of a file that no assignment satisfies", ["cnf/Sat.IsUnsatisfiable", "answers/Lrat.GivesFormula"], []),
    ("a proof of a file", ["cnf/Derived.IsAccepted", "clause_text/ReadLrat.read_lrat"], ["clauses of a file that no assignment satisfies"]),
    ("a gain", ["call_laws/Laws.IsGainRight"], ["an impossibility", "the study of a file"]),
]
# What laws give as a whole, and what they begin with.
WHOLES = [
    ("decide", ["answers/RowLaws.IsPrinted"]),
    ("check", ["answers/Laws.IsConfirmedRight"]),
    ("sharpen", ["answers/SharpenLaws.IsSharpPrinted"]),
    ("adopt", ["answers/RowLaws.IsAdoptedRight"]),
    ("export", ["answers/RowLaws.SaysStudy"]),
    ("proof", ["answers/RowLaws.IsProofRight"]),
    ("lrat", ["call_laws/Laws.IsRefutationConfirmed"]),
    ("gain", ["call_laws/Laws.IsGainWritten"]),
    ("a call", ["answers/Call.IsCall"]),
    ("a call of explain", ["explain_answers/Call.IsExplainCall"]),
]


def words_of(lines):
    code = "\n".join(line for line in lines if not line.strip().startswith("--"))
    return set(re.findall(r"[A-Za-z_][\w']*", re.sub(r'"[^"]*"', "", code)))


class File:
    """The definitions of a file with their lines, and where its other names come from."""

    def __init__(self, path):
        self.lines, self.uses = {}, {}
        name, indent, comments = None, 0, []
        with open(path, encoding="utf-8") as text:
            for line in text.read().split("\n"):
                head, use = HEAD.match(line), USE.match(line)
                depth = len(line) - len(line.lstrip())
                if use:
                    self.take(*use.groups())
                elif head:
                    indent, name = len(head[1]), head[2]
                    self.lines[name] = [*comments, line]
                    comments = []
                elif not line.strip() or line.strip().startswith(("use ", "-- --", "module")):
                    name, comments = None, []
                elif line.strip().startswith("--") and (not name or depth <= indent):
                    name = None
                    comments.append(line)
                elif name:
                    self.lines[name].append(line)
                else:
                    comments.append(line)

    def take(self, crate, module, names):
        for name in names.split(","):
            there, _, here = name.strip().partition(" as ")
            self.uses[here or there] = (f"{crate}/{module}", there)

    def form_of(self, name):
        """The type of which the name is a form."""
        for type_, lines in self.lines.items():
            if any(re.match(rf"^ +(?:pub )?{re.escape(name)} *:", line) for line in lines[1:]):
                return type_
        return None


FILES = {}
for path in glob.glob(os.path.join(ROOT, "*", "specs", "*.antt")):
    crate, module = path.split(os.sep)[-3], os.path.basename(path)[: -len(".antt")]
    FILES[f"{crate}/{module}"] = File(path)


def followed(names):
    """The definitions that the names are stated in, each as a file and a name."""
    seen, left = set(), [tuple(name.split(".")) for name in names]
    for place, name in left:
        if place not in FILES or not (name in FILES[place].lines or name in FILES[place].uses or FILES[place].form_of(name)):
            sys.exit(f"believed: there is no {place}.{name}")
    while left:
        place, name = left.pop()
        file = FILES.get(place)
        if file is None or (place, name) in seen:
            continue
        if name not in file.lines:
            left += [(place, file.form_of(name))] if file.form_of(name) else [file.uses[name]] if name in file.uses else []
            continue
        seen.add((place, name))
        for word in words_of(file.lines[name]) - {name}:
            left += [(place, word)] if word in file.lines else [file.uses[word]] if word in file.uses else []
    return seen


def of_kit(definitions):
    """How many names of each crate of the kit these definitions use, without its types and its signs."""
    used = {FILES[place].uses.get(word, ("/declared", word)) for place, name in definitions for word in words_of(FILES[place].lines[name])}
    return collections.Counter(place.split("/")[0] for place, _ in used if place not in FILES and "/declared" not in place)


def tell(claim, definitions):
    counts, words = collections.Counter(), 0
    for place, name in definitions:
        counts[place] += len(FILES[place].lines[name])
        words += sum(len(line.split()) for line in FILES[place].lines[name])
    print(f"{claim}: {sum(counts.values())} lines in {len(counts)} files, {words} words and signs, {round(words / 150)} minutes aloud")
    print("    " + ", ".join(f"{place} {count}" for place, count in sorted(counts.items())))
    print("    names of the kit: " + ", ".join(f"{crate} {count}" for crate, count in sorted(of_kit(definitions).items())))


if sys.argv[1:]:
    tell("these names", followed(sys.argv[1:]))
else:
    found = {claim: followed(names) for claim, names, _ in CLAIMS}
    for claim, _, others in CLAIMS:
        tell(claim, found[claim].difference(*[found[other] for other in others]))
    for whole, names in WHOLES:
        tell(f"all of {whole}", followed(names))
