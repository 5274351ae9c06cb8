#!/usr/bin/env python3
"""Writes the clauses of a study as `bench export` does: measure/encode.py STUDY. It shares nothing with the program and reads no
sentence: each axiom of the library is a function below that says in Python what the axiom asks. So where its text is that of `export`,
byte for byte, the clauses say the study, and the sentences say the axioms, as far as this page is right; no prover comes into it.
A study that lists a sentence of its own is not taken, and no sharp text is.

    measure/encode.py STUDY REPORT      holds a report against the study: its head, that each axiom of its core has a rule or an open mark,
                                        and each rule against the clauses of the axioms that it is to satisfy; its story is not tried
    measure/encode.py --hold PROGRAM    compares with `PROGRAM export` over studies of all axioms and kinds, and writes the first difference
"""
import ast
import itertools
import re
import subprocess
import sys
import tempfile


class Study:
    """A study of library axioms, and what its sentences speak of. A profile is a tuple with the number of each voter's ballot."""

    def __init__(self, text):
        keys = dict(re.findall(r"^(\w+) *= *(.*)$", re.split(r"^\[", text, flags=re.M)[0], re.M))
        self.kind, self.axioms = ast.literal_eval(keys["kind"]), ast.literal_eval(keys["axioms"])
        self.voters, self.alts = range(int(keys["voters"])), range(int(keys["alternatives"]))
        letters = "abcde"[: len(self.alts)]
        every = str(["".join(order) for order in itertools.permutations(letters)])
        self.ballots = sorted(ast.literal_eval(keys.get("ballots", every)))
        self.place = [[ballot.index(letter) for letter in letters] for ballot in self.ballots]
        self.casts = range(len(self.ballots))
        self.gone = len(self.ballots)
        self.full = len(self.ballots) == len(ast.literal_eval(every))
        self.absent = keys.get("absent") == "true"
        self.conflicts = int(keys.get("conflicts", "100000"))
        self.profiles = list(itertools.product(range(self.gone + self.absent), repeat=len(self.voters)))
        if self.absent:
            self.profiles.pop()
        self.number = {profile: number for number, profile in enumerate(self.profiles)}
        self.pairs = list(itertools.combinations(self.alts, 2))

    def better(self, ballot, x, y):
        return self.place[ballot][x] < self.place[ballot][y]

    def prefers(self, i, x, y, p):
        return p[i] != self.gone and self.better(p[i], x, y)

    def all_prefer(self, x, y, p):
        return all(self.prefers(i, x, y, p) for i in self.voters)

    def majority(self, x, y, p):
        return sum(self.prefers(i, x, y, p) - self.prefers(i, y, x, p) for i in self.voters) > 0

    def beats_all(self, x, p):
        return all(x == y or self.majority(x, y, p) for y in self.alts)

    def changed(self, p, i, ballot):
        return p[:i] + (ballot,) + p[i + 1 :]

    def exchanged(self, p, i, j):
        at = {i: p[j], j: p[i]}
        return tuple(at.get(k, p[k]) for k in self.voters)

    def renamed(self, p, x, y):
        orders = ["".join("abcde"[swap(x, y, "abcde".index(letter))] for letter in ballot) for ballot in self.ballots]
        return tuple(self.gone if c == self.gone else self.ballots.index(orders[c]) for c in p)

    def wins(self, x, p):
        return self.number[p] * len(self.alts) + x + 1

    def ranks(self, x, y, p):
        literal = self.number[p] * len(self.pairs) + self.pairs.index((min(x, y), max(x, y))) + 1
        return literal if x < y else -literal

    def each(self, *ranges):
        return itertools.product(*ranges)


def swap(x, y, z):
    return y if z == x else x if z == y else z


def same(a, b):
    return [[-a, b], [a, -b]]


def unanimity(s):
    for p, x in s.each(s.profiles, s.alts):
        if all(x == y or s.all_prefer(x, y, p) for y in s.alts):
            yield [s.wins(x, p)]


def pareto(s):
    for p, x, y in s.each(s.profiles, s.alts, s.alts):
        if s.all_prefer(x, y, p):
            yield [s.ranks(x, y, p) if s.kind == "ranking" else -s.wins(y, p)]


def onto(s):
    for x in s.alts:
        yield [s.wins(x, p) for p in s.profiles]


def non_dictatorship(s):
    for i in s.voters:
        asked = [(p, x, y) for p, x, y in s.each(s.profiles, s.alts, s.alts) if s.prefers(i, x, y, p)]
        yield [-s.ranks(x, y, p) if s.kind == "ranking" else s.wins(y, p) for p, x, y in asked]


def strategyproof(s):
    if s.kind == "sets":
        yield from kelly(s)
        return
    for p, i, b, x, y in s.each(s.profiles, s.voters, s.casts, s.alts, s.alts):
        if s.prefers(i, y, x, p):
            yield [-s.wins(x, p), -s.wins(y, s.changed(p, i, b))]


def kelly(s):
    for p, i, b, z in s.each(s.profiles, s.voters, s.casts, s.alts):
        q = s.changed(p, i, b)
        # The change is no gain where some x wins at p and some y at q with y not as good as x; else the sets are the same.
        worse = [(x, y) for x, y in s.each(s.alts, s.alts) if x != y and not s.prefers(i, y, x, p)]
        for one in itertools.product(*[(s.wins(x, p), s.wins(y, q)) for x, y in worse]):
            for other in same(s.wins(z, p), s.wins(z, q)):
                yield [*one, *other]


def maskin(s):
    for p, q, x in s.each(s.profiles, s.profiles, s.alts):
        if all(s.prefers(i, x, y, q) for i in s.voters for y in s.alts if s.prefers(i, x, y, p)):
            yield [-s.wins(x, p), s.wins(x, q)]


def condorcet(s):
    for p, x in s.each(s.profiles, s.alts):
        if s.beats_all(x, p) and s.kind == "sets":
            yield from [[s.wins(z, p) if x == z else -s.wins(z, p)] for z in s.alts]
        elif s.beats_all(x, p):
            yield [s.wins(x, p)]


def independence(s):
    for p, q, x, y in s.each(s.profiles, s.profiles, s.alts, s.alts):
        if x != y and all(s.prefers(i, x, y, p) == s.prefers(i, x, y, q) for i in s.voters):
            yield from same(s.ranks(x, y, p), s.ranks(x, y, q))


def anonymity(s):
    for p, i, j in s.each(s.profiles, s.voters, s.voters):
        q = s.exchanged(p, i, j)
        if s.kind == "ranking":
            yield from itertools.chain(*[same(s.ranks(x, y, p), s.ranks(x, y, q)) for x, y in itertools.permutations(s.alts, 2)])
        else:
            yield from itertools.chain(*[same(s.wins(x, p), s.wins(x, q)) for x in s.alts])


def neutrality(s):
    for p, x, y in s.each(s.profiles, s.alts, s.alts):
        q = s.renamed(p, x, y)
        if s.kind == "ranking":
            for z, w in itertools.permutations(s.alts, 2):
                yield from same(s.ranks(z, w, p), s.ranks(swap(x, y, z), swap(x, y, w), q))
        else:
            yield from itertools.chain(*[same(s.wins(z, p), s.wins(swap(x, y, z), q)) for z in s.alts])


def resolute(s):
    for p, x, y in s.each(s.profiles, s.alts, s.alts):
        if x != y:
            yield [-s.wins(x, p), -s.wins(y, p)]


def participation(s):
    for p, i, b, x, y in s.each(s.profiles, s.voters, s.casts, s.alts, s.alts):
        if p[i] == s.gone and s.better(b, x, y):
            yield [-s.wins(x, p), -s.wins(y, s.changed(p, i, b))]


def frame(s):
    """That the bits of each profile are those of an outcome."""
    for p in s.profiles:
        if s.kind == "ranking":
            for x, y, z in itertools.combinations(s.alts, 3):
                circle = [s.ranks(x, y, p), s.ranks(y, z, p), s.ranks(z, x, p)]
                yield from ([-literal for literal in circle], circle)
        else:
            yield [s.wins(x, p) for x in s.alts]
            if s.kind == "choice":
                yield from [[-s.wins(x, p), -s.wins(y, p)] for x, y in s.pairs]


def ordered(clauses):
    """Each clause once, its literals by variable and once; none with a variable and its negation."""
    kept = {}
    for clause in clauses:
        literals = tuple(sorted(set(clause), key=abs))
        if len(set(map(abs, literals))) == len(literals):
            kept[literals] = None
    return kept


def export(s):
    return lines_of(s, [clause for part in [frame, *(globals()[name] for name in s.axioms)] for clause in ordered(part(s))])


def lines_of(s, clauses):
    """The lines of `export` for some clauses."""
    bits = len(s.pairs) if s.kind == "ranking" else len(s.alts)
    yield "c bench export 1"
    yield f"c kind {s.kind} voters {len(s.voters)} alternatives {len(s.alts)}"
    yield f"p cnf {bits * len(s.profiles)} {len(clauses)}"
    yield from (" ".join(map(str, [*clause, 0])) for clause in clauses)


def bits_of(s, table):
    """The literals that a table of outcomes makes true."""
    for p, outcome in zip(s.profiles, table):
        at = [outcome.find(letter) for letter in "abcde"[: len(s.alts)]]
        if s.kind == "ranking":
            yield from (s.ranks(x, y, p) for x, y in itertools.permutations(s.alts, 2) if at[x] < at[y])
        else:
            yield from (s.wins(x, p) if at[x] >= 0 else -s.wins(x, p) for x in s.alts)


def is_outcome(s, text):
    letters = "abcde"[: len(s.alts)]
    if s.kind == "ranking":
        return sorted(text) == list(letters)
    return text != "" and all(x < y for x, y in zip(text, text[1:])) and set(text) <= set(letters) and (s.kind == "sets" or len(text) == 1)


def head_of(s, version):
    """The lines of a head after the first."""
    yield from (f"kind {s.kind}", f"voters {len(s.voters)}", f"alternatives {len(s.alts)}")
    if version == "2":
        yield from (" ".join(["ballots", *s.ballots]), f"absent {'yes' if s.absent else 'no'}")
    yield " ".join(["axioms", *s.axioms])


class Report:
    """A report over a study, read line by line. The lemmas of its story are passed over."""

    def __init__(self, study, text):
        self.study, self.lines, self.at = study, text.split("\n"), 0
        self.core, self.marks = None, 0

    def refuse(self, why):
        sys.exit(f"line {self.at} of the report: {why}")

    def next(self):
        self.at += 1
        if self.at > len(self.lines):
            self.refuse("the text ends here")
        return self.lines[self.at - 1]

    def want(self, line):
        if self.next() != line:
            self.refuse(f"the line should be {line!r}")

    def head(self):
        first = self.next()
        if first == "bench sharp 1":
            self.refuse("this is a sharp text: its rules satisfy instances of axioms, and here only whole axioms are said")
        if first != "bench report 2" and not (first == "bench report 1" and self.study.full and not self.study.absent):
            self.refuse("no first line of a report over this study")
        for line in head_of(self.study, first[-1]):
            self.want(line)

    def names(self):
        names = self.next().split(" ")
        if names[0] != "core" or not names[1:] or names[1:] != [axiom for axiom in self.study.axioms if axiom in names[1:]]:
            self.refuse("here should be a core: some axioms of the study, in its order")
        return names[1:]

    def table(self, line, name):
        if line != f"{name} {len(self.study.profiles)}":
            mark = ", or an open mark with the limit of the study" if self.core else ""
            self.refuse(f"the line should be '{name} {len(self.study.profiles)}'{mark}")
        table = []
        for profile in self.study.profiles:
            row = self.next().split(" ")
            if row[0] != "|".join([*self.study.ballots, "-"][c] for c in profile) or len(row) != 2 or not is_outcome(self.study, row[1]):
                self.refuse("this is no row of the next profile with an outcome")
            table.append(row[1])
        return table

    def rules(self):
        """The tables, each with the axioms that it is to satisfy; each axiom of a core has one, or an open mark."""
        self.head()
        verdict = self.next()
        if verdict == "verdict possible":
            yield self.study.axioms, self.table(self.next(), "rule")
        elif verdict == "verdict impossible":
            core = self.core = self.names()
            line = self.next()
            while not line.startswith("without "):
                if line == "end":
                    self.refuse(f"no rule and no open mark without {core[0]} stands before it")
                line = self.next()
            for axiom in core:
                if line == f"without {axiom} open {self.study.conflicts}":
                    self.marks += 1
                else:
                    yield [other for other in core if other != axiom], self.table(line, f"without {axiom} rule")
                line = self.next()
            self.at -= 1
        else:
            self.refuse("this is no verdict that has a rule")
        self.want("end")
        self.want("")
        if self.at != len(self.lines):
            self.refuse("the text goes on after its end")


def hold_rules(s, text):
    count, report = 0, Report(s, text)
    for axioms, table in report.rules():
        true = set(bits_of(s, table))
        for part in [frame, *(globals()[name] for name in axioms)]:
            if any(true.isdisjoint(clause) for clause in part(s)):
                sys.exit(f"rule {count + 1} of the report does not satisfy {part.__name__}")
        count += 1
    if report.core is None:
        print("possible: the rule satisfies all axioms")
    else:
        core = " ".join(report.core)
        print(f"impossible, core {core}: rules {count}, each satisfies the other axioms, open marks {report.marks}; story not tried")


LIBRARY = {
    "choice": "unanimity pareto onto non_dictatorship strategyproof maskin condorcet anonymity neutrality participation",
    "ranking": "pareto independence non_dictatorship anonymity neutrality",
    "sets": "pareto anonymity neutrality condorcet resolute strategyproof",
}
# Voters, alternatives, and what else the study says.
SIZES = [(1, 1, ""), (3, 1, ""), (1, 2, ""), (2, 2, "absent = true"), (3, 2, ""), (2, 3, ""), (1, 4, "")]
SIZES += [(2, 3, 'ballots = ["cba", "abc", "bac", "bca"]'), (3, 3, 'ballots = ["abc", "bca", "cab"]\nabsent = true')]


def studies():
    """The text of a study for each axiom at each size, and for all of them together."""
    for kind, (voters, alternatives, more) in itertools.product(LIBRARY, SIZES):
        axioms = [axiom for axiom in LIBRARY[kind].split() if axiom != "neutrality" or "ballots" not in more]
        for chosen in [[axiom] for axiom in axioms] + [axioms]:
            listed = ", ".join(f'"{axiom}"' for axiom in chosen)
            yield f'kind = "{kind}"\nvoters = {voters}\nalternatives = {alternatives}\n{more}\naxioms = [{listed}]\n'


def hold(program):
    count = 0
    for text in studies():
        with tempfile.NamedTemporaryFile("w", suffix=".toml") as file:
            file.write(text)
            file.flush()
            written = subprocess.run([program, "export", file.name], stdout=subprocess.PIPE, check=False).stdout.decode()
        if written != "".join(line + "\n" for line in export(Study(text))):
            sys.exit(f"export writes other clauses of\n{text}")
        count += 1
    print(f"studies {count}: each has the same clauses")


def text_of(path):
    try:
        with open(path, encoding="utf-8") as file:
            return file.read()
    except (OSError, UnicodeDecodeError) as fault:
        sys.exit(f"{path}: {fault}")


def study_of(path):
    try:
        study = Study(text_of(path))
        known = LIBRARY[study.kind].split()
    except (KeyError, SyntaxError, TypeError, ValueError):
        sys.exit(f"{path}: no study as it is read here, with each key and its value on one line and no comment behind it")
    own = [axiom for axiom in study.axioms if axiom not in known]
    if own:
        sys.exit(f"{path}: {own[0]} is no axiom of the library, and a study that lists a sentence of its own is not taken")
    return study


def main():
    if sys.argv[1:2] == ["--hold"] and len(sys.argv) == 3:
        hold(sys.argv[2])
    elif len(sys.argv) == 2:
        print("\n".join(export(study_of(sys.argv[1]))))
    elif len(sys.argv) == 3:
        hold_rules(study_of(sys.argv[1]), text_of(sys.argv[2]))
    else:
        sys.exit(__doc__)


if __name__ == "__main__":
    main()
