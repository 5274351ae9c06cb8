#!/usr/bin/env python3
"""Holds docs/PHRASES.md against the program: python3 studies/phrases.py PROGRAM [WORD]

Each part of a sentence is read, each sentence decided, and held by `check` against the rules that the page names; each study of the page
has the answer that stands behind it, and each slip the refusal that stands beside it. Where all is so, nothing is written; else a line for
each fault, and the status is 1. With WORD only the rows that have it are tried.
"""
import itertools
import os
import re
import subprocess
import sys
import tempfile

PAGE = os.path.join(os.path.dirname(os.path.abspath(__file__)), "..", "docs", "PHRASES.md")
ABSENT = "-"


class Size:
    """Kind, size, whether voters may be absent, and the ballots that they may cast, as a study or the heading of a table says."""

    def __init__(self, kind, voters, alternatives, absent=False, ballots=None):
        self.kind, self.voters, self.alternatives, self.absent = kind, voters, alternatives, absent
        self.letters = "abcde"[:alternatives]
        rankings = ["".join(order) for order in itertools.permutations(self.letters)]
        self.ballots = sorted(ballots or rankings)
        self.whole = self.ballots == rankings and not absent

    @classmethod
    def of(cls, study):
        """That of the text of a study, which the program takes."""
        found = [re.search(rf"^{key} *= *[\"']?(\w+)", study, re.M) for key in ("kind", "voters", "alternatives")]
        if not all(found):
            sys.exit("this is no study: kind, voters or alternatives is missing")
        kind, voters, alternatives = (word.group(1) for word in found)
        ballots = re.search(r"^ballots *= *\[([^]]*)\]", study, re.M)
        absent = re.search(r"^absent *= *true", study, re.M)
        size = cls(kind, int(voters), int(alternatives), bool(absent), re.findall(r"\w+", ballots.group(1)) if ballots else None)
        if (len(size.ballots) + size.absent) ** size.voters > 20001:
            sys.exit("the study has too many profiles")
        return size

    def study(self, name, sentence):
        absent = "absent = true\n" if self.absent else ""
        return (
            f'kind = "{self.kind}"\nvoters = {self.voters}\nalternatives = {self.alternatives}\n{absent}'
            f"axioms = [\"{name}\"]\n[sentences]\n{name} = '{sentence}'\n"
        )

    def profiles(self):
        casts = self.ballots + [ABSENT] * self.absent
        every = itertools.product(casts, repeat=self.voters)
        return [profile for profile in every if set(profile) != {ABSENT}]

    def report(self, axioms, rule):
        head = ["bench report 1", f"kind {self.kind}", f"voters {self.voters}", f"alternatives {self.alternatives}"]
        if not self.whole:
            head = ["bench report 2", *head[1:], "ballots " + " ".join(self.ballots), "absent " + ("yes" if self.absent else "no")]
        table = [f"{'|'.join(profile)} {rule(profile)}" for profile in self.profiles()]
        return "\n".join([*head, f"axioms {axioms}", "verdict possible", f"rule {len(table)}", *table, "end", ""])


def read(path):
    """The text of a study."""
    try:
        with open(path, encoding="utf-8") as file:
            return file.read()
    except (OSError, UnicodeDecodeError) as error:
        sys.exit(f"the study can't be read: {error}")


def present(profile):
    return [ballot for ballot in profile if ballot != ABSENT]


def by_points(size, ballots, points):
    """The alternatives by their points, the earlier letter first among equals."""
    return sorted(size.letters, key=lambda x: (-sum(points(ballot.index(x)) for ballot in ballots), x))


def borda(size, ballots):
    return by_points(size, ballots, lambda place: size.alternatives - place)


def undominated(size, ballots):
    beaten = {y for x in size.letters for y in size.letters if all(b.index(x) < b.index(y) for b in ballots)}
    return "".join(x for x in size.letters if x not in beaten)


RULES = {
    "choice": {
        "borda": lambda size, ballots: borda(size, ballots)[0],
        "plurality": lambda size, ballots: by_points(size, ballots, lambda place: place == 0)[0],
        "dictator": lambda size, ballots: ballots[0][0],
        "last": lambda size, ballots: ballots[0][-1],
        "constant": lambda size, ballots: "a",
    },
    "ranking": {
        "borda": lambda size, ballots: "".join(borda(size, ballots)),
        "dictator": lambda size, ballots: ballots[0],
        "reversed": lambda size, ballots: ballots[0][::-1],
        "constant": lambda size, ballots: size.letters,
    },
    "sets": {
        "all": lambda size, ballots: size.letters,
        "tops": lambda size, ballots: "".join(sorted({ballot[0] for ballot in ballots})),
        "undominated": undominated,
        "constant": lambda size, ballots: "a",
    },
}
SORTS = {"p": "profile", "i": "voter", "b": "ballot", "x": "alt", "y": "alt"}


class Bench:
    def __init__(self, program):
        self.program = program
        self.folder = tempfile.TemporaryDirectory()
        self.faults = 0

    def fault(self, text):
        print(f"phrases: {text}", file=sys.stderr)
        self.faults += 1

    def answer(self, command, *texts):
        paths = []
        for number, text in enumerate(texts):
            paths.append(os.path.join(self.folder.name, str(number)))
            with open(paths[-1], "w", encoding="ascii") as file:
                file.write(text)
        return subprocess.run([self.program, command, *paths], stdout=subprocess.PIPE, text=True, check=False).stdout

    def decided(self, study):
        """The line `verdict ..` of the answer, or the line of a refusal."""
        lines = self.answer("decide", study).splitlines()
        return next((line for line in lines if line.startswith(("verdict ", "study: "))), "no answer")

    def part(self, part):
        bound = "".join(f"all {name}: {sort}. " for name, sort in SORTS.items() if re.search(rf"\b{name}\b", part))
        said = self.decided(Size("choice", 3, 3).study("mine", f"{bound}({part} | !{part})"))
        if said != "verdict possible":
            self.fault(f"{said}, of the part {part}")

    def slip(self, wrong, refusal, right, answer="verdict "):
        size = Size("choice", 2, 2)
        said = self.decided(size.study("mine", wrong))
        if said != refusal:
            self.fault(f"{said}, where {refusal} is shown, of {wrong}")
        said = self.decided(size.study("mine", right))
        if not said.startswith(answer):
            self.fault(f"{said}, of {right}")

    def phrase(self, size, name, sentence, true_of, false_of):
        study = size.study(name, sentence)
        wanted = "impossible" if true_of == ["no rule"] else "possible"
        said = self.decided(study)
        if said != f"verdict {wanted}":
            self.fault(f"{said}, of {name}")
        for rule, holds in [(rule, True) for rule in true_of if rule != "no rule"] + [(rule, False) for rule in false_of]:
            known = RULES[size.kind][rule]
            said = self.answer("check", study, size.report(name, lambda profile: known(size, present(profile))))
            right = said == "confirmed possible\n" if holds else re.fullmatch(rf"refused line \d+: fails {name} \d+\n", said)
            if not right:
                self.fault(f"{said.strip()}, of {name} and the rule {rule}")
        if wanted == "possible" and sorted(true_of + false_of) != sorted(RULES[size.kind]):
            self.fault(f"{name} is not said of each known rule")

    def whole(self, study, wanted):
        said = self.decided(study)
        if said != wanted:
            self.fault(f"{said}, where {wanted} is shown, of\n{study}")


def cells(line):
    return [cell.strip().replace("\\|", "|") for cell in re.split(r"(?<!\\)\|", line)[1:-1]]


def listed(cell):
    return [name.strip() for name in cell.split(",") if name.strip()]


def parts_of(page):
    """The tables and the studies of the page, in its order: ("head", cells), ("row", cells), ("size", Size) or ("study", text, answer)."""
    lines = page.split("\n")
    for at, line in enumerate(lines):
        heading = re.search(r"^### .*\(`(\w+)`, (\d) voters, (\d) alternatives(, absent)?\)$", line)
        if heading:
            kind, voters, alternatives, absent = heading.groups()
            yield "size", Size(kind, int(voters), int(alternatives), bool(absent))
        elif line.startswith("| ") and lines[at + 1].startswith("|---"):
            yield "head", cells(line)
        elif line.startswith("| "):
            yield "row", cells(line)
        elif line.startswith("    kind = "):
            rest = itertools.takewhile(lambda text: text.startswith("    "), lines[at:])
            answer = re.search(r"`(verdict \w+|study: [^`]*)`", "\n".join(lines[at:])).group(1)
            yield "study", "".join(text[4:] + "\n" for text in rest), answer


def hold(bench, page, word):
    head, size = [], None
    for what, *said in parts_of(page):
        if what == "size":
            size = said[0]
        elif what == "head":
            head = said[0]
        elif word not in str(said):
            continue
        elif what == "study":
            bench.whole(*said)
        elif head[1] == "Part":
            for part in re.findall(r"`([^`]*)`", said[0][1]):
                bench.part(part)
        elif head[1] == "Printed":
            bench.slip(*[word for cell in said[0] for word in re.findall(r"`([^`]*)`", cell)])
        elif head[1] == "Write":
            name, sentence = re.match(r"`(\w+)`", said[0][0]).group(1), said[0][1].strip("`")
            bench.phrase(size, name, sentence, listed(said[0][2]), listed(said[0][3]))


if __name__ == "__main__":
    asked = Bench(sys.argv[1])
    with open(PAGE, encoding="utf-8") as text:
        hold(asked, text.read(), sys.argv[2] if len(sys.argv) > 2 else "")
    sys.exit(1 if asked.faults else 0)
