#!/usr/bin/env python3
"""Says of a report or a sharp text what `bench check` says of it: measure/judge.py STUDY REPORT writes the same line, where the text is
confirmed or the first line that is not right, and ends with the same status; of a study that is refused, its line. It shares nothing with the
program, and is what docs/FORMATS.md says: sentences are read by refusals.py, the library from the tables of that page, and mean what sentences.py
says; a story is gone through with what is known of each instance's body (Kleene's three values), and a table is put into every instance.

For measure/strange.py it also says what `export`, `explain instance` and `explain study` write of a study that is taken.
"""
import functools
import itertools
import math
import os
import re
import sys

sys.dont_write_bytecode = True
import encode
import sentences
from refusals import Sized, Unsaid, decoded, leading, sentence_of, study_line, tomllib

NAME = re.compile(r"[a-z][a-z0-9_]{0,31}")
COUNT = re.compile(r"0|[1-9][0-9]*")
LONGEST, MOST_INSTANCES = 4096, 15_000


class Dear(Exception):
    """What is not gone through here."""


class Refused(Exception):
    """The word of the first line that is not right."""


def need(right, word):
    if not right:
        raise Refused(word)


# ---- What is known of sentences.


def resolved(study, part):
    """A formula of refusals.py with the values of its constants, as sentences.py has it."""
    head, *rest = part
    if head == "variable":
        return part
    if head == "constant":
        sort, text = rest
        value = {"voter": lambda: int(text[1:]) - 1, "alt": lambda: "abcde".index(text[1:]), "ballot": lambda: study.ballots.index(text[1:-1])}[sort]
        return head, sort, value()
    if head in ("all", "some"):
        return head, rest[0], rest[1], resolved(study, rest[2])
    if head == "call":
        head, *rest = rest
    return (head, *(resolved(study, other) for other in rest))


def three(formula, known):
    """What is known of a formula: true, false, or None."""
    if isinstance(formula, bool):
        return formula
    if isinstance(formula, int):
        return True if formula in known else False if -formula in known else None
    head, *parts = formula
    first = three(parts[0], known)
    if head == "!":
        return None if first is None else not first
    if head in "&|" and first is (head == "|"):
        return first
    other = three(parts[1], known)
    if head in "&|":
        return other if other is (head == "|") else None if None in (first, other) else head == "&"
    return None if None in (first, other) else first is other


# ---- A study.


@functools.lru_cache(100)
def study_of(head):
    return sentences.Study(head + "axioms = []\n")


class Axiom:
    """A sentence over the values of a study, and what a table may make false of it."""

    def __init__(self, study, text):
        self.study, self.sentence = study, sentence_of(text.encode())
        self.formula = resolved(study, self.sentence)
        names, self.sorts, body = sentences.leading(self.formula)
        self.ranges = [study.values[sort] for sort in self.sorts]
        self.count = math.prod(map(len, self.ranges))
        self.body = sentences.written(study, body, names)

    @functools.cached_property
    def instances(self):
        """The bodies that are not true of every rule, with the numbers of their instances."""
        return [(number, body) for number, body in enumerate(map(self.body, itertools.product(*self.ranges))) if body is not True]


@functools.lru_cache(150)
def axiom_of(head, text):
    return Axiom(study_of(head), text)


class Judge:
    """A study, and what its axioms ask."""

    def __init__(self, text, library, most=MOST_INSTANCES):
        if tomllib is None:
            raise Dear
        self.most = most
        try:
            keys = tomllib.loads(decoded(text))
            self.kind, self.names, own = keys["kind"], keys["axioms"], keys.get("sentences", {})
        except (ValueError, KeyError) as fault:
            raise Dear from fault
        head = "".join(f"{key} = {keys[key]!r}\n" for key in ("kind", "voters", "alternatives", "ballots") if key in keys)
        head += f"absent = {str(keys.get('absent', False)).lower()}\n"
        self.study = s = study_of(head)
        self.conflicts, self.whole = keys.get("conflicts", 100_000), s.full and not s.absent
        self.letters, self.voters = "abcde"[: len(s.alts)], len(s.voters)
        casts = [*s.ballots, "-"]
        self.profiles = {"|".join(casts[c] for c in profile): profile for profile in s.profiles}
        self.axioms = {name: axiom_of(head, library[self.kind].get(name) or own[name]) for name in self.names}
        self.own = {name: self.axioms[name].formula for name in self.names if name not in library[self.kind]}
        self.claims = []

    def instances(self, name):
        """The bodies of an axiom that a table may make false, with their numbers."""
        axiom = self.axioms[name]
        if axiom.count > self.most and "instances" not in vars(axiom):
            raise Dear
        return axiom.instances

    def number(self, name, values):
        """The number of an instance."""
        number = 0
        for value, choices in zip(values, self.axioms[name].ranges):
            number = number * len(choices) + choices.index(value)
        return number

    def outcomes(self, profile):
        """The literals of each outcome at a profile."""
        return [set(self.literals(profile, word)) for word in outcome_words(self)]

    def literals(self, profile, outcome):
        s, at = self.study, [outcome.find(letter) for letter in self.letters]
        if self.kind == "ranking":
            return [s.ranks(x, y, profile) for x, y in itertools.permutations(s.alts, 2) if at[x] < at[y]]
        return [s.wins(x, profile) if at[x] >= 0 else -s.wins(x, profile) for x in s.alts]

    # -- The words of lines.

    def profile(self, word):
        need(word in self.profiles, "form")
        return self.profiles[word]

    def outcome(self, word):
        need(word.isascii() and encode.is_outcome(self.study, word), "form")
        return word

    def literal(self, word):
        what, at, profile = word.partition("@")
        need(at, "form")
        profile, s = self.profile(profile), self.study
        if self.kind == "ranking":
            found = re.fullmatch(r"([a-e])>([a-e])", what)
            need(found and found[1] != found[2] and set(found.groups()) <= set(self.letters), "form")
            return s.ranks(*map(self.letters.index, found.groups()), profile)
        found = re.fullmatch(r"(!?)([a-e])", what)
        need(found and found[2] in self.letters, "form")
        return (-1 if found[1] else 1) * s.wins(self.letters.index(found[2]), profile)

    def values(self, name, words):
        need(name in self.axioms and len(words) == len(self.axioms[name].sorts), "form")
        return tuple(self.value(sort, word) for sort, word in zip(self.axioms[name].sorts, words))

    def value(self, sort, word):
        if sort == "profile":
            return self.profile(word)
        if sort == "voter":
            need(COUNT.fullmatch(word) and len(word) < 9 and 1 <= int(word) <= self.voters, "form")
            return int(word) - 1
        choices = list(self.letters) if sort == "alt" else self.study.ballots
        need(word in choices, "form")
        return choices.index(word)

    def reason(self, words):
        """A reason, as its kind with what it names."""
        what, *rest = words
        if what == "axiom" and rest:
            return what, rest[0], self.values(rest[0], rest[1:])
        need(len(rest) == 1, "form")
        if what == "outcome":
            return what, self.profile(rest[0])
        need(what == "lemma" and COUNT.fullmatch(rest[0]) and rest[0] != "0", "form")
        return what, rest[0]

    def refutes(self, reason, known):
        what, *rest = reason
        if what == "axiom":
            return three(self.axioms[rest[0]].body(rest[1]), known) is False
        if what == "outcome":
            return all(any(-literal in outcome for literal in known) for outcome in self.outcomes(rest[0]))
        return self.claims[int(rest[0]) - 1] <= known


def names_of(words):
    need(all(map(NAME.fullmatch, words)), "form")
    return words


def count_of(word):
    need(COUNT.fullmatch(word), "form")
    return word


class Text:
    """A report or a sharp text that is gone through, line by line."""

    def __init__(self, judge, text):
        *self.lines, self.rest = text.split(b"\n")
        self.judge, self.at = judge, 0

    def next(self):
        """The words of the next line."""
        self.at += 1
        need(self.at <= len(self.lines), "form")
        line = self.lines[self.at - 1]
        need(len(line) <= LONGEST and line.isascii(), "form")
        return line.decode().split(" ")

    def first_word(self):
        return self.lines[self.at].split(b" ")[0] if self.at < len(self.lines) else b""

    def said(self):
        try:
            return f"confirmed {self.whole()}\n"
        except Refused as word:
            return f"refused line {self.at}: {word}\n"

    def whole(self):
        first = self.next()
        sharp = first == ["bench", "sharp", "1"]
        need(sharp or first in (["bench", "report", "1"], ["bench", "report", "2"]), "form")
        need(sharp or first[2] == "2" or self.judge.whole, "study")
        self.head(not self.judge.whole if sharp else first[2] == "2")
        words = self.next()
        need(words in [["verdict", word] for word in ("possible", "impossible", "undecided")] and not (sharp and words[1] == "possible"), "form")
        need(words[1] != "undecided", "undecided")
        if words[1] == "possible":
            words = self.next()
            need(len(words) == 2 and words[0] == "rule", "form")
            self.table(words[1], self.judge.names)
        else:
            self.impossible(sharp)
        need(self.next() == ["end"], "form")
        self.at += 1
        need(self.at > len(self.lines) and not self.rest, "form")
        return "sharp" if sharp else "possible" if words[0] == "rule" else "impossible"

    def head(self, second):
        judge, s = self.judge, self.judge.study

        def line(word, wanted, is_form):
            words = self.next()
            need(words[0] == word and is_form(words[1:]), "form")
            need(words[1:] == wanted, "study")

        line("kind", [judge.kind], lambda words: words in (["choice"], ["ranking"], ["sets"]))
        for word, number in (("voters", judge.voters), ("alternatives", len(s.alts))):
            line(word, [str(number)], lambda words: len(words) == 1 and COUNT.fullmatch(words[0]))
        if second:
            line("ballots", s.ballots, lambda words: words and all(sorted(word) == list(judge.letters) for word in words))
            line("absent", ["yes" if s.absent else "no"], lambda words: words in (["yes"], ["no"]))
        line("axioms", judge.names, lambda words: all(map(NAME.fullmatch, words)))

    def table(self, count, axioms=None, others=None):
        """The rows of a table, which satisfies some axioms, or has the bodies of some instances true."""
        judge, true = self.judge, set()
        need(COUNT.fullmatch(count), "form")
        need(count == str(len(judge.profiles)), "row")
        for word, profile in judge.profiles.items():
            words = self.next()
            need(len(words) == 2 and judge.profile(words[0]) is not None, "form")
            outcome = judge.outcome(words[1])
            need(words[0] == word, "row")
            true.update(judge.literals(profile, outcome))
        for name in axioms or []:
            for number, body in judge.instances(name):
                need(three(body, true), f"fails {name} {number}")
        for name, values, body in others or []:
            need(three(body, true), f"fails {name} {judge.number(name, values)}")

    def impossible(self, sharp):
        judge = self.judge
        words = self.next()
        need(words[0] == "core", "form")
        core = names_of(words[1:])
        need(core == [name for name in judge.names if name in core], "core")
        words = self.next()
        need(len(words) == 2 and words[0] == "lemmas" and COUNT.fullmatch(words[1]) and words[1] != "0", "form")
        judge.claims, cited, number = [], set(), 0
        while str(number) != words[1]:
            number += 1
            self.lemma(number, str(number) == words[1], core, cited)
        if sharp:
            self.needs(core, cited)
            return
        for axiom in core:
            words = self.next()
            need(len(words) == 4 and words[0] == "without" and NAME.fullmatch(words[1]) and words[2] in ("rule", "open"), "form")
            count_of(words[3])
            need(words[1] == axiom, "core")
            self.mark(words[2:], [other for other in core if other != axiom], None)

    def mark(self, words, axioms, others):
        if words[0] == "rule":
            self.table(words[1], axioms, others)
        else:
            need(words[1] == str(self.judge.conflicts), "open")

    def needs(self, core, cited):
        judge = self.judge
        words = self.next()
        need(len(words) == 2 and words[0] == "instances" and COUNT.fullmatch(words[1]), "form")
        need(core == [name for name in core if any(name == other for other, _ in cited)], "core")
        need(words[1] == str(len(cited)), "instance")
        wanted = sorted(cited, key=lambda it: (judge.names.index(it[0]), judge.number(*it)))
        bodies = [(name, values, judge.axioms[name].body(values)) for name, values in wanted]
        for place, instance in enumerate(wanted):
            words = self.next()
            need(len(words) >= 4 and words[0] == "needs" and words[-2] in ("rule", "open"), "form")
            found = words[1], judge.values(words[1], words[2:-2])
            count_of(words[-1])
            need(found == instance, "instance")
            self.mark(words[-2:], None, bodies[:place] + bodies[place + 1 :])

    def lemma(self, number, last, core, cited):
        judge = self.judge
        need(self.next() == ["lemma", str(number)], "form")
        known = set()
        while self.first_word() == b"suppose":
            words = self.next()
            need(len(words) == 2, "form")
            literal = judge.literal(words[1])
            need(not last, "supposes")
            need(literal not in known and -literal not in known, "known")
            known.add(literal)
        supposed = set(known)
        while self.first_word() == b"so":
            words = self.next()
            need(len(words) > 4 and words[2] == "by", "form")
            literal, reason = judge.literal(words[1]), judge.reason(words[3:])
            need(literal not in known and -literal not in known, "known")
            self.follows(reason, known | {-literal}, core, cited)
            known.add(literal)
        words = self.next()
        need(len(words) > 3 and words[:2] == ["clash", "by"], "form")
        self.follows(judge.reason(words[2:]), known, core, cited)
        judge.claims.append(supposed)

    def follows(self, reason, known, core, cited):
        what, name, *_ = reason
        need(what != "axiom" or name in core, "not_in_core")
        need(what != "lemma" or len(name) < 12 and int(name) <= len(self.judge.claims), "later")
        need(self.judge.refutes(reason, known), "not_forced")
        if what == "axiom":
            cited.add(reason[1:])


def check_of(judge, text):
    """The line of `check` over a study that is taken and a text."""
    return Text(judge, text).said()


def export_of(judge, dear):
    """The status and the text of `export`, with so many clauses and literals at most."""
    if sum(axiom.count for axiom in judge.axioms.values()) > judge.most:
        raise Dear
    judge.study.axioms = judge.names
    try:
        return sentences.ground(judge.study, judge.own, dear)
    except sentences.Dear as fault:
        raise Dear from fault


def instance_of(judge, name, number):
    """The status and the text of `explain instance`."""
    if name not in judge.axioms:
        return 3, f"instance: no axiom {name}\n"
    axiom, part, scope = judge.axioms[name], judge.axioms[name].sentence, {}
    if number >= axiom.count:
        return 3, f"instance: {name} has {axiom.count} instances, numbered from 0\n"
    shown = {"profile": list(judge.profiles), "voter": "12345678", "alt": judge.letters, "ballot": judge.study.ballots}
    words = []
    for sort, choices in zip(reversed(axiom.sorts), reversed(axiom.ranges)):
        number, at = divmod(number, len(choices))
        words.insert(0, shown[sort][at])
    lines = [" ".join(["axiom", name, *words])]
    for level, word in enumerate(words, 1):
        _, variable, sort, part = part
        told = f"{LETTERS[sort]}{level}"
        lines.append(f"{told} {sort} {word}")
        scope[variable] = {"profile": told, "voter": f"#{word}", "alt": f"@{word}", "ballot": f"<{word}>"}[sort]
    return 0, "\n".join([*lines, f"body {canonical(judge.study, part, scope, len(words) + 1)}", ""])


# ---- All rules of a small study.


def all_rules(judge, most):
    """Each rule of the size as its outcomes, with the axioms that it satisfies, where there are no more than so many."""
    words = list(outcome_words(judge))
    if len(words) ** len(judge.profiles) > most:
        raise Dear
    literals = {(profile, word): judge.literals(profile, word) for profile in judge.profiles.values() for word in words}
    found = []
    for table in itertools.product(words, repeat=len(judge.profiles)):
        true = {literal for pair in zip(judge.profiles.values(), table) for literal in literals[pair]}
        found.append((list(table), {name for name in judge.names if all(three(body, true) for _, body in judge.instances(name))}))
    return found


def outcome_words(judge):
    """The outcomes at a profile, as they are written."""
    if judge.kind == "ranking":
        return map("".join, itertools.permutations(judge.letters))
    most = 1 if judge.kind == "choice" else len(judge.letters)
    return ("".join(word) for count in range(1, most + 1) for word in itertools.combinations(judge.letters, count))


def largest(sets):
    return [one for one in sets if not any(one < other for other in sets)]


def crossings(families):
    """The minimal sets that meet each family, by multiplication (Berge, 1989)."""
    found = [frozenset()]
    for family in families:
        met = [one for one in found if one & family]
        more = {one | {name} for one in found if not one & family for name in family}
        found = met + [one for one in more if not any(other <= one for other in met) and not any(other < one for other in more)]
    return found


def map_of(judge, most):
    """The minimal impossible sets of the axioms, and the largest possible ones."""
    possible = largest({frozenset(names) for _, names in all_rules(judge, most)})
    return crossings([frozenset(judge.names) - one for one in possible]), possible


# ---- A look at a study.

LETTERS = {"voter": "i", "alt": "x", "ballot": "b", "profile": "p"}


def constants(study, parts):
    """The texts of two constants that are compared: of a study their sorts are not kept, so they stand as those of the first sort that has both."""
    values = [resolved(study, part)[2] for part in parts]
    alternatives, voters = [f"@{letter}" for letter in "abcde"[: len(study.alts)]], [f"#{i + 1}" for i in range(len(study.voters))]
    for texts in (alternatives, voters, [f"<{ballot}>" for ballot in study.ballots]):
        if max(values) < len(texts):
            return [texts[value] for value in values]


def canonical(study, part, scope, level=1):
    """The text of a formula of refusals.py, its variables named by their sorts and places."""
    head, *rest = part
    if head == "variable":
        return scope[rest[0]]
    if head == "constant":
        return f"#{int(rest[1][1:])}" if rest[0] == "voter" else rest[1]
    if head in ("all", "some"):
        name = f"{LETTERS[rest[1]]}{level}"
        return f"{head} {name}: {rest[1]}. {canonical(study, rest[2], {**scope, rest[0]: name}, level + 1)}"
    if head == "!":
        return "!" + canonical(study, rest[0], scope, level)
    if head == "call":
        return f"{rest[0]}({', '.join(canonical(study, other, scope, level) for other in rest[1:])})"
    if head == "=" and all(other[0] == "constant" for other in rest):
        return " = ".join(constants(study, rest))
    first, second = (canonical(study, other, scope, level) for other in rest)
    return f"{first} = {second}" if head == "=" else f"({first} {head} {second})"


def kept_clauses(bodies, dear):
    """The clauses that are kept of some bodies."""
    bodies = list(bodies)
    if sum(sentences.counts(body)[0][0] for body in bodies) > dear:
        raise Dear
    return encode.ordered(clause for body in bodies for clause in sentences.clauses_of(body, True))


def look_of(judge, dear):
    """The text of `explain study`, of a study that is taken."""
    s, shares, clauses = judge.study, [], list(encode.ordered(encode.frame(judge.study)))
    size = Sized(judge.kind, judge.voters, judge.letters, s.ballots, len(s.profiles))

    def share(word, count, most, name=""):
        shares.append((-count / most, len(shares), f"{name}{word} {count} of {most}"))
        return f"{word} {count} of {most}\n"

    text = f"bench study 1\nkind {judge.kind}\nvoters {judge.voters}\nalternatives {len(s.alts)}\n"
    text += "" if judge.whole else f"ballots {' '.join(s.ballots)}\nabsent {'yes' if s.absent else 'no'}\n"
    text += " ".join(["axioms", *judge.names]) + "\n" + share("profiles", len(s.profiles), 20_000)
    text += f"variables {len(s.profiles) * len(s.pairs if judge.kind == 'ranking' else s.alts)}\n"
    for name, axiom in judge.axioms.items():
        text += f"axiom {name}\nsentence {canonical(s, axiom.sentence, {})}\n" + share("instances", axiom.count, 40_000_000, f"{name}: ")
        text += share("body", size.atoms(leading(axiom.sentence)[1]), 1_000_000, f"{name}: ")
        text += share("work", size.atoms(axiom.sentence), 200_000_000, f"{name}: ")
        kept = kept_clauses((body for _, body in judge.instances(name)), dear)
        clauses += kept
        text += f"clauses {len(kept)}\n" if kept else "asks nothing\n"
    text += share("clauses", len(clauses), 4_000_000) + share("literals", sum(map(len, clauses)), 60_000_000)
    return f"{text}nearest {min(shares)[2]}\nend\n"


# ---- One report.


def library():
    """The axioms of each kind, as docs/FORMATS.md lists them."""
    found, kind = {}, None
    page = os.path.join(os.path.dirname(os.path.abspath(__file__)), "..", "docs", "FORMATS.md")
    with open(page, encoding="utf-8") as lines:
        for line in lines:
            heading = re.match(r"Axioms of rules .*\(`(\w+)`\):$", line)
            row = re.match(r"\| `(\w+)` \| `(.*)` \|$", line)
            kind = heading[1] if heading else None if line.startswith("#") else kind
            if kind and row:
                found.setdefault(kind, {})[row[1]] = row[2].replace("\\|", "|")
    return found


def main(study, report):
    sys.setrecursionlimit(100_000)
    if tomllib is None:
        sys.exit("judge: Python 3.11 or later is wanted, for its tomllib")
    texts = []
    for path in (study, report):
        with open(path, "rb") as file:
            texts.append(file.read())
    try:
        line = study_line(texts[0], library())
    except Unsaid:
        sys.exit("judge: nothing is said of this document, which may have something of TOML 1.1")
    if line is None:
        line = check_of(Judge(texts[0], library(), 50_000_000), texts[1])
    print(line, end="")
    sys.exit({"s": 3, "r": 1, "c": 0}[line[0]])


if __name__ == "__main__":
    if len(sys.argv) != 3:
        sys.exit(__doc__)
    main(*sys.argv[1:])
