#!/usr/bin/env python3
"""Holds `bench export` against clauses that are made here, over studies drawn at random:
measure/sentences.py PROGRAM [COUNT [SEED]] [--before EARLIER].
Each study has sentences of its own, drawn over all symbols of its kind, and often axioms of the library beside them; its kind, its numbers, its
list of ballots and whether voters may be absent are drawn too. What a sentence says, its clauses, and which of these are refused, is written
down below as docs/FORMATS.md has it, by plain recursion over the sentence; profiles, frames and the axioms of the library are those of
encode.py. Nothing is shared with the program.

`export` is run of each study with one worker and with three. With EARLIER, a bench as it was before, that is run too, with one worker; and one
study in thirty then has a sentence with 20,000 to 200,000 instances, too many for the clauses to be made here, so that the answers of the programs
are held against each other alone. The first difference is written with its study, and the last line says how many studies there were, how many
of them were refused since an instance is too wide or the list is full, and how many differ. A study is the same at each run: it is drawn by
SEED, a number, and its own number from 0.
"""
import functools
import itertools
import math
import random
import subprocess
import sys
import tempfile

sys.dont_write_bytecode = True
import encode

SORTS = {
    "wins": ["alt", "profile"],
    "ranks": ["alt", "alt", "profile"],
    "prefers": ["voter", "alt", "alt", "profile"],
    "better": ["ballot", "alt", "alt"],
    "casts": ["voter", "ballot", "profile"],
    "majority": ["alt", "alt", "profile"],
    "with": ["profile", "voter", "ballot"],
    "swap_voters": ["profile", "voter", "voter"],
    "swap_alts": ["profile", "alt", "alt"],
    "swap": ["alt", "alt", "alt"],
}
NAMES = {"voter": "ijk", "alt": "xyzw", "ballot": "bc", "profile": "pqr"}
SORT_OF = {name: sort for sort, names in NAMES.items() for name in names}
WIDEST = 100_000, 4_000_000
FULLEST = 4_000_000, 60_000_000
LARGEST = 2**64 - 1
# How many instances a study has whose clauses are not made here, how many atoms a body of it, and how many clauses and literals are expected.
MANY, MANY_ATOMS, MANY_COUNTS = (20_000, 200_000), 60, (500_000, 4_000_000)


class Study(encode.Study):
    """A study with the values of each sort, in the order of their numbers."""

    def __init__(self, text):
        super().__init__(text)
        self.values = {"voter": self.voters, "alt": self.alts, "ballot": self.casts, "profile": self.profiles}
        self.renamed = functools.cache(super().renamed)


# ---- What a sentence says. A term is ("variable", NAME), ("constant", SORT, VALUE) or a symbol with terms; a formula is a symbol or "=" with
# terms, "!" with a formula, a connective with two, or ("all" or "some", NAME, SORT, FORMULA).

CHANGES = {"with": Study.changed, "swap_voters": Study.exchanged, "swap_alts": lambda s, p, x, y: s.renamed(p, x, y)}
CHANGES["swap"] = lambda s, x, y, z: encode.swap(x, y, z)
ATOMS = {
    "=": lambda s, a, b: a == b,
    "prefers": Study.prefers,
    "better": Study.better,
    "casts": lambda s, i, b, p: p[i] == b,
    "majority": Study.majority,
    "wins": Study.wins,
    "ranks": lambda s, x, y, p: x != y and s.ranks(x, y, p),
}


def value(s, term, scope):
    """What a term stands for, by the values of the variables of the quantifiers around it, whose names are the scope."""
    head, *parts = term
    if head == "variable":
        level = max(level for level, name in enumerate(scope) if name == parts[0])
        return lambda env: env[level]
    if head == "constant":
        return lambda env: parts[1]
    terms = [value(s, part, scope) for part in parts]
    return lambda env: CHANGES[head](s, *(term(env) for term in terms))


def denied(a):
    return not a if isinstance(a, bool) else ("!", a)


def connected(head, a, b):
    """A connective of two parts; a truth value where one is known whatever the rule."""
    known = isinstance(a, bool) and isinstance(b, bool)
    if head == "<->":
        return a is b if known else (head, a, b)
    strong = head == "|"
    if a is strong or b is strong:
        return strong
    return (not strong) if known else (head, a, b)


def chained(head, parts):
    """A chain, grouped to the right."""
    return functools.reduce(lambda rest, part: connected(head, part, rest), reversed(parts))


def written(s, formula, scope):
    """The formula without quantifiers: a truth value, a literal, ("!", A), ("&", A, B), ("|", A, B) or ("<->", A, B)."""
    head, *parts = formula
    if head in ATOMS:
        terms = [value(s, part, scope) for part in parts]
        return lambda env: ATOMS[head](s, *(term(env) for term in terms))
    if head in ("all", "some"):
        name, sort, part = parts
        inner = written(s, part, scope + [name])
        connective = "&" if head == "all" else "|"
        return lambda env: chained(connective, [inner(env + (v,)) for v in s.values[sort]])
    first, *others = (written(s, part, scope) for part in parts)
    if head == "!":
        return lambda env: denied(first(env))
    if head == "->":
        return lambda env: connected("|", denied(first(env)), others[0](env))
    return lambda env: connected(head, first(env), others[0](env))


def leading(sentence):
    """The names and the sorts of the leading universals, and the body."""
    names, sorts = [], []
    while sentence[0] == "all":
        _, name, sort, sentence = sentence
        names, sorts = names + [name], sorts + [sort]
    return names, sorts, sentence


def instances(s, sentence):
    """The body at each instance, by number."""
    names, sorts, body = leading(sentence)
    return map(written(s, body, names), itertools.product(*(s.values[sort] for sort in sorts)))


# ---- Its clauses.


def crossed(a, truth, b, other):
    """Each clause which says that a is true, or false, joined with each for b."""
    if a is truth or b is other:
        return []
    ys = clauses_of(b, other)
    return [c + d for c in clauses_of(a, truth) for d in ys]


def clauses_of(w, truth):
    """The clauses which say that the formula is true, or that it is false."""
    if isinstance(w, bool):
        return [] if w is truth else [()]
    if isinstance(w, int):
        return [(w if truth else -w,)]
    if w[0] == "!":
        return clauses_of(w[1], not truth)
    head, a, b = w
    if head == "<->":
        return crossed(a, False, b, truth) + crossed(a, True, b, not truth)
    if (head == "&") is truth:
        return clauses_of(a, truth) + clauses_of(b, truth)
    return crossed(a, truth, b, truth)


def added(a, b):
    return a[0] + b[0], a[1] + b[1]


def multiplied(a, b):
    return a[0] * b[0], a[1] * b[0] + a[0] * b[1]


def counts(w):
    """How many clauses and literals say that the formula is true, and how many that it is false."""
    if isinstance(w, bool):
        return ((0, 0), (1, 0)) if w else ((1, 0), (0, 0))
    if isinstance(w, int):
        return (1, 1), (1, 1)
    (true, false), *rest = map(counts, w[1:])
    if w[0] == "!":
        return false, true
    [(true_too, false_too)] = rest
    if w[0] == "&":
        return added(true, true_too), multiplied(false, false_too)
    if w[0] == "|":
        return multiplied(true, true_too), added(false, false_too)
    differ = multiplied(false, true_too), multiplied(true, false_too)
    return added(*differ), added(multiplied(false, false_too), multiplied(true, true_too))


def passes(count, limits):
    return any(number > limit for number, limit in zip(count, limits))


class Dear(Exception):
    """More clauses than are made here."""


def ground(s, own, dear):
    """What `export` answers of a study with sentences of its own: its status and its text. Of how many clauses and literals that is too dear
    is given."""
    parts, all_counts = {}, (0, 0)
    for name in filter(own.get, s.axioms):
        if own[name] in parts:
            continue
        parts[own[name]] = list(instances(s, own[name]))
        for number, body in enumerate(parts[own[name]]):
            count, _ = counts(body)
            if passes(count, WIDEST):
                clauses, literals = (min(n, LARGEST) for n in count)
                return 3, f"study: {name}: wide {number} {clauses} {literals}\n"
            all_counts = added(all_counts, count)
    if passes(all_counts, dear):
        raise Dear
    for sentence, bodies in parts.items():
        parts[sentence] = list(encode.ordered(clause for body in bodies for clause in clauses_of(body, True)))
    return listed(s, own, parts)


def listed(s, own, parts):
    """The list of all clauses, by the clauses of each sentence; or at which axiom it is full."""
    clauses = list(encode.ordered(encode.frame(s)))
    total = len(clauses), sum(map(len, clauses))
    for name in s.axioms:
        part = parts[own[name]] if name in own else list(encode.ordered(vars(encode)[name](s)))
        total = added(total, (len(part), sum(map(len, part))))
        if passes(total, FULLEST):
            return 3, f"study: {name}: full\n"
        if total[0] < 300_000:
            clauses += part
    if total[0] != len(clauses):
        raise Dear
    return 0, "".join(line + "\n" for line in encode.lines_of(s, clauses))


# ---- Its text.


def lexemes_of(rng, part, s):
    """The lexemes of a term or a formula; a chain of one connective with or without inner brackets."""
    head, *parts = part
    if head == "variable":
        return parts
    if head == "constant":
        sort, v = parts
        if sort == "voter":
            return [f"#{rng.choice(['', '', '0', '00'])}{v + 1}"]
        return [f"@{'abcde'[v]}" if sort == "alt" else f"<{s.ballots[v]}>"]
    if head in ("all", "some"):
        return [head, parts[0], ":", parts[1], ".", *lexemes_of(rng, parts[2], s)]
    if head == "!":
        return ["!", *lexemes_of(rng, parts[0], s)]
    if head in SORTS:
        return [head, "(", *between(",", [lexemes_of(rng, term, s) for term in parts]), ")"]
    if head == "=":
        return between("=", [lexemes_of(rng, term, s) for term in parts])
    while head in ("&", "|") and parts[-1][0] == head and rng.random() < 0.7:
        parts = parts[:-1] + list(parts[-1][1:])
    return ["(", *between(head, [lexemes_of(rng, other, s) for other in parts]), ")"]


def between(mark, parts):
    return [lexeme for part in parts for lexeme in [mark, *part]][1:]


def text_of(rng, sentence, s):
    """The text of a sentence: as tight as it may be, or with one blank or some between its lexemes."""
    lexemes = lexemes_of(rng, sentence, s)
    if len(lexemes) > 600:
        raise Dear
    blank = rng.choice([lambda: "", lambda: " ", lambda: rng.choice(["", " ", "  ", "\\n", "\\t"])])
    text = lexemes[0]
    for lexeme in lexemes[1:]:
        needed = text[-1].isalnum() and lexeme[0].isalnum()
        text += (blank() or (" " if needed else "")) + lexeme
    return text


# ---- Sentences at random.

# The leading universals by the first name of each sort: profiles outermost and innermost, twice, behind an alternative, and not at all.
PREFIXES = "p px px pxy pxy pix pixy pib pibx pibxy pq pqx pqxy pp xp xyp ip ixp ibp bxp ixyp xpq ipq bp i x b xy ixb".split() + ["", ""]
MANY_PREFIXES = "pq pqx pqxy pqi pqix pqb pqxb pqixy xpq xpyq ipxq xypq bpq pqr pbqx pixyb pibxy".split()


class Drawing:
    """Draws the sentences of one study."""

    def __init__(self, rng, s):
        self.rng, self.s = rng, s

    def term(self, sort, scope, depth):
        names = [name for name, other in scope.items() if other == sort]
        symbols = {"profile": ["with", "swap_voters"] + ["swap_alts"] * self.s.full, "alt": ["swap"]}.get(sort, [])
        if depth and symbols and self.rng.random() < (0.3 if sort == "profile" else 0.1):
            head = self.rng.choice(symbols)
            return (head, *(self.term(part, scope, depth - 1) for part in SORTS[head]))
        if names and (sort == "profile" or self.rng.random() < 0.88):
            return "variable", self.rng.choice(names)
        return "constant", sort, self.rng.choice(self.s.values[sort])

    def atom(self, scope):
        """An atom; one that says something of the rule about every other time where a profile is at hand."""
        profiles = "profile" in scope.values()
        if profiles and self.rng.random() < 0.5:
            head = "ranks" if self.s.kind == "ranking" else "wins"
        else:
            head = self.rng.choice(["=", "better", *["prefers", "prefers", "prefers", "casts", "majority"] * profiles])
        if head == "=":
            sort = self.rng.choice(["voter", "alt", "alt", "ballot", *["profile"] * profiles])
            return head, self.term(sort, scope, 1), self.term(sort, scope, 1)
        return (head, *(self.term(sort, scope, 2) for sort in SORTS[head]))

    def name(self, sort, scope):
        """A new name, or now and then one that hides another."""
        if scope and self.rng.random() < 0.06:
            return self.rng.choice(list(scope))
        return next((name for name in NAMES[sort] if name not in scope), f"{sort}_{len(scope)}")

    def quantified(self, depth, scope):
        sorts = ["voter"] * 3 + ["alt"] * 4 + ["ballot"]
        sort = "profile" if self.rng.random() < (0.1 if "profile" in scope.values() else 0.7) else self.rng.choice(sorts)
        name = self.name(sort, scope)
        return self.rng.choice(["all", "some"]), name, sort, self.formula(depth - 1, {**scope, name: sort})

    def formula(self, depth, scope):
        chance = self.rng.random()
        if depth == 0 or chance < 0.1:
            return self.atom(scope)
        if chance < 0.2:
            return "!", self.formula(depth - 1, scope)
        if chance < 0.45 or ("profile" not in scope.values() and chance < 0.7):
            return self.quantified(depth, scope)
        head = self.rng.choice(["&", "&", "|", "|", "->", "->", "->", "<->", "<->"])
        return head, self.formula(depth - 1, scope), self.formula(depth - 1, scope)

    def sentence(self):
        """A sentence that is gone over soon enough, and mostly not too soon."""
        for least in [self.rng.choice([0, 100, 1_000, 4_000])] * 40 + [0] * 1_000:
            sentence = self.prefixed(self.rng.choice(PREFIXES))
            if least <= self.size(sentence) <= 40_000 and quantifiers(sentence) <= 12:
                return sentence
        raise Dear

    def prefixed(self, letters):
        """A sentence behind universals of the sorts of these letters."""
        scope, prefix = {}, []
        for letter in letters:
            sort = SORT_OF[letter]
            prefix.append((self.name(sort, scope), sort))
            scope[prefix[-1][0]] = sort
        sentence = self.formula(self.rng.choice([1, 2, 3, 3, 4, 5]), scope)
        for name, sort in reversed(prefix):
            sentence = "all", name, sort, sentence
        return sentence

    def sentence_of_many(self):
        """A sentence with many instances, of which not all are true whatever the rule and whose clauses are not too many, as some of them tell."""
        for _ in range(40):
            sentence = self.prefixed(self.rng.choice(MANY_PREFIXES))
            names, sorts, body = leading(sentence)
            count = math.prod(len(self.s.values[sort]) for sort in sorts)
            if not MANY[0] <= count <= MANY[1] or self.size(body) > MANY_ATOMS or quantifiers(sentence) > 12:
                continue
            said, some = written(self.s, body, names), (0, 0)
            for _ in range(40):
                some = added(some, counts(said(tuple(self.rng.choice(self.s.values[sort]) for sort in sorts)))[0])
            if some[0] and not passes([number * count // 40 for number in some], MANY_COUNTS):
                return sentence
        raise Dear

    def size(self, formula):
        """How many atoms the formula has without quantifiers; those of several profiles are dearer."""
        if formula[0] in ("all", "some"):
            return len(self.s.values[formula[2]]) * self.size(formula[3])
        if formula[0] in ATOMS:
            return 1
        return sum(map(self.size, formula[1:]))


def quantifiers(formula):
    if formula[0] in ATOMS:
        return 0
    if formula[0] in ("all", "some"):
        return 1 + quantifiers(formula[3])
    return max(map(quantifiers, formula[1:]))


# ---- Studies at random.


def head_of(rng):
    """The lines of a study before its axioms."""
    while True:
        kind = rng.choice(["choice", "ranking", "sets"])
        alternatives = rng.choice([1, 2, 2, 3, 3, 3, 3, 3, 4, 4, 5])
        voters = rng.choice([1, 2, 2, 2, 2, 3, 3, 4, 5, 8])
        every = ["".join(order) for order in itertools.permutations("abcde"[:alternatives])]
        ballots = rng.sample(every, rng.randint(1, min(len(every), 6))) if rng.random() < 0.4 else every
        absent = rng.random() < 0.35
        if (len(ballots) + absent) ** voters <= 400:
            break
    yield f'kind = "{kind}"\nvoters = {voters}\nalternatives = {alternatives}\n'
    if ballots != every:
        yield "ballots = [" + ", ".join(f'"{ballot}"' for ballot in ballots) + "]\n"
    if absent or rng.random() < 0.1:
        yield f"absent = {str(absent).lower()}\n"


def library_of(s):
    """The axioms of the library whose clauses are made soon enough."""
    for name in encode.LIBRARY[s.kind].split():
        asked = len(s.profiles) ** 2 * len(s.alts) ** 2
        if name == "strategyproof" and s.kind == "sets":
            asked = len(s.profiles) * len(s.voters) * len(s.casts) * len(s.alts) * 2 ** (len(s.alts) * (len(s.alts) - 1))
        if asked <= 30_000 and (name != "neutrality" or s.full):
            yield name


def with_axioms(head, names, texts=None):
    listed = ", ".join(f'"{name}"' for name in names)
    own = "".join(f'{name} = "{text}"\n' for name, text in (texts or {}).items())
    return f"{head}axioms = [{listed}]\n" + (f"\n[sentences]\n{own}" if own else "")


def text_with(rng, s, head, names, own):
    return with_axioms(head, names, {name: text_of(rng, sentence, s) for name, sentence in own.items()})


def drawn(rng):
    """A study with one to four sentences of its own and up to two axioms of the library, and what it says."""
    head = "".join(head_of(rng))
    s = Study(with_axioms(head, []))
    own = {f"own_{number}": Drawing(rng, s).sentence() for number in range(rng.choice([1, 1, 1, 2, 2, 3, 4]))}
    library = list(library_of(s))
    names = [*own, *rng.sample(library, min(len(library), rng.choice([0, 0, 1, 2])))]
    rng.shuffle(names)
    return text_with(rng, s, head, names, own), own


def wins(alt, profile):
    return "wins", alt, ("variable", profile)


def facts(rng, s, count):
    """A conjunction with so many clauses, repeats counted, each of one literal or, where few are left, of one for each profile."""
    parts = []
    while count:
        one, every = len(s.profiles), len(s.profiles) * len(s.alts)
        name, alt = rng.choice(NAMES["profile"]), ("constant", "alt", rng.choice(s.alts))
        fact = ("!", wins(alt, name)) if rng.random() < 0.5 else wins(alt, name)
        if count >= every:
            part = "all", name, "profile", ("all", "y", "alt", wins(("variable", "y"), name))
        else:
            part = "all" if count >= one else "some", name, "profile", fact
        count -= every if count >= every else one if count >= one else 1
        parts.append(part)
    return functools.reduce(lambda rest, part: ("&", part, rest), parts)


def sized(rng, voters, alternatives, ballots):
    """The lines of a study of so many ballots before its axioms."""
    some = rng.sample(["".join(order) for order in itertools.permutations("abcd"[:alternatives])], ballots)
    kind, listed = rng.choice(["choice", "sets"]), ", ".join(f'"{ballot}"' for ballot in some)
    return f'kind = "{kind}"\nvoters = {voters}\nalternatives = {alternatives}\nballots = [{listed}]\n'


def drawn_narrow(rng):
    """A study of which an instance has just 100,000 clauses, or one more, or about so many."""
    head = sized(rng, rng.choice([1, 2]), rng.choice([3, 4]), rng.choice([4, 5]))
    s = Study(with_axioms(head, []))
    factors = list(rng.choice([(50, 50, 40), (100, 100, 10), (125, 80, 10), (250, 400), (47, 53, 40), (316, 317), (46, 47, 46)]))
    parts = [facts(rng, s, factor) for factor in factors]
    sentence = functools.reduce(lambda rest, part: ("|", part, rest), parts)
    if rng.random() < 0.5:
        sentence = "&", sentence, ("some", "r", "profile", wins(("constant", "alt", 0), "r"))
    if rng.random() < 0.3:
        sentence = "!", ("!", sentence)
    return text_with(rng, s, head, ["own_0"], {"own_0": sentence}), {"own_0": sentence}


def drawn_full(rng):
    """A study of up to 40 axioms with the same sentence, with which the list of clauses passes a limit."""
    many = rng.random() < 0.5
    head = sized(rng, 2 if many else 3, 4, 6 if many else 5)
    s = Study(with_axioms(head, []))
    a, b, x = ("constant", "alt", 0), ("constant", "alt", 1), ("variable", "x")
    first, second = ("all", "p", "profile", ("!", wins(a, "p"))), ("all", "q", "profile", wins(b, "q"))
    if many:
        sentence = "all", "x", "alt", ("|", first, ("|", second, ("all", "r", "profile", wins(x, "r"))))
    else:
        sentence = "|", ("some", "r", "profile", wins(("constant", "alt", 2), "r")), ("|", first, second)
    names = [f"own_{number}" for number in range(40)]
    rng.shuffle(names)
    own = dict.fromkeys(names, sentence)
    return text_with(rng, s, head, names, own), own


def answered(rng):
    """A study that is not too dear, and what `export` answers of it. Of studies from `drawn` that are refused most are left out."""
    draw = rng.choices([drawn, drawn_narrow, drawn_full], [965, 30, 5])[0]
    while True:
        try:
            text, own = draw(rng)
            status, answer = ground(Study(text), own, (30_000, 300_000) if draw == drawn else (200_000, 2_100_000))
        except Dear:
            continue
        if status == 0 or draw != drawn or rng.random() < 0.3:
            return text, status, answer


def drawn_many(rng):
    """A study with a sentence that has many instances, for the programs alone."""
    while True:
        head = "".join(head_of(rng))
        s = Study(with_axioms(head, []))
        try:
            return text_with(rng, s, head, ["own_0"], {"own_0": Drawing(rng, s).sentence_of_many()})
        except Dear:
            continue


def run(program, text, workers):
    with tempfile.NamedTemporaryFile("w", suffix=".toml") as file:
        file.write(text)
        file.flush()
        words = [program, "export", file.name, "--workers", str(workers)]
        asked = subprocess.run(words, stdout=subprocess.PIPE, check=False)
    return asked.returncode, asked.stdout.decode()


def first_difference(wanted, found):
    (status, text), (other, other_text) = wanted, found
    if status != other:
        yield f"status {other} in place of {status}"
    lines = itertools.zip_longest(text.split("\n"), other_text.split("\n"), fillvalue="(nothing)")
    for number, (line, other_line) in enumerate(lines, 1):
        if line != other_line:
            yield f"line {number} is {other_line!r} in place of {line!r}"
            return


def main(program, count="1000", seed="1", *, before=None):
    refused, differ = 0, 0
    for number in range(int(count)):
        rng, asked = random.Random(f"{seed} {number}"), [(program, 1), (program, 3)]
        if before:
            asked.append((before, 1))
        if before and number % 30 == 29:
            text, asked = drawn_many(rng), asked[1:]
            wanted = run(program, text, 1)
        else:
            text, *wanted = answered(rng)
        refused += wanted[0] == 3
        for path, workers in asked:
            found = run(path, text, workers)
            if found == tuple(wanted):
                continue
            if not differ:
                print(f"study {number} of seed {seed}, {path} with {workers} workers:\n{text}", *first_difference(wanted, found), sep="\n")
            differ += 1
            break
    print(f"studies {count}, refused {refused}, differences {differ}")
    sys.exit(differ > 0)


if __name__ == "__main__":
    words, earlier = sys.argv[1:], None
    if "--before" in words[:-1]:
        place = words.index("--before")
        earlier = words[place + 1]
        del words[place : place + 2]
    if len(words) not in (1, 2, 3):
        sys.exit(__doc__)
    sys.setrecursionlimit(100_000)
    main(*words, before=earlier)
