"""Looks at what `bench` and `explain` write, for measure/strange.py, without the program: texts taken apart by their forms, rules put
into the clauses of library axioms as encode.py has them, proofs checked line by line, gains looked for, lists, maps and pages looked over, and
words read. Each look raises Fault with what is wrong, or says nothing; judge.py goes through stories and tables.
"""
import functools
import html.parser
import itertools
import re

import encode


class Fault(Exception):
    """What is wrong."""


def want(right, why):
    if not right:
        raise Fault(why)


# ---- Reports, sharp texts and lists, taken apart.

NAME = r"[a-z][a-z0-9_]{0,31}"
HEAD = re.compile(
    rf"kind (choice|ranking|sets)\nvoters ([1-8])\nalternatives ([1-5])\n(?:ballots ([a-e ]+)\nabsent (yes|no)\n)?axioms((?: {NAME})*)\n"
)
CASE = r"(?:[a-e]+|-)(?:\|(?:[a-e]+|-))*"
LITERAL = rf"(?:!?[a-e]|[a-e]>[a-e])@{CASE}"
REASON = rf"(?:axiom {NAME}(?: [1-8]| {CASE})*|outcome {CASE}|lemma [1-9]\d*)"
STEP, CLASH, SUPPOSE = (re.compile(form) for form in (rf"so ({LITERAL}) by ({REASON})", rf"clash by ({REASON})", rf"suppose ({LITERAL})"))


class Lines:
    """The lines of a text, from a place on."""

    def __init__(self, text):
        want(text.endswith("\n"), "no line end at the end")
        self.lines, self.at = text.split("\n")[:-1], 0

    def next(self):
        want(self.at < len(self.lines), "the text ends too soon")
        self.at += 1
        return self.lines[self.at - 1]

    def peek(self):
        return self.lines[self.at] if self.at < len(self.lines) else ""

    def match(self, form):
        line = self.next()
        found = re.fullmatch(form, line)
        want(found, f"line {self.at}, {line[:80]!r}, has another form")
        return found


class Size:
    """The size that a head tells."""

    def __init__(self, head):
        found = HEAD.fullmatch(head)
        want(found, "the head has another form")
        self.kind, voters, alternatives, ballots, absent, axioms = found.groups()
        self.voters, self.letters, self.absent = int(voters), "abcde"[: int(alternatives)], absent == "yes"
        every = ["".join(order) for order in itertools.permutations(self.letters)]
        self.ballots = ballots.split(" ") if ballots else every
        want(self.ballots == [ballot for ballot in every if ballot in self.ballots], "the ballots of the head are not in order, or none")
        self.second, self.whole = ballots is not None, self.ballots == every and not self.absent
        self.axioms, self.head = axioms.split(), head
        casts = self.ballots + ["-"] * self.absent
        self.profiles = ["|".join(casts) for casts in itertools.product(casts, repeat=self.voters) if set(casts) != {"-"}]

    def is_outcome(self, word):
        if self.kind == "ranking":
            return sorted(word) == list(self.letters)
        some = word != "" and set(word) <= set(self.letters) and sorted(set(word)) == list(word)
        return some and (self.kind == "sets" or len(word) == 1)

    def table(self, lines):
        table = []
        for profile in self.profiles:
            words = lines.next().split(" ")
            want(len(words) == 2 and words[0] == profile and self.is_outcome(words[1]), f"line {lines.at} is no row of {profile}")
            table.append(words[1])
        return table


def head_of(lines):
    """The size of the head that begins at the next line."""
    count = 6 if lines.lines[lines.at + 3 : lines.at + 4] and lines.lines[lines.at + 3].startswith("ballots ") else 4
    head = "".join(line + "\n" for line in lines.lines[lines.at : lines.at + count])
    lines.at += count
    return Size(head)


class Told:
    """A report or a sharp text: its verdict, rules with the axioms that they satisfy, core, lemmas, and instances."""

    def __init__(self, text):
        lines = self.lines = Lines(text)
        first = lines.next()
        want(first in ("bench report 1", "bench report 2", "bench sharp 1"), "the first line has another form")
        self.sharp = first == "bench sharp 1"
        self.size = head_of(lines)
        want(self.sharp or self.size.second == (first[-1] == "2"), "the head is not that of its number")
        want(self.size.second or self.size.whole, "the head lacks the ballots")
        self.verdict = lines.match("verdict (possible|impossible|undecided)")[1]
        self.line, self.core, self.rules, self.marks, self.lemmas, self.needs = lines.at, [], [], 0, [], []
        if self.verdict == "possible":
            want(not self.sharp, "a sharp text of a rule")
            lines.match(f"rule {len(self.size.profiles)}")
            self.rules.append((self.size.axioms, self.size.table(lines)))
        elif self.verdict == "undecided":
            lines.match(r"conflicts [1-9]\d{0,6}")
        else:
            self.impossible(lines)
        want(lines.next() == "end" and lines.at == len(lines.lines), "the text does not end with its end")

    def impossible(self, lines):
        self.core = lines.match(rf"core((?: {NAME})+)")[1].split()
        want(self.core == [axiom for axiom in self.size.axioms if axiom in self.core], "the core is not of the study, in order")
        count = int(lines.match(r"lemmas ([1-9]\d*)")[1])
        self.lemmas = [self.lemma(lines, number) for number in range(1, count + 1)]
        if self.sharp:
            for _ in range(int(lines.match(r"instances ([1-9]\d*)")[1])):
                instance, mark = lines.match(rf"needs ({NAME}(?: \S+)*) (rule {len(self.size.profiles)}|open [1-9]\d*)").groups()
                self.needs.append(instance)
                self.marked(lines, mark, None)
            cited = {why[6:] for _, steps in self.lemmas for _, why in steps if why.startswith("axiom ")}
            want(len(self.needs) == len(set(self.needs)) and cited == set(self.needs), "the instances are not those that the story cites")
            want([axiom for axiom in self.core if any(it.split(" ")[0] == axiom for it in cited)] == self.core, "the core is not what is cited")
            return
        for axiom in self.core:
            mark = lines.match(rf"without {axiom} (rule {len(self.size.profiles)}|open [1-9]\d*)")[1]
            self.marked(lines, mark, [other for other in self.core if other != axiom])

    def marked(self, lines, mark, axioms):
        self.marks += mark.startswith("open")
        if mark.startswith("rule"):
            self.rules.append((axioms, self.size.table(lines)))

    def lemma(self, lines, number):
        """What a lemma supposes, and its steps, each a literal with its reason; the last has None."""
        lines.match(f"lemma {number}")
        supposed, steps = [], []
        while lines.peek().startswith("suppose "):
            supposed.append(lines.match(SUPPOSE)[1])
        while lines.peek().startswith("so "):
            steps.append(lines.match(STEP).groups())
        return supposed, steps + [(None, lines.match(CLASH)[1])]


# ---- Rules, by the clauses of library axioms.


@functools.lru_cache(64)
def study_of(front):
    """The study of a head without its axioms as encode.py takes it."""
    size = Size(front + "axioms\n")
    text = f'kind = "{size.kind}"\nvoters = {size.voters}\nalternatives = {len(size.letters)}\nballots = {size.ballots}\n'
    return encode.Study(text + f"absent = {str(size.absent).lower()}\naxioms = []\n")


@functools.lru_cache(256)
def clauses_of(front, axiom):
    """The clauses of an axiom, or of the frames; none where they are dear."""
    study = study_of(front)
    if len(study.profiles) > 80 or axiom == "strategyproof" and study.kind == "sets" and len(study.profiles) > 16:
        return []
    return list(encode.ordered(encode.frame(study) if axiom is None else vars(encode)[axiom](study)))


def hold_rules(told):
    """Each rule that is told satisfies the clauses of its axioms, where these are of the library."""
    front, known = told.size.head[: told.size.head.index("axioms")], encode.LIBRARY[told.size.kind].split()
    for axioms, table in told.rules:
        true = set(encode.bits_of(study_of(front), table))
        for axiom in [None, *(axioms or [])]:
            for clause in clauses_of(front, axiom) if axiom is None or axiom in known else []:
                want(not true.isdisjoint(clause), f"a rule that is told does not satisfy {axiom}")


# ---- Gains.


def gain_of(told):
    """What `gain` says of the rule of a report."""
    size, table = told.size, told.rules[0][1]
    at = dict(zip(size.profiles, table))
    for profile, old in at.items():
        casts = profile.split("|")
        for i, ballot in enumerate(casts):
            for other in size.ballots if ballot != "-" else []:
                new = at["|".join(casts[:i] + [other] + casts[i + 1 :])]
                if new != old and all(y == x or ballot.index(y) < ballot.index(x) for y in new for x in old):
                    return f"voter {i + 1} at {profile} gains by {other}: {new} over {old}\n"
    return "none\n"


# ---- Clauses and proofs.

BLANKS = re.compile(rb"[ \t\r]+")
NUMBER = re.compile(rb"0|[1-9]\d*")
INTEGER = re.compile(rb"-?[1-9]\d*")


def words_of(line):
    return [word for word in BLANKS.split(line) if word]


def said_lines(text):
    """The lines that say something, with their numbers from 1, each as its words."""
    for number, line in enumerate(text.split(b"\n"), 1):
        words = words_of(line)
        if words and not line.startswith(b"c"):
            yield number, words


def number_up_to(word, most):
    return NUMBER.fullmatch(word) and len(word) < 25 and int(word) <= most


class Refused(Exception):
    """The line with which a text is refused."""


def clauses_read(text):
    """The number of variables and the clauses of a text of clauses."""
    lines = said_lines(text)
    _, words = next(lines, (0, []))
    if len(words) != 4 or words[:2] != [b"p", b"cnf"] or not number_up_to(words[2], 10_000_000) or not number_up_to(words[3], 4_294_967_295):
        raise Refused("cnf: header")
    most, count = int(words[2]), int(words[3])
    clauses, clause = [], []
    for number, words in lines:
        for word in words:
            if word == b"0":
                clauses.append(clause)
                clause = []
            elif INTEGER.fullmatch(word) and len(word) < 25 and abs(int(word)) <= most:
                clause.append(int(word))
            else:
                raise Refused(f"cnf: literal {number}")
    if clause or len(clauses) != count:
        raise Refused(f"cnf: count {len(clauses)}")
    return most, clauses


def is_id(word):
    return INTEGER.fullmatch(word) and len(word) < 25 and 0 < int(word) < 2**63


def step_read(words, most):
    """A line of a proof: ("d", IDS) or (ID, LITERALS, HINTS), "rat", or None where it has no form."""
    if len(words) > 1 and words[1] == b"d":
        ids = words[2:-1]
        fine = words[-1] == b"0" and (is_id(words[0]) or words[0] == b"0") and all(map(is_id, ids)) and len(words) > 2
        return ("d", [int(word) for word in ids]) if fine else None
    if not is_id(words[0]) or words.count(b"0") != 2 or words[-1] != b"0":
        return None
    middle = words.index(b"0")
    literals, hints = words[1:middle], words[middle + 1 : -1]
    if not all(INTEGER.fullmatch(word) and len(word) < 25 and abs(int(word)) <= most for word in literals):
        return None
    if not all(is_id(word[1:] if word[:1] == b"-" else word) for word in hints):
        return None
    if any(word[:1] == b"-" for word in hints):
        return "rat"
    return int(words[0]), [int(word) for word in literals], [int(word) for word in hints]


def hold_hints(clauses, literals, hints, number):
    """Ends where the hints show the clause, and raises where they don't."""
    true = {-literal for literal in literals}
    if any(-literal in true for literal in true):
        return
    for hint in hints:
        clause = clauses.get(hint)
        if clause is None:
            raise Refused(f"proof line {number}: hint {hint}")
        if not true.isdisjoint(clause):
            continue
        free = {literal for literal in clause if -literal not in true}
        if not free:
            return
        if len(free) > 1:
            raise Refused(f"proof line {number}: not_unit {hint}")
        true |= free
    raise Refused(f"proof line {number}: no_conflict")


def hold_proof(most, clauses, text):
    steps, last = [], 0
    for last, words in said_lines(text):
        step = step_read(words, most)
        if step is None or step == "rat":
            raise Refused(f"proof line {last}: {step or 'line'}")
        steps.append((last, step))
    standing, greatest = dict(enumerate(clauses, 1)), len(clauses)
    for number, step in steps:
        if step[0] == "d":
            for old in step[1]:
                standing.pop(old, None)
            continue
        new, literals, hints = step
        if new <= greatest:
            raise Refused(f"proof line {number}: id")
        hold_hints(standing, literals, hints, number)
        if not literals:
            return
        standing[new], greatest = literals, new
    raise Refused(f"proof line {last + 1}: not_empty")


def lrat_of(cnf, proof):
    """The status and the line of `lrat` over two texts."""
    try:
        most, clauses = clauses_read(cnf)
        try:
            hold_proof(most, clauses, proof)
        except Refused as why:
            return 1, f"{why}\n"
    except Refused as why:
        return 3, f"{why}\n"
    return 0, "confirmed\n"


def hold_clauses(text):
    """The form of what `export` writes."""
    lines = Lines(text)
    want(lines.next() == "c bench export 1", "the first line has another form")
    lines.match(r"c kind (choice|ranking|sets) voters [1-8] alternatives [1-5]")
    most, count = map(int, lines.match(r"p cnf (\d+) (\d+)").groups())
    rest = lines.lines[3:]
    want(len(rest) == count, "there are other clauses than are counted")
    for line in rest[:20_000]:
        words = line.split(" ")
        numbers = [int(word) for word in words]
        want(numbers[-1] == 0 and list(map(str, numbers)) == words, f"{line[:80]!r} is no clause")
        variables = [abs(number) for number in numbers[:-1]]
        want(all(map(int.__lt__, [0, *variables], [*variables, most + 1])), f"{line[:80]!r} is not sorted")


# ---- Lists of rules, maps and pages.


def rules_listed(text):
    """The size of a list, its rules as tables, and how it ends."""
    lines = Lines(text)
    want(lines.next() == "bench rules 1", "the first line has another form")
    size, tables = head_of(lines), []
    while lines.peek().startswith("rule "):
        lines.match(f"rule {len(tables) + 1}")
        tables.append(size.table(lines))
    ending = lines.match(r"(rules (?:0|[1-9]\d*)|more than [1-9]\d*|open)")[1]
    want(lines.next() == "end" and lines.at == len(lines.lines), "the list does not end with its end")
    want(ending == "open" or int(ending.split(" ")[-1]) == len(tables), "the list counts others than it lists")
    code = order_of(size)
    keys = [[code(outcome) for outcome in table] for table in tables]
    want(all(map(list.__lt__, keys, keys[1:])), "the rules do not rise")
    return size, tables, ending


def order_of(size):
    """Outcomes by what they are compared: as words, and sets by the bits of their alternatives."""
    if size.kind == "sets":
        return lambda outcome: sum(1 << size.letters.index(letter) for letter in outcome)
    return lambda outcome: outcome


def report_of(size, table):
    rows = "".join(f"{profile} {outcome}\n" for profile, outcome in zip(size.profiles, table))
    return f"bench report {2 if size.second else 1}\n{size.head}verdict possible\nrule {len(table)}\n{rows}end\n"


def map_told(text):
    """The size of a map and its sets by word, each a list of names; whether it is cut short."""
    lines = Lines(text)
    want(lines.next() == "bench cores 1", "the first line has another form")
    size, sets, words = head_of(lines), {"impossible": [], "possible": [], "open": []}, list(("impossible", "possible", "open"))
    while lines.peek() not in ("end", "more"):
        word, *names = lines.next().split(" ")
        want(word in words, f"line {lines.at} has another form or stands behind another word")
        del words[: words.index(word)]
        want(names == [axiom for axiom in size.axioms if axiom in names], f"line {lines.at} is no set in the order of the study")
        sets[word].append(names)
    more = lines.next() == "more"
    want((not more or lines.next() == "end") and lines.at == len(lines.lines), "the map does not end with its end")
    for word, named in sets.items():
        places = [(len(names), [size.axioms.index(name) for name in names]) for names in named]
        want(all(map(tuple.__lt__, places, places[1:])), f"the {word} sets do not rise")
        for one, other in itertools.permutations(named, 2):
            want(not set(one) <= set(other), f"one {word} set lies within another")
    for one, other in itertools.product(sets["impossible"], sets["possible"]):
        want(not set(one) <= set(other), "a possible set has an impossible part")
    for one in sets["open"]:
        want(not any(set(other) <= set(one) for other in sets["impossible"]), "an open set has an impossible part")
        want(not any(set(one) <= set(other) for other in sets["possible"]), "an open set lies within a possible one")
    return size, sets, more


class Page(html.parser.HTMLParser):
    """Whether the elements of a page are closed in order."""

    ALONE = {"meta", "br", "hr", "col", "img", "link", "input"}
    LAX = {"html", "head", "body", "p", "li", "tr", "td", "th", "tbody", "thead", "col", "colgroup", "dt", "dd"}

    def __init__(self):
        super().__init__(convert_charrefs=False)
        self.open = []

    def handle_starttag(self, tag, attrs):
        want(tag not in ("script", "link", "img", "iframe", "object"), f"the page has an element {tag}")
        want(not any(name in ("src", "href") and not (value or "").startswith("#") for name, value in attrs), "the page loads something")
        if tag not in self.ALONE:
            self.open.append(tag)

    def handle_endtag(self, tag):
        while self.open and self.open[-1] != tag and self.open[-1] in self.LAX:
            self.open.pop()
        want(self.open and self.open.pop() == tag, f"an element {tag} is closed that is not open")


def hold_page(text):
    want(text.startswith("<!doctype html>\n") and text.endswith("</body></html>\n"), "the page has no front or no end")
    page = Page()
    page.feed(text)
    page.close()
    want(not set(page.open) - Page.LAX, "an element of the page is not closed")


# ---- Words of calls.


def is_count(word, least, most):
    return bool(re.fullmatch(rb"0|[1-9]\d{0,9}", word)) and least <= int(word) <= most


OPTIONS = {b"--workers": (1, 16), b"--most": (1, 10_000)}


def is_call(words, commands):
    """Whether some words are a command, by the forms of its words and its options; the words of the files, or None."""
    try:
        [word.decode() for word in words]
    except UnicodeDecodeError:
        return None
    if not words or words[0] not in commands:
        return None
    forms, options = commands[words[0]]
    rest, values, given, ended = list(words[1:]), [], set(), False
    while rest:
        word = rest.pop(0)
        if ended or not word.startswith(b"-") or word == b"-":
            values.append(word)
        elif word == b"--":
            ended = True
        else:
            name, equal, value = word.partition(b"=")
            if name not in options or name in given or not (equal or rest):
                return None
            given.add(name)
            if not is_count(value if equal else rest.pop(0), *OPTIONS[name]):
                return None
    if len(values) != len(forms):
        return None
    for value, form in zip(values, forms):
        if form == b"KIND" and value not in (b"choice", b"ranking", b"sets"):
            return None
        if form in (b"N", b"NUMBER") and not is_count(value, 0, 4_294_967_295):
            return None
    return values
