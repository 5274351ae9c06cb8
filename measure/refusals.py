"""Says for which line a study is refused, as docs/FORMATS.md has it, for measure/strange.py: what the document holds, its numbers and ballots,
the lexemes, the grammar and the sorts of its sentences, and how large these are. Nothing is shared with the program. A document is read by
`tomllib`, which Python has from version 3.11 on; it reads TOML 1.0, and the program what came with TOML 1.1 too, so of a document that may
have something of that, or that is nested deep, nothing is said (Unsaid).
"""
import functools
import itertools
import math
import re

from sentences import LARGEST, SORTS

try:
    import tomllib
except ImportError:
    tomllib = None

NAME = re.compile(r"[a-z][a-z0-9_]{0,31}")
KEYS = {"kind": True, "voters": True, "alternatives": True, "ballots": False, "absent": False, "conflicts": False, "axioms": True}
LEXEME = re.compile(rb"[a-z][a-z0-9_]*|#[0-9]*|@[a-z0-9_]*|<[a-z]{1,8}>|<->|->|[(),:.=!&|]")
# Escapes, the last comma of an inline table or a line end in one, and times without seconds.
LATER = re.compile(rb"\\[xe]|\{[^}]*(?:,\s*\}|\n)|\d\d:\d\d(?!:\d)|[\[{]{40}")
GIVES = {"with": "profile", "swap_voters": "profile", "swap_alts": "profile", "swap": "alt"}
QUANTIFIED = ("voter", "alt", "ballot", "profile")


class Refused(Exception):
    """The line, or its end behind the name of an axiom."""


class Unsaid(Exception):
    """A document that the two may read otherwise."""


class Unread(Exception):
    """No reading."""


def refuse(where, line):
    if where:
        raise Refused(line)


# ---- Sentences as text: formulas are those of sentences.py, but for constants, which are ("constant", SORT, TEXT).


def lexemes_of(text):
    """The lexemes of a text of bytes."""
    found, at = [], 0
    while True:
        while text[at : at + 1] in (b" ", b"\t", b"\r", b"\n") and at < len(text):
            at += 1
        if at == len(text):
            return found
        match = LEXEME.match(text, at)
        word = match[0].decode() if match else ""
        long = len(word) > 16 if word[:1].isalpha() else word[:1] == "#" and not 2 <= len(word) <= 4
        refuse(not word or long or word[0] == "@" and not re.fullmatch("@[a-z]", word), f"lexeme {at}")
        found.append(word)
        at = match.end()


class Reader:
    """Reads one sentence from its lexemes."""

    def __init__(self, lexemes):
        self.rest = lexemes[::-1]
        self.formula = self.read()
        self.want(not self.rest)

    @staticmethod
    def want(right):
        if not right:
            raise Unread

    def take(self, wanted=None):
        self.want(self.rest and wanted in (None, self.rest[-1]))
        return self.rest.pop()

    def read(self):
        first = self.take()
        if first in ("all", "some"):
            name = self.take()
            self.want(is_name(name))
            self.take(":")
            sort = self.take()
            self.want(sort in QUANTIFIED)
            self.take(".")
            return first, name, sort, self.read()
        if first == "!":
            return "!", self.read()
        if first == "(":
            return self.group()
        term = self.term(first)
        if self.rest[-1:] == ["="]:
            self.take()
            return "=", term, self.term(self.take())
        self.want(term[0] not in ("variable", "constant"))
        return term

    def group(self):
        parts, head = [self.read()], self.take()
        self.want(head in ("&", "|", "->", "<->"))
        parts.append(self.read())
        while head in "&|" and self.rest[-1:] == [head]:
            self.take()
            parts.append(self.read())
        self.take(")")
        return functools.reduce(lambda rest, part: (head, part, rest), reversed(parts))

    def term(self, first):
        marks = {"#": "voter", "@": "alt", "<": "ballot"}
        if first[0] in marks and first != "<->":
            return "constant", marks[first[0]], first
        self.want(is_name(first))
        if self.rest[-1:] != ["("]:
            return "variable", first
        self.take()
        parts = [self.term(self.take())]
        while self.take(self.rest[-1] if self.rest[-1:] in ([","], [")"]) else ")") == ",":
            parts.append(self.term(self.take()))
        return ("call", first, *parts)


def is_name(word):
    return word[:1].isalpha() and word not in ("all", "some")


def parts_of(formula):
    """The parts of a formula or a term."""
    head = formula[0]
    if head in ("variable", "constant"):
        return ()
    return formula[3:] if head in ("all", "some") else formula[2:] if head == "call" else formula[1:]


def depth(formula):
    return 1 + max(map(depth, parts_of(formula)), default=0)


def nested(formula):
    """The most quantifiers on a path."""
    return (formula[0] in ("all", "some")) + max(map(nested, parts_of(formula)), default=0)


@functools.lru_cache(500)
def sentence_of(text):
    """The sentence of a text of bytes."""
    lexemes = lexemes_of(text)
    refuse(len(lexemes) > 600, f"long {len(lexemes)}")
    try:
        formula = Reader(lexemes).formula
    except Unread as why:
        raise Refused("no reading") from why
    refuse(depth(formula) > 64, "deep")
    refuse(nested(formula) > 12, "variables")
    return formula


# ---- Sorts, and how large a sentence is.


class Sized:
    """The size that sentences are over."""

    def __init__(self, kind, voters, letters, ballots, profiles):
        self.kind, self.voters, self.letters, self.ballots = kind, voters, letters, ballots
        self.counts = {"voter": voters, "alt": len(letters), "ballot": len(ballots), "profile": profiles}

    def visit(self, formula, scope):
        head, *rest = formula
        if head in ("all", "some"):
            self.visit(rest[2], {**scope, rest[0]: rest[1]})
        elif head == "call":
            name = rest[0]
            refuse(name not in SORTS or name in GIVES, f"symbol {name}")
            refuse(len(rest) - 1 != len(SORTS[name]), f"arity {name}")
            refuse(name in ("wins", "ranks") and (name == "ranks") != (self.kind == "ranking"), f"kind {name}")
            self.arguments(name, rest[1:], scope)
        elif head == "=":
            first, second = (self.term(part, scope) for part in rest)
            refuse(first != second, "sort = 2")
        else:
            for part in rest:
                self.visit(part, scope)

    def arguments(self, name, parts, scope):
        for place, (part, sort) in enumerate(zip(parts, SORTS[name]), 1):
            refuse(self.term(part, scope) != sort, f"sort {name} {place}")

    def term(self, term, scope):
        """Its sort."""
        head, *rest = term
        if head == "variable":
            refuse(rest[0] not in scope, f"unbound {rest[0]}")
            return scope[rest[0]]
        if head == "constant":
            sort, text = rest
            if sort == "voter":
                refuse(not 1 <= int(text[1:]) <= self.voters, f"constant #{int(text[1:])}")
            else:
                refuse((text[1:] not in self.letters) if sort == "alt" else (text[1:-1] not in self.ballots), f"constant {text}")
            return sort
        name = rest[0]
        refuse(name not in GIVES, f"symbol {name}")
        refuse(len(rest) - 1 != len(SORTS[name]), f"arity {name}")
        self.arguments(name, rest[1:], scope)
        return GIVES[name]

    def atoms(self, formula):
        head = formula[0]
        if head in ("call", "="):
            return 1
        if head in ("all", "some"):
            return self.counts[formula[2]] * self.atoms(formula[3])
        return sum(map(self.atoms, formula[1:]))


def has_swap(formula):
    return formula[:2] == ("call", "swap_alts") or any(map(has_swap, parts_of(formula)))


def leading(formula):
    sorts = []
    while formula[0] == "all":
        sorts, formula = sorts + [formula[2]], formula[3]
    return sorts, formula


# ---- Studies.


def keys_of(text):
    """The document, and each of its values of the right type."""
    refuse(len(text) > 1_048_576, "too long")
    try:
        document = tomllib.loads(decoded(text), parse_float=finite)
    except (ValueError, RecursionError) as fault:
        if LATER.search(text):
            raise Unsaid from fault
        raise Refused("not toml") from fault
    if text.count(b"[") + text.count(b"{") > 60:
        raise Unsaid
    refuse(has_long(document), "not toml")
    is_text, is_number = (lambda value: isinstance(value, str)), lambda value: type(value) is int
    is_texts = lambda value: isinstance(value, list) and all(map(is_text, value))
    forms = dict.fromkeys(["voters", "alternatives", "conflicts"], is_number)
    forms.update(kind=lambda value: value in ("choice", "ranking", "sets"), absent=lambda value: isinstance(value, bool))
    forms.update(ballots=is_texts, axioms=is_texts)
    for key, wanted in KEYS.items():
        refuse(key not in document and wanted or key in document and not forms[key](document[key]), f"key {key}")
    own = document.get("sentences", {})
    refuse(not isinstance(own, dict), "key sentences")
    for key in sorted(own, key=str.encode):
        refuse(not NAME.fullmatch(key) or not is_text(own[key]), f"key {key}")
    for key in sorted(document, key=str.encode):
        refuse(key not in KEYS and key != "sentences", f"key {key}")
    return document


def finite(text):
    """The number of a text, which is no TOML where it is too large for one, as 1e1000."""
    value = float(text)
    if math.isinf(value) and "inf" not in text:
        raise ValueError
    return value


def decoded(text):
    """The text of a document; a byte order mark in front of it is passed over."""
    return (text[3:] if text.startswith(b"\xef\xbb\xbf") else text).decode()


def has_long(value):
    """Whether an integer of a document has more than 64 bits."""
    if isinstance(value, (dict, list)):
        return any(map(has_long, value.values() if isinstance(value, dict) else value))
    return type(value) is int and not -(2**63) <= value < 2**63


def hold_study(text, library):
    """Raises the line for which a study is refused."""
    keys = keys_of(text)
    voters, alternatives, names = keys["voters"], keys["alternatives"], keys["axioms"]
    refuse(not 1 <= voters <= 8, f"voters {voters}")
    refuse(not 1 <= alternatives <= 5, f"alternatives {alternatives}")
    letters = "abcde"[:alternatives]
    every = ["".join(order) for order in itertools.permutations(letters)]
    ballots = keys.get("ballots", every)
    for place, ballot in enumerate(ballots):
        refuse(ballot not in every or ballot in ballots[:place], f"ballot {ballot}")
    refuse(not ballots, "no ballots")
    profiles = (len(ballots) + 1) ** voters - 1 if keys.get("absent") else len(ballots) ** voters
    refuse(profiles > 20_000, f"profiles {profiles}")
    conflicts = keys.get("conflicts", 1)
    refuse(not 1 <= conflicts <= 1_000_000, f"conflicts {conflicts}")
    refuse(len(names) > 40, f"axioms {len(names)}")
    own, known = keys.get("sentences", {}), library[keys["kind"]]
    for name in names:
        refuse(name not in own and name not in known, f"unknown axiom {name}")
    for place, name in enumerate(names):
        refuse(name in names[:place] or name in own and name in known, f"twice {name}")
    hold_sentences(Sized(keys["kind"], voters, letters, ballots, profiles), [(name, known.get(name) or own[name]) for name in names], len(every))


def hold_sentences(size, texts, rankings):
    def each(ask, of):
        """What is asked of each sentence, one after another, before the next thing is asked."""
        found = []
        for name, value in of:
            try:
                found.append((name, ask(value)))
            except Refused as line:
                raise Refused(f"{name}: {line}") from None
        return found

    sentences = each(lambda text: sentence_of(text.encode()), texts)
    each(lambda formula: size.visit(formula, {}), sentences)
    each(lambda formula: refuse(len(size.ballots) < rankings and has_swap(formula), "open"), sentences)
    for word, most, count in (
        ("instances", 40_000_000, lambda formula: math.prod([size.counts[sort] for sort in leading(formula)[0]])),
        ("body", 1_000_000, lambda formula: size.atoms(leading(formula)[1])),
        ("work", 200_000_000, size.atoms),
    ):
        each(lambda formula, w=word, m=most, c=count: refuse(c(formula) > m, f"{w} {min(c(formula), LARGEST)}"), sentences)


def study_line(text, library):
    """The line for which a study is refused, or None where it is taken."""
    try:
        hold_study(text, library)
    except Refused as line:
        return f"study: {line}\n"
    return None


# ---- The furthest place of a text without a reading, as `explain study` tells it. A stack has what is still to come, the next thing first.

BEGINS = ["all", "!", "(", "name", "#", "@", "<"]
TERM = ["name", "#", "@", "<"]
SHOWN = {"all": "`all`, `some`", "name": "a name", "sort": "`voter`, `alt`, `ballot`, `profile`", "#": "a voter as `#1`"}
SHOWN.update({"@": "an alternative as `@a`", "<": "a ballot as `<abc>`", "end": "the end"})
ORDER = ["all", "!", "(", "name", "sort", "#", "@", "<", "=", ",", ":", ".", "&", "|", "->", "<->", ")", "end"]


def kinds_of(word):
    """What a lexeme may stand as."""
    if word in ("all", "some"):
        return ("all",)
    if word[0].isalpha():
        return ("name", "sort") if word in QUANTIFIED else ("name",)
    return (word if word in ORDER and word not in "#@<" else word[0],)


def goes_on(stack):
    """What may come next on a stack, each with the stack behind it."""
    first, rest = stack[0], stack[1:]
    if first == "formula":
        yield "all", ("name", ":", "sort", ".", "formula") + rest
        yield "!", ("formula",) + rest
        yield "(", ("formula", "connective") + rest
        for kind in TERM:
            yield kind, ("=", "term") + rest
        yield "name", ("(", "term", "more", "equal") + rest
    elif first == "term":
        for kind in TERM:
            yield kind, rest
        yield "name", ("(", "term", "more") + rest
    elif first == "more":
        yield from ((",", ("term", "more") + rest), (")", rest))
    elif first == "equal":
        yield "=", ("term",) + rest
        yield from goes_on(rest)
    elif first == "connective":
        yield from ((head, ("formula", "chain" + head) + rest) for head in "&|")
        yield from ((head, ("formula", ")") + rest) for head in ("->", "<->"))
    elif first[:5] == "chain":
        yield from ((first[5:], ("formula", first) + rest), (")", rest))
    else:
        yield first, rest


def furthest(text):
    """The place, and what may stand there."""
    stacks, at = {("formula", "end")}, 0
    while True:
        next_ones = [pair for stack in stacks for pair in goes_on(stack)]
        while text[at : at + 1] in (b" ", b"\t", b"\r", b"\n") and at < len(text):
            at += 1
        try:
            found = LEXEME.match(text, at)
            word = lexemes_of(text[at : found.end()])[0] if found else ""
        except Refused:
            word = ""
        stacks = {rest for kind, rest in next_ones if word and kind in kinds_of(word)}
        if not stacks:
            kinds = {kind for kind, _ in next_ones}
            return at, ", ".join(SHOWN.get(kind, f"`{kind}`") for kind in ORDER if kind in kinds)
        at = found.end()


def help_of(study, name, library):
    """The lines of help on the furthest place of a sentence of a study."""
    keys = tomllib.loads(decoded(study))
    return place_told(name, (library[keys["kind"]].get(name) or keys["sentences"][name]).encode())


def place_told(name, text):
    at, kinds = furthest(text)
    clean = bytes(byte if 32 <= byte < 127 else 32 for byte in text).decode()
    stands = f"`{clean[at : at + 20]}`" if at < len(text) else "the end"
    before = f"help {name} reads up to byte {at}\nhelp before it: `{clean[max(0, at - 40) : at]}`\n"
    return f"{before}help there stands: {stands}\nhelp there may stand: {kinds}\n"
