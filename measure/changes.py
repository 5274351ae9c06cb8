"""Changes texts at random, for measure/strange.py: studies, reports, sharp texts, clauses, proofs, and the words of calls. Every change
takes a source of random numbers, a text as bytes, and other texts of which it may take pieces, and gives another text.
"""
import math
import re

LONGEST = 400_000
SPECIAL = b"\x00\r\n\t \x7f\x80\xc3\xff\xef\xbb\xbf-|@!<>#\"'=[]{}()09az_"
NUMBERS = b"0 1 2 3 4 5 6 7 8 9 10 12 16 17 40 41 100 255 256 1000 65536 1000000 1000001 2147483648 4294967295 4294967296".split()
NUMBERS += [str(2**power + more).encode() for power in (53, 63, 64, 128) for more in (-1, 0, 1)]
FORMS = [b"-%s", b"+%s", b"0%s", b"%s.0", b"0x%s", b"%s_0", b"%s%s", b"", b"-0", b"1e%s"]
WORDS = b"""kind voters alternatives ballots absent conflicts axioms sentences choice ranking sets true false yes no verdict possible impossible
undecided core lemmas lemma suppose so by clash axiom outcome without rule open end needs instances bench report sharp study p cnf c d wins
ranks prefers better casts majority with swap_voters swap_alts swap all some voter alt ballot profile
a b c d e ab ba abc acb bac bca cab cba""".split()
AXIOMS = b"""unanimity pareto onto non_dictatorship strategyproof maskin condorcet anonymity neutrality participation independence resolute""".split()
WORDS += AXIOMS
LIBRARY = {b"choice": AXIOMS[:10], b"ranking": AXIOMS[1:2] + AXIOMS[3:4] + AXIOMS[7:9] + AXIOMS[10:11]}
LIBRARY[b"sets"] = AXIOMS[1:2] + AXIOMS[4:5] + AXIOMS[6:9] + AXIOMS[11:]
VALUES = [b'"choice"', b'"ranking"', b'"sets"', b'"Choice"', b"'choice'", b'"""choice"""', b'"\\u0063hoice"', b"true", b"false", b"[]", b"{}", b'""']
VALUES += [b'["abc"]', b'["abc", "cba"]', b'["ab"]', b'["ba", "ab"]', b'["abc", "abc"]', b'["bca", "abc", "cab"]', b"[1]"]
VALUES += [b"1979-05-27", b"nan", b"1.5"]
VALUES += [b'["pareto"]', b"0x2", b"1_0", b"+2", b"-1", b"2.0", b'"2"', b"99999999999999999999", b"0b10", b"0o3", b"{ a = 1 }", b"[[]]"]
VALUES += [b'["\xc3\xa9"]']
VALUES += [b"1", b"2", b"2", b"3", b"3", b"4", b"5", b"6", b"8", b"9", b"0"]
TOKEN = re.compile(rb"#\d*|@\w*|<->|->|<[a-z]*>|\w+|[^\w\s]")
TOKENS = rb"""all some ( ) & | -> <-> ! = , : . voter alt ballot profile wins ranks prefers better casts majority with swap_voters swap_alts
swap x y z w p q i j b c #1 #2 #3 #9 #007 @a @b @c @z <ab> <ba> <abc> <bca> <zz>""".split()


def place(rng, text):
    return rng.randrange(len(text) + 1)


# ---- Of bytes.


def flipped(rng, text, _):
    if not text:
        return text
    at = rng.randrange(len(text))
    new = text[at] ^ (1 << rng.randrange(8)) if rng.random() < 0.5 else rng.choice(SPECIAL)
    return text[:at] + bytes([new]) + text[at + 1 :]


def inserted(rng, text, _):
    at = place(rng, text)
    return text[:at] + bytes([rng.choice(SPECIAL)]) * rng.choice([1, 1, 1, 2, 5000]) + text[at:]


def removed(rng, text, _):
    at, long = place(rng, text), rng.choice([1, 1, 1, 2, 7, 50])
    return text[:at] + text[at + long :]


def cut(rng, text, _):
    at = rng.choice([0, 1, len(text) - 1, place(rng, text), place(rng, text), place(rng, text)])
    return text[: max(at, 0)]


def begun_later(rng, text, _):
    return text[place(rng, text) :]


def joined(rng, text, others):
    other = rng.choice(others)
    return text[: place(rng, text)] + other[place(rng, other) :]


def repeated(rng, text, _):
    """A piece many times."""
    at = place(rng, text)
    piece = text[at : at + rng.choice([1, 5, 40, 300])]
    return text[:at] + piece * rng.choice([2, 3, 10, 100, 3000]) + text[at:]


def with_ends(rng, text, _):
    ends = [b"\r\n", b"\r", b"\n\n", b" \n", b"\n ", b"\x00\n", b"\t\n"]
    if rng.random() < 0.4:
        return text.replace(b"\n", rng.choice(ends))
    at = text.find(b"\n", place(rng, text))
    return text if at < 0 else text[:at] + rng.choice(ends) + text[at + 1 :]


def marked(rng, text, _):
    """Something in front, or behind."""
    more = rng.choice([b"\xef\xbb\xbf", b"\n", b" ", b"\x00", b"c\n", b"# a\n", b"end\n", b"\xff\xfe", b"0"])
    return more + text if rng.random() < 0.5 else text + more


# ---- Of lines.


def split(text):
    lines = text.split(b"\n")
    return lines[:-1], lines[-1]


def with_lines(change):
    def changed(rng, text, others):
        lines, rest = split(text)
        if not lines:
            return text
        at = rng.randrange(len(lines))
        change(rng, lines, at, others)
        return b"".join(line + b"\n" for line in lines) + rest

    return changed


@with_lines
def line_dropped(rng, lines, at, _):
    del lines[at : at + rng.choice([1, 1, 1, 2, 5])]


@with_lines
def line_doubled(_, lines, at, __):
    lines.insert(at, lines[at])


@with_lines
def line_moved(rng, lines, at, _):
    line = lines.pop(at)
    to = at + rng.choice([-3, -2, -1, 1, 2, 3]) if rng.random() < 0.7 else rng.randrange(len(lines) + 1)
    lines.insert(max(to, 0), line)


@with_lines
def lines_exchanged(rng, lines, at, _):
    other = rng.randrange(len(lines))
    lines[at], lines[other] = lines[other], lines[at]


@with_lines
def line_of_other(rng, lines, at, others):
    lines[at] = rng.choice(rng.choice(others).split(b"\n"))


@with_lines
def line_emptied(rng, lines, at, _):
    lines[at] = rng.choice([b"", b" ", b"\r", lines[at] + b" ", b" " + lines[at], lines[at].replace(b" ", b"  "), lines[at][:-1]])


# ---- Of numbers and names.


def token_at(rng, text, form):
    """Where a token of a form stands, the first behind a random place."""
    if not text:
        return None
    at = place(rng, text)
    found = form.search(text, at) or form.search(text)
    if found is None:
        return None
    start, end = found.span()
    while start and form.match(text, start - 1, start):
        start -= 1
    return start, end


NUMBER, NAME, WORD, BALLOTS = re.compile(rb"\d+"), re.compile(rb"[a-z_]+"), re.compile(rb"[^\s]+"), re.compile(rb"[a-e|-]+")


def number_changed(rng, text, _):
    at = token_at(rng, text, NUMBER)
    if at is None:
        return text
    old = text[at[0] : at[1]]
    if rng.random() < 0.5:
        new = rng.choice(NUMBERS)
    elif rng.random() < 0.6 and len(old) < 30:
        new = str(max(0, int(old) + rng.choice([-1, 1, 1, 2, 10, 100]))).encode()
    else:
        new = rng.choice(FORMS).replace(b"%s", old)
    return text[: at[0]] + new + text[at[1] :]


def name_changed(rng, text, others):
    at = token_at(rng, text, NAME)
    if at is None:
        return text
    other = text if rng.random() < 0.6 else rng.choice(others)
    found = token_at(rng, other, NAME) if rng.random() < 0.7 else None
    new = other[found[0] : found[1]] if found else rng.choice(WORDS)
    return text[: at[0]] + new + text[at[1] :]


def shape(token):
    return re.sub(rb"[a-e]", b"a", re.sub(rb"\d+", b"9", token))


def alike_exchanged(rng, text, _):
    """A word in place of another that looks like it: an alternative, a ballot, a profile, a literal, a number."""
    form = rng.choice([WORD, WORD, WORD, BALLOTS])
    at = token_at(rng, text, form)
    if at is None:
        return text
    old = text[at[0] : at[1]]
    for _ in range(30):
        other = token_at(rng, text, form)
        new = text[other[0] : other[1]]
        if new != old and shape(new) == shape(old):
            return text[: at[0]] + new + text[at[1] :]
    return text


def renamed(rng, text, _):
    """Two words exchanged everywhere."""
    one, two = token_at(rng, text, WORD), token_at(rng, text, WORD)
    if one is None:
        return text
    words = {text[one[0] : one[1]]: text[two[0] : two[1]], text[two[0] : two[1]]: text[one[0] : one[1]]}
    return WORD.sub(lambda found: words.get(found[0], found[0]), text)


def negated(rng, text, _):
    at = token_at(rng, text, WORD)
    if at is None:
        return text
    word = text[at[0] : at[1]]
    mark = b"-" if word[:1].isdigit() or word[:1] == b"-" else b"!"
    new = word[1:] if word.startswith(mark) else mark + word
    return text[: at[0]] + new + text[at[1] :]


ANY = [flipped, flipped, inserted, removed, cut, begun_later, joined, repeated, with_ends, marked, line_dropped, line_doubled, line_moved]
ANY += [lines_exchanged, line_of_other, line_emptied, number_changed, number_changed, name_changed, name_changed]
ROWS = [line_dropped, line_doubled, line_moved, line_moved, line_moved, number_changed, name_changed, negated, renamed, line_of_other]
ROWS += [alike_exchanged] * 8


# ---- Of reports.


def literal_or_row(rng, text, _):
    """Another alternative in a row or a literal."""
    places = [found.start(1) for found in re.finditer(rb"(?: |!|\b)([a-e])(?:$|@)", text, re.M)] if len(text) < 20_000 else []
    if not places:
        return alike_exchanged(rng, text, _)
    at = rng.choice(places)
    return text[:at] + rng.choice(b"abc").to_bytes(1, "big") + text[at + 1 :]


def witness_opened(rng, text, _):
    """An open mark in place of a table."""
    found = rng.choice(list(re.finditer(rb"^(without \w+|needs .*) rule \d+\n(?:[^ \n]* .*\n)*?(?=without|needs|end)", text, re.M)) or [None])
    if found is None:
        return text
    return text[: found.start()] + found[1] + b" open " + rng.choice([b"100000", b"1000", b"7"]) + b"\n" + text[found.end() :]


def second_form(rng, text, _):
    """The head of report 2 in place of that of report 1, or the other way round."""
    if text.startswith(b"bench report 1\n"):
        letters = re.search(rb"^alternatives (\d)$", text, re.M)
        if letters:
            ballots = b" ".join(map(bytes, permutations(b"abcde"[: int(letters[1])])))
            return re.sub(rb"^axioms", b"ballots " + ballots + b"\nabsent no\naxioms", text.replace(b"report 1", b"report 2", 1), 1, re.M)
    return re.sub(rb"^ballots.*\nabsent.*\n", b"", text.replace(b"report 2", b"report 1", 1), 1, re.M)


def permutations(letters):
    if not letters:
        return [b""]
    return [bytes([x]) + rest for x in letters for rest in permutations(letters.replace(bytes([x]), b""))]


STEP = re.compile(rb"^(?:so|clash|suppose) .*\n", re.M)


def step_changed(rng, text, others):
    """A step of a story that is left out, stands elsewhere, has another literal, another reason, or another value in it."""
    steps = list(STEP.finditer(text)) if len(text) < 60_000 else []
    if len(steps) < 2:
        return alike_exchanged(rng, text, others)
    one, other = rng.choice(steps), rng.choice(steps)
    (start, end), line, words, more = one.span(), one[0], one[0].split(b" "), other[0].split(b" ")
    way = rng.randrange(8)
    if way == 0:
        return text[:start] + text[end:]
    if way < 3:
        at = rng.choice([step.start() for step in steps[max(0, steps.index(one) - 4) : steps.index(one) + 5]])
        at = at if way == 1 else other.start()
        rest = text[:start] + text[end:]
        at -= len(line) if at > start else 0
        return rest[:at] + line + rest[at:]
    if way == 3 and len(words) > 1:
        words[1] = words[1][1:] if words[1].startswith(b"!") else b"!" + words[1]
    elif way == 4 and b"by" in words and b"by" in more:
        words = words[: words.index(b"by")] + more[more.index(b"by") :]
    elif way == 5 and words[0] == more[0] == b"so":
        words[1] = more[1]
    elif len(words) > 4:
        at = rng.randrange(4, len(words))
        alike = [word for step in steps for word in step[0].split() if shape(word) == shape(words[at].strip())]
        words[at] = rng.choice(alike or [b"a"]) + (b"\n" if at == len(words) - 1 else b"")
    return text[:start] + b" ".join(words) + text[end:]


def step_added(rng, text, _):
    """A step once more, elsewhere, or a lemma that supposes more."""
    steps = list(STEP.finditer(text)) if len(text) < 60_000 else []
    if not steps:
        return text
    one, other = rng.choice(steps), rng.choice(steps)
    line = one[0] if rng.random() < 0.7 else b"suppose " + one[0].split(b" ")[1] + b"\n"
    return text[: other.start()] + line + text[other.start() :]


REPORT = [*ROWS, step_added, *[step_changed] * 12, literal_or_row, literal_or_row, literal_or_row, witness_opened, second_form]


# ---- Of studies.

KEY = re.compile(rb"^([a-z]+)( *= *)(.*)$", re.M)


def key_at(rng, text):
    return rng.choice(list(KEY.finditer(text)) or [None])


def key_dropped(rng, text, _):
    found = key_at(rng, text)
    return text if found is None else text[: found.start()] + text[found.end() + 1 :]


def key_repeated(rng, text, _):
    found = key_at(rng, text)
    return text if found is None else text[: found.start()] + found[0] + b"\n" + text[found.start() :]


def value_changed(rng, text, _):
    found = key_at(rng, text)
    return text if found is None else text[: found.start(3)] + rng.choice(VALUES) + text[found.end(3) :]


def key_added(rng, text, _):
    more = [b"absent = true\n", b"absent = true\n", b"absent = false\n", b"more = 1\n", b"[kind]\n", b"[[axioms]]\n", b"[sentences]\n"]
    more += [b"conflicts = 1\n", b"conflicts = 3\n", b"conflicts = 10\n", b"conflicts = 0\n", b'"kind" = "sets"\n', b"a.b = 1\n"]
    more += [b"sentences = {}\n", b"# a\n", b'sentences.own = "all x: alt. x = x"\n', b'ballots = ["abc", "bca", "cab"]\n', b'ballots = ["ab"]\n']
    more += [b'"\\u0061bsent" = true\n']
    return rng.choice(more) + text


def key_spelled(rng, text, _):
    found = key_at(rng, text)
    if found is None:
        return text
    key, value = found[1], found[3]
    spelled = [b'"%s" = %s' % (key, value), b"'%s'=%s" % (key, value), b"%s = %s # a" % (key, value), b"%s.x = %s" % (key, value)]
    spelled += [b"%s = [%s]" % (key, value), b"%s = [ # a\n%s,\n]" % (key, value.strip(b"[]")), b"%s\n=%s" % (key, value), b"%s =" % key]
    return text[: found.start()] + rng.choice(spelled) + text[found.end() :]


def axioms_drawn(rng, text, _):
    """Another list of axioms."""
    kind = re.search(rb"^kind *= *\"(\w+)\"", text, re.M)
    names = re.findall(rb"^(\w+) *= *[\"']+(?:all|some|!|\()", text, re.M)
    names += LIBRARY[kind[1]] if kind and kind[1] in LIBRARY and rng.random() < 0.9 else AXIOMS
    count = rng.choice([0, 1, 1, 2, 2, 2, 3, 3, 4, 5, 41])
    listed = [rng.choice(names) for _ in range(count)] if rng.random() < 0.2 else rng.sample(names, min(count, len(names)))
    line = b"axioms = [" + b", ".join(b'"%s"' % name for name in listed) + b"]"
    return re.sub(rb"^axioms *= *.*$", lambda _: line, text, 1, re.M)


STUDY = [key_dropped, key_repeated, value_changed, value_changed, value_changed, key_added, key_added, key_spelled, axioms_drawn, axioms_drawn]


# ---- Of sentences.


def sentence_at(rng, text):
    """A sentence of a study: its place."""
    found = rng.choice(list(re.finditer(rb"^\w+ *= *([\"'])((?:all |some |!|\().*)\1 *$", text, re.M)) or [None])
    return None if found is None else found.span(2)


def with_sentence(rng, text, library):
    """The study with a sentence of its own, one of the library, which it asks."""
    kind = re.search(rb"^kind *= *\"(\w+)\"", text, re.M)
    sentences = library.get(kind[1].decode() if kind else "choice") or library["choice"]
    name = b"own_%d" % rng.randrange(4)
    more = b'%s = "%s"\n' % (name, rng.choice(sentences))
    text = re.sub(rb"^axioms *= *\[", lambda found: found[0] + b'"%s", ' % name, text, 1, re.M)
    text = text.replace(b'", ]', b'"]')
    if re.search(rb"^\[sentences\]\n", text, re.M):
        return re.sub(rb"^\[sentences\]\n", lambda found: found[0] + more, text, 1, re.M)
    return text + b"[sentences]\n" + more


def tokens_changed(rng, sentence, others):
    tokens = TOKEN.findall(sentence)
    if not tokens:
        return sentence
    at, other = rng.randrange(len(tokens)), rng.randrange(len(tokens))
    way = rng.randrange(12)
    if way == 0:
        del tokens[at]
    elif way == 1:
        tokens.insert(at, tokens[at])
    elif way == 2:
        tokens[at], tokens[other] = tokens[other], tokens[at]
    elif way < 6:
        tokens[at] = rng.choice(TOKENS)
    elif way == 6:
        tokens.insert(at, rng.choice(TOKENS))
    elif way == 7:
        tokens[at:at] = [b"!"] * rng.choice([1, 1, 2, 30, 63, 64, 70, 700])
    elif way == 8:
        alike = [i for i, token in enumerate(tokens) if token in (b"all", b"some", b"&", b"|", b"->", b"<->")]
        if alike:
            at = rng.choice(alike)
            tokens[at] = rng.choice([b"all", b"some"] if tokens[at].isalpha() else [b"&", b"|", b"->", b"<->"])
    elif way == 9:
        letters = [i for i, token in enumerate(tokens) if token in (b"x", b"y", b"z", b"p", b"q", b"i", b"j", b"b")]
        if letters:
            tokens[rng.choice(letters)] = tokens[rng.choice(letters)]
    elif way == 10:
        head = rng.choice([b"!", b"( !", b"some x : alt .", b"all i : voter .", b"all b : ballot .", b"(" * rng.choice([1, 60, 300])])
        tokens = [head, *tokens, *([b")"] if head == b"( !" else [])]
    else:
        tokens = [b"(", *tokens, rng.choice([b"&", b"|", b"->", b"<->"]), *TOKEN.findall(rng.choice(others)), b")"]
        tokens *= rng.choice([1, 1, 1, 4])
    blank = rng.choice([b" ", b" ", b" ", b"  ", b"\\n", b"\\t", b"\t"])
    return blank.join(tokens)


def sentence_changed(rng, text, library):
    at = sentence_at(rng, text)
    if at is None or rng.random() < 0.1:
        text = with_sentence(rng, text, library)
        at = sentence_at(rng, text)
    if at is None:
        return text
    sentence = text[at[0] : at[1]]
    for _ in range(rng.choice([0, 1, 1, 1, 2, 3])):
        sentence = tokens_changed(rng, sentence, rng.choice(list(library.values())))
    return text[: at[0]] + sentence + text[at[1] :]


ALIKE = [[b"all", b"some"], [b"&", b"|", b"->", b"<->"], [b"x", b"y", b"z", b"w"], [b"p", b"q"], [b"i", b"j"], [b"#1", b"#2"], [b"@a", b"@b", b"@c"]]
ALIKE += [[b"wins(x, p)", b"wins(y, p)"], [b"x = y", b"prefers(i, x, y, p)", b"prefers(i, y, x, p)", b"majority(x, y, p)"], [b"wins", b"!wins"]]


def sentence_turned(rng, text, library):
    """A sentence that says something else, and mostly is one."""
    at = sentence_at(rng, text)
    if at is None or rng.random() < 0.2:
        text = with_sentence(rng, text, library)
        at = sentence_at(rng, text)
    if at is None:
        return text
    sentence = text[at[0] : at[1]]
    for _ in range(rng.choice([1, 1, 2, 3])):
        alike = rng.choice(ALIKE)
        form = re.compile(b"|".join(rb"\b%s\b" % re.escape(one) if one[:1].isalpha() and one[-1:].isalnum() else re.escape(one) for one in alike))
        places = list(form.finditer(sentence))
        if places:
            found = rng.choice(places)
            sentence = sentence[: found.start()] + rng.choice(alike) + sentence[found.end() :]
    if rng.random() < 0.15:
        quantifier = rng.choice([b"all", b"some"]) + b" z: " + rng.choice([b"alt", b"voter", b"ballot"]) + b". "
        sentence = quantifier + sentence
    return text[: at[0]] + sentence + text[at[1] :]


def size_changed(rng, text, _):
    """Another size, within what is gone through soon."""
    key = rng.choice([b"voters", b"alternatives"])
    number = rng.choice([b"1", b"2", b"2", b"3", b"3", b"4"])
    return re.sub(rb"^%s *=.*$" % key, lambda _: b"%s = %s" % (key, number), text, 1, re.M)


def domain_changed(rng, text, _):
    """Other ballots, absence, another kind or limit."""
    way = rng.randrange(5)
    if way == 0:
        return re.sub(rb"^absent.*\n", b"", text, 1, re.M) if b"absent" in text else b"absent = true\n" + text
    if way == 1:
        return re.sub(rb"^kind *=.*$", lambda _: b'kind = "%s"' % rng.choice([b"choice", b"ranking", b"sets"]), text, 1, re.M)
    if way == 2:
        text = re.sub(rb"^conflicts.*\n", b"", text, 1, re.M)
        return b"conflicts = %d\n" % rng.choice([1, 2, 3, 5, 10, 50, 1000]) + text
    found = re.search(rb"^alternatives *= *([1-4])$", text, re.M)
    if found is None:
        return text
    every = permutations(b"abcd"[: int(found[1])])
    chosen = rng.sample(every, rng.randint(1, len(every)))
    return b"ballots = [%s]\n" % b", ".join(b'"%s"' % one for one in chosen) + re.sub(rb"^ballots.*\n", b"", text, 1, re.M)


GENTLE = [axioms_drawn, axioms_drawn, axioms_drawn, sentence_turned, sentence_turned, sentence_turned, size_changed, domain_changed, domain_changed]


# ---- Of clauses and proofs.


def proof_line(rng, text, _):
    """A line that another reader might take."""
    last = NUMBER.findall(text[-200:])[-1:] or [b"30"]
    new = [b"c a", b"0 d 1 2 0", b"%s d 1 0" % last[0], b"9999 d 0", b"9999 1 -1 0 77 0", b"9999 0 1 0", b"9998 1 0 -3 2 0"]
    new += [b"%s 0 0" % last[0], b"1 0 1 0"]
    new += [b"9223372036854775807 0 1 0", b"9223372036854775808 0 1 0", b"0 0 1 0", b"9999 1 0 1 0 2 0", b"9999 1 2", b"a"]
    new += [b"9999 d -1 0", b"9999 0 -1"]
    new += [b"p cnf 4 1", b"1 2 0", b"-1", b"0", b"0 0", b"c", b"1 1 1 0", b"1 -1 0", b"-0 0", b"+1 0", b"01 0", b"2 0 1", b"\x00 0", b"\xff 0"]
    lines, rest = split(text)
    at = rng.randrange(len(lines) + 1)
    if rng.random() < 0.3 and lines:
        lines[at % len(lines)] = rng.choice(new)
    else:
        lines.insert(at, rng.choice(new))
    return b"".join(line + b"\n" for line in lines) + rest


def words_moved(rng, text, _):
    """The words of a line in another order, or one of them twice, or one less."""
    lines, rest = split(text)
    if not lines:
        return text
    at = rng.randrange(len(lines))
    words = lines[at].split(b" ")
    one = rng.randrange(len(words))
    way = rng.randrange(3)
    if way == 0:
        words.insert(rng.randrange(len(words)), words.pop(one))
    elif way == 1:
        words.insert(one, words[one])
    else:
        del words[one]
    lines[at] = rng.choice([b" ", b" ", b" ", b" ", b"  ", b"\t", b"\r ", b"\n"]).join(words)
    return b"".join(line + b"\n" for line in lines) + rest


CLAUSES = [*ROWS, proof_line, proof_line, proof_line, words_moved, words_moved, words_moved]
CHANGES = {"study": STUDY, "report": REPORT, "sharp": REPORT, "cnf": CLAUSES, "proof": CLAUSES}


def changed(rng, what, text, others, library):
    """A text of a kind, changed once or some times. Of the words "study", "report", "sharp", "cnf" and "proof" one says what it is."""
    anything = rng.random() < 0.3
    gentle = what == "study" and rng.random() < 0.6
    for _ in range(rng.choice([1, 1, 1, 1, 1, 1, 2, 2, 3, 6])):
        if gentle:
            text = rng.choice(GENTLE)(rng, text, library)
        elif what == "study" and rng.random() < 0.4:
            text = sentence_changed(rng, text, library)
        else:
            change = rng.choice(ANY if anything and rng.random() < 0.7 else CHANGES[what])
            text = change(rng, text, others)
        if len(text) > LONGEST:
            text = text[:LONGEST]
    return text


# ---- How much a study asks.


def integer(text, key, otherwise): # of a long number the first digits, which are too large as well
    found = re.search(rb"\b%s[\"']? *= *\+?(\d[\d_]*)" % key, text)
    return otherwise if found is None else int(found[1].replace(b"_", b"")[:40])


def weight(text):
    """About how many profiles a study has, and how many atoms or instances its dearest sentence; both 0 where it is refused soon."""
    voters, alternatives = integer(text, b"voters", 0), integer(text, b"alternatives", 0)
    if not (1 <= voters <= 8 and 1 <= alternatives <= 5):
        return 0, 0
    listed = re.search(rb"\bballots[\"']? *= *\[([^\]]*)\]", text)
    ballots = math.factorial(alternatives) if listed is None else len(re.findall(rb"[\"'][a-e]+[\"']", listed[1]))
    profiles = (ballots + (re.search(rb"\babsent[\"']? *= *true", text) is not None)) ** voters
    if profiles > 20_001:
        return 0, 0
    sizes = {b"profile": profiles, b"voter": voters, b"alt": alternatives, b"ballot": ballots}
    dearest = 0
    for line in text.split(b"\n"):
        sorts = re.findall(rb"(?:\ball|\bsome)(?:\s|\\[nt])+\w+(?:\s|\\[nt])*:(?:\s|\\[nt])*(profile|voter|alt|ballot)", line)
        dearest = max(dearest, math.prod([sizes[sort] for sort in sorts]))
    return profiles, dearest


# ---- Words of calls.

STRANGE = [b"", b"-", b"--", b"--help", b"-h", b"help", b"-V", b"--version", b"--workers", b"--workers=4", b"--workers=", b"-w", b"--work=2"]
STRANGE += [b"--most", b"--most=5", b"--most=0", b"\xff", b"a\xffb", b"\xc3\xa9", b"study", b"report", b"none", b".", b"/dev/null", b"x" * 5000]
STRANGE += [b"choice", b"ranking", b"sets", b"Choice", b"decide", b"DECIDE", b"check ", b"dec", b"-1", b"+1", b"1", b"01", b"4294967296"]
STRANGE += [b"\n", b"\xef\xbb\xbfdecide"]
COUNTS = [b"0", b"1", b"2", b"3", b"4", b"16", b"17", b"04", b"+4", b"", b"-1", b"1 ", b" 1", b"1.0", b"0x2", b"\xd9\xa4"]
COUNTS += [b"4294967295", b"4294967296", b"100", b"10000", b"10001", b"18446744073709551617", b"--", b"-", b"a", b"--workers"]


def words_changed(rng, words, options):
    words = list(words)
    for _ in range(rng.choice([1, 1, 1, 2, 3])):
        at = rng.randrange(len(words) + 1)
        way = rng.randrange(8)
        if way == 0 and words:
            del words[at % len(words)]
        elif way == 1 and words:
            words.insert(at, rng.choice(words))
        elif way == 2 and len(words) > 1:
            other = rng.randrange(len(words))
            words[at % len(words)], words[other] = words[other], words[at % len(words)]
        elif way == 3 and words:
            words[at % len(words)] = rng.choice(STRANGE)
        elif way == 4:
            words.insert(at, rng.choice(STRANGE))
        else:
            option, count = rng.choice(options or [b"--workers"]), rng.choice(COUNTS)
            words[at:at] = [option + b"=" + count] if rng.random() < 0.4 else [option, count]
    return [word.replace(b"\x00", b"") for word in words]
