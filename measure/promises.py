#!/usr/bin/env python3
"""What is promised and asked in one revision and not in another: measure/promises.py BEFORE AFTER [WORD ..]

Reads crates/*/src/**.rt and crates/*/specs/**.antt of both revisions, as git has them, and compares over all crates together the clauses
`ensures NAME { .. }` and `requires NAME { .. }`, the facts of types (`ghost NAME: { .. }` and `ghost NAME = { .. }`), and the definitions. A
clause of the same text is the same in whatever crate and module its function stands. What is left on both sides is paired, first by its text
under another function's name, and then, for a function of one name, where the tokens differ in names alone. The rest is GONE or NEW; it is
printed with its function, which is `pub`, `pub(crate)` or `private`, its place, and, where something is gone, what is most like it. A line
before says how many of each there are. It says nothing of what the definitions in a clause mean: these are compared as definitions.

The words: `pub` leaves out all but public functions and types, `ensures` all but what is promised, `tests` counts the crates of tests, files of
tests and specs/Examples.antt too, `counts` prints the first lines alone, and `moved` also what was paired. A function that is `pub` in a
private module counts as public. The status is 0, or 1 where the words are others.
"""
import collections, difflib, io, re, subprocess, sys, tarfile

NAME = r"[^\W\d][\w']*"
CLAUSE = re.compile(r"\s*(requires|ensures|decreases)(?![\w'])\s*([^\s{]*)\s*")
WORD = re.compile(r"(?<![\w'])(fn|impl|trait|struct|enum|requires|ensures|decreases|ghost|mod|static|const|type|use)(?![\w'])")
TOKEN = re.compile(r"[^\W\d][\w']*(?:\.[^\W\d][\w']*)*|\d+|\S")
Item = collections.namedtuple("Item", "kind name text of seen file line")


def files_of(revision):
    data = subprocess.run(["git", "archive", "--format=tar", revision, "crates"], stdout=subprocess.PIPE, check=True).stdout
    with tarfile.open(fileobj=io.BytesIO(data)) as tar:
        for member in tar:
            parts = member.name.split("/")
            if member.isfile() and (member.name.endswith(".rt") and parts[2] == "src" or member.name.endswith(".antt") and parts[2] == "specs"):
                yield member.name, tar.extractfile(member).read().decode()


def string_end(text, at):
    """Where the string, the sign or the comment at this place ends; None where there is none."""
    raw = re.compile(r'b?r(#*)"').match(text, at)
    if text.startswith("//", at):
        return text.find("\n", at) % (len(text) + 1)
    if text.startswith("/*", at):
        return (text.find("*/", at) + 2) % (len(text) + 1)
    if raw and not (at and text[at - 1].isalnum()):
        return text.index('"' + raw[1], raw.end()) + 1 + len(raw[1])
    if text[at] == '"':
        return re.compile(r'"(?:[^"\\]|\\.)*"', re.S).match(text, at).end()
    if text[at] == "'" and not (at and (text[at - 1].isalnum() or text[at - 1] in "_'") and text[at - 1] != "b"):
        sign = re.compile(r"'(\\x..|\\u\{[^}]*\}|\\.|[^\\'\n])'").match(text, at)
        return sign and sign.end()
    return None


def masked(text):
    """The text with its comments blank, and one whose strings and signs are blank as well."""
    plain, bare, at = list(text), list(text), 0
    while at < len(text):
        end = string_end(text, at)
        if end is None:
            at += 1
            continue
        for k in range(at, end):
            if text[k] != "\n":
                bare[k] = " "
                if text[at] == "/":
                    plain[k] = " "
        at = end
    return "".join(plain), "".join(bare)


def joined(text):
    return " ".join(text.split())


def seen_from(head):
    """Who sees what has this before its word."""
    return "pub(crate)" if "pub(" in head else "pub" if re.search(r"\bpub\b", head) else "private"


class Source:
    """The clauses and facts of a file of sources."""

    def __init__(self, file, text):
        self.file, (self.plain, self.bare), self.items = file, masked(text), []
        self.scan(0, len(text), ("file", "", ""))

    def close(self, at):
        """The place after the bracket that closes the one at this place."""
        depth = 0
        for k in range(at, len(self.bare)):
            depth += (self.bare[k] in "{([") - (self.bare[k] in "})]")
            if not depth:
                return k + 1
        raise ValueError("an open bracket in " + self.file)

    def head(self, at):
        return self.bare[self.bare.rfind("\n", 0, at) + 1:at]

    def add(self, kind, name, start, end, of, seen, at):
        self.items.append(Item(kind, name, joined(self.plain[start:end]), of, seen, self.file, self.plain.count("\n", 0, at) + 1))

    def clauses(self, at, of, seen):
        """Takes the clauses that begin here, and gives the place after them."""
        while True:
            found = CLAUSE.match(self.bare, at)
            if not found or self.bare[found.end():found.end() + 1] != "{":
                return at
            at = self.close(found.end())
            self.add(found[1], found[2], found.end() + 1, at - 1, of, seen, found.start(1))

    def signature_end(self, at):
        """Where a signature ends: at its clauses, its body or a semicolon."""
        while self.bare[at] not in "{;" and not (CLAUSE.match(self.bare, at) and self.bare[at].isspace()):
            at = self.close(at) if self.bare[at] in "([" else at + 1
        return at

    def function(self, found, around):
        name = re.compile(r"\s+(" + NAME + ")").match(self.bare, found.end())
        if not name:
            return found.end()
        kind, owner, seen = around
        if kind != "trait":
            seen = "pub" if kind == "impl-of" else seen_from(self.head(found.start()))
        of = (owner + "::" if owner else "") + name[1]
        at = self.clauses(self.signature_end(name.end()), of, seen)
        at = re.compile(r"\s*").match(self.bare, at).end()
        if self.bare[at] != "{":
            return at + 1
        end = self.close(at)
        self.scan(at + 1, end - 1, (kind, of + " (inside)", "private"))
        return end

    def block(self, found, around):
        """What stands in an `impl`, a trait, a module or a type."""
        word, at = found[1], found.end()
        while self.bare[at] not in "{;(":
            at = self.close(at) if self.bare[at] == "[" else at + 1
        if self.bare[at] == "(" and word in ("struct", "enum"):
            return self.close(at)
        while self.bare[at] not in "{;":
            at = self.close(at) if self.bare[at] in "([" else at + 1
        if self.bare[at] == ";":
            return at + 1
        end, seen = self.close(at), seen_from(self.head(found.start()))
        header = re.split(r"\bwhere\b", self.bare[found.end():at])[0]
        while word == "impl" and re.match(r"\s*<", header): # its parameters, innermost first
            header, count = re.subn(r"<[^<>]*>", "", header.replace("->", "").replace("=>", ""), count=1)
            if not count:
                break
        of = [re.match(r"[\s&]*('\w+\s+)?(mut\s+)?((?:\w+::)*)([\w']*)", part)[4] for part in re.split(r"\bfor\b", header)]
        if word == "mod":
            self.scan(at + 1, end - 1, ("mod", "", ""))
        elif word == "impl" and len(of) == 2:
            self.scan(at + 1, end - 1, ("impl-of", of[1] + " as " + of[0], seen))
        else:
            self.scan(at + 1, end - 1, (word, of[0], seen))
        return end

    def fact(self, found, around):
        name = re.compile(r"\s+(" + NAME + r")\s*([:=])\s*\{").match(self.bare, found.end())
        if not name or name[1] == "use":
            return self.bare.find(";", found.end()) + 1 or found.end()
        end = self.close(name.end() - 1)
        self.add("facts", name[1], name.end(), end - 1, around[1], "pub" if around[0] == "impl-of" else around[2] or "private", found.start())
        return end

    def scan(self, at, end, around):
        """Goes through a part of the file; around it stands something of a kind, with its name, seen from somewhere."""
        while True:
            found = WORD.search(self.bare, at, end)
            if not found:
                return
            word = found[1]
            if word == "fn":
                at = self.function(found, around)
            elif word in ("requires", "ensures", "decreases"): # of a closure
                at = max(self.clauses(found.start(), around[1], "private"), found.end())
            elif word == "ghost":
                at = self.fact(found, around)
            elif word == "use":
                at = self.bare.find(";", found.end()) + 1 or found.end()
            elif word in ("static", "const", "type") or word == "impl" and around[1].endswith("(inside)"):
                at = found.end()
            else:
                at = self.block(found, around)


def definitions(file, text):
    """What the file of definitions declares, each with all that stands under it."""
    items, name, lines, first, deep = [], None, [], 0, None
    def take():
        if name and not lines[0].startswith(("pub mod ", "pub use ")):
            items.append(Item("definitions", "", joined(" ".join(lines)), name, "pub" if "pub" in lines[0].split() else "private", file, first))
    text = re.sub(r"^use [^;{\n]*\{[^}]*\}$", "", text, flags=re.M)
    for number, line in enumerate(text.split("\n"), 1):
        line = re.sub(r"(^|\s)--(\s.*|-.*)?$", "", line).rstrip()
        word, indent = line.strip(), len(line) - len(line.lstrip())
        if not word or word.startswith("use "):
            continue
        if word.startswith("module "):
            take()
            name, deep = None, None
            continue
        starts = re.match(r"(?:(?:abbrev|unfoldable|pub)\s+)+", word) or re.match(r"(record|data|axiom|law)\s", word)
        if starts and (deep is None or indent <= deep):
            take()
            found = re.match(r"(?:abbrev |unfoldable |pub )*(record |data |law |axiom )?(\S+)", word)
            name, lines, first = found[2], [word], number
            deep = indent if found[1] in ("record ", "data ") or word.endswith(" where") else None
        elif name:
            deep = None if deep is not None and indent <= deep else deep
            lines.append(word)
    take()
    return items


def is_test(file):
    parts = file.split("/")
    return parts[1].endswith("_tests") or "tests" in re.split(r"[/._]", "/".join(parts[3:])) or parts[-1] == "Examples.antt"


def items_of(revision, words):
    items = []
    for file, text in files_of(revision):
        if "tests" in words or not is_test(file):
            items += Source(file, text).items if file.endswith(".rt") else definitions(file, text)
    return [item for item in items if "pub" not in words or item.seen == "pub"]


def renamed(left, right):
    """Whether two texts have one form, and differ in names alone, one for one."""
    left, right = TOKEN.findall(left), TOKEN.findall(right)
    to, back = {}, {}
    return len(left) == len(right) and all(
        a == b or re.match(NAME, a) and re.match(NAME, b) and to.setdefault(a, b) == b and back.setdefault(b, a) == a
        for a, b in zip(left, right))


def paired(before, after, key, same):
    """What has no partner on either side, and the pairs: of one key, and the same."""
    there, gone, pairs = collections.defaultdict(list), [], []
    for item in after:
        there[key(item)].append(item)
    for item in before:
        partner = next((it for it in there[key(item)] if same(item, it)), None)
        if partner is None:
            gone.append(item)
        else:
            there[key(item)].remove(partner)
            pairs.append((item, partner))
    return gone, [item for items in there.values() for item in items], pairs


def last(item):
    return item.of.replace(" (inside)", "").split("::")[-1]


def show(sign, item):
    print("%s %s [%s] %s  %s:%d\n      %s" % (sign, item.name, item.seen, item.of, item.file, item.line, item.text))


def compare(kind, before, after, words):
    left, right, pairs, counts = before, after, [], []
    for key, same in (
        (lambda it: (it.of, it.text), lambda a, b: True),
        (lambda it: (last(it), it.text), lambda a, b: True),
        (lambda it: it.text, lambda a, b: True),
        (last, lambda a, b: renamed(a.text, b.text)),
    ):
        left, right, more = paired(left, right, key, same)
        counts.append(len(more))
        pairs += more if len(counts) > 2 else []
    print("%s: %d before, %d after; %d the same, %d under another name, %d with other names, %d GONE, %d NEW"
          % (kind, len(before), len(after), counts[0] + counts[1], counts[2], counts[3], len(left), len(right)))
    if "counts" in words:
        return
    for old, new in pairs if "moved" in words else []:
        show("  before:", old)
        show("  after:", new)
    for item in sorted(left, key=lambda it: (it.seen != "pub", it.file, it.line)):
        show("  GONE", item)
        near = [it for it in right if last(it) == last(item)]
        if near:
            best = max(near, key=lambda it: (it.name == item.name, difflib.SequenceMatcher(None, item.text, it.text).ratio()))
            show("    most like it:", best)
    for item in sorted(right, key=lambda it: (it.seen != "pub", it.file, it.line)):
        show("  NEW", item)


def main():
    if len(sys.argv) < 3 or not set(sys.argv[3:]) <= {"pub", "ensures", "tests", "counts", "moved"}:
        sys.exit(__doc__)
    words = sys.argv[3:]
    before, after = items_of(sys.argv[1], words), items_of(sys.argv[2], words)
    for kind in ["ensures"] if "ensures" in words else ["ensures", "requires", "facts", "definitions"]:
        compare(kind, [it for it in before if it.kind == kind], [it for it in after if it.kind == kind], words)


if __name__ == "__main__":
    main()
