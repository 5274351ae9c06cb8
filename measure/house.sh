#!/usr/bin/env bash
# How the house stands: `measure/house.sh [REVISION]` prints, over the crates that are no tests, how many conditions (`requires`) a
# function has, the lines of sources, specs and proofs, names that several files of specs define, lemmas that two crates state in the
# same words, lemmas that nothing names (worked examples apart), places that go from a kind of rules to its outcomes, and how
# often `unreachable!()` and `unwrap()` stand, both of which are proved never to be met. Of names it counts those that are defined at the
# margin, and within a `module _ ..` records and what is `abbrev pub`, since a plain `pub` may be a field there; of lemmas stated twice the
# public ones. With a revision, as `measure/house.sh HEAD~20`, each row has the count there, the count here, and the ratio of here by
# there. `measure/house.sh list` prints the names and the lemmas that are counted, with the crates that have them.
set -eu
root=$(dirname -- "$(dirname -- "$(readlink -f -- "${BASH_SOURCE[0]}")")")
work=$(mktemp -d)
trap 'rm -rf -- "$work"' EXIT
if [ "${1-list}" != list ]; then
    mkdir -- "$work/there"
    git -C "$root" archive -- "$1" crates | tar -x -C "$work/there"
fi
python3 - "$root" "$work/there" "${1-}" <<'PY'
import collections, glob, os, re, sys
NAME = r"[^\s(){};,:=]+"
def texts(root, part, ending): # the files of a part of the crates that are no tests
    for path in sorted(glob.glob("%s/crates/*/%s/**/*.%s" % (root, part, ending), recursive=True)):
        crate = path[len(root) + 8:].split("/")[0]
        if not crate.endswith("_tests") and "test" not in os.path.basename(path) and "/declared/" not in path:
            yield crate, open(path, encoding="utf-8").read()
def without_comments(text, mark):
    return "\n".join(line for line in text.split("\n") if not line.lstrip().startswith(mark))
def statements(text): # the public lemmas of a file of proofs, each with its statement
    for found in re.finditer(r"^pub (%s) : ((?:.*\n)(?: .*\n)*)" % NAME, text, re.M):
        yield found[1], found[2]
def renamed(statement): # a statement with its bound names numbered in the order in which they come
    bound = {}
    for names in re.findall(r"[({λ∃]\s*((?:[\w'⁺-]+\s+)*[\w'⁺-]+)\s*[:.]", statement):
        for name in names.split():
            bound.setdefault(name, "#%d" % len(bound))
    words = re.findall(r"[\w'⁺-]+|[^\s\w]", statement)
    return " ".join(bound.get(word, word) for word in words)
def block(lines, start): # the end of what is stated at a line: its statement, its clauses and what stands under them
    margin = re.match(r" *", lines[start])[0]
    name = next(it for it in re.findall(NAME, lines[start]) if it not in ("pub", "abbrev", "unfoldable", "record", "data"))
    end = start + 1
    while end < len(lines):
        behind = next((line for line in lines[end:end + 2] if line.strip()), "")
        if not (behind.startswith(margin + " ") or lines[end].startswith(margin + name + " ") or lines[end].strip() in ("]", "}", ")")):
            break
        end += 1
    return name, end
def unnamed(root): # lemmas that no proof and no function names; worked examples and answers to goals are no lemmas
    files = {path[len(root) + 8:-5]: open(path, encoding="utf-8").read().split("\n")
        for path in sorted(glob.glob("%s/crates/*/proofs/**/*.antt" % root, recursive=True)) if "/declared/" not in path}
    named = set()
    for lines in files.values():
        for line in lines:
            found = re.match(r"(?:pub )?use (\S+?)(?:\.\{(.*)\}| as \S+)?$", line)
            if found:
                named |= {(found[1], name.split(" as ")[0].strip()) for name in (found[2] or "").split(",")}
    for path in glob.glob("%s/crates/*/src/**/*.rt" % root, recursive=True):
        for crate, module, name in re.findall(r"(\w+)::proofs::([^\s(){},]+)::([^\s(){},:]+)", open(path, encoding="utf-8").read()):
            own = path[len(root) + 8:].split("/")[0] if crate == "crate" else crate
            named.add(("Rattle.%s.proofs.%s" % (own, module.replace("::", ".")), name))
    for place, lines in files.items():
        crate, _, module = place.partition("/proofs/")
        module = "Rattle.%s.proofs.%s" % (crate, module.replace("/", "."))
        if (module, "") in named or re.search(r"_tests/|WorkedExamples|/(Answers|Invariants|Proof)$", place):
            continue
        for start, line in enumerate(lines):
            found = re.match(r"( *)(?:pub |abbrev |unfoldable |record |data )*%s (?:\(.*\) )?: " % NAME, line)
            if not found:
                continue
            above = next((it for it in reversed(lines[:start]) if it.strip() and len(it) - len(it.lstrip()) < len(found[1])), "")
            name, end = block(lines, start)
            if re.match(r" *(abbrev )?(pub )?(record|data) ", above) or (module, name) in named:
                continue
            others = [it for it in lines[:start] + lines[end:] if not it.startswith(("use ", "pub use ")) and not it.strip().startswith("--")]
            fields = r"\.%s(?![\w'-])|(?:^|[{;]) *%s = " % (re.escape(name), re.escape(name)) # of a record, and what is read off one
            text = re.sub(fields, " ", "\n".join(others), flags=re.M)
            if name not in re.findall(r"[^\s(){};,:=.\[\]]+", text):
                yield crate, module.split(".")[-1], name
def counts(root):
    functions = conditions = kinds = unreachable = unwrapped = lines = 0
    each = collections.Counter()
    of = collections.Counter()
    for crate, text in texts(root, "src", "rt"):
        lines += text.count("\n")
        code = without_comments(text, "//")
        fns = len(re.findall(r"^\s*(?:pub(?:\([^)]*\))? )?(?:const )?fn \w", code, re.M))
        asked = len(re.findall(r"^\s*requires\b", code, re.M))
        functions, conditions = functions + fns, conditions + asked
        each[crate] += asked
        of[crate] += fns
        kinds += crate not in ("outcomes", "choice_sets", "kinds") and len(re.findall(r"RankingKind::new\(", code))
        unreachable += len(re.findall(r"\bunreachable!\(", code))
        unwrapped += len(re.findall(r"\.unwrap\(\)", code))
    worst = max(((each[it] / of[it], it) for it in of if of[it] >= 3), default=(0, ""))
    specs = proofs = 0
    defined, lemmas = collections.defaultdict(set), collections.defaultdict(set)
    for crate, text in texts(root, "specs", "antt"):
        specs += text.count("\n")
        for name in re.findall(r"^(?:pub| *(?:abbrev pub|pub record|pub data|pub abbrev)) (%s) (?:\(|:)" % NAME, without_comments(text, "--"), re.M):
            defined[name].add((crate, text[:200])) # (two files of one crate count as two)
    for crate, text in texts(root, "proofs", "antt"):
        proofs += text.count("\n")
        for name, statement in statements(without_comments(text, "--")):
            if "goal." not in statement:
                lemmas[renamed(statement)].add((crate, name))
    twice = [it for it in lemmas.values() if len({crate for crate, _ in it}) > 1]
    if sys.argv[3] == "list":
        for name in sorted(it for it in defined if len(defined[it]) > 1):
            print("name %s: %s" % (name, " ".join(sorted(crate for crate, _ in defined[name]))))
        for places in sorted(map(sorted, twice)):
            print("lemma: %s" % ", ".join("%s %s" % it for it in places))
        for place in unnamed(root):
            print("unnamed: %s %s.%s" % place)
    rows = [
        ("requires a function", conditions / functions),
        ("requires a function, crate with the most (%s)" % worst[1], worst[0]),
        ("lines of sources", lines), ("lines of specs", specs), ("lines of proofs", proofs),
        ("names of specs with several meanings", sum(len(places) > 1 for places in defined.values())),
        ("lemmas stated in two crates", len(twice)), ("lemmas that nothing names", len(list(unnamed(root)))),
        ("places that go from a kind to its outcomes", kinds),
        ("unreachable!()", unreachable), ("unwrap()", unwrapped),
    ]
    return rows
here = counts(sys.argv[1])
there = counts(sys.argv[2]) if os.path.isdir(sys.argv[2]) else None
def told(number):
    return "%.2f" % number if isinstance(number, float) else str(number)
for place, (name, number) in enumerate(here):
    if there is None:
        print("%s: %s" % (name, told(number)))
    else:
        before = there[place][1]
        print("%s: %s, %s%s" % (name, told(before), told(number), ", %.2f" % (number / before) if before else ""))
PY
