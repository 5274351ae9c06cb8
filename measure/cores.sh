#!/usr/bin/env bash
# Holds the maps of `explain cores` against `bench decide`: measure/cores.sh [BENCH EXPLAIN [STUDY]]. Without words the programs are proved and
# built first where a source is newer; with both paths these are taken as they stand. With STUDY, as "choose 2 3", that study alone is gone over.
# For the nine axioms of the library of rules that choose which ask something where nobody is absent, for 2 voters and 3 alternatives and for 3
# and 3, and for the five of rules that rank, for 2 and 3, a script goes over the sets of axioms by their number, asks `decide` of each that
# has no impossible part, and `check` of each answer; so it has all minimal impossible sets, all largest possible ones, and those that are
# undecided. Where none is, the map has to be the same. A line for each such study has the numbers of sets, the calls of `decide` and their
# seconds, the shortest seconds of `explain cores` among three runs (one where that takes more than 10), and the ratio of the former by the latter.
# These maps, and those of a study with a low limit, of one without axioms, with one impossible axiom, with forty axioms, and with absent
# voters, are gone over line by line: `decide` finds no rule of an impossible set, and one of each set with an axiom less, or an open set
# lies within that; a rule of a possible set, and none of each set with an axiom more, or an open set lies within that. Where `decide` spends
# the limit it says nothing against a line; how many open sets it answers is said. Where no set is open and the map is whole, the impossible sets are
# the minimal ones that meet the complement of each possible set, which is found here by multiplication (Berge, 1989).
# Where `explain` has no such command, the maps by `decide` are told alone. Each difference has a line; the last line is `ratios R.., differences D`,
# and the status is 1 where D is not 0.
set -eu
. "$(dirname -- "$(readlink -f -- "${BASH_SOURCE[0]}")")/setup.sh"
explain=$root/crates/explain/out/explain
if [ $# -ge 2 ]; then
    program=$(readlink -f -- "$1") explain=$(readlink -f -- "$2")
else
    build_program
    env -u BENCH_QUICK "$root/explain" rules "$root/studies/dictatorship.toml" >"$work/written"
fi
python3 -B - "$root" "$program" "$explain" "$work" "${3-}" <<'PY'
import itertools, os, subprocess, sys, time
root, bench, explain, work, chosen = sys.argv[1:]
sys.path.insert(0, root + "/measure")
import judge, looks

class Study: # a study without its axioms, which are asked by sets of their names
    def __init__(self, head, axioms, sentences=None):
        self.head, self.axioms, self.sentences = head, axioms, sentences or {}
        self.answers, self.seconds, self.calls = {}, 0.0, 0
    def hold(self, names):
        path = work + "/study.toml"
        own = "".join('%s = "%s"\n' % (name, self.sentences[name]) for name in names if name in self.sentences)
        with open(path, "w") as out:
            out.write("%saxioms = [%s]\n" % (self.head, ", ".join('"%s"' % name for name in names)) + ("[sentences]\n" + own if own else ""))
        return path
    def decide(self, names): # the verdict over a set, which check confirms, and the core
        names = tuple(name for name in self.axioms if name in names)
        if names not in self.answers:
            path, start = self.hold(names), time.perf_counter()
            text = subprocess.run([bench, "decide", path], capture_output=True, text=True).stdout
            self.seconds, self.calls = self.seconds + time.perf_counter() - start, self.calls + 1
            told = looks.Told(text)
            with open(work + "/report", "w") as out: out.write(text)
            said = subprocess.run([bench, "check", path, work + "/report"], capture_output=True, text=True).stdout
            wanted = "refused line %d: undecided\n" % told.line if told.verdict == "undecided" else "confirmed %s\n" % told.verdict
            assert said == wanted, (names, said)
            self.answers[names] = told.verdict
        return self.answers[names]
    def within(self, sets): # each in the order of the study, by how many and by their places
        named = {tuple(name for name in self.axioms if name in names) for names in sets}
        return sorted(named, key=lambda names: (len(names), [self.axioms.index(name) for name in names]))

def by_decide(study): # the map, found set by set
    impossible, possible, undecided = [], [], []
    for count in range(len(study.axioms) + 1):
        for names in itertools.combinations(study.axioms, count):
            if any(set(part) <= set(names) for part in impossible): continue
            {"impossible": impossible, "possible": possible, "undecided": undecided}[study.decide(names)].append(names)
    largest = [names for names in possible if not any(set(names) < set(other) for other in possible)]
    return {"impossible": study.within(impossible), "possible": study.within(largest), "open": study.within(undecided)}

def by_cores(study): # what explain writes, and the seconds
    path, best = study.hold(study.axioms), None
    for _ in range(3):
        start = time.perf_counter()
        ended = subprocess.run([explain, "cores", path], capture_output=True, text=True)
        spent = time.perf_counter() - start
        best = spent if best is None else min(best, spent)
        if best > 10: break
    return ended.returncode, ended.stdout, best

differences = 0
def differ(what, why):
    global differences
    differences += 1
    print("%s: %s" % (what, why), flush=True)

def go_over(what, study, sets, more): # each line against decide
    opens = [set(names) for names in sets["open"]]
    def has_open(names): return any(part <= set(names) for part in opens)
    def asked(names, wrong, line): # decide does not say the opposite, but of a set that has an open part
        if study.decide(names) == wrong and not (line != "the line" and has_open(names)):
            differ(what, "decide finds %s %s, by %s of %s" % (" ".join(names), wrong, line, " ".join(one)))
    for one in sets["impossible"]:
        asked(one, "possible", "the line")
        for name in one: asked([other for other in one if other != name], "impossible", "the line with one less")
    for one in sets["possible"]:
        asked(one, "impossible", "the line")
        for name in study.axioms:
            if name not in one and not more: asked([*one, name], "possible", "the line with one more")
    if not opens and not more:
        dual = judge.crossings([frozenset(study.axioms) - set(names) for names in sets["possible"]])
        if study.within(dual) != study.within(sets["impossible"]): differ(what, "the impossible sets are not those that meet each complement")
    return "%d impossible, %d possible, %d open, of which decide answers %d" % (
        *(len(named) for named in sets.values()), sum(study.decide(names) != "undecided" for names in sets["open"]))

def hold(what, study): # one study; the ratio, where the map is found by decide too
    if chosen not in ("", what): return None
    own, ratio = None, None
    if len(study.axioms) < 10: own = by_decide(study)
    calls, seconds = study.calls, study.seconds
    told = "" if own is None else "; by %d calls of decide in %.2f s" % (calls, seconds)
    if own is not None: told += ": " + ", ".join("%d %s" % (len(named), word) for word, named in own.items())
    if b"cores" not in usage:
        print(what + told, flush=True)
        return None
    status, text, best = by_cores(study)
    try: size, sets, more = looks.map_told(text)
    except looks.Fault as why: return differ(what, "status %d, and %s" % (status, why))
    if size.axioms != study.axioms: return differ(what, "the map is over %s" % " ".join(size.axioms))
    if (status == 4) != bool(sets["open"] or more) or status not in (0, 4): differ(what, "status %d" % status)
    if own is not None and not own["open"] and not sets["open"] and not more:
        for word in own:
            if own[word] != [tuple(names) for names in sets[word]]: differ(what, "other %s sets than by decide: %s" % (word, own[word]))
    if own is not None and not own["open"] and (sets["open"] or more) and "conflicts" not in study.head:
        differ(what, "open sets, or a map cut short, where decide leaves none open")
    if own is not None: ratio = seconds / best
    lines = go_over(what, study, sets, more)
    ratio_told = "" if ratio is None else ", ratio %.1f" % ratio
    print("%s: %s%s%s; explain cores %.2f s%s" % (what, lines, ", cut short" if more else "", told, best, ratio_told), flush=True)
    return ratio

def head(kind, voters, alternatives, more=""): return 'kind = "%s"\nvoters = %d\nalternatives = %d\n%s' % (kind, voters, alternatives, more)
def library(kind):
    return [line.split(":")[0] for line in subprocess.run([bench, "axioms", kind], capture_output=True, text=True).stdout.splitlines()]
def fact(ballot, formula): return "all p: profile. (casts(#1, <%s>, p) -> %s)" % (ballot, formula)
def forty(): # who wins at four of six ballots, with what is always so, and what can be so beside
    for ballot, x in itertools.product(("abc", "bca", "cab"), "abc"): yield "%s_at_%s" % (x, ballot), fact(ballot, "wins(@%s, p)" % x)
    for x in "abc": yield "not_%s" % x, fact("acb", "!wins(@%s, p)" % x)
    for x in "abc": yield "some_%s" % x, "some p: profile. wins(@%s, p)" % x
    for number, (ballot, x, y) in enumerate(itertools.islice(itertools.product(("abc", "acb", "bac", "bca", "cba"), "abc", "abc"), 40)):
        if x != y and number < 40: yield "only_%d" % number, fact(ballot, "!(wins(@%s, p) & wins(@%s, p))" % (x, y))

usage = subprocess.run([explain], capture_output=True).stdout
nine = [name for name in library("choice") if name != "participation"]
ratios = [
    hold("choose 2 3", Study(head("choice", 2, 3), nine)),
    hold("rank 2 3", Study(head("ranking", 2, 3), library("ranking"))),
    hold("choose 3 3", Study(head("choice", 3, 3), nine)),
]
sentences = dict(itertools.islice(forty(), 40))
hold("sets 2 3", Study(head("sets", 2, 3), library("sets")))
for limit in (1, 3, 10): hold("limit %d" % limit, Study(head("choice", 2, 3, "conflicts = %d\n" % limit), nine))
hold("limit 2, rank", Study(head("ranking", 2, 3, "conflicts = 2\n"), library("ranking")))
hold("no axioms", Study(head("choice", 2, 2), []))
hold("one impossible", Study(head("choice", 2, 2), ["none"], {"none": "all p: profile. all x: alt. !wins(x, p)"}))
hold("impossible and others", Study(head("choice", 2, 2), ["onto", "none", "pareto"], {"none": "all p: profile. all x: alt. !wins(x, p)"}))
hold("absent", Study(head("choice", 2, 3, "absent = true\n"), ["participation", "condorcet", "anonymity", "neutrality", "strategyproof"]))
hold("forty", Study(head("choice", 1, 3), list(sentences), sentences))
print("ratios %s, differences %d" % (" ".join("%.1f" % ratio for ratio in ratios if ratio is not None) or "none", differences))
sys.exit(differences > 0)
PY
