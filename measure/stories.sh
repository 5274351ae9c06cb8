#!/usr/bin/env bash
# Lemmas, most suppositions of a lemma, steps and seconds of `decide` for each study that it answers with an impossibility, of: the
# studies of studies/, the axioms of the theorems of Arrow, of Gibbard and Satterthwaite and of Muller and Satterthwaite for 3 voters and
# 3 alternatives and for 2 and 4, `pareto`, `anonymity` and `strategyproof` for 3 and 3, and of every seventh number from 0 to 2047 the
# study that `sample` decides. Each runs once. Then, for all of these and for those of numbers: how many they are, and their sums.
# The last line is the number of those that have a lemma which supposes more than one thing, or more than two for the studies whose clauses
# no failed literals refute, so that their stories need a lemma that supposes two: `wilson`. Where it is not 0 the status is 1. The line
# before has the number of those with a lemma that supposes more than one.
set -eu
. "$(dirname -- "$(readlink -f -- "${BASH_SOURCE[0]}")")/setup.sh"
build_program
python3 - "$program" "$root" "$work" <<'PY'
import glob, os, subprocess, sys, time
program, root, work = sys.argv[1:]
def library(kind): # the names of the library, as the program has them
    out = subprocess.run([program, "axioms", kind], capture_output=True, text=True, check=True).stdout
    return [line.split(":")[0] for line in out.splitlines()]
choice, ranking = library("choice")[:9], library("ranking")[:5]
def study(name, kind, voters, alternatives, axioms, more=""):
    path = "%s/%s.toml" % (work, name)
    with open(path, "w") as out:
        print('kind = "%s"\nvoters = %d\nalternatives = %d\n%saxioms = [%s]' % (kind, voters, alternatives, more, ", ".join('"%s"' % it for it in axioms)), file=out)
    return name, path
def numbered(number): # as docs/FORMATS.md says, "The study of a number"
    kind, names = ("choice", choice) if number % 2 == 0 else ("ranking", ranking)
    axioms = [name for place, name in enumerate(names) if number // 4 >> place & 1]
    return study("sample_%d" % number, kind, 2 + number // 2 % 2, 3, axioms, "conflicts = 20000\n")
studies = [(os.path.basename(path)[:-5], path) for path in sorted(glob.glob(root + "/studies/*.toml"))]
for voters, alternatives in ((3, 3), (2, 4)):
    for name, kind, axioms in (
        ("arrow", "ranking", ("pareto", "independence", "non_dictatorship")),
        ("gibbard_satterthwaite", "choice", ("onto", "strategyproof", "non_dictatorship")),
        ("muller_satterthwaite", "choice", ("unanimity", "maskin", "non_dictatorship")),
    ):
        studies.append(study("%s_%d_%d" % (name, voters, alternatives), kind, voters, alternatives, axioms))
studies.append(study("pareto_anonymity_strategyproof_3_3", "choice", 3, 3, ("pareto", "anonymity", "strategyproof")))
studies += map(numbered, range(0, 2048, 7))
def told(lines): # of the lines of a report: its lemmas, the most suppositions of one, and its steps
    words = [line.split(" ")[0] for line in lines]
    most, count = 0, 0
    for word in words:
        count = 0 if word == "lemma" else count + (word == "suppose")
        most = max(most, count)
    return words.count("lemma"), most, words.count("so"), words.count("suppose")
HARD = {"wilson"}
rows = []
for name, path in studies:
    start = time.perf_counter()
    out = subprocess.run([program, "decide", path], capture_output=True, text=True)
    spent = time.perf_counter() - start
    assert out.returncode in (0, 3, 4), (name, out)
    lines = out.stdout.splitlines()
    if "verdict impossible" in lines:
        rows.append((name, *told(lines), spent))
        print("%s: %d lemmas, at most %d supposed, %d steps, %.2f s" % (name, *rows[-1][1:4], spent))
for what, some in (("all", rows), ("of numbers", [row for row in rows if row[0].startswith("sample_")])):
    lemmas, _, steps, supposed, spent = (sum(row[at] for row in some) for at in range(1, 6))
    print("%s: %d impossible, %d lemmas, %d supposed, %d steps, %.1f s" % (what, len(some), lemmas, supposed, steps, spent))
many = sum(row[2] > 1 for row in rows)
more = sum(row[2] > (2 if row[0] in HARD else 1) for row in rows)
print("with %s: %d" % (", ".join(sorted(HARD)), many))
print(more)
sys.exit(more > 0)
PY
