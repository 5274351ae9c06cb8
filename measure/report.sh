#!/usr/bin/env bash
# Seconds and peak memory of `check` for a report of a rule with 14,400 rows (2 voters, 5 alternatives, unanimity and
# pareto), and for a report of an impossibility with ten thousand steps and more (2 voters, 2 alternatives, the two lemmas of
# studies/anonymity_neutrality.report, the first of them many times over), each against `wc -l` of the same file. A third
# report has as many lemmas as the second, and one step more in each: its peak must be that of the second, but for 512 KB.
# The last lines are `ratio NAME R`: the seconds of `check` by those of `wc -l`. Each runs 5 times, and the shortest counts.
set -eu
. "$(dirname -- "$(readlink -f -- "${BASH_SOURCE[0]}")")/setup.sh"
cat >"$work/rule.toml" <<'TOML'
kind = "choice"
voters = 2
alternatives = 5
axioms = ["unanimity", "pareto"]
TOML
cp "$root/studies/anonymity_neutrality.toml" "$work/story.toml"
cp "$work/story.toml" "$work/longer.toml"
python3 - "$root/studies/anonymity_neutrality.report" "$work" <<'PY'
import sys
from itertools import permutations, product
source, work = sys.argv[1:]
ballots = ["".join(p) for p in permutations("abcde")]
with open(work + "/rule.report", "w") as out:
    print("bench report 1\nkind choice\nvoters 2\nalternatives 5\naxioms unanimity pareto\nverdict possible\nrule %d" % len(ballots) ** 2, file=out)
    for one, two in product(ballots, ballots):
        print("%s|%s %s" % (one, two, one[0]), file=out)
    print("end", file=out)
lines = open(source).read().split("\n")[:-1]
one, two = lines.index("lemma 1"), lines.index("lemma 2")
after = next(k for k, line in enumerate(lines) if line.startswith("without "))
head, first, last, rest = lines[:lines.index("lemmas 2")], lines[one + 1:two], lines[two + 1:after], lines[after:]
count = 5000
longer = first[:1] + ["so !a@ba|ab by axiom anonymity ab|ba 1 2 a"] + first[1:]
for name, told in (("story", first), ("longer", longer)):
    with open("%s/%s.report" % (work, name), "w") as out:
        print("\n".join(head) + "\nlemmas %d" % (count + 1), file=out)
        for number in range(1, count + 1):
            print("lemma %d\n%s" % (number, "\n".join(told)), file=out)
        print("lemma %d\n%s\n%s" % (count + 1, "\n".join(last), "\n".join(rest)), file=out)
PY
build_program
rustc -O --edition 2021 -o "$work/peak" "$root/measure/peak.rs" 2>/dev/null
python3 - "$program" "$work" <<'PY'
import os, subprocess, sys
program, work = sys.argv[1:]
def run(*words):
    seconds, memory, text = subprocess.run([work + "/peak", "5", *words], capture_output=True, text=True, check=True).stdout.split(" ", 2)
    return float(seconds), int(memory), text
ratios, peaks = [], {}
for name, wanted in (("rule", "confirmed possible\n"), ("story", "confirmed impossible\n"), ("longer", "confirmed impossible\n")):
    report = "%s/%s.report" % (work, name)
    seconds, memory, text = run(program, "check", "%s/%s.toml" % (work, name), report)
    assert text == wanted, text
    counted, _, text = run("/usr/bin/wc", "-l", report)
    print("%s: %d lines, %d bytes; check %.4f s, %d KB; wc -l %.4f s" % (name, int(text.split()[0]), os.path.getsize(report), seconds, memory, counted))
    peaks[name] = memory
    ratios.append("ratio %s %.1f" % (name, seconds / counted))
print("\n".join(ratios))
assert peaks["longer"] <= peaks["story"] + 512, "memory grows with the steps of a story"
PY
