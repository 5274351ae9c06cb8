#!/usr/bin/env bash
# Seconds for `check` of a rule with 14,400 rows (2 voters, 5 alternatives, unanimity and pareto), against the same test
# in plain Rust built by `rustc -O` (measure/check.rs). Each runs 20 times, and the shortest run counts.
# The last line is `ratio R`: the seconds of the bench by those of plain Rust.
set -eu
. "$(dirname -- "$(readlink -f -- "${BASH_SOURCE[0]}")")/setup.sh"
cat >"$work/study.toml" <<'TOML'
kind = "choice"
voters = 2
alternatives = 5
axioms = ["unanimity", "pareto"]
TOML
# The rule that chooses the first voter's best alternative satisfies both.
python3 - >"$work/report.txt" <<'PY'
from itertools import permutations, product
ballots = ["".join(p) for p in permutations("abcde")]
print("bench report 1\nkind choice\nvoters 2\nalternatives 5\naxioms unanimity pareto\nverdict possible\nrule %d" % len(ballots) ** 2)
for one, two in product(ballots, ballots):
    print("%s|%s %s" % (one, two, one[0]))
print("end")
PY
rustc -O --edition 2021 -o "$work/baseline" "$root/measure/check.rs" 2>/dev/null
build_program
seconds() { # the shortest of 20 runs
    python3 - "$@" <<'PY'
import subprocess, sys, time
best = None
for _ in range(20):
    start = time.perf_counter()
    out = subprocess.run(sys.argv[1:], capture_output=True, text=True)
    spent = time.perf_counter() - start
    assert out.stdout == "confirmed possible\n", out
    best = spent if best is None else min(best, spent)
print("%.4f" % best)
PY
}
bench=$(seconds "$program" check "$work/study.toml" "$work/report.txt")
plain=$(seconds "$work/baseline" "$work/report.txt")
echo "bench $bench s"
echo "plain $plain s"
python3 -c "print('ratio %.2f' % ($bench / $plain))"
