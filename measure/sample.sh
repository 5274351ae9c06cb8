#!/usr/bin/env bash
# The samples 0 to 400, or up to the number that is given: seconds of all, of the slowest, how many are possible, impossible and
# undecided, and how many are refused for their clauses. The last line is `ratio R`: the seconds of the slowest by those of the
# median.
set -eu
. "$(dirname -- "$(readlink -f -- "${BASH_SOURCE[0]}")")/setup.sh"
build_program
python3 - "$program" "${1:-400}" <<'PY'
import subprocess, sys, time
program, last = sys.argv[1], int(sys.argv[2])
times, words = [], dict.fromkeys(("possible", "impossible", "undecided", "refused"), 0)
for number in range(last + 1):
    start = time.perf_counter()
    out = subprocess.run([program, "sample", str(number)], capture_output=True, text=True)
    times.append((time.perf_counter() - start, number))
    assert out.returncode in (0, 3, 4), (number, out)
    word = "refused" if out.returncode == 3 else out.stdout.split()[-1]
    assert (word == "undecided") == (out.returncode == 4), out
    words[word] += 1
times.sort()
print(", ".join("%d %s" % (count, word) for word, count in words.items()))
print("all: %.1f s; slowest: sample %d, %.3f s" % (sum(row[0] for row in times), times[-1][1], times[-1][0]))
print("ratio %.1f" % (times[-1][0] / times[len(times) // 2][0]))
PY
