#!/usr/bin/env bash
# Seconds and peak memory of `export`, for Arrow's axioms with 2 voters and 4 alternatives and with 4 and 3, the axioms of Muller and
# Satterthwaite with 3 and 3 and with 2 and 4, `strategyproof` with 2 and 4, a sentence that has its profiles innermost, and a study over
# five ballots with absent voters: with one worker and with four, against two programs in plain Rust, built by `rustc -O`
# (measure/masks.rs): `passes`, the same recursion twice over each instance, on one thread, and `masks`, with one worker and with four. These know
# neither ballots nor absence. `measure/ground.sh PROGRAM` times an earlier bench beside them, with one worker and with four. All write the
# clauses as text, into a file; the texts are compared, byte for byte. Each runs 3 times, and the shortest run counts. `writes` are the system
# calls by which the text of the first study was written, where `strace` is installed: at most one for 4,096 bytes, and two.
# The last lines are, of the first study, the speed-up by four workers, and beside it that of `masks`, so that what the machine allows is seen;
# where an earlier program is given `before R` and `before of 4 R`, the seconds of the bench with one worker and with four by that one's; and
# `ratio R`, those with one worker by those of `masks` with one.
set -eu
. "$(dirname -- "$(readlink -f -- "${BASH_SOURCE[0]}")")/setup.sh"
build_program
rustc -O --edition 2021 -o "$work/plain" "$root/measure/masks.rs"
python3 - "$program" "$root/studies/arrow_four.toml" "$work" "${1-}" <<'PY'
import os, shutil, subprocess, sys, time
program, arrow_four, work, before = sys.argv[1:]
def study(name, kind, voters, alternatives, axioms, more="", sentences=""):
    path = "%s/%s.toml" % (work, name)
    with open(path, "w") as out:
        listed = ", ".join('"%s"' % it for it in axioms)
        print('kind = "%s"\nvoters = %d\nalternatives = %d\n%saxioms = [%s]\n%s' % (kind, voters, alternatives, more, listed, sentences), file=out)
    return name, path
innermost = "all x: alt. all y: alt. all p: profile. all q: profile. (all i: voter. (prefers(i, x, y, p) <-> prefers(i, x, y, q)) -> (ranks(x, y, p) <-> ranks(x, y, q)))"
arrow, muller = ("pareto", "independence", "non_dictatorship"), ("unanimity", "maskin", "non_dictatorship")
studies = [
    ("arrow_four", arrow_four),
    study("arrow_4_3", "ranking", 4, 3, arrow),
    study("muller_3_3", "choice", 3, 3, muller),
    study("muller_2_4", "choice", 2, 4, muller),
    study("strategyproof_2_4", "choice", 2, 4, ("strategyproof",)),
    study("innermost_2_4", "ranking", 2, 4, ("inner",), sentences='[sentences]\ninner = "%s"' % innermost),
]
restricted = study("absence_3_3", "choice", 3, 3, ("strategyproof", "participation", "anonymity"), 'absent = true\nballots = ["abc", "acb", "bac", "bca", "cab"]\n')
def run(name, *words): # the shortest seconds of 3 runs, the peak memory in KB, and the text
    best, peak = None, 0
    for _ in range(3):
        with open(os.path.join(work, name), "wb") as out:
            start = time.perf_counter()
            child = subprocess.Popen(words, stdout=out, stderr=subprocess.DEVNULL)
            _, status, usage = os.wait4(child.pid, 0)
            spent = time.perf_counter() - start
        assert os.waitstatus_to_exitcode(status) == 0, (words, status)
        best, peak = spent if best is None else min(best, spent), max(peak, usage.ru_maxrss)
    return best, peak, open(os.path.join(work, name), "rb").read()
def rows(path, is_plain):
    yield "1 worker", (program, "export", path, "--workers", "1")
    yield "4 workers", (program, "export", path, "--workers", "4")
    if before:
        yield "before", (before, "export", path, "--workers", "1")
        yield "before of 4", (before, "export", path, "--workers", "4")
    if is_plain:
        yield "passes", (work + "/plain", "passes", "1", path)
        yield "masks", (work + "/plain", "masks", "1", path)
        yield "masks of 4", (work + "/plain", "masks", "4", path)
first = {}
for name, path in studies + [restricted]:
    text, told = None, []
    for row, words in rows(path, (name, path) != restricted):
        spent, peak, came = run("text", *words)
        assert text in (None, came), "the texts of %s differ: %s" % (name, row)
        text = came
        told.append("%s %.3f s %d KB" % (row, spent, peak))
        if path == arrow_four: first[row] = spent
    print("%s, %d bytes: %s" % (name, len(text), ", ".join(told)), flush=True)
    if path == arrow_four: size = len(text)
if shutil.which("strace"):
    traced = subprocess.run(["strace", "-f", "-c", "-e", "trace=write", program, "export", arrow_four], stdout=subprocess.DEVNULL, stderr=subprocess.PIPE, text=True)
    lines = [line.split() for line in traced.stderr.splitlines() if line.rstrip().endswith("write")]
    print("%s writes, %.1f for each 4,096 bytes" % (lines[0][3], int(lines[0][3]) * 4096 / size))
    assert int(lines[0][3]) <= size // 4096 + 2
else:
    print("writes are not counted: no strace")
print("speed-up %.2f, of masks %.2f" % (first["1 worker"] / first["4 workers"], first["masks"] / first["masks of 4"]))
if before:
    print("before %.2f" % (first["1 worker"] / first["before"]))
    print("before of 4 %.2f" % (first["4 workers"] / first["before of 4"]))
print("ratio %.2f" % (first["1 worker"] / first["masks"]))
PY
