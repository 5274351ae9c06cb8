#!/usr/bin/env bash
# What `lrat` says of texts that are as large as they may be, and of those that are larger by one: bytes of both texts, clauses, and
# literals; and what `export` says of an axiom that has more than 4,000,000 clauses, and where an instance of a later one is too wide.
# They take more memory than a test is to take. The script ends at the first answer that is not the one in docs/FORMATS.md.
# Each line has the seconds and the peak memory of a run.
set -eu
. "$(dirname -- "$(readlink -f -- "${BASH_SOURCE[0]}")")/setup.sh"
build_program
python3 - "$program" "$work" <<'PY'
import os, subprocess, sys, time
program, work = sys.argv[1:]
BYTES, CLAUSES, LITERALS = 536_870_912, 4_000_000, 60_000_000
def hold(name, text, size=None): # a comment fills the file up to its size
    with open(work + "/" + name, "w") as file:
        file.write(text)
        if size is not None:
            file.write("c")
            file.truncate(size)
def run(what, status, line, words=("lrat", work + "/cnf", work + "/proof")):
    start = time.perf_counter()
    with open(work + "/said", "w") as out:
        child = subprocess.Popen([program, *words], stdout=out)
        _, ended, usage = os.wait4(child.pid, 0)
    said = open(work + "/said").read()
    assert (os.waitstatus_to_exitcode(ended), said) == (status, line + "\n"), (what, ended, said)
    print("%s: %s; %.2f s, %d MB" % (what, line, time.perf_counter() - start, usage.ru_maxrss // 1024))
hold("proof", "")
for more, line in ((0, "cnf: header"), (1, "cnf: too long")):
    hold("cnf", "", BYTES + more)
    run("%d bytes of clauses" % (BYTES + more), 3, line)
for count, status, line in ((CLAUSES, 1, "proof line 1: not_empty"), (CLAUSES + 1, 3, "cnf: full")):
    hold("cnf", "p cnf 0 %d\n%s" % (count, "0\n" * count))
    run("%d clauses" % count, status, line)
for count, status, line in ((LITERALS, 1, "proof line 1: not_empty"), (LITERALS + 1, 3, "cnf: full")):
    hold("cnf", "p cnf 1 1\n%s0\n" % ("1 " * count))
    run("%d literals" % count, status, line)
hold("cnf", "p cnf 0 0\n")
for more, line in ((0, "proof line 1: not_empty"), (1, "proof: too long")):
    hold("proof", "", BYTES + more)
    run("%d bytes of a proof" % (BYTES + more), 1, line)
for axioms, line in (('"many"', "study: many: full"), ('"many", "w"', "study: w: wide 0 18446744073709551615 18446744073709551615")):
    with open(work + "/study", "w") as file:
        print('kind = "choice"\nvoters = 2\nalternatives = 4\naxioms = [%s]\n[sentences]' % axioms, file=file)
        print('many = "all p: profile. all q: profile. all x: alt. all y: alt. (wins(x, p) -> wins(y, q))"', file=file)
        print('w = "some p: profile. (wins(@a, p) & wins(@b, p))"', file=file)
    run("axioms %s" % axioms, 3, line, ("export", work + "/study"))
PY
