#!/usr/bin/env bash
# What `sharpen` makes of each study of studies/ without a rule, and of the axioms of Gibbard and Satterthwaite for 3 voters and 3
# alternatives: how many instances the story of `decide` cites, and how many that of `sharpen`, how many of these have an open mark, the
# lemmas and steps of both stories, and the seconds of both commands and of `check` for the sharp text, which is confirmed. Each runs once
# where it takes more than 2 seconds, else 3 times, and the shortest run counts. A study whose instances are too many together is told by
# its line.
# The last line is `ratio R`: the greatest number, among the studies that were sharpened, of the seconds of `sharpen` by those of `decide`.
set -eu
. "$(dirname -- "$(readlink -f -- "${BASH_SOURCE[0]}")")/setup.sh"
build_program
python3 - "$program" "$root/studies" "$work" <<'PY'
import glob, os, subprocess, sys, time
program, studies, work = sys.argv[1:]
def run(*words, ends=(0,)): # the text, the status and the shortest seconds
    best = None
    for _ in range(3):
        start = time.perf_counter()
        out = subprocess.run([program, *words], capture_output=True, text=True)
        spent = time.perf_counter() - start
        assert out.returncode in ends, (words, out)
        best = spent if best is None else min(best, spent)
        if best > 2: break
    return out.stdout, out.returncode, best
def cited(text): # the instances that reasons cite
    return {line.split(" by axiom ", 1)[1] for line in text.splitlines() if " by axiom " in line}
def told(text): # the lemmas and steps of a story
    words = [line.split(" ")[0] for line in text.splitlines()]
    return "%d lemmas and %d steps" % (words.count("lemma"), words.count("so"))
paths = [path for path in sorted(glob.glob(studies + "/*.toml")) if "verdict impossible\n" in open(path[:-5] + ".report").read()]
larger = work + "/gibbard_satterthwaite_3_3.toml"
with open(larger, "w") as out:
    print('kind = "choice"\nvoters = 3\nalternatives = 3\naxioms = ["onto", "strategyproof", "non_dictatorship"]', file=out)
most = 0
for path in paths + [larger]:
    name = os.path.basename(path)[:-5]
    report, _, decide = run("decide", path)
    text, status, sharpen = run("sharpen", path, ends=(0, 3))
    if status == 3:
        print("%s: %s, %.3f s" % (name, text.strip(), sharpen), flush=True)
        continue
    with open(work + "/sharp", "w") as out: out.write(text)
    said, _, check = run("check", path, work + "/sharp")
    assert said == "confirmed sharp\n", (name, said)
    marks = [line for line in text.splitlines() if line.startswith("needs ")]
    assert len(cited(text)) == len(marks), name
    opened = sum(line.split(" ")[-2] == "open" for line in marks)
    print("%s: %d instances, sharpened %d, %d open; %s, sharpened %s; decide %.3f s, sharpen %.3f s, check %.3f s, ratio %.1f"
          % (name, len(cited(report)), len(marks), opened, told(report), told(text), decide, sharpen, check, sharpen / decide), flush=True)
    most = max(most, sharpen / decide)
print("ratio %.1f" % most)
PY
