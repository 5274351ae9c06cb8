#!/usr/bin/env bash
# The stories of one impossibility from several proofs. For each study of studies/ that is impossible: axioms of the core, lemmas, steps,
# seconds and peak memory of `decide`; of `adopt` over what `proof` writes; and, where `cadical` is installed, of `adopt` over its proof
# of what `export` writes. A `cadical` that writes LRAT does so; an older one writes DRAT, which `drat-trim` makes LRAT where it is
# installed, and else measure/hints.rs. What was spent on each proof is said too. Each proof has to be confirmed by `lrat` over what
# `export` writes, and each report by `check`. Each command runs once where it takes more than 2 seconds, else 3 times, and the shortest
# run counts.
# The last line is `ratio R`: the seconds of `adopt` over what `proof` writes by those of `decide`, both for arrow_four.
set -eu
. "$(dirname -- "$(readlink -f -- "${BASH_SOURCE[0]}")")/setup.sh"
build_program
for name in hints peak; do
    rustc -O --edition 2021 -o "$work/$name" "$root/measure/$name.rs"
done
python3 - "$program" "$root/studies" "$work" <<'PY'
import glob, os, shutil, subprocess, sys
program, studies, work = sys.argv[1:]
cnf, drat, proof, report = (work + "/" + name for name in ("cnf", "drat", "proof", "report"))
cadical, trim = shutil.which("cadical"), shutil.which("drat-trim")
writes_lrat = cadical and "--lrat" in subprocess.run([cadical, "--help"], capture_output=True, text=True).stdout
def run(*words): # the shortest seconds, the peak memory in KB, and what was written
    best, most = None, 0
    for _ in range(3):
        told = subprocess.run([work + "/peak", "1", *words], capture_output=True, text=True, check=True).stdout
        time, peak, text = told.split(" ", 2)
        best, most = float(time) if best is None else min(best, float(time)), max(most, int(peak))
        if best > 2: break
    return best, most, text
def hold(name, text):
    with open(name, "w") as file: file.write(text)
def confirmed(answer, *words):
    said = subprocess.run([program, *words], capture_output=True, text=True)
    assert (said.returncode, said.stdout) == (0, answer + "\n"), (words, said)
def told(way, cost, text, more=""): # the row of a report
    hold(report, text)
    confirmed("confirmed impossible", "check", study, report)
    words = [line.split(" ")[0] for line in text.split("\n")]
    core = next(line for line in text.split("\n") if line.startswith("core ")).split(" ")[1:]
    counts = len(core), words.count("lemma"), words.count("so")
    print("%s, %s: core of %d, %d lemmas, %d steps; %.3f s, %.1f MB%s" % (name, way, *counts, cost[0], cost[1] / 1024, more))
def adopted(way, spent): # the seconds of `adopt` over the proof that lies there
    confirmed("confirmed", "lrat", cnf, proof)
    lines = sum(line.split(" ")[1] != "d" for line in open(proof))
    *cost, text = run(program, "adopt", study, proof)
    told("adopt of " + way, cost, text, "; proof of %d lines, %s" % (lines, spent))
    return cost[0]
last = None
for study in sorted(glob.glob(studies + "/*.toml")):
    name = os.path.basename(study)[:-5]
    *decide, text = run(program, "decide", study)
    if "\nverdict impossible\n" not in text: continue
    told("decide", decide, text)
    hold(cnf, run(program, "export", study)[2])
    time, _, text = run(program, "proof", study)
    hold(proof, text)
    own = adopted("proof", "%.3f s" % time)
    if name == "arrow_four": last = own / decide[0]
    if not cadical: continue
    os.remove(proof)
    options = ("--lrat", "--no-binary", cnf, proof) if writes_lrat else ("--no-binary", cnf, drat)
    time, _, text = run(cadical, "-q", *options)
    assert text == "s UNSATISFIABLE\n", text
    spent = "%.3f s" % time
    if not writes_lrat:
        time, _, _ = run(*(trim, cnf, drat, "-L", proof) if trim else (work + "/hints", cnf, drat, proof))
        spent += " and %s %.3f s" % ("drat-trim" if trim else "hints", time)
    adopted("cadical", spent)
print("ratio %.2f" % last)
PY
