#!/usr/bin/env bash
# Seconds and peak memory of `decide` for each study of studies/ and for Arrow's axioms with 2 voters and 3 and 4 alternatives, each
# against `export` of the same study and stock solvers on what that writes: `minisat` and `cadical`, where they are installed. It also
# says how many lemmas, steps and lines the report has, and the seconds of `check` for it; each report is confirmed, and is the one beside
# the study. Each runs once where it takes more than 2 seconds, else 3 times, and the shortest run counts.
# The last line is `ratio R`: the seconds of `decide` for four alternatives by those of `export` and `cadical` together, or by those
# of `export` alone where there is no `cadical`. `measure/decide.sh PROGRAM` takes for that line the `export` of an earlier bench.
set -eu
. "$(dirname -- "$(readlink -f -- "${BASH_SOURCE[0]}")")/setup.sh"
build_program
python3 - "$program" "$root/studies" "$work" "${1-}" <<'PY'
import glob, os, shutil, subprocess, sys, time
program, studies, work, before = sys.argv[1:]
def run(out, *words, ends=(0,)): # the shortest seconds, and the peak memory in KB
    best, peak = None, 0
    for _ in range(3):
        with open(out, "wb") as file:
            start = time.perf_counter()
            child = subprocess.Popen(words, stdout=file, stderr=subprocess.DEVNULL)
            _, status, usage = os.wait4(child.pid, 0)
            spent = time.perf_counter() - start
        assert os.waitstatus_to_exitcode(status) in ends, (words, status)
        best, peak = spent if best is None else min(best, spent), max(peak, usage.ru_maxrss)
        if best > 2: break
    return best, peak
solvers = [name for name in ("minisat", "cadical") if shutil.which(name)]
last = None
for study in sorted(glob.glob(studies + "/*.toml")):
    name = os.path.basename(study)[:-5]
    report, cnf = work + "/report", work + "/cnf"
    decide, peak = run(report, program, "decide", study, ends=(0, 4))
    export, _ = run(cnf, program, "export", study)
    lines = open(report).read().split("\n")
    words = [line.split(" ")[0] for line in lines]
    verdict = next(line for line in lines if line.startswith("verdict "))
    checked = ""
    if not verdict.endswith("undecided"):
        check, _ = run(work + "/said", program, "check", study, report)
        said = open(work + "/said").read()
        assert said == "confirmed %s\n" % verdict[8:], said
        checked = "; check %.4f s" % check
        assert open(report).read() == open(study[:-5] + ".report").read(), "studies/%s.report is not what decide writes" % name
    row = "%s: %s; decide %.3f s, %d KB%s; export %.3f s" % (name, verdict[8:], decide, peak, checked, export)
    times = {}
    for solver in solvers:
        times[solver], _ = run(work + "/solved", *([solver, "-q", cnf] if solver == "cadical" else [solver, cnf]), ends=(10, 20))
        row += "; %s %.3f s" % (solver, times[solver])
    print(row + "; %d lemmas, %d steps, %d lines" % (words.count("lemma"), words.count("so"), len(lines) - 1))
    if name == "arrow_four":
        if before: export, _ = run(cnf, before, "export", study)
        last = decide / (export + times.get("cadical", 0))
print("ratio %.2f" % last)
PY
