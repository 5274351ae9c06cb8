#!/usr/bin/env bash
# Seconds of each test, dearest first: of a processor, and as they pass. `measure/tests.sh [PROGRAM..]` takes the test programs that a run
# of the gate left, crates/NAME/out/NAME_tests, or those that are named, and builds nothing. Each test runs by its name, alone in a
# process and in an empty folder, as the gate runs it, and is stopped after 60 seconds; a program that a source has overtaken is said to be
# old. The line before the last says how many tests there are and which takes longest; the last, `longest S`, how long that is. The
# status is 1 where a test fails or is stopped, or where there is none.
set -eu
. "$(dirname -- "$(readlink -f -- "${BASH_SOURCE[0]}")")/setup.sh"
python3 - "$root" "$work" "$@" <<'PY'
import glob, os, re, resource, subprocess, sys, tempfile, time
root, work, *programs = sys.argv[1:]
LIMIT = 60
left = ["%s/out/%s_tests" % (it, os.path.basename(it)) for it in sorted(glob.glob(root + "/crates/*"))]
programs = programs or [it for it in left if os.path.isfile(it)]
def seconds_below(): # of a processor, by the processes that have ended
    usage = resource.getrusage(resource.RUSAGE_CHILDREN)
    return usage.ru_utime + usage.ru_stime
def newest(folder): # when a source of the crate was last changed
    return max((os.stat(at + "/" + name).st_mtime for at, _, names in os.walk(folder) for name in names), default=0)
rows, faults = [], 0
for program in map(os.path.abspath, programs):
    name, crate = os.path.basename(program), os.path.dirname(os.path.dirname(program))
    if name == os.path.basename(crate) + "_tests" and newest(crate + "/src") > os.stat(program).st_mtime:
        print("note: %s is older than its sources" % name)
    listed = subprocess.run([program, "--list"], stdin=subprocess.DEVNULL, capture_output=True, text=True, check=True).stdout
    for test in re.findall(r"^(\S+): test$", listed, re.M):
        with tempfile.TemporaryDirectory(dir=work) as room:
            spent, start, fault = seconds_below(), time.perf_counter(), ""
            try:
                ran = subprocess.run([program, test], cwd=room, stdin=subprocess.DEVNULL, capture_output=True, timeout=LIMIT)
                if ran.returncode: fault = "FAILED, status %d" % ran.returncode
            except subprocess.TimeoutExpired:
                fault = "STOPPED after %d seconds" % LIMIT
            rows.append((time.perf_counter() - start, seconds_below() - spent, name, test, fault))
            faults += bool(fault)
rows.sort(reverse=True)
print("%9s %9s  %s" % ("passed", "processor", "test"))
for passed, spent, name, test, fault in rows:
    print(("%9.2f %9.2f  %s %s %s" % (passed, spent, name, test, fault)).rstrip())
if not rows: sys.exit("no test program was found")
print("tests %d, of %d programs, %.1f seconds of a processor; the longest: %s" % (
    len(rows), len({row[2] for row in rows}), sum(row[1] for row in rows), rows[0][3]))
print("longest %.2f" % rows[0][0])
sys.exit(faults > 0)
PY
