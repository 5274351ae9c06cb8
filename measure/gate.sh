#!/usr/bin/env bash
# Seconds of a processor that the gate takes for each crate: for its proof, for the proof and the run of its tests, and for its
# must-fail edits, dearest crate first. `measure/gate.sh LOG [TIMES [WORD..]]`: where TIMES (LOG.times, if none is named) is not there,
# it first runs the gate from nothing, or `rt ci` with the words that are given, writes what that says to LOG, and writes a line to TIMES
# for each process of it that ended, `CRATE PART SECONDS`; else it reads the two. It ends with the status of that run.
# The log tells no times, so the processes of the run are looked at ten times in a second. What one spent after the last look is
# taken from the seconds of ended processes that the system keeps for the run, in equal parts for those that ended since; what no
# process of a crate accounts for (the gate's own work, formatting) is the row `others`. So the last line, `sum S`, is what the run spent.
# Seconds compare within one machine alone, so a line before it says what part of the seconds in the table of docs/PROOFS.md the proofs of
# those crates took that have as many functions as there: what that is above 1 is mostly the machine's.
set -eu
. "$(dirname -- "$(readlink -f -- "${BASH_SOURCE[0]}")")/setup.sh"
log=${1:?measure/gate.sh LOG [TIMES [WORD..]]}
times=${2:-$log.times}
shift $(($# < 2 ? $# : 2))
status=0
if [ ! -e "$times" ]; then
    # (a toolchain that keeps what passed has a word for a run from nothing; one that keeps nothing has none)
    [ $# -gt 0 ] || ! rt help 2>&1 | grep -q -e ' --anew' || set -- --anew
    python3 - "$root" "$log" "$times" rt ci "$@" <<'PY' || status=$?
import os, re, resource, subprocess, sys, time
root, log, times, *words = sys.argv[1:]
tick = os.sysconf("SC_CLK_TCK")
log, times = open(log, "w"), open(times, "w")
def look(pid): # the parent of a process, its seconds, and those of its children that have ended
    said = open("/proc/%s/stat" % pid).read().rpartition(")")[2].split()
    return int(said[1]), (int(said[11]) + int(said[12])) / tick, (int(said[13]) + int(said[14])) / tick
def place(pid): # the crate and the part that a process works for, by its words and its folder
    words = open("/proc/%s/cmdline" % pid).read().split("\0")
    where = os.readlink("/proc/%s/cwd" % pid)
    for word in words:
        ran = re.search(r"/rt-run-[^/]*/bin/(\w+?)(_tests)?$", word)
        if ran: return ran[1], "tests"
    if "--crate-name" in words:
        name = words[words.index("--crate-name") + 1]
        return name, "edits" if "/rt-edit-" in where else "tests" if "--test" in words else "proof"
    inside = re.search(r"/crates/(\w+)$", where)
    if inside and any(word.endswith("/rattle-link") for word in words):
        return inside[1], "tests" if any(word.endswith("_tests") for word in words) else "proof"
started = subprocess.Popen(words, cwd=root, stdin=subprocess.DEVNULL, stdout=log, stderr=subprocess.STDOUT)
running, settled = {}, 0.0 # what each child of the run has spent, and for what; what the ended ones have
def tell(ended, spent):
    global settled
    known = sum(seconds for seconds, _ in ended)
    rest = max(0.0, spent - settled - known)
    for seconds, what in ended:
        seconds += rest / len(ended)
        settled += seconds
        print("%s %s %.2f" % (*(what or ("others", "others")), seconds), file=times)
while started.poll() is None:
    try:
        spent = look(started.pid)[2]
    except OSError:
        break
    parents, seen = {}, {}
    for pid in filter(str.isdigit, os.listdir("/proc")):
        try:
            parents[int(pid)], own, below = look(pid)
            seen[int(pid)] = own + below
        except OSError:
            pass
    children, every = {}, {} # with a child counts all that stands below it
    for pid in seen:
        top, at = None, pid
        while at in parents and at != started.pid:
            top, at = at, parents[at]
        if at == started.pid and top:
            every[top] = every.get(top, 0.0) + seen[pid]
            try:
                children[top] = place(pid) or children.get(top)
            except OSError:
                children.setdefault(top, None)
    ended = [running.pop(pid) for pid in [*running] if pid not in every]
    for pid, seconds in every.items():
        running[pid] = seconds, children[pid] or running.get(pid, (0, None))[1]
    tell(ended, spent)
    time.sleep(0.1)
status = started.wait()
usage = resource.getrusage(resource.RUSAGE_CHILDREN)
tell([*running.values()], 0.0)
print("others others %.2f" % max(0.0, usage.ru_utime + usage.ru_stime - settled), file=times)
sys.exit(status if status >= 0 else 1)
PY
fi
python3 - "$log" "$times" "$root/docs/PROOFS.md" <<'PY'
import re, sys
log, times, page = (open(name).read().splitlines() for name in sys.argv[1:])
parts, rows, functions, edits = ("proof", "tests", "edits"), {}, {}, {}
for line in times:
    name, part, seconds = line.split(" ")
    row = rows.setdefault(name, dict.fromkeys((*parts, "others"), 0.0))
    row[part] += float(seconds)
crate = None
for line in log:
    if line.startswith("== "): crate = None if line.endswith(": its tests") else line[3:]
    found = re.match(r"empty contracts: .* of (\d+) functions", line)
    if found and crate: functions[crate] = found[1]
    found = re.match(r"rt: must-fail (\w+)/", line)
    if found: edits[found[1]] = edits.get(found[1], 0) + 1
for line in log:
    if " is kept: an earlier run" in line or "were tried by an earlier run" in line: print("note: not from nothing:", line.removeprefix("rt: "))
print("%-18s %9s %6s %9s %9s %9s %9s" % ("crate", "functions", "edits", *parts, "sum"))
total, sums = 0.0, dict.fromkeys(parts, 0.0)
for name, row in sorted(rows.items(), key=lambda it: -sum(it[1].values())):
    total += sum(row.values())
    for part in parts: sums[part] += row[part]
    told = ["%.1f" % row[part] if name != "others" else "" for part in parts]
    print("%-18s %9s %6s %9s %9s %9s %9.1f" % (name, functions.get(name, ""), edits.get(name, ""), *told, sum(row.values())))
print(", ".join("%s %.1f" % (part, sums[part]) for part in parts))
there = here = alike = 0
for line in page:
    found = re.match(r"\| `(\w+)` \| *(\d+) \| *\d* \| *(\d+) \|", line)
    if found and found[1] in rows and functions.get(found[1]) == found[2]:
        there, here, alike = there + int(found[3]), here + rows[found[1]]["proof"], alike + 1
if there: print("%.2f of the seconds in docs/PROOFS.md, for the proofs of its %d crates that have as many functions now" % (here / there, alike))
print(*[line.removeprefix("rt: ") for line in log if re.match(r"\d+ passed, ", line)], sep="\n")
print("sum %.1f" % total)
PY
exit $status
