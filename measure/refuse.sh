#!/usr/bin/env bash
# Refuses each allocation of the two programs, `bench` and `explain`, in turn, against the answer that it gives undisturbed: with a refused allocation it must give
# that answer, status and text, or end with status 7 and nothing written. A signal, another status, another text and anything on standard
# error are wrong, and the script ends at the first such, with what was run and what came.
# Each command runs once for each of its allocations, by number, in two ways: that one alone is refused; that one and all after it are.
# No command has more than 100,000; where one has more than the number that is given to the script, only every kth is tried, and its
# line says so.
# Commands that share work run with 2 workers too, over inputs for which threads are started; with 1 worker an allocation has the same
# number at each run. The commands are all of both programs, most of them over what the tests over failing devices have (fault_tests.rt of
# crates/call_tests and crates/explain_tests), and over more: larger studies, studies of sets with their reports for `gain`, clauses that are
# refused, searches that spend their limit, and reports with open marks.
# What are tried are the programs that LLVM built, on the paths of these commands, where a call from its own code of malloc and the like is
# refused (measure/refuse.c). What the C library and the loader ask for themselves, as for the stack of a thread, is always given; the
# program's own piece for starting a thread is refused as any other. A system that gives memory and then lacks it is not tried, and
# neither is another study, nor two refused allocations with a given one between them.
# Prints a line for each command: its allocations, how many were tried, and of the runs of each way how many ended with status 7 and how
# many gave the undisturbed answer. The last lines are `sampled K of M`, with the K commands of which not each allocation was tried, and
# `refused N`: in so many runs an allocation was refused.
set -eu
. "$(dirname -- "$(readlink -f -- "${BASH_SOURCE[0]}")")/setup.sh"
build_program
env -u BENCH_QUICK "$root/explain" rules "$root/studies/dictatorship.toml" >/dev/null
cc -O2 -Wall -shared -fPIC -o "$work/refuse.so" "$root/measure/refuse.c"
ulimit -c 0
python3 - "$program" "$root/crates/explain/out/explain" "$root/studies" "$root/crates/rows/data" "$work" "${1-100000}" <<'PY'
import itertools, multiprocessing, os, re, struct, subprocess, sys
bench, explain, studies, rows, work, most = sys.argv[1:]
MOST, SECONDS = int(most), 600
WAYS = ("alone", "with all after")

def program(words): # the words that start it: those of `explain` begin with its name
    return [explain, *words[1:]] if words[:1] == ["explain"] else [bench, *words]

def run(words, refused=None): # the answer; with `refused`, also how many allocations were asked for, and how many refused
    told, setting = "%s/told.%d" % (work, os.getpid()), {}
    if refused is not None:
        if os.path.exists(told): os.remove(told)
        setting = {"LD_PRELOAD": work + "/refuse.so", "REFUSE_TOLD": told, **refused}
    try:
        ended = subprocess.run(program(words), env=setting, stdin=subprocess.DEVNULL, capture_output=True, timeout=SECONDS)
        answer = ended.returncode, ended.stdout, ended.stderr
    except subprocess.TimeoutExpired as late:
        answer = None, late.stdout or b"", late.stderr or b""
    if refused is None: return answer
    with open(told, "rb") as file:
        return answer, *struct.unpack("=QQ", file.read())

def refusal(way, number):
    return {"REFUSE_FROM": str(number), **({"REFUSE_UP_TO": str(number + 1)} if way == "alone" else {})}

def disturbed(task):
    words, way, number = task
    return way, number, *run(words, refusal(way, number))

def wrong(words, setting, answer, why):
    status, out, err = answer
    came = "no end within %d s" % SECONDS if status is None else "signal %d" % -status if status < 0 else "status %d" % status
    sys.exit("refuse: %s\n  run: %s\n  came: %s; standard output %r; standard error %r"
             % (why, " ".join([*("%s=%s" % pair for pair in setting.items()), *program(words)]), came, out[:400], err[:400]))

def try_all(pool, words, status): # in how many runs an allocation was refused; the command, where not each of its allocations was
    plain = run(words)
    if plain[0] != status or plain[2]: wrong(words, {}, plain, "undisturbed, status %d was wanted" % status)
    counted, count, _ = run(words, {})
    if counted != plain or count == 0: wrong(words, {}, counted, "where allocations are counted, the answer is another, or none is seen")
    step = -(-count // MOST)
    numbers = range(0, count, step)
    seven, same = dict.fromkeys(WAYS, 0), dict.fromkeys(WAYS, 0)
    tasks = [(words, way, number) for way in WAYS for number in numbers]
    for way, number, answer, _, refused in pool.imap_unordered(disturbed, tasks, chunksize=8):
        if answer == (7, b"", b""): seven[way] += 1
        elif answer == plain: same[way] += 1
        else: wrong(words, refusal(way, number), answer, "neither the undisturbed answer nor status 7 with nothing written")
        if refused == 0 or (way == "alone" and refused > 1):
            wrong(words, refusal(way, number), answer, "%d allocations were refused" % refused)
    tried = "each tried" if step == 1 else "one of every %d tried, %d" % (step, len(numbers))
    ends = "; ".join("%s: %d with 7, %d undisturbed" % (way, seven[way], same[way]) for way in WAYS)
    command = " ".join(map(os.path.basename, words)) or "no words"
    print("%s: %d allocations, %s; %s" % (command, count, tried, ends), flush=True)
    return len(tasks), [] if step == 1 else [command]

def hold(name, text): # a file of the work folder, by its path
    with open("%s/%s" % (work, name), "w") as file: file.write(text)
    return file.name

def head(voters, alternatives, axioms, more=""): # of a study of rules that choose
    listed = ", ".join('"%s"' % axiom for axiom in axioms.split())
    return 'kind = "choice"\nvoters = %d\nalternatives = %d\n%saxioms = [%s]\n' % (voters, alternatives, more, listed)

# A rule of so many rows that two workers share its check: the first voter's best alternative.
ballots = ["".join(letters) for letters in itertools.permutations("abcd")]
rule = hold("rule.toml", head(2, 4, "unanimity pareto"))
table = hold("rule.report", "bench report 1\nkind choice\nvoters 2\nalternatives 4\naxioms unanimity pareto\nverdict possible\nrule %d\n%send\n"
             % (len(ballots) ** 2, "".join("%s|%s %s\n" % (one, two, one[0]) for one, two in itertools.product(ballots, ballots))))
unanimity, symmetric, liberal, arrow, kelly = (
    "%s/%s.toml" % (studies, name) for name in ("unanimity", "anonymity_neutrality", "paretian_liberal", "arrow", "kelly"))
absent, empty = work + "/absent", hold("empty", "")
story, marked, square = ("%s/%s" % (rows, name) for name in ("anonymity_neutrality.report", "paretian_liberal.report", "square.cnf"))

total, commands, sampled = 0, 0, []
with multiprocessing.get_context("fork").Pool(os.cpu_count()) as pool:
    def each(*words, status=0):
        global total, commands
        runs, named = try_all(pool, list(words), status)
        total, commands = total + runs, commands + 1
        sampled.extend(named)
    each("axioms", "choice")
    each(status=2)
    each("elect", unanimity, status=2)
    for words in (("check", unanimity, absent), ("check", absent, unanimity), ("decide", absent), ("export", absent), ("proof", absent),
                  ("lrat", absent, unanimity), ("adopt", absent, unanimity), ("gain", kelly, absent), ("gain", absent, unanimity),
                  ("sharpen", absent)):
        each(*words, status=5)
    # No study: the second file is not opened.
    each("check", hold("cut.toml", "voters = 2"), story, status=3)
    each("adopt", empty, empty, status=3)
    # Clauses that are refused, of a study and of a file.
    far = hold("far.toml", head(2, 3, "far") + """[sentences]
far = "some p: profile. (wins(@a, p) & wins(@b, with(p, #1, <bac>)))"
""")
    for words in (("decide", far), ("export", far), ("proof", far), ("adopt", far, absent), ("sharpen", far)):
        each(*words, status=3)
    each("lrat", hold("count.cnf", "p cnf 1 2\n1 0\n"), absent, status=3)
    # Reports and proofs that the program did not write.
    each("check", symmetric, story)
    each("check", unanimity, story, status=1) # the report is of another study
    each("check", liberal, marked) # with open marks
    each("check", rule, table, "--workers", "2")
    each("lrat", square, hold("square.lrat", "5 2 0 1 2 0\n6 0 5 3 4 0\n"))
    each("adopt", symmetric, hold("symmetric.lrat", "21 -3 0 9 17 6 0\n22 0 21 3 11 19 6 0\n"))
    # Gains: none, one, and no rule; a report of another study, and a study of another kind, whose report is not opened.
    for name in ("kelly", "manipulable", "kelly_resolute"):
        each("gain", "%s/%s.toml" % (studies, name), "%s/%s.report" % (studies, name))
    each("gain", kelly, "%s/kelly_resolute.report" % studies, status=1)
    each("gain", unanimity, absent, status=3)
    # Searches that spend their limit: the one over all axioms, and one without an axiom, which then has an open mark.
    spent = hold("spent.toml", head(2, 3, "onto strategyproof non_dictatorship", "conflicts = 1\n"))
    each("decide", spent, status=4)
    each("proof", spent, status=4)
    each("sharpen", spent, status=4)
    favour = hold("favour.toml", head(2, 2, "favour anonymity neutrality", "conflicts = 1\n") + """[sentences]
favour = "all p: profile. ((casts(#1, <ab>, p) & casts(#2, <ba>, p)) -> wins(@a, p))"
""")
    each("decide", favour)
    each("sharpen", favour)
    for name in ("anonymity_neutrality", "unanimity", "paretian_liberal"):
        study, texts = "%s/%s.toml" % (studies, name), {}
        refuted = 1 if name == "unanimity" else 0 # there is a rule: what `proof` says is then no refutation
        each("check", study, study[:-5] + ".report")
        each("decide", study)
        each("sharpen", study)
        if refuted == 0: each("check", study, hold("%s.sharp" % name, run(["sharpen", study])[1].decode()))
        for command in ("export", "proof"):
            each(command, study)
            texts[command] = hold("%s.%s" % (name, command), run([command, study])[1].decode())
        each("lrat", texts["export"], texts["proof"], status=refuted)
        each("adopt", study, texts["proof"], status=refuted)
        if name != "paretian_liberal": continue # no thread is started over the smaller ones
        for command in ("decide", "export", "proof", "sharpen"):
            each(command, study, "--workers", "2")
        each("adopt", study, texts["proof"], "--workers", "2")
    for command in ("export", "proof"):
        each(command, arrow)
    each("explain", status=2)
    each("explain", "story", unanimity, unanimity[:-5] + ".report")
    each("explain", "story", symmetric, story)
    each("explain", "story", liberal, marked)
    each("explain", "story", liberal, hold("liberal.sharp", run(["sharpen", liberal])[1].decode()), "--workers", "2")
    each("explain", "story", unanimity, story, status=1)
    each("explain", "instance", unanimity, "unanimity", "3")
    each("explain", "instance", unanimity, "unanimity", "4", status=3)
    for words in (("story", unanimity, absent), ("instance", absent, "unanimity", "0"), ("rules", absent), ("cores", absent), ("study", absent)):
        each("explain", *words, status=5)
    for command in ("rules", "cores", "study"):
        for study in (unanimity, symmetric):
            each("explain", command, study)
        each("explain", command, liberal, "--workers", "2")
        each("explain", command, far, status=3)
    each("explain", "rules", spent, status=4)
    each("explain", "cores", spent, status=4)
    each("explain", "study", hold("slip.toml", head(2, 2, "slip") + '[sentences]\nslip = "all p: profile. (wins(@a, p) or wins(@b, p))"\n'), status=3)
    each("explain", "study", hold("name.toml", head(2, 2, "parreto")), status=3)
    each("sample", "0")
    each("sample", "29")
print("sampled %d of %d%s" % (len(sampled), commands, "".join("; " + command for command in sampled)))
print("refused %d" % total)
PY
