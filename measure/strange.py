#!/usr/bin/env python3
"""Runs every command of `bench` and `explain` over strange input: measure/strange.py [--runs N] [--from K] [--seed S] [--only COMMAND]
[--bench PATH] [--explain PATH] [--keep FOLDER] [--minutes M].

Each run draws a command, takes a study with a report, a sharp text, clauses or a proof of it (from studies/, from the data of crates/rows
and crates/explain_rows, and what the programs write of these), changes texts and words at random (measure/changes.py), and calls the
program. What is wanted of each: the status is one of docs/FORMATS.md for this command and these words, and 2 exactly where the words are
none by its table; nothing stands on standard error; it ends within 20 seconds of a processor; what it writes has its form. And over the
answers:

- What `decide`, `adopt` and `sharpen` write is confirmed by `check`, and what `proof` writes by `lrat` over what `export` writes.
- A study is refused, or taken, as measure/refusals.py says, which reads it without the program, and `check` refuses it with the same line; but for
  what its clauses alone are refused for.
- `check` says what measure/judge.py says of the same study and text, which reads both without the program, where that is cheap; the rules of what it
  confirms satisfy the axioms as measure/encode.py has them, and `decide` does not find the opposite verdict. Now and then `export` has to write
  the clauses that measure/sentences.py makes of the study.
- `lrat` says what looks.py says of the same clauses and proof, and `adopt` refuses what `lrat` refuses, with the same line.
- `gain` finds the gain that looks.py finds; `story` writes a page, which is closed in order, exactly where `check` confirms; `instance` and `study`
  write what judge.py has of them, and `study` the furthest place of a sentence without a reading that refusals.py finds.
- Rules that are listed rise, and each that is tried passes `check` as a report; a map of cores agrees with `decide` over the study, and over one of
  its sets alone, whose report passes `check`. Where a study has at most 300 rules, judge.py goes through all of them: the verdict, the list
  and the map are those that it finds.

With `--only COMMAND` that command alone is run; with `--only check` the studies stay as they are, and only reports are changed.
A run is the same each time: it is drawn by its seed and its number (`--seed S --from K --runs 1`). A run with a fault is kept under FOLDER, which
is `strange` where none is given, as a folder of its own with its files, its words, what was written, and what is wrong. The lines before the last
count the runs of each command by status, and those of `check` by its words, and say which was the longest; the last is `runs N faults M`, and
the status is 1 where M is not 0. An interrupt ends the runs, and these lines are written.
"""
import argparse
import collections
import glob
import json
import os
import random
import re
import resource
import shlex
import shutil
import subprocess
import sys
import tempfile
import time

sys.dont_write_bytecode = True
import changes
import judge
import looks
import refusals
from looks import Fault, want

ROOT = os.path.dirname(os.path.dirname(os.path.abspath(__file__)))
SECONDS, MOST_SECONDS = 20, 600

# The commands of both programs: the words that they want, their options, the statuses of docs/FORMATS.md but for 2 and 5 to 7, and how often one
# is drawn, in a thousand. Which of them a program has its usage line says.
STUDY, REPORT, CNF, PROOF = b"STUDY", b"REPORT", b"CNF", b"PROOF"
WORKERS, MOST = b"--workers", b"--most"
COMMANDS = {
    "decide": ("bench", [STUDY], [WORKERS], {0, 3, 4}, 100),
    "check": ("bench", [STUDY, REPORT], [WORKERS], {0, 1, 3}, 260),
    "export": ("bench", [STUDY], [WORKERS], {0, 3}, 70),
    "proof": ("bench", [STUDY], [WORKERS], {0, 3, 4}, 60),
    "lrat": ("bench", [CNF, PROOF], [], {0, 1, 3}, 130),
    "axioms": ("bench", [b"KIND"], [], {0}, 5),
    "sample": ("bench", [b"N"], [], {0, 4}, 5),
    "adopt": ("bench", [STUDY, PROOF], [WORKERS], {0, 1, 3}, 70),
    "gain": ("bench", [STUDY, REPORT], [], {0, 1, 3}, 60),
    "sharpen": ("bench", [STUDY], [WORKERS], {0, 3, 4}, 40),
    "story": ("explain", [STUDY, REPORT], [WORKERS], {0, 1, 3}, 80),
    "rules": ("explain", [STUDY], [MOST, WORKERS], {0, 3, 4}, 40),
    "instance": ("explain", [STUDY, b"AXIOM", b"NUMBER"], [], {0, 3}, 40),
    "cores": ("explain", [STUDY], [WORKERS], {0, 3, 4}, 40),
    "study": ("explain", [STUDY], [WORKERS], {0, 3}, 60),
}
# How many profiles a study may have, and how many instances or atoms its dearest sentence, for commands that search for long.
DEAR = {"sharpen": (50, 100_000), "rules": (50, 300_000), "cores": (50, 300_000), "adopt": (100, 300_000)}
FILES = {STUDY: "study.toml", REPORT: "report", CNF: "cnf", PROOF: "proof"}

A = rb"[a-z][a-z0-9_]{0,31}"
STUDY_LINE = re.compile(
    rb"study: (?:too long|not toml|key .*|voters -?\d+|alternatives -?\d+|ballot .*|no ballots|profiles \d+|conflicts -?\d+|axioms \d+"
    rb"|unknown axiom .*|twice %s|%s: (?:lexeme \d+|long \d+|no reading|deep|variables|unbound \w+|symbol \w+|arity \w+|sort (?:\w+|=) \d"
    rb"|kind \w+|constant [#@<>\w]+|open|instances \d+|body \d+|work \d+))\n" % (A, A),
    re.S,
)
CLAUSE_LINE = re.compile(rb"study: %s: (?:wide \d+ \d+ \d+|full)\n" % A)
REFUSED = re.compile(
    rb"refused line [1-9]\d*: (?:form|study|undecided|core|row|fails %s \d+|supposes|known|not_in_core|later|not_forced|open|instance)\n" % A
)
PROOF_LINE = re.compile(rb"proof line [1-9]\d*: (?:rat|line|id|hint \d+|not_unit \d+|no_conflict|not_empty)\n")


class Seed:
    """A study with texts over it: reports and sharp texts, clauses, and proofs."""

    def __init__(self, name, study):
        self.name, self.study, self.texts = name, study, {"report": [], "sharp": [], "cnf": [], "proof": []}
        self.profiles, self.dearest, self.refused = *changes.weight(study), False

    def size(self):
        return len(self.study) + min(map(len, self.texts["report"] or [b""]))


def read(path):
    with open(path, "rb") as file:
        return file.read()


def rows_files(path):
    """The texts of a file of rows, each with its name, and the runs between them, in order."""
    name, text, held = None, b"", []
    for line in [*read(path).split(b"\n"), b"#"]:
        if line[:1] in (b"|", b"/"):
            text += line[1:] + (b"\n" if line[:1] == b"|" else b"")
            continue
        if name is not None:
            held.append(("file", name, text))
            name, text = None, b""
        words = line.split(b" ")
        if words[0] == b"file" and len(words) == 2:
            name = words[1].decode()
        elif words[0] in (b"run", b"explain"):
            held.append(("run", [word.decode() for word in words[1:]]))
    return held


class Programs:
    """The two programs, over a folder."""

    def __init__(self, bench, explain, work):
        self.paths, self.work, self.held, self.calls = {"bench": bench, "explain": explain}, work, {}, 0

    def hold(self, name, text):
        if self.held.get(name) != text:
            self.held[name] = text
            with open(os.path.join(self.work, name), "wb") as file:
                file.write(text)

    def ask(self, program, *words):
        """The status, what was written, and the seconds of a processor; a fault where something stands on standard error, or it takes too long."""
        self.calls += 1
        words = [word.encode() if isinstance(word, str) else word for word in words]
        start, before = time.monotonic(), seconds_of_children()
        pipe = subprocess.PIPE
        child = subprocess.Popen([self.paths[program], *words], stdin=subprocess.DEVNULL, stdout=pipe, stderr=pipe, cwd=self.work, env={})
        while True:
            try:
                out, err = child.communicate(timeout=SECONDS)
                break
            except subprocess.TimeoutExpired:
                spent = seconds_of(child.pid)
                if spent > SECONDS or time.monotonic() - start > MOST_SECONDS:
                    child.kill()
                    child.communicate()
                    raise Fault(f"{program} {shown(words)} had not ended after {spent:.0f} s of a processor") from None
        spent = seconds_of_children() - before
        want(spent <= SECONDS, f"{program} {shown(words)} took {spent:.0f} s of a processor")
        want(not err, f"{program} {shown(words)} wrote to standard error: {err[:200]!r}")
        want(child.returncode in (0, 1, 2, 3, 4, 5), f"{program} {shown(words)} ended with {child.returncode}")
        return child.returncode, out, spent


def seconds_of_children():
    used = resource.getrusage(resource.RUSAGE_CHILDREN)
    return used.ru_utime + used.ru_stime


def seconds_of(process):
    """The seconds that a process which goes on has had of a processor."""
    fields = read(f"/proc/{process}/stat").rsplit(b")", 1)[1].split()
    return (int(fields[11]) + int(fields[12])) / os.sysconf("SC_CLK_TCK")


def shown(words):
    return " ".join(shlex.quote(os.fsdecode(word)) for word in words)


# ---- What is drawn from.


def seeds_of(programs):
    """Studies with their texts: of studies/, of the rows, and with what the programs write of them."""
    seeds = {}
    for path in sorted(glob.glob(f"{ROOT}/studies/*.toml")):
        name = os.path.basename(path)[:-5]
        seeds[read(path)] = seed = Seed(name, read(path))
        for ending in ("report", "sharp"):
            if os.path.exists(f"{path[:-5]}.{ending}"):
                seed.texts[ending].append(read(f"{path[:-5]}.{ending}"))
        if name in ("anonymity_neutrality", "median_voter"):
            others = glob.glob(f"{ROOT}/studies/refused/*") if name[0] == "a" else [f"{ROOT}/studies/median_of_three.report"]
            seed.texts["report"] += map(read, sorted(others))
    rows = [path for crate in ("rows", "explain_rows") for path in sorted(glob.glob(f"{ROOT}/crates/{crate}/data/*"))]
    data = {os.path.basename(path): read(path) for path in rows}
    loose = []
    for path in (path for path in rows if path.endswith(".rows")):
        files = dict(data)
        for what, *rest in rows_files(path):
            if what == "file":
                files[rest[0]] = rest[1]
                continue
            words = [word for word in rest[0] if word in files]
            if len(words) == 2 and words[0].endswith(".cnf"):
                loose.append((files[words[0]], files[words[1]]))
            elif words and words[0].endswith(".toml"):
                study = files[words[0]]
                seed = seeds.setdefault(study, Seed(words[0], study))
                for other in words[1:]:
                    what = "proof" if other.endswith(".lrat") else "sharp" if files[other].startswith(b"bench sharp") else "report"
                    if files[other] not in seed.texts[what]:
                        seed.texts[what].append(files[other])
    return enrich(programs, list(seeds.values())), loose


def enrich(programs, seeds):
    """Adds what the programs write of small studies."""
    for seed in seeds:
        if seed.profiles > 300 or seed.dearest > 3_000_000:
            continue
        programs.hold("study.toml", seed.study)
        for command, what in (("decide", "report"), ("export", "cnf"), ("proof", "proof"), ("sharpen", "sharp")):
            if command == "sharpen" and seed.profiles > 40:
                continue
            status, out, _ = programs.ask("bench", command, "study.toml")
            seed.refused |= command == "decide" and status == 3
            if status == 0 and len(out) < 100_000 and out != b"c possible\n" and out not in seed.texts[what]:
                if what != "sharp" or out.startswith(b"bench sharp"):
                    seed.texts[what].append(out)
    return seeds


class Draw:
    """What a run is made of, drawn by its seed and its number."""

    def __init__(self, house, number):
        self.house, self.rng = house, random.Random(f"{house.asked.seed} {number}")
        rng = self.rng
        self.command = rng.choices(*house.weighted)[0]
        self.program, self.forms, self.options, self.statuses, _ = COMMANDS[self.command]
        self.files, self.plain = {}, True
        self.seed = self.draw_seed()
        for form in self.forms:
            if form in FILES:
                self.files[FILES[form]] = self.draw_text(form)
        values = [FILES[form].encode() if form in FILES else self.value(form) for form in self.forms]
        self.words = [self.command.encode(), *values]
        if self.options and rng.random() < 0.2 or self.command == "rules":
            most = rng.choice([b"1", b"2", b"3", b"5", b"10"])
            self.words += [MOST, most] if self.command == "rules" else [WORKERS, rng.choice([b"1", b"2", b"3", b"16"])]
        if rng.random() < 0.04:
            self.words, self.plain = changes.words_changed(rng, self.words, self.options), False

    def draw_seed(self):
        house, rng = self.house, self.rng
        for _ in range(200):
            seed = rng.choices(*house.seeds)[0]
            most, dearest = DEAR.get(self.command, (300, 3_000_000))
            if self.command in ("check", "story", "gain") and rng.random() < 0.02:
                most, dearest = 20_000, 100_000_000
            if seed.profiles > most or seed.dearest > dearest:
                continue
            if self.command == "gain" and b'"sets"' not in seed.study and rng.random() < 0.95:
                continue
            if self.command == "adopt" and not seed.texts["proof"] and rng.random() < 0.9:
                continue
            if REPORT in self.forms and not seed.texts["report"] and rng.random() < 0.95:
                continue
            if seed.refused and rng.random() < 0.8:
                continue
            return seed
        return min(house.all, key=Seed.size)

    def draw_text(self, form):
        rng, house = self.rng, self.house
        if form == STUDY:
            alone = self.forms == [STUDY] or self.command == "instance"
            if house.asked.only == "check" or rng.random() < (0.08 if alone else 0.7):
                return self.seed.study
            return self.light(self.seed.study)
        if form == CNF and rng.random() < 0.5:
            cnf, proof = rng.choice(house.loose)
            self.loose_proof = proof
            return cnf if rng.random() < 0.6 else self.changed("cnf", cnf)
        if form == PROOF and hasattr(self, "loose_proof"):
            return self.changed("proof", self.loose_proof)
        what = {CNF: "cnf", PROOF: "proof", REPORT: "report"}[form]
        if form == REPORT and rng.random() < 0.3 and self.seed.texts["sharp"]:
            what = "sharp"
        seed = self.seed if rng.random() < 0.97 else rng.choice(house.all)
        text = rng.choice(seed.texts[what] or seed.texts["report"] or [b""])
        spared = 0.5 if form == CNF else 0.02
        return text if rng.random() < spared else self.changed(what, text)

    def changed(self, what, text):
        for _ in range(4):
            new = changes.changed(self.rng, what, text, self.house.others, self.house.library)
            if new != text:
                break
        return new

    def light(self, study):
        """A change of a study that does not ask for too much."""
        if b"conflicts" not in study and self.rng.random() < 0.9:
            study = b"conflicts = %d\n" % self.rng.choice([1, 3, 10, 100, 1000, 1000, 1000]) + study
        most, dearest = DEAR.get(self.command, (300, 3_000_000))
        for _ in range(20):
            text = self.changed("study", study)
            profiles, atoms = changes.weight(text)
            if profiles <= most and atoms <= dearest and changes.integer(text, b"conflicts", 0) <= 20_000:
                return text
        return self.seed.study

    def value(self, form):
        rng = self.rng
        if form == b"KIND":
            return rng.choice([b"choice", b"ranking", b"sets"])
        if form == b"N":
            return str(rng.choice([rng.randrange(512), rng.randrange(2**32), 0, 2**32 - 1])).encode()
        if form == b"AXIOM":
            names = re.findall(rb"\w+", (re.search(rb"axioms *= *\[(.*?)\]", self.files["study.toml"], re.S) or [b"", b"own"])[1])
            return rng.choice(names or [b"pareto"]) if rng.random() < 0.9 else rng.choice([*changes.STRANGE, b"pareto"])
        return b"%d" % rng.choice([0, 1, rng.randrange(10), rng.randrange(40), rng.randrange(300), rng.randrange(5000), rng.randrange(2**32)])


# ---- Judging.


class House:
    """All that runs share."""

    def __init__(self, asked, programs):
        self.asked, self.programs = asked, programs
        self.usage = {}
        for program in ("bench", "explain"):
            status, line, _ = programs.ask(program)
            want(status == 2 and line.startswith(b"usage: ") and line.endswith(b"\n"), f"{program} without words writes no usage line")
            self.usage[program] = line
        self.commands = {program: self.commands_of(program) for program in self.usage}
        known = [name for name, (program, *_) in COMMANDS.items() if name.encode() in self.commands[program]]
        wanted = [name for name in known if asked.only in (None, name)]
        want(wanted, f"the programs have no command {asked.only}")
        self.weighted = wanted, [COMMANDS[name][4] for name in wanted]
        self.library, self.sentences, self.judges = {}, {}, collections.OrderedDict()
        for kind in ("choice", "ranking", "sets"):
            _, text, _ = programs.ask("bench", "axioms", kind)
            self.library[kind] = [line.split(b": ", 1)[1] for line in text.splitlines()]
            self.sentences[kind] = dict(line.split(": ", 1) for line in text.decode().splitlines())
            self.library_text = {**getattr(self, "library_text", {}), kind: text}
        want(self.sentences == judge.library(), "the library is not that of docs/FORMATS.md")
        self.all, self.loose = seeds_of(programs)
        self.seeds = self.all, [1 / (1 + seed.size() / 4000) for seed in self.all]
        self.loose += [(cnf, proof) for seed in self.all for cnf, proof in zip(seed.texts["cnf"], seed.texts["proof"])]
        self.others = [text for seed in self.all for texts in ([seed.study], *seed.texts.values()) for text in texts if len(text) < 20_000]

    def commands_of(self, program):
        """The commands of a program by its usage line, each with the words and the options that it takes."""
        parts = self.usage[program].decode().strip().split(" ", 2)[2].split(" | ")
        names = [part.split(" ")[0] for part in parts]
        unknown = [name for name in names if name not in COMMANDS or COMMANDS[name][0] != program]
        want(not unknown, f"{program} has commands that are not known here: {unknown}")
        return {name.encode(): COMMANDS[name][1:3] for name in names}

    def judge(self, study, most):
        """A judge of a study, of which the last hundred are kept; None where it is too dear."""
        if study not in self.judges:
            try:
                self.judges[study] = judge.Judge(study, self.sentences, most)
            except judge.Dear:
                self.judges[study] = None
            if len(self.judges) > 100:
                self.judges.popitem(last=False)
        self.judges.move_to_end(study)
        return self.judges[study]

    def check(self, study="study.toml", report="report"):
        return self.programs.ask("bench", "check", study, report)[:2]


class Run:
    """A call, and what is wrong of it."""

    def __init__(self, house, draw):
        self.house, self.draw, self.programs = house, draw, house.programs
        for name, text in draw.files.items():
            self.programs.hold(name, text)
        self.status, self.out, self.seconds = self.programs.ask(draw.program, *draw.words)

    def judge(self):
        draw, status, out = self.draw, self.status, self.out
        values = looks.is_call(draw.words, self.house.commands[draw.program])
        want((status == 2) == (values is None), f"status {status}, of words that {'are no command' if values is None else 'are a command'}")
        if values is None:
            want(out == self.house.usage[draw.program], "not the usage line")
            return
        command = draw.words[0].decode()
        _, forms, _, statuses, _ = COMMANDS[command]
        files = [os.fsdecode(value) for value, form in zip(values, forms) if form in FILES]
        readable = [os.path.isfile(path) or path == "/dev/null" for path in (os.path.join(self.programs.work, name) for name in files)]
        if status == 5:
            want(out == b"" and not all(readable), "status 5, with all files there" if all(readable) else "something is written with status 5")
            return
        want(all(readable) or status == 3, f"status {status}, where a file can't be read")
        want(status in statuses, f"{command} ended with status {status}")
        self.values, self.names = values, files
        if not draw.plain and (command != draw.command or files != [FILES[form] for form in forms if form in FILES]):
            return
        if STUDY in forms and self.is_refused(command):
            return
        if status == 3 and STUDY in forms:
            self.clauses_refused(command)
        else:
            getattr(self, command)()

    def text(self):
        return self.out.decode("ascii")

    def is_refused(self, command):
        """Whether the study is refused, as it is without the program, and by check."""
        line, unsaid = None, refusals.tomllib is None
        try:
            line = None if unsaid else refusals.study_line(self.draw.files["study.toml"], self.house.sentences)
        except refusals.Unsaid:
            unsaid = True
        if self.status == 3 and (line is not None or unsaid):
            status, said = self.house.check(self.names[0], "absent")
            same = said == self.out
            if command == "study":
                help_lines = self.out[len(said) :]
                same = self.out.startswith(said) and re.fullmatch(rb"(?:help [ -~]+\n)*", help_lines)
                unread = re.fullmatch(r"study: (\w+): (?:no reading|lexeme \d+)\n", line or "")
                if unread:
                    wanted = refusals.help_of(self.draw.files["study.toml"], unread[1], self.house.sentences)
                    want(help_lines == wanted.encode(), f"{help_lines!r} in place of {wanted!r}")
            if unsaid and status == 5:
                return False
            want(status == 3 and same and STUDY_LINE.fullmatch(said), f"check refuses the study otherwise, by {said[:200]!r}")
            want(line in (None, said.decode()), f"{said[:200]!r} in place of {line!r}")
            return True
        want(line is None, f"the study is taken, in place of {line!r}")
        return False

    def clauses_refused(self, command):
        """What else is refused with status 3."""
        if command == "instance":
            want(re.fullmatch(rb"instance: (no axiom .*|%s has \d+ instances, numbered from 0)\n" % A, self.out, re.S), "no line of instance")
            self.told_instance()
        elif command == "gain":
            want(self.out == b"study: kind not sets\n", "no line of gain")
        elif command != "sharpen" or not re.fullmatch(rb"study: total \d+ \d+\n", self.out):
            line = self.out.split(b"\n")[0] + b"\n" if command == "study" else self.out
            want(command not in ("check", "story") and CLAUSE_LINE.fullmatch(line), "no line of a refused study")

    # Each command by its name.

    def told(self):
        """What was written, as a report that check confirms."""
        told = looks.Told(self.text())
        self.programs.hold("answer", self.out)
        status, line = self.house.check(self.names[0], "answer")
        if told.verdict == "undecided":
            want((status, line) == (1, b"refused line %d: undecided\n" % told.line), f"check says {line!r} of an undecided report")
        else:
            word = "sharp" if told.sharp else told.verdict
            want((status, line) == (0, f"confirmed {word}\n".encode()), f"check says {line!r} of what was written")
        looks.hold_rules(told)
        if len(self.out) < 20_000 and told.verdict != "undecided" and self.draw.rng.random() < 0.1:
            said = self.judged(judge.check_of, self.out)
            want(said in (None, line.decode()), f"judge.py says {said!r} of what was written")
        return told

    def judged(self, ask, *words):
        """What judge.py answers of the study, or None."""
        draw = self.draw
        text = draw.files["study.toml"]
        own = self.house.judge(text, judge.MOST_INSTANCES if text == draw.seed.study else 1500)
        try:
            return own and ask(own, *words)
        except judge.Dear:
            return None

    def all_rules(self):
        """All rules of a small study, each with the axioms that it satisfies; or None."""
        return self.judged(judge.all_rules, 300)

    def decide(self):
        told = self.told()
        rules = self.all_rules()
        if rules is not None and told.verdict != "undecided":
            right = any(len(names) == len(told.size.axioms) for _, names in rules)
            want(right == (told.verdict == "possible"), f"judge.py finds {'a' if right else 'no'} rule of all axioms")
        want((self.status == 4) == (told.verdict == "undecided") and not told.sharp, f"status {self.status} of a report {told.verdict}")

    def sharpen(self):
        told = self.told()
        want((self.status == 4) == (told.verdict == "undecided"), f"status {self.status} of a report {told.verdict}")
        want(told.sharp == (told.verdict == "impossible"), "a sharp text of no impossibility")

    def adopt(self):
        if self.status == 0:
            want(self.told().verdict == "impossible", "a report that was adopted says no impossibility")
        status, cnf, _ = self.programs.ask("bench", "export", self.names[0])
        want(status == 0, "the clauses of an adopted proof are refused")
        self.programs.hold("clauses", cnf)
        status, line, _ = self.programs.ask("bench", "lrat", "clauses", self.names[1])
        want(status == self.status and (status == 0 or line == self.out), f"lrat says {line!r}, with status {status}")

    def check(self):
        want(self.status == 0 or REFUSED.fullmatch(self.out), "no line of a refused report")
        said = self.judged(judge.check_of, self.draw.files["report"])
        want(said in (None, self.text()), f"{self.text()!r} in place of {said!r}")
        if self.status == 1:
            return
        told = looks.Told(self.draw.files["report"].decode("ascii"))
        want(self.out == f"confirmed {'sharp' if told.sharp else told.verdict}\n".encode(), "another verdict than that of the report")
        looks.hold_rules(told)
        if self.draw.rng.random() < 0.3 and len(told.size.profiles) <= 300:
            status, out, _ = self.programs.ask("bench", "decide", self.names[0], WORKERS, b"2")
            other = {"possible": b"\nverdict impossible\n", "impossible": b"\nverdict possible\n"}[told.verdict]
            want(status == 3 or other not in out, "decide finds the opposite verdict")

    def export(self):
        looks.hold_clauses(self.text())
        if self.draw.rng.random() < 0.1:
            wanted = self.judged(judge.export_of, (5_000, 50_000))
            want(wanted in (None, (self.status, self.text())), "other clauses than sentences.py makes")

    def proof(self):
        if self.status == 4 or self.out == b"c possible\n":
            want(self.out == (b"c undecided\n" if self.status == 4 else self.out), "another line than c undecided")
            return
        status, cnf, _ = self.programs.ask("bench", "export", self.names[0])
        self.programs.hold("clauses", cnf)
        self.programs.hold("answer", self.out)
        want(self.programs.ask("bench", "lrat", "clauses", "answer")[:2] == (0, b"confirmed\n"), "lrat does not confirm the proof")

    def lrat(self):
        cnf, proof = (self.draw.files[name] for name in ("cnf", "proof"))
        want((self.status, self.text()) == looks.lrat_of(cnf, proof), f"{self.text()!r} in place of {looks.lrat_of(cnf, proof)}")

    def axioms(self):
        want(self.out == self.house.library_text[self.values[0].decode()], "another library than before")
        want(re.fullmatch(rb"(?:%s: [ -~]+\n)+" % A, self.out), "a line of another form")

    def sample(self):
        form = rb"sample %s: kind (choice|ranking) voters [23] alternatives 3 axioms \d clauses \d+ verdict (possible|impossible|undecided)\n"
        found = re.fullmatch(form % self.values[0], self.out)
        want(found and (self.status == 4) == (found[2] == b"undecided"), "a line of another form")

    def gain(self):
        status, line = self.house.check(*self.names)
        if self.status == 1:
            sharp = self.draw.files["report"].startswith(b"bench sharp 1\n")
            want((status, line) == (1, self.out) or sharp and self.out == b"refused line 1: form\n", f"check says {line!r}")
            return
        want(status == 0, f"check says {line!r}")
        told = looks.Told(self.draw.files["report"].decode("ascii"))
        wanted = looks.gain_of(told) if told.verdict == "possible" else "no rule\n"
        want(self.text() == wanted, f"{self.text()!r} in place of {wanted!r}")

    def story(self):
        status, line = self.house.check(*self.names)
        want(status == self.status, f"status {self.status}, where check ends with {status}")
        if status == 0:
            looks.hold_page(self.out.decode("utf-8"))
        else:
            want(line == self.out, f"check says {line!r}")

    def rules(self):
        size, tables, ending = looks.rules_listed(self.text())
        want((self.status == 4) == (ending == "open"), f"status {self.status} of a list that ends with {ending}")
        rules = self.all_rules()
        if rules is not None:
            right = [table for table, names in rules if len(names) == len(size.axioms)]
            want(all(table in right for table in tables), "a rule is listed that judge.py does not find")
            want(ending[:4] != "more" or len(right) > len(tables), "there are no more rules")
            want(ending[:5] != "rules" or len(right) == len(tables), f"judge.py finds {len(right)} rules")
        for table in self.draw.rng.sample(tables, min(2, len(tables))):
            self.programs.hold("answer", looks.report_of(size, table).encode())
            want(self.house.check(self.names[0], "answer") == (0, b"confirmed possible\n"), "check does not confirm a listed rule")

    def told_instance(self):
        wanted = self.judged(judge.instance_of, self.values[1].decode(), int(self.values[2]))
        want(wanted in (None, (self.status, self.out.decode())), f"{self.out.decode()!r} in place of {wanted}")

    def instance(self):
        self.told_instance()
        lines = self.text().split("\n")
        want(lines.pop() == "" and len(lines) >= 2, "a text of another form")
        axiom, values = lines[0].split(" ")[1], lines[0].split(" ")[2:]
        want(lines[0].startswith("axiom ") and axiom.encode() == self.values[1], "the first line has another form")
        want(lines[-1].startswith("body ") and len(values) == len(lines) - 2, "the body is missing, or a variable")
        for place, (value, line) in enumerate(zip(values, lines[1:-1]), 1):
            found = re.fullmatch(r"([ixbp])(\d+) (voter|alt|ballot|profile) (\S+)", line)
            right = found and found[1] == {"voter": "i", "alt": "x", "ballot": "b", "profile": "p"}[found[3]]
            want(right and int(found[2]) == place and found[4] == value, f"{line!r} has another form")

    def cores(self):
        size, sets, more = looks.map_told(self.text())
        want((self.status == 4) == bool(sets["open"] or more), f"status {self.status} of a map with {len(sets['open'])} open sets")
        wanted = self.judged(judge.map_of, 300)
        if wanted and not sets["open"] and not more:
            for word, found in zip(("impossible", "possible"), wanted):
                want(set(map(frozenset, sets[word])) == set(found), f"judge.py finds other {word} sets")
        status, out, _ = self.programs.ask("bench", "decide", self.names[0])
        want(status in (0, 4), f"decide ends with status {status}")
        whole = size.axioms in sets["possible"]
        if b"\nverdict possible\n" in out:
            want(whole or sets["open"] or more, "decide finds a rule of all axioms")
        elif b"\nverdict impossible\n" in out:
            core = re.search(rb"^core (.*)$", out, re.M)[1].decode().split()
            want(not whole and (sets["impossible"] or sets["open"] or more), "decide finds no rule of all axioms")
            for one in sets["impossible"]:
                want(not set(one) < set(core) or b"without" not in out or b" open " in out, "a core of decide has a smaller impossible set")
            want(not any(set(core) <= set(one) for one in sets["possible"]), "a core of decide lies within a possible set")
        drawn = [(word, names) for word, named in sets.items() for names in named]
        if drawn:
            self.alone(size, *self.draw.rng.choice(drawn), bool(sets["open"] or more))

    def alone(self, size, word, names, unsure):
        """A set of a map as a study of its own: what decide finds is what the map says, and its report passes check."""
        text = self.with_axioms(size, names)
        if text is None:
            return
        self.programs.hold("alone.toml", text)
        status, out, _ = self.programs.ask("bench", "decide", "alone.toml")
        told = looks.Told(out.decode("ascii"))
        want((status == 4) == (told.verdict == "undecided") and status in (0, 4), f"status {status} of a report {told.verdict} over {names}")
        self.programs.hold("answer", out)
        line = f"refused line {told.line}: undecided\n" if status == 4 else f"confirmed {told.verdict}\n"
        found = self.house.check("alone.toml", "answer")
        want(found == (1 if status == 4 else 0, line.encode()), f"check says {found[1]!r} of what decide writes over {names}")
        if word != "open":
            want(told.verdict in (word, "undecided"), f"decide finds {names} {told.verdict}, and the map {word}")
        if told.verdict == "impossible":
            want(unsure or told.core == names, f"the map has {names}, of which decide finds the part {told.core}")

    def with_axioms(self, size, names):
        """The study of the same size with these of its axioms alone; None where the study can't be read here."""
        try:
            keys = refusals.tomllib.loads(refusals.decoded(self.draw.files["study.toml"]))
        except (AttributeError, ValueError, RecursionError):
            return None
        own = {name: text for name, text in keys.get("sentences", {}).items() if name in names}
        lines = [f'kind = "{size.kind}"', f"voters = {size.voters}", f"alternatives = {len(size.letters)}"]
        if size.second:
            lines += [f"ballots = {json.dumps(size.ballots)}", f"absent = {json.dumps(size.absent)}"]
        lines += [f"conflicts = {keys.get('conflicts', 100_000)}", f"axioms = {json.dumps(names)}", "[sentences]" if own else ""]
        return "\n".join([*lines, *(f"{name} = {json.dumps(text)}" for name, text in own.items()), ""]).encode()

    def study(self):
        lines = self.text().split("\n")
        want(lines[0] == "bench study 1" and lines[-3].startswith("nearest ") and lines[-2:] == ["end", ""], "a text of another form")
        wanted = self.judged(judge.look_of, 5_000) if self.draw.rng.random() < 0.3 else None
        want(wanted in (None, self.text()), "another look than judge.py has")


# ---- Running.


def keep(house, number, draw, run, why):
    """Keeps what a run was made of, and what came."""
    folder = os.path.join(house.asked.keep, f"{house.asked.seed}_{number}")
    os.makedirs(folder, exist_ok=True)
    for name, text in draw.files.items():
        with open(os.path.join(folder, name), "wb") as file:
            file.write(text)
    answer = b"" if run is None else run.out
    with open(os.path.join(folder, "written"), "wb") as file:
        file.write(answer)
    with open(os.path.join(folder, "fault"), "w", encoding="utf-8", errors="backslashreplace") as file:
        status = "none" if run is None else run.status
        file.write(f"{draw.program} {shown(draw.words)}\nstatus {status}\n{why}\n")
    print(f"run {number}, {folder}: {draw.program} {shown(draw.words)}: {why}"[:600], flush=True)


def word_of(draw, run):
    """What check says of a report, in a word."""
    if run.status == 1:
        return run.out.split(b" ")[3].strip().decode()
    known = any(draw.files.get("report") in texts for seed in draw.house.all for texts in seed.texts.values())
    return "confirmed as it was" if known else "confirmed with changes"


def main():
    parser = argparse.ArgumentParser(usage=__doc__)
    for name, kind, default in (("runs", int, 1000), ("from", int, 0), ("seed", str, "1"), ("only", str, None), ("minutes", float, None)):
        parser.add_argument(f"--{name}", type=kind, default=default)
    for program in ("bench", "explain"):
        parser.add_argument(f"--{program}", default=f"{ROOT}/crates/{program}/out/{program}")
    parser.add_argument("--keep", default="strange")
    asked = parser.parse_args()
    work = tempfile.mkdtemp(dir="/dev/shm" if os.path.isdir("/dev/shm") else None)
    try:
        sys.exit(run_all(asked, work))
    finally:
        shutil.rmtree(work)


class Counts:
    """What the runs came to."""

    def __init__(self):
        self.runs, self.faults, self.longest = 0, 0, (0, "none")
        self.statuses, self.words = collections.defaultdict(collections.Counter), collections.Counter()

    def add(self, number, draw, run):
        self.statuses[draw.command][run.status] += 1
        self.longest = max(self.longest, (run.seconds, f"run {number}, {draw.program} {shown(draw.words)[:80]}"))
        if draw.command == "check" and run.status in (0, 1):
            self.words[word_of(draw, run)] += 1

    def write(self, asked, calls, seconds):
        for command, counts in self.statuses.items():
            print(f"{command}: " + ", ".join(f"{counts[status]} with status {status}" for status in sorted(counts)))
        print("check says: " + ", ".join(f"{word} {count}" for word, count in self.words.most_common()))
        longest, where = self.longest
        print(f"seed {asked.seed}, from run {getattr(asked, 'from')}, calls {calls}, {seconds:.0f} s; longest {longest:.1f} s: {where}")
        print(f"runs {self.runs} faults {self.faults}")


def one_run(house, number, counts):
    draw, run = Draw(house, number), None
    counts.runs += 1
    try:
        run = Run(house, draw)
        counts.add(number, draw, run)
        run.judge()
    except (Fault, UnicodeDecodeError) as why:
        counts.faults += 1
        keep(house, number, draw, run, why)


def run_all(asked, work):
    sys.setrecursionlimit(100_000)
    programs, counts = Programs(os.path.abspath(asked.bench), os.path.abspath(asked.explain), work), Counts()
    try:
        house = House(asked, programs)
    except Fault as why:
        sys.exit(f"strange: {why}")
    first, start = getattr(asked, "from"), time.monotonic()
    try:
        for number in range(first, first + asked.runs):
            if asked.minutes is not None and time.monotonic() - start > asked.minutes * 60:
                break
            one_run(house, number, counts)
    except KeyboardInterrupt:
        counts.runs -= 1
    counts.write(asked, programs.calls, time.monotonic() - start)
    return 1 if counts.faults else 0


if __name__ == "__main__":
    main()
