#!/usr/bin/env bash
# Whether stories are as short as those by other orders of trying. For each study of studies/ that is impossible: lemmas and steps of the
# story that `decide` writes; and, of a hundred refutations by failed literals that are made here, in Python and in orders drawn at random,
# over the clauses that `export` writes for the core, the lemmas and steps of the shortest, and the median of their steps. A lemma of these
# is told by the hints on which its conflict rests, and what no later lemma needs is left out; nothing else makes them shorter. The last
# line is the number of studies whose shortest has fewer than 0.9 of the story's steps. Where it is not 0 the status is 1.
# `measure/orders.sh NAME..` tries these studies alone; with none all but `arrow_four`, whose 500,546 clauses take Python minutes.
set -eu
. "$(dirname -- "$(readlink -f -- "${BASH_SOURCE[0]}")")/setup.sh"
build_program
python3 - "$program" "$root" "$work" "$@" <<'PY'
import glob, os, random, re, subprocess, sys
program, root, work, *names = sys.argv[1:]
ORDERS = 100

class Trail:
    """Unit propagation with two watched literals, over a list to which clauses are added."""
    def __init__(self, variables, clauses):
        self.clauses, self.watches = [], [[] for _ in range(2 * variables + 2)]
        self.value, self.reason, self.trail, self.at, self.units = [0] * (variables + 1), [None] * (variables + 1), [], 0, []
        for clause in clauses:
            self.add(list(clause))
        self.given, self.given_units = len(self.clauses), len(self.units)
    def add(self, clause):
        number = len(self.clauses)
        self.clauses.append(clause)
        if len(clause) < 2:
            self.units.append(number)
        else:
            self.watches[clause[0]].append(number)
            self.watches[clause[1]].append(number)
    def begin(self): # without what was added
        self.back(0)
        del self.clauses[self.given:], self.units[self.given_units:]
    def holds(self, literal):
        return self.value[literal] if literal > 0 else -self.value[-literal]
    def set(self, literal, reason):
        self.value[abs(literal)], self.reason[abs(literal)] = (1 if literal > 0 else -1), reason
        self.trail.append(literal)
    def back(self, length):
        for literal in self.trail[length:]:
            self.value[abs(literal)] = 0
        del self.trail[length:]
        self.at = min(self.at, length)
    def close(self): # what the clauses of one literal force, and then propagation
        for number in self.units:
            clause = self.clauses[number]
            if not clause or self.holds(clause[0]) < 0:
                return number
            if self.holds(clause[0]) == 0:
                self.set(clause[0], number)
        return self.propagate()
    def propagate(self):
        while self.at < len(self.trail):
            false = -self.trail[self.at]
            self.at += 1
            watching, kept = self.watches[false], []
            for place, number in enumerate(watching):
                clause = self.clauses[number]
                if clause[0] == false:
                    clause[0], clause[1] = clause[1], clause[0]
                if self.holds(clause[0]) > 0:
                    kept.append(number)
                    continue
                other = next((k for k in range(2, len(clause)) if self.holds(clause[k]) >= 0), None)
                if other is not None:
                    clause[1], clause[other] = clause[other], clause[1]
                    self.watches[clause[1]].append(number)
                    continue
                kept.append(number)
                if self.holds(clause[0]) < 0:
                    self.watches[false] = kept + watching[place + 1:]
                    return number
                self.set(clause[0], number)
            self.watches[false] = kept
        return None
    def hints(self, conflict):
        needed, hints = set(map(abs, self.clauses[conflict])), [conflict]
        for literal in reversed(self.trail):
            if abs(literal) in needed and self.reason[abs(literal)] is not None:
                hints.append(self.reason[abs(literal)])
                needed.update(map(abs, self.clauses[hints[-1]]))
        return hints

def lines(trail, order): # the hints of each lemma; none where some literals of the order do not fail and the others refute nothing
    trail.begin()
    made, conflict = [], trail.close()
    while conflict is None:
        before = len(made)
        for literal in order:
            if conflict is not None or trail.holds(literal) != 0:
                continue
            length = len(trail.trail)
            trail.set(literal, None)
            failed = trail.propagate()
            if failed is not None:
                made.append(trail.hints(failed))
            trail.back(length)
            if failed is not None:
                trail.add([-literal])
                conflict = trail.close()
        if conflict is None and len(made) == before:
            return None
    made.append(trail.hints(conflict))
    needed, kept = {len(made) - 1}, []
    for number in range(len(made) - 1, -1, -1):
        if number in needed:
            kept.append(made[number])
            needed.update(hint - trail.given for hint in made[number] if hint >= trail.given)
    return kept

def numbers(row):
    return [int(word) for word in row.split()][:-1]

behind = 0
for path in sorted(glob.glob(root + "/studies/*.toml")):
    name = os.path.basename(path)[:-5]
    if name not in names and (names or name == "arrow_four"):
        continue
    report = subprocess.run([program, "decide", path], capture_output=True, text=True).stdout.splitlines()
    if "verdict impossible" not in report:
        continue
    words = [line.split(" ")[0] for line in report]
    core = next(line for line in report if line.startswith("core ")).split(" ")[1:]
    listed = "axioms = [%s]" % ", ".join('"%s"' % axiom for axiom in core)
    with open(path) as study:
        text = re.sub(r"^axioms *=.*$", listed, study.read(), flags=re.M)
    # A sentence that no axiom of the core names would be refused.
    for own in re.findall(r'^(\w+) = "(?:all|some)', text, flags=re.M):
        if own not in core:
            text = re.sub(r"^%s = .*\n" % own, "", text, flags=re.M)
    with open(work + "/core.toml", "w") as out:
        out.write(text)
    rows = subprocess.run([program, "export", work + "/core.toml"], capture_output=True, text=True, check=True).stdout.splitlines()
    variables = int(rows[2].split()[2])
    trail = Trail(variables, map(numbers, rows[3:]))
    draw, found = random.Random(1), []
    order = [sign * variable for variable in range(1, variables + 1) for sign in (1, -1)]
    for _ in range(ORDERS):
        draw.shuffle(order)
        made = lines(trail, order)
        if made is None:
            break
        found.append((sum(map(len, made)) - len(made), len(made)))
    told = "%s: %d lemmas and %d steps" % (name, words.count("lemma"), words.count("so"))
    if not found:
        print("%s; failed literals do not refute it" % told)
        continue
    found.sort()
    behind += 10 * found[0][0] < 9 * words.count("so")
    print("%s; at random %d and %d, median %d" % (told, found[0][1], found[0][0], found[len(found) // 2][0]))
print(behind)
sys.exit(behind > 0)
PY
