#!/usr/bin/env python3
"""Holds `explain rules` against a loop around `bench export` and CaDiCaL, over studies drawn at random: measure/rules.py BENCH EXPLAIN
[COUNT [SEED]]. Of each study, of a drawn kind, with axioms of the library drawn from those of the kind, the loop takes the clauses that
`export` writes, and after each model one clause that leaves it out, up to 200. The rules that `explain` lists with `--most 200`, as true
variables, have to be these, in lexicographic order, and the list has to end as the loop does. The first difference is written with its
study, and the last line says how many studies there were, how many had no rule, how many more than 200, and how many differ.
"""
import itertools
import os
import random
import subprocess
import sys
import tempfile

MOST = 200
SIZES = {"choice": [(2, 2), (1, 3), (2, 3), (3, 2)], "ranking": [(1, 3), (2, 2), (2, 3)], "sets": [(1, 3), (2, 2), (3, 2)]}


def run(*words):
    return subprocess.run(words, capture_output=True, text=True)


def drawn(rng, bench):
    """A study as text, its kind and its number of alternatives."""
    kind = rng.choice(sorted(SIZES))
    voters, alternatives = rng.choice(SIZES[kind])
    names = [line.split(":")[0] for line in run(bench, "axioms", kind).stdout.splitlines()]
    names = rng.sample([it for it in names if it != "participation"], rng.randint(1, 4))
    text = f'kind = "{kind}"\nvoters = {voters}\nalternatives = {alternatives}\naxioms = {names}\n'.replace("'", '"')
    return text, kind, alternatives


def variables(kind, alternatives, row, outcome):
    """The variables of a profile, by its number, that are true at an outcome."""
    letters = "abcdefgh"[:alternatives]
    if kind == "ranking":
        pairs = list(itertools.combinations(letters, 2))
        return [row * len(pairs) + k + 1 for k, (x, y) in enumerate(pairs) if outcome.index(x) < outcome.index(y)]
    return [row * alternatives + k + 1 for k, x in enumerate(letters) if x in outcome]


def listed(text, kind, alternatives):
    """The rules of a list, each as its true variables, its outcomes, and how the list ends."""
    rules, rows = [], []
    for line in text.splitlines():
        first, *rest = line.split(" ")
        if first == "rule":
            rules.append(([], []))
        elif first in ("rules", "more", "open", "end"):
            rows.append(line)
        elif rules:
            true, outcomes = rules[-1]
            true += variables(kind, alternatives, len(outcomes), rest[0])
            outcomes.append(rest[0])
    return rules, rows


def looped(bench, study, folder):
    """The models of the clauses of a study, at most one more than MOST."""
    lines = [it for it in run(bench, "export", study).stdout.splitlines() if not it.startswith("c")]
    count = int(lines[0].split(" ")[2])
    clauses, models = lines[1:], []
    while len(models) <= MOST:
        path = os.path.join(folder, "all.cnf")
        with open(path, "w", encoding="ascii") as out:
            out.write(f"p cnf {count} {len(clauses)}\n" + "".join(it + "\n" for it in clauses))
        said = run("cadical", "-q", path).stdout.splitlines()
        if "s UNSATISFIABLE" in said:
            break
        model = [int(it) for line in said if line.startswith("v") for it in line[1:].split()]
        models.append([it for it in model if it > 0])
        clauses.append(" ".join(str(-it) for it in model if it) + " 0")
    return models


def difference(bench, explain, text, kind, alternatives, folder):
    """What is wrong of a study, and how many rules it has."""
    study = os.path.join(folder, "study.toml")
    with open(study, "w", encoding="ascii") as out:
        out.write(text)
    said = run(explain, "rules", study, "--most", str(MOST))
    rules, rows = listed(said.stdout, kind, alternatives)
    models = looped(bench, study, folder)
    wanted = [f"more than {MOST}"] if len(models) > MOST else [f"rules {len(models)}"]
    if said.returncode != 0 or rows != [*wanted, "end"]:
        return f"status {said.returncode}, {rows} where {wanted} is wanted", len(models)
    found = {tuple(true) for true, _ in rules}
    tables = [outcomes for _, outcomes in rules]
    if kind != "sets" and tables != sorted(tables):
        return "rules in another order", len(models)
    if len(found) != len(rules) or len(models) <= MOST and found != {tuple(it) for it in models}:
        return "other rules", len(models)
    return None, len(models)


def main(bench, explain, count="50", seed="1"):
    none = many = wrong = 0
    with tempfile.TemporaryDirectory() as folder:
        for number in range(int(count)):
            text, kind, alternatives = drawn(random.Random(f"{seed} {number}"), bench)
            fault, rules = difference(bench, explain, text, kind, alternatives, folder)
            none, many = none + (rules == 0), many + (rules > MOST)
            if fault:
                if not wrong:
                    print(text + fault)
                wrong += 1
    print(f"studies {count}, without a rule {none}, with more than {MOST} {many}, different {wrong}")
    return 1 if wrong else 0


if __name__ == "__main__":
    sys.exit(main(*sys.argv[1:]))
