#!/usr/bin/env python3
"""Prints the report of a known rule over a study of kind choice or sets, for `check` and `gain`:

python3 studies/rule.py STUDY borda|plurality|condorcet|dictator=I [ORDER]

`borda` and `plurality` give what has most points, `condorcet` the Condorcet winner, or all alternatives where there is none, and `dictator=2`
what voter 2 ranks first, or where 2 is absent the first voter who is there. Of several the first in ORDER wins, as cab; in the order of their
letters where none is given, but in a study of sets all of them. Nothing of it is proved: `check` says whether the rule satisfies the study.
"""
import re
import sys

sys.dont_write_bytecode = True
from phrases import ABSENT, Size, present, read


def most(letters, points):
    best = max(map(points, letters))
    return [x for x in letters if points(x) == best]


def borda(size, ballots):
    return most(size.letters, lambda x: -sum(ballot.index(x) for ballot in ballots))


def plurality(size, ballots):
    return most(size.letters, lambda x: sum(ballot[0] == x for ballot in ballots))


def condorcet(size, ballots):
    def beats(x, y):
        return x == y or 2 * sum(ballot.index(x) < ballot.index(y) for ballot in ballots) > len(ballots)

    return [x for x in size.letters if all(beats(x, y) for y in size.letters)] or size.letters


RULES = {"borda": borda, "plurality": plurality, "condorcet": condorcet}


def refuse(text):
    sys.exit(f"rule: {text}")


def named(size, name):
    """The rule of a name, as a function of a profile."""
    dictator = re.fullmatch(r"dictator=([1-8])", name)
    if dictator and int(dictator.group(1)) <= size.voters:
        place = int(dictator.group(1)) - 1
        return lambda profile: (present(profile) if profile[place] == ABSENT else profile[place:])[0][0]
    if name not in RULES:
        refuse(f"{name} is none of {', '.join(RULES)} and dictator=I, for a voter I of the study")
    return lambda profile: RULES[name](size, present(profile))


def report(study, name, order=None):
    size = Size.of(study)
    axioms = re.search(r"^axioms *= *\[([^]]*)\]", study, re.M)
    if size.kind not in ("choice", "sets") or not axioms:
        refuse("the study is not of kind choice or sets, or has no axioms")
    if order and sorted(order) != list(size.letters):
        refuse(f"{order} is no order of the alternatives")
    rule = named(size, name)

    def outcome(profile):
        winners = rule(profile)
        return "".join(winners) if size.kind == "sets" and not order else min(winners, key=(order or size.letters).index)

    return size.report(" ".join(re.findall(r"\w+", axioms.group(1))), outcome)


if __name__ == "__main__":
    if len(sys.argv) not in (3, 4):
        refuse("STUDY RULE [ORDER] are wanted")
    print(report(read(sys.argv[1]), *sys.argv[2:]), end="")
