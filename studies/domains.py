#!/usr/bin/env python3
"""Decides a study over each set of rankings that its voters may be allowed to cast: python3 studies/domains.py PROGRAM STUDY

It writes how many of these sets have which answer, and names the set where there is one alone. With three alternatives there are 63 sets;
with more there are too many.
"""
import itertools
import re
import subprocess
import sys

program, path = sys.argv[1:]
with open(path, encoding="utf-8") as study:
    text = re.sub(r"^ballots.*\n", "", study.read(), flags=re.M)
letters = "abcde"[: int(re.search(r"^alternatives *= *(\d)", text, re.M).group(1))]
rankings = ["".join(order) for order in itertools.permutations(letters)]
answers = {}
for size in range(1, len(rankings) + 1):
    for ballots in itertools.combinations(rankings, size):
        listed = ", ".join(f'"{ballot}"' for ballot in ballots)
        asked = subprocess.run([program, "decide", "/dev/stdin"], input=f"ballots = [{listed}]\n{text}", stdout=subprocess.PIPE, text=True)
        said = re.findall(r"^(?:verdict|core|study:) (.*)$", asked.stdout, re.M)
        answers.setdefault(": ".join(said), []).append(" ".join(ballots))
for said, sets in sorted(answers.items(), key=lambda answer: -len(answer[1])):
    print(len(sets), said + (f" ({sets[0]})" if len(sets) == 1 else ""))
