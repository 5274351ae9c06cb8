#!/usr/bin/env python3
"""Says which values an instance of an axiom has: python3 studies/instance.py PROGRAM STUDY AXIOM NUMBER

Where `check` refuses a rule by `fails AXIOM NUMBER`, these are the values of the axiom's leading `all`s at which the rule fails it. The
sentence is that of the study, or of the library as `PROGRAM axioms` prints it. A number that no instance has is refused.
"""
import math
import re
import subprocess
import sys

sys.dont_write_bytecode = True
from phrases import Size, read


def refuse(text):
    sys.exit(f"instance: {text}")


if len(sys.argv) != 5 or not re.fullmatch(r"[0-9]+", sys.argv[4]):
    refuse("PROGRAM STUDY AXIOM NUMBER are wanted")
program, path, axiom, number = sys.argv[1:]
study = read(path)
size = Size.of(study)
library = subprocess.run([program, "axioms", size.kind], stdout=subprocess.PIPE, text=True, check=True).stdout
sentence = re.search(rf"^{re.escape(axiom)}(?:: | *= *[\"']+)(.*)", library + study, re.M)
if not sentence:
    refuse(f"neither the library nor the study has {axiom}")
values = {
    "voter": [str(i + 1) for i in range(size.voters)],
    "alt": size.letters,
    "ballot": size.ballots,
    "profile": ["|".join(profile) for profile in size.profiles()],
}
sorts = re.findall(r"all \w+: (\w+)\.", re.match(r"(?:all \w+: \w+\. *)*", sentence.group(1)).group(0))
count = math.prod(len(values[sort]) for sort in sorts)
digits, rest = [], int(number)
if rest >= count:
    refuse(f"{axiom} has {count} instance{'' if count == 1 else 's'}, numbered from 0")
for sort in reversed(sorts):
    rest, digit = divmod(rest, len(values[sort]))
    digits.insert(0, values[sort][digit])
print(" ".join(digits))
