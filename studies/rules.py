#!/usr/bin/env python3
"""Counts the rules of a study: ./bench export STUDY | python3 studies/rules.py [LIMIT]

Each assignment of the clauses that `export` writes is a rule, so the assignments are counted, by a plain search with unit propagation.
It is for small studies, stops at LIMIT rules (1000 where none is given), and nothing of it is proved. Where `export` refuses the study, its
line is passed on.
"""
import sys


class Clauses:
    def __init__(self, lines):
        self.clauses, self.variables = [], None
        for line in lines:
            if line.startswith("p cnf"):
                self.variables = int(line.split()[2])
            elif self.variables is None and not line.startswith("c "):
                sys.exit(line.strip())
            elif not line.startswith("c"):
                self.clauses.append([int(word) for word in line.split()[:-1]])
        if self.variables is None:
            sys.exit("rules: no clauses")
        self.having = {}
        for clause in self.clauses:
            for literal in clause:
                self.having.setdefault(literal, []).append(clause)
        self.true = set()

    def closed(self, literals, trail):
        """Makes the literals true, and all that follows by unit propagation; whether no clause is then false."""
        literals = list(literals)
        while literals:
            literal = literals.pop()
            if -literal in self.true:
                return False
            if literal in self.true:
                continue
            self.true.add(literal)
            trail.append(literal)
            for clause in self.having.get(-literal, []):
                if not self.true.isdisjoint(clause):
                    continue
                left = [other for other in clause if -other not in self.true]
                if not left:
                    return False
                if len(left) == 1:
                    literals.append(left[0])
        return True

    def count(self, limit):
        """The number of assignments, or the limit where there are as many or more."""
        if any(not clause for clause in self.clauses):
            return 0
        units = [clause[0] for clause in self.clauses if len(clause) == 1]
        found, open_cases = 0, [([], units)]
        while open_cases and found < limit:
            kept, literals = open_cases.pop()
            self.true = set(kept)
            trail = list(kept)
            if not self.closed(literals, trail):
                continue
            free = next((v for v in range(1, self.variables + 1) if v not in self.true and -v not in self.true), None)
            if free is None:
                found += 1
            else:
                open_cases += [(trail, [free]), (trail, [-free])]
        return found


limit = int(sys.argv[1]) if len(sys.argv) > 1 else 1000
found = Clauses(sys.stdin).count(limit)
print(f"{found} rule{'' if found == 1 else 's'}{' or more' if found == limit else ''}")
