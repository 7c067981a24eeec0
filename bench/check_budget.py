#!/usr/bin/env python3
"""Checks the log of a spent budget.

    check_budget.py CLAUSES BUDGET CONFLICTS

CLAUSES is a file in DIMACS form, and BUDGET one as "Spent budgets" in docs/FORMATS.md has it. Prints whether its log is licensed for so many steps, by the
rules of "Logs" there: it has exactly so many, each is derived, none is empty, and none has all literals of a clause before it.
"""

import json
import sys


def clauses_of(name):
    """The number of variables, and the clauses."""
    variables, clauses = 0, []
    for line in open(name):
        words = line.split()
        if words[:1] == ["p"]:
            variables = int(words[2])
        elif words and words[0] != "c":
            clauses.append(tuple(int(word) for word in words[:-1]))
    return variables, clauses


def derives(clauses, clause, hints):
    """Whether the hints lead to the conflict where all literals of the clause are false."""
    true = {-literal for literal in clause}
    for place, hint in enumerate(hints):
        if not 0 <= hint < len(clauses):
            return False
        left = {literal for literal in clauses[hint] if -literal not in true}
        if not left:
            return place == len(hints) - 1
        if len(left) > 1 or left & true:
            return False
        true |= left
    return False


def fault_of(variables, clauses, log, count):
    """What is wrong with the log, or nothing."""
    if len(log) != count:
        return f"{len(log)} steps"
    for index, (clause, hints) in enumerate(log):
        names = [abs(literal) for literal in clause]
        if not clause or len(set(names)) != len(names) or not all(1 <= name <= variables for name in names):
            return f"step {index} has a clause that none may have"
        if not derives(clauses, clause, hints):
            return f"step {index} is not derived"
        if any(set(other) <= set(clause) for other in clauses):
            return f"step {index} is not new"
        clauses.append(tuple(clause))
    return None


def main(words):
    if len(words) != 3:
        sys.exit(__doc__)
    variables, clauses = clauses_of(words[0])
    fault = fault_of(variables, clauses, json.load(open(words[1]))["log"], int(words[2]))
    print(fault or "licensed")
    return 1 if fault else 0


if __name__ == "__main__":
    sys.exit(main(sys.argv[1:]))
