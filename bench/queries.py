#!/usr/bin/env python3
"""Queries of obligations by an independent reading of the language, in cases of obligation_tests.

    bench/queries.py READING [FILE..]              prints a file of cases, with what the reading wants of each whose answer it has
    bench/queries.py READING lists PROGRAM DESIGN  compares the clauses of every obligation of a design, one by one
    bench/queries.py READING log DESIGN NUMBER [INSTANCE..]   prints a log that refutes the query, as cases write it

READING is the folder of the reading, which shares nothing with this repository but the language. docs/CASES.md says what the cases ask.
"""

import pathlib
import re
import shutil
import subprocess
import sys
import tempfile

TOP = pathlib.Path(__file__).resolve().parent.parent
DATA = TOP / "crates" / "obligation_tests" / "data"


def expanded(text):
    """The text, with a file of the data or a piece so many times for each part in quotes."""
    out = []
    for index, part in enumerate(text.replace("\\n", "\n").split('"')):
        if index % 2 == 0:
            out.append(part)
        elif " " in part:
            count, piece = part.split(" ", 1)
            out.extend(piece.replace("#", str(at)) for at in range(int(count)))
        else:
            out.append((DATA / part).read_text())
    return "".join(out)


class Asked:
    """The obligations of a design."""

    def __init__(self, text):
        self.checked = load.view_of(load.checked_design(load.parse_design(text.encode())))
        self.terms = Terms()
        every = obligations.all_obligations(self.checked, self.terms)
        self.all = [o for o in every if o.kind in ("Contained", "Bounded")]

    def clauses(self, number, instances):
        goal, _ = query_of(self.checked, self.all[number], instances, self.terms)
        return blast(self.terms, goal, None)[0]


def instance(word):
    number, values = word.split(":")
    return int(number), [int(value) for value in values.split(",") if value]


def listed(cnf):
    """Clauses as DIMACS writes them, with blanks between them."""
    parts = [f"p cnf {cnf.vars} {len(cnf.clauses)}"]
    parts += [" ".join(map(str, [*clause, 0])) for clause in cnf.clauses]
    return " ".join(parts)


def digest(text):
    value = 0xCBF29CE484222325
    for byte in text.encode():
        value = (value ^ byte) * 0x100000001B3 % 2**64
    return value


def application(terms, term):
    """An application as `FUNCTION(ARGUMENTS)`."""
    node = terms.nodes[term]
    words = []
    for arg in terms.args(term):
        part = terms.nodes[arg]
        words.append(f"x{terms.input_id(arg)}" if part[0] == "input" else f"{part[1]}w{part[2]}" if part[0] == "const" else ".")
    return f"{node[1]}({' '.join(words)})"


def shown(asked, number):
    """How many instances an obligation takes, and what they apply functions to."""
    terms, one = asked.terms, asked.all[number]
    made = instances.pattern_instances(asked.checked, one.level, one.formula, terms)
    out = [str(len(made))]
    for place, instance in enumerate(made):
        if place < 8 or place + 1 == len(made):
            found = [t for t in terms.walk(instance) if terms.nodes[t][0] == "apply"]
            out.append("".join(" " + application(terms, t) for t in found))
    return ";".join(out)


def verdict(asked, number, rounds):
    """What the reading says of an obligation in so many rounds."""
    said = decide.decide(asked.checked, asked.terms, asked.all[number], rounds)
    if said[0] == "fails":
        return {"Refuted": "refuted", "Over": "over"}[said[1].kind]
    return {"holds": "holds", "rounds": "satisfied"}[said[0]] if said[0] != "big" else f"large with {said[1]} clauses"


def steps_of(text):
    return [([int(n) for n in lits.split()], [int(n) for n in hints.split()]) for lits, hints in (step.split(":") for step in text.split(";") if step.strip())]


def wanted(asked, question, old):
    """What the reading wants of a question; what stands there, where it has no answer."""
    word, *rest = expanded(question).split(None, 2)
    if word == "owed":
        return str(len(asked.all))
    if word == "every":
        return f"{len(asked.all)} {digest(' '.join(listed(asked.clauses(at, [])) for at in range(len(asked.all))))}"
    number = int(rest[0])
    words, _, steps = (rest[1] if len(rest) > 1 else "").partition("/")
    if word == "verdicts":
        return old
    if number >= len(asked.all):
        return "no obligation"
    if word == "instances":
        return shown(asked, number)
    if word == "decide":
        return old if old.startswith("spent") else verdict(asked, number, int(rest[1].split()[1]) if " " in rest[1] else 0)
    given = [instance(word) for word in words.split()]
    if not all(instances.fits(asked.checked, asked.all[number].level, *one) for one in given):
        return "false" if word == "recheck" else "no fit"
    goal = query_of(asked.checked, asked.all[number], given, asked.terms)[0]
    count = clauses.count(asked.terms, goal)[1]
    if count > clauses.MAX_CLAUSES:
        return f"large with {count} clauses"
    cnf = asked.clauses(number, given)
    if word == "recheck":
        return "false" if logcheck.derives(cnf, steps_of(steps)) else "true"
    text = listed(cnf)
    return text if word == "list" else f"{cnf.vars} {len(cnf.clauses)} {digest(text)}"


def cases(file):
    """The file of cases, with what the reading wants."""
    asked = None
    for line in file.read_text().splitlines():
        if line.startswith("design "):
            asked = Asked(expanded(line.split(" ", 1)[1]))
        elif line.startswith("  "):
            old, question = line.split("|", 1)
            line = f"  {wanted(asked, question.strip(), old.strip())} | {question.strip()}"
        yield line


def lists(program, design):
    """Compares the clauses of each obligation with those of the program, one by one."""
    asked = Asked(pathlib.Path(design).read_text())
    with tempfile.TemporaryDirectory() as folder:
        shutil.copy(design, f"{folder}/design.ccn")
        questions = [f"  | list {at}" for at in range(len(asked.all))]
        pathlib.Path(folder, "all.cases").write_text("\n".join(['ask verdicts', 'design "design.ccn"', *questions, ""]))
        ran = subprocess.run([pathlib.Path(program).resolve(), "all.cases"], cwd=folder, capture_output=True, text=True)
    found = [line.removeprefix("    found  ") for line in ran.stdout.splitlines() if line.startswith("    found  ")]
    total = 0
    for number, text in enumerate(found):
        ours = [clause.split() for clause in re.split(r"(?<= )0(?: |$)", text.split(" ", 4)[4])]
        cnf = asked.clauses(number, [])
        theirs = [list(map(str, clause)) for clause in cnf.clauses] + [[]]
        if text.split(" ", 4)[:4] != ["p", "cnf", str(cnf.vars), str(len(cnf.clauses))] or ours != theirs:
            at = next((at for at, pair in enumerate(zip(ours, theirs)) if pair[0] != pair[1]), "the head")
            sys.exit(f"obligation {number}: other clauses, from {at} on")
        total += len(cnf.clauses)
    if len(found) != len(asked.all):
        sys.exit(f"{len(found)} lists of {len(asked.all)} obligations")
    print(f"{len(found)} obligations, {total} clauses alike")


def log(design, number, words):
    """A log by the reading's own search, for the instances, whether or not they fit."""
    asked = Asked(pathlib.Path(design).read_text())
    kind, steps = satsolve.cdcl(asked.clauses(int(number), [instance(word) for word in words]), 1000000)
    if kind != "unsat":
        sys.exit(f"no log: {kind}")
    print("\n".join(" ".join([*map(str, clause), ":", *map(str, hints)]) + ";" for clause, hints in steps))


def main(folder, words):
    global blast, clauses, decide, instances, load, logcheck, obligations, query_of, satsolve, Terms
    sys.path.insert(0, folder)
    sys.setrecursionlimit(100000)
    import clauses
    import decide
    import instances
    import load
    import logcheck
    import obligations
    import satsolve
    from clauses import blast
    from instances import query_of
    from terms import Terms

    if words[:1] == ["lists"]:
        return lists(*words[1:])
    if words[:1] == ["log"]:
        return log(words[1], words[2], words[3:])
    for name in words or ["patterns.cases"]:
        for line in cases(DATA / name):
            print(line)


main(sys.argv[1], sys.argv[2:])
