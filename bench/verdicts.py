#!/usr/bin/env python3
"""How long verdicts on obligations take: in proportion to their own queries, or to the arena of all trees.

    bench/verdicts.py PROGRAM [RUNS]     PROGRAM is the built program obligation_tests, RUNS how often each is run (3); the least time counts

The design is t of its tests within 5 to 11 bodies, which owes 36 to 2,388 obligations. Each run makes the obligations, and then decides none, the first half of them or all.
MiniSat is asked about the same clauses, if it is there.
"""

import pathlib
import re
import resource
import shutil
import subprocess
import sys
import tempfile

TOP = pathlib.Path(__file__).resolve().parent.parent
DESIGN = TOP / "crates" / "obligation_tests" / "data" / "t.ccn"
CONFLICTS = 20_000
ROUNDS = 64


def ran(program, folder, question):
    """The answer to a question, and the processor's seconds."""
    pathlib.Path(folder, "one.cases").write_text(f'ask verdicts\ndesign "t.ccn"\n  | {question}\n')
    before = resource.getrusage(resource.RUSAGE_CHILDREN).ru_utime
    out = subprocess.run([program, "one.cases"], cwd=folder, capture_output=True, text=True).stdout
    seconds = resource.getrusage(resource.RUSAGE_CHILDREN).ru_utime - before
    found = re.search(r"^    found  (.*)$", out, re.M)
    return found[1] if found else "", seconds


def least(program, folder, question, runs):
    answers = [ran(program, folder, question) for _ in range(runs)]
    return answers[0][0], min(seconds for _, seconds in answers)


def minisat(program, folder, count):
    """The seconds of MiniSat for each obligation's clauses, one process for each, and of our verdicts on them."""
    total = 0
    for at in range(count):
        text, _ = ran(program, folder, f"list {at}")
        head, rest = re.match(r"(p cnf \d+ \d+) (.*)", text).groups()
        pathlib.Path(folder, "one.cnf").write_text(head + "\n" + re.sub(r" 0(?= |$)", " 0\n", rest))
        before = resource.getrusage(resource.RUSAGE_CHILDREN).ru_utime
        said = subprocess.run(["minisat", "-verb=0", "-no-pre", "one.cnf"], cwd=folder, capture_output=True, text=True).stdout
        total += resource.getrusage(resource.RUSAGE_CHILDREN).ru_utime - before
        if "UNSATISFIABLE" not in said:
            sys.exit(f"MiniSat on obligation {at}: {said}")
    return total


def main(program, runs):
    program = pathlib.Path(program).resolve()
    with tempfile.TemporaryDirectory() as folder:
        print("| Within | Obligations | Made | Half decided | All decided | All against half | A thousand |\n|---|---|---|---|---|---|---|")
        for within in (5, 7, 9, 10, 11):
            pathlib.Path(folder, "t.ccn").write_text(DESIGN.read_text().replace("within 5", f"within {within}"))
            count, made = least(program, folder, "owed", runs)
            half_said, half = least(program, folder, f"verdicts {int(count) // 2} {CONFLICTS} {ROUNDS}", runs)
            said, whole = least(program, folder, f"verdicts {count} {CONFLICTS} {ROUNDS}", runs)
            if said != f"{count} hold, 0 fail, 0 others":
                print(said)
            half, whole = half - made, whole - made
            print(f"| {within} | {int(count):,} | {made:.2f} s | {half:.2f} s | {whole:.2f} s | {whole / half:.2f} | {whole / int(count) * 1000:.2f} s |", flush=True)
        if shutil.which("minisat"):
            pathlib.Path(folder, "t.ccn").write_text(DESIGN.read_text())
            print(f"MiniSat on the clauses of the 36 obligations within 5: {minisat(program, folder, 36):.2f} s")


main(sys.argv[1], int(sys.argv[2]) if len(sys.argv) > 2 else 3)
