#!/usr/bin/env python3
"""Judges what the built program says of assumptions and of obligations that are not shown, by an independent reading of the language.

    bench/assumed.py VERIFIER [FILE.cases ..]

runs the cases of files of crates/command_tests/data (assumptions.cases and refinements.cases, if none is named) in folders of their own, and hands each report with
status 4 of an assumption, and each file of a spent budget, to the program VERIFIER, which is no part of this repository: it is called as
`VERIFIER output DESIGN REPORT [DEFS] [--budget FILE --number N]`, and ends with 0 if the report is right. Cases in which a call fails are tried without that.
It needs the built program (`rt run` in crates/cocoon); or COCOON names one.
"""

import os
import pathlib
import re
import subprocess
import sys
import tempfile

TOP = pathlib.Path(__file__).resolve().parent.parent
DATA = TOP / "crates" / "command_tests" / "data"
PROGRAM = os.environ.get("COCOON", TOP / "crates" / "cocoon" / "out" / "cocoon")
ESCAPES = {"n": "\n", "r": "\r", "t": "\t", "0": "\0"}
FIELD = re.compile(r'"((?:[^"\\]|\\.)*)"|(\S+)')


def fields(line):
    """The fields of a line."""
    unescape = lambda text: re.sub(r"\\(.)", lambda found: ESCAPES.get(found[1], found[1]), text)
    return [unescape(found[1]) if found[2] is None else found[2] for found in FIELD.finditer(line)]


def cases(path):
    """The cases of a file: a name, and its lines with those of all cases before them."""
    shared, found = [], []
    for line in path.read_text().splitlines():
        if line.startswith("case "):
            found.append((line[5:], list(shared)))
        elif line and not line.startswith("#"):
            (found[-1][1] if found else shared).append(fields(line))
    return found


def prepare(lines, folder):
    """Writes the files of a case; what is wanted of the call."""
    texts, wanted = {}, {}
    for word, *rest in lines:
        if word == "file":
            texts[rest[0]] = (DATA / rest[1]).read_text()
        elif word == "text":
            texts[rest[0]] = rest[1]
        elif word == "edit":
            texts[rest[0]] = texts[rest[0]].replace(rest[1], rest[2], 1)
        elif word == "repeat":
            name, old, new, count, first = [*rest, "0"][:5]
            made = "".join(new.replace("#", str(n)) for n in range(int(first), int(first) + int(count)))
            texts[name] = texts[name].replace(old, made, 1)
        else:
            wanted[word] = rest
    for name, text in texts.items():
        (folder / name).parent.mkdir(parents=True, exist_ok=True)
        (folder / name).write_text(text)
    return wanted


def judged(verifier, folder, words, printed):
    """What the verifier says of a report on an assumption."""
    (folder / "report.txt").write_bytes(printed)
    names = [word for word in words[2:] if not word.startswith("--") and not word.isdigit()]
    asked = ["output", names[0], "report.txt", *names[1:2]]
    if printed.startswith(b"budget"):
        asked += ["--budget", names[0] + ".budget.json", "--number", printed.split()[2].decode()]
    ran = subprocess.run([sys.executable, verifier, *asked], cwd=folder, capture_output=True)
    return ran.returncode == 0, (ran.stdout + ran.stderr).decode().strip().splitlines()[-1:]


def main(verifier, *files):
    good = bad = 0
    for path in map(pathlib.Path, files or [DATA / "assumptions.cases", DATA / "refinements.cases"]):
        for name, lines in cases(path):
            with tempfile.TemporaryDirectory() as made:
                folder = pathlib.Path(made)
                wanted = prepare(lines, folder)
                words = wanted["words"]
                ran = subprocess.run([PROGRAM, *words[1:]], cwd=folder, capture_output=True)
                told = f"{ran.returncode} {ran.stdout[:60]!r}"
                if not ran.stdout.startswith((b"broken assumption", b"budget")):
                    print(f"    {name}: {told}")
                    continue
                right, why = judged(str(pathlib.Path(verifier).resolve()), folder, words, ran.stdout)
                good, bad = good + right, bad + (not right)
                print(f"{'ok ' if right else 'BAD'} {name}: {told} {' '.join(why)}")
    print(f"{good} judged right, {bad} wrong")
    return 1 if bad else 0


if __name__ == "__main__":
    if len(sys.argv) < 2:
        sys.exit(__doc__)
    sys.exit(main(*sys.argv[1:]))
