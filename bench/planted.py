#!/usr/bin/env python3
"""Tries bugs that are planted by hand: the prover has to refuse each, by the contracts of the crate that it stands in.

    bench/planted.py [CRATE..]     tries the edits of bench/planted/CRATE, of these crates or of all that have some

They have the form of the edits in crates/CRATE/must-fail, which the gate tries, and stand here since each costs the gate some fifteen
seconds. They are tried in a copy of the repository, by `rt ci CRATE..` with these edits in place of the gate's own; a kit that keeps what
it proved then proves only what has changed. It prints what `rt ci` prints of edits, and ends with its status.
"""

import pathlib
import shutil
import subprocess
import sys
import tempfile

TOP = pathlib.Path(__file__).resolve().parent.parent
PLANTED = TOP / "bench" / "planted"


def copied(room, names):
    """Makes a copy of the repository whose crates, those of these names, have the planted edits, and no others."""
    for file in ("crates.txt", "HANDLES"):
        shutil.copy(TOP / file, room)
    shutil.copytree(TOP / "crates", room / "crates", ignore=shutil.ignore_patterns("out", "must-fail"))
    for name in names:
        shutil.copytree(PLANTED / name, room / "crates" / name / "must-fail")


def main(names):
    known = sorted(path.name for path in PLANTED.iterdir())
    unknown = [name for name in names if name not in known]
    if unknown:
        sys.exit(f"planted.py: no bugs are planted in {', '.join(unknown)}")
    names = names or known
    with tempfile.TemporaryDirectory() as folder:
        room = pathlib.Path(folder)
        copied(room, names)
        with subprocess.Popen(["rt", "ci", *names], cwd=room, stdin=subprocess.DEVNULL, stdout=subprocess.PIPE, text=True) as gate:
            for line in gate.stdout:
                if any(word in line for word in (".edit", "REFUSED", "refused", "passed,", "NOT ", "BAD")):
                    print(line, end="", flush=True)
        return gate.returncode


if __name__ == "__main__":
    sys.exit(main(sys.argv[1:]))
