#!/usr/bin/env python3
"""Ships the program that a passed gate left in crates/cocoon/out: dist/cocoon, and dist/cocoon.txt with what it was built from.

    bench/ship.py            makes both anew; commit them
    bench/ship.py record     notes that the program that `rt ci` left was built from the sources as they are
    bench/ship.py compare    compares the program that `rt ci` left with the one that is shipped

The gate, `.ci/run`, does the last two. The comparison fails if the shipped program is not the one of its record, and if it differs from the
one that was just built, where sources, kit and machine are those of the record. Where one of these is another it says so.
"""

import hashlib
import os
import pathlib
import subprocess
import sys
import tempfile

sys.dont_write_bytecode = True
sys.path.insert(0, str(pathlib.Path(__file__).resolve().parent.parent / "dist"))
import build  # noqa: E402

SHIPPED = build.TOP / "dist" / "cocoon"
RECORD = SHIPPED.with_name("cocoon.txt")
HAS_TO_BE_MADE = "`bench/ship.py` after a passed gate makes it anew"


def is_of_these_sources(program):
    """Whether a program is that of its record, and built from the sources as they are; or, without a record, made after their last change."""
    record, wanted = build.read_record(build.RECORD), build.record_of(program)
    if record.get("program") == wanted["program"]:
        return record == wanted
    files = [path for part in ("src", "specs", "proofs") for path in (build.TOP / "crates").glob(f"*/{part}/**/*.*")]
    return all(path.stat().st_ctime <= program.stat().st_mtime for path in [build.TOP / "crates.txt", build.TOP / "HANDLES", *files])


def runs_first_example(program):
    """Whether the program does what the gate's run of it has to do."""
    crate = build.TOP / "crates" / "cocoon"
    with tempfile.TemporaryDirectory() as room:
        for path in (crate / "data").iterdir():
            pathlib.Path(room, path.name).write_bytes(path.read_bytes())
        ran = subprocess.run([program, *(crate / "args").read_text().split()], cwd=room, stdin=subprocess.DEVNULL, stdout=subprocess.PIPE)
    return ran.returncode == 0 and ran.stdout == (crate / "stdout").read_bytes()


def ship():
    if not os.access(build.PROGRAM, os.X_OK):
        return f"there is no {build.PROGRAM.relative_to(build.TOP)}: run the gate first"
    if not is_of_these_sources(build.PROGRAM):
        return "the program that the gate left was built from other sources: run the gate first"
    if not runs_first_example(build.PROGRAM):
        return "the program that the gate left does not do the first example"
    build.place(build.PROGRAM, SHIPPED, {**build.record_of(build.PROGRAM), "kit": build.printed("rt", "version")})
    print(f"ship: dist/cocoon has {SHIPPED.stat().st_size:,} bytes\n{RECORD.read_text()}", end="")
    return None


def record():
    build.place_record(build.PROGRAM, build.record_of(build.PROGRAM))


def first_difference(one, other):
    return next((i for i, (a, b) in enumerate(zip(one, other)) if a != b), min(len(one), len(other)))


def compare():
    shipped, built = SHIPPED.read_bytes() if os.access(SHIPPED, os.X_OK) else b"", build.PROGRAM.read_bytes()
    said, now = build.read_record(RECORD), {**build.record_of(build.PROGRAM), "kit": build.printed("rt", "version")}
    if hashlib.sha256(shipped).hexdigest() != said.get("program"):
        return f"dist/cocoon is not the program of its record, dist/cocoon.txt; {HAS_TO_BE_MADE}"
    others = [f"{word} {said.get(word)} and not {now[word]}" for word in ("machine", "kit") if said.get(word) != now[word]]
    if said.get("sources") != now["sources"]:
        print(f"ship: the shipped program is of other sources than those just proved, so it is not compared; {HAS_TO_BE_MADE}")
    elif others:
        print(f"ship: the shipped program is of {', '.join(others)}, so it is not compared")
    elif shipped != built:
        return f"dist/cocoon is not what was just proved and built of the same sources: they differ first at byte {first_difference(shipped, built) + 1}"
    else:
        print("ship: the shipped program is the one that was just proved and built, byte for byte")
    return None


COMMANDS = {(): ship, ("record",): record, ("compare",): compare}

if __name__ == "__main__":
    if tuple(sys.argv[1:]) not in COMMANDS:
        sys.exit(__doc__)
    wrong = COMMANDS[tuple(sys.argv[1:])]()
    sys.exit(f"ship: {wrong}" if wrong else 0)
