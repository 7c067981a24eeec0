#!/usr/bin/env python3
"""Two compiles at once on one bundle, again and again: what `forward` reads afterwards. The gate does this 20 times.

    bench/races.py [ROUNDS [PROGRAM]]     500 rounds, of the shipped program
"""

import pathlib
import sys
import tempfile

TOP = pathlib.Path(__file__).resolve().parent.parent
sys.path.insert(0, str(TOP / ".ci"))
sys.dont_write_bytecode = True

import program  # noqa: E402 (it stands beside the gate)


def main(words):
    rounds = int(words[0]) if words else 500
    tried = pathlib.Path(words[1] if len(words) > 1 else TOP / "dist" / "cocoon").resolve()
    with tempfile.TemporaryDirectory(prefix="cocoon-races-") as folder:
        counts = program.try_races(program.Room(pathlib.Path(folder), tried), rounds)
    print(*(f"{kind} {count}" for kind, count in counts.items()))
    print("\n".join(program.WRONG))
    return 1 if program.WRONG else 0


if __name__ == "__main__":
    sys.exit(main(sys.argv[1:]))
