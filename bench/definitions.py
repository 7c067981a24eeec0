#!/usr/bin/env python3
"""How long definitions take: binding 4 MiB of rows and 8,192 rows of eight numbers, and looking 100,000 numbers up; and half of each.

    bench/definitions.py [RUNS]     runs the built program on each so often (5), and prints the least wall times

It needs the program of crates/design_tests: `rt run` there builds it. Each run reads both texts, too.
"""

import os
import pathlib
import subprocess
import sys
import tempfile
import time

TOP = pathlib.Path(__file__).resolve().parent.parent
DESIGN = """packet { header e { x: bit<8>; } }
function h(a: bit<16>): bool;
function g(s: bit<16>): bool;
function f(a: bit<16>): bool;
function wide(a: bit<64>, b: bit<64>, c: bit<64>, d: bit<64>, e: bit<64>, k: bit<64>, i: bit<64>, j: bit<64>): bool;
role Out[a: bit<16>] | h(a) = { send SwIn[16w1, a]; }
role In[a: bit<16>] | h(a);
host (Out, In);
role SwIn[s: bit<16>, p: bit<16>] | g(s) and p < 16w4 = { send SwOut[s, 16w1]; }
role SwOut[s: bit<16>, p: bit<16>] | g(s) and p < 16w4 = { send In[p]; }
switch (SwIn, SwOut) ports 4;
"""
DEFAULTS = "default h = false;\ndefault g = false;\ndefault f = false;\ndefault wide = false;\n"


def short_rows(count):
    """Rows of one number of 16 bits: 180,000 of them have 4 MiB."""
    return DEFAULTS + "".join(f"define f(16w{number % 10}) = true;\n" for number in range(count))


def wide_rows(count):
    """Rows of eight numbers of 64 bits, of which the first matches nothing that is looked up but its own number."""
    return DEFAULTS + "".join(f"define wide({', '.join([f'64w{number}'] + ['64w18446744073709551615'] * 7)}) = true;\n" for number in range(count))


# What is timed, the definitions of the whole and of its half, and how many numbers are looked up in each.
TIMED = [
    ("180,000 rows, over the limit", short_rows, (180_000, 90_000), (0, 0)),
    ("8,192 rows of eight numbers of 64 bits", wide_rows, (8192, 4096), (0, 0)),
    ("the same 8,192 rows, and 100,000 look-ups", wide_rows, (8192, 8192), (100_000, 50_000)),
]


def least(program, folder, text, looks, runs):
    """The least wall time of some runs in seconds, and the line that the program prints."""
    (folder / "d.defs").write_text(text)
    best = None
    for _ in range(runs):
        start = time.perf_counter()
        ended = subprocess.run([program, "time", "d.ccn", "d.defs", "wide", str(looks)], cwd=folder, stdout=subprocess.PIPE)
        taken = time.perf_counter() - start
        best = taken if best is None else min(best, taken)
    return best, ended.stdout.decode().strip()


def main():
    runs = int(sys.argv[1]) if len(sys.argv) > 1 else 5
    program = os.environ.get("DESIGN_TESTS") or TOP / "crates" / "design_tests" / "out" / "design_tests"
    if not os.access(program, os.X_OK):
        sys.exit("definitions.py: build the program first: `rt run` in crates/design_tests")
    print("| Definitions | Bytes | Whole | Half | Ratio | Printed |\n|---|---|---|---|---|---|")
    with tempfile.TemporaryDirectory() as name:
        folder = pathlib.Path(name)
        (folder / "d.ccn").write_text(DESIGN)
        for what, make, (rows, fewer), (looks, looks_fewer) in TIMED:
            text = make(rows)
            whole, line = least(program, folder, text, looks, runs)
            half, _ = least(program, folder, make(fewer), looks_fewer, runs)
            print(f"| {what} | {len(text):,} | {whole * 1000:.0f} ms | {half * 1000:.0f} ms | {whole / half:.2f} | `{line}` |")


if __name__ == "__main__":
    main()
