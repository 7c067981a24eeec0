#!/usr/bin/env python3
"""How long it takes to read and load the program of one switch with as many tables as 4 MiB hold, and with half as many.

    bench/loading.py [RUNS]     runs `cocoon forward` without packets on both so often (3), and prints the least wall times

It needs the program of crates/cocoon: `rt run` there builds it; or COCOON names one. No design lowers to so many tables, but a bundle may have
them. Each table is given a row and is applied once, so each is looked up by its number for its rows, for the tests of loading, and where it is
applied. All files are in memory where the machine has a folder for that.
"""

import hashlib
import json
import os
import pathlib
import subprocess
import sys
import tempfile
import time

TOP = pathlib.Path(__file__).resolve().parent.parent
DATA = TOP / "crates" / "command_tests" / "data"
MOST = 4 << 20
FIELDS = "  bit<8> k#_0;\n  bit<8> r#;\n"
TABLE = """  action a#(bit<8> v) { m.r# = v; }
  table t# {
    key = { m.k#_0 : ternary; }
    actions = { a#; }
    default_action = a#(8w0);
  }
"""
APPLIED = "    m.k#_0 = h.h_e.f_tag;\n    t#.apply();\n    h.h_e.f_tag = m.r#;\n"


def repeated(text, count):
    return "".join(text.replace("#", str(number)) for number in range(count))


def program_of(tables):
    """A program with so many tables in ingress, each applied after the one before."""
    frame = (DATA / "frame.s1.p4").read_text()
    for mark, text in (("<META>", FIELDS), ("<TABLES>", TABLE), ("<INGRESS>", APPLIED)):
        frame = frame.replace(mark, repeated(text, tables))
    return frame.replace("<TABLES OF COPIES>", "").replace("<COPIES>", "")


def most_tables():
    """How many tables a program of at most 4 MiB has."""
    fits, many = 0, MOST // len(TABLE)
    while fits + 1 < many:
        middle = (fits + many) // 2
        fits, many = (middle, many) if len(program_of(middle)) <= MOST else (fits, middle)
    return fits


def write_bundle(folder, tables):
    rows = [{"default": 1, "rows": [{"key": [[7, 255]], "value": 2}], "table": number} for number in range(tables)]
    files = {"s1.p4": program_of(tables), "s1.rows.json": json.dumps({"groups": [], "tables": rows}, separators=(",", ":"))}
    kept = [[name, hashlib.sha256(text.encode()).hexdigest()] for name, text in files.items()]
    wires = {"hosts": [[0, 1, 0]], "links": [[1, 0, "host", 0]], "ports": 1, "switches": [1]}
    net = {"cocoon": 1, "design": hashlib.sha256(b"").hexdigest(), "files": kept, **wires}
    for name, text in (*files.items(), ("net.json", json.dumps(net, separators=(",", ":")))):
        (folder / f"out.{name}").write_text(text)
    (folder / "packets").write_text("")


def one_run(program, folder):
    start = time.perf_counter()
    done = subprocess.run([program, "forward", "out", "packets"], cwd=folder, stdout=subprocess.PIPE, check=False)
    if done.returncode != 0:
        sys.exit(f"loading.py: forward ended with status {done.returncode} and printed {done.stdout!r}")
    return time.perf_counter() - start


def main():
    program = os.environ.get("COCOON") or TOP / "crates" / "cocoon" / "out" / "cocoon"
    if not os.access(program, os.X_OK):
        sys.exit("loading.py: build the program first: `rt run` in crates/cocoon")
    runs = int(sys.argv[1]) if len(sys.argv) > 1 else 3
    memory_folder = "/dev/shm" if os.access("/dev/shm", os.W_OK) else None
    most = most_tables()
    print("| Tables | Time |\n|---|---|")
    for tables in (0, most // 2, most):
        with tempfile.TemporaryDirectory(dir=memory_folder) as name:
            folder = pathlib.Path(name)
            write_bundle(folder, tables)
            print(f"| {tables:,} | {min(one_run(program, folder) for _ in range(runs)):.2f} s |", flush=True)


if __name__ == "__main__":
    main()
