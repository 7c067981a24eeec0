#!/usr/bin/env python3
"""How long the rules of large and hostile designs take: texts of 1 MiB, and of half of it.

    bench/rules.py [RUNS]     runs the built program on each text so often (5), and prints the least wall times

It needs the program of crates/cocoon: `rt run` there builds it; or COCOON names one. Each text reads, so the
time has all of its rules in it; most of these designs are over a limit, which is tested last.
"""

import os
import pathlib
import subprocess
import sys
import tempfile
import time

TOP = pathlib.Path(__file__).resolve().parent.parent
WHOLE = 1 << 20
HEAD = """packet { header e { tag: bit<8>; } }
function h(a: bit<16>): bool;
function g(s: bit<16>): bool;
"""
ROLES = """role Out[a: bit<16>] | h(a) = { send SwIn[16w1, a]; }
role In[a: bit<16>] | h(a);
host (Out, In);
"""
INGRESS = "role SwIn[s: bit<16>, p: bit<16>] | g(s) and p < 16w4 = {\n"
EGRESS = "role SwOut[s: bit<16>, p: bit<16>] | g(s) and p < 16w4 = { send In[p]; }\n"
SWITCH = "switch (SwIn, SwOut) ports 4;\n"
SENDS = "send SwOut[s, 16w1];\n}\n"


def filled(before, part, after, size):
    """A text of at most so many bytes: as many numbered parts as fit between two pieces."""
    parts, room, number = [], size - len(before) - len(after), 0
    while True:
        text = part(number)
        room -= len(text)
        if room < 0:
            return before + "".join(parts) + after
        parts.append(text)
        number += 1


def level(part, size):
    """The parts are declarations of level 0."""
    return filled(HEAD, part, ROLES + INGRESS + SENDS + EGRESS + SWITCH, size)


def body(part, size):
    """The parts are statements of the body of the first switch role."""
    return filled(HEAD + ROLES + INGRESS, part, SENDS + EGRESS + SWITCH, size)


def functions(size):
    return level(lambda n: f"function f{n}(a: bit<16>): bit<16> = " + (f"f{n - 1}(a) + a;\n" if n else "a;\n"), size)


def calls_twice(size):
    return level(lambda n: f"function f{n}(a: bit<16>): bit<16> = " + (f"f{n - 1}(f{n - 1}(a) + f{n - 1}(a));\n" if n else "a;\n"), size)


def long_names(size):
    front = "n" * 200
    return level(lambda n: f"function {front}{n}(a: bit<16>): bool;\n", size)


def short_names(size):
    return level(lambda n: f"function {chr(97 + n % 26)}{n}(a: bit<8>): bool;\n", size)


def roles(size):
    return level(lambda n: f"role R{n}[a: bit<16>] | h(a) = {{ if (h(a)) {{ send In[a]; }} }}\n", size)


def statements(size):
    return body(lambda n: f"let x{n}: bit<16> = s + p;\nfilter g(x{n}) and pkt.e.tag == 8w1;\n", size)


def branches(size):
    return body(lambda n: "if (pkt.e.tag == 8w9) { pkt.e.tag = 8w0; }\n", size)


def block(size):
    after = "role Out[a: bit<16>] | h(a) = { send SwIn[16w1, a]; }\n" + INGRESS + SENDS + EGRESS + SWITCH + "}\n"
    start = HEAD + "role Out[a: bit<16>] | h(a) = { send In[a]; }\nrole In[a: bit<16>] | h(a);\nhost (Out, In);\nrefine Out within 3 {\n"
    return filled(start, lambda n: f"function f{n}(a: bit<16>): bool;\nassume (a: bit<16>) f{n}(a) => h(a);\n", after, size)


def refined(size):
    """A body of level 0 that a block refines, with as many ways as branches double."""
    before = HEAD + "role Out[a: bit<16>] | h(a) = {\nhavoc pkt.e.tag;\n"
    after = "send In[a];\n}\nrole In[a: bit<16>] | h(a);\nhost (Out, In);\nrefine Out within 3 {\nrole Out[a: bit<16>] | h(a) = { send SwIn[16w1, a]; }\n"
    return filled(before, lambda n: "if (h(a)) { filter g(a); }\n", after + INGRESS + SENDS + EGRESS + SWITCH + "}\n", size)


TEXTS = [functions, calls_twice, long_names, short_names, roles, statements, branches, block, refined]


def least(program, folder, text, runs):
    """The least wall time of some runs in seconds, and the line that the program prints."""
    (folder / "d.ccn").write_text(text)
    best = None
    for _ in range(runs):
        start = time.perf_counter()
        ended = subprocess.run([program, "compile", "d.ccn", "d.defs", "out"], cwd=folder, stdout=subprocess.PIPE)
        taken = time.perf_counter() - start
        best = taken if best is None else min(best, taken)
    return best, ended.stdout.decode().strip()


def main():
    runs = int(sys.argv[1]) if len(sys.argv) > 1 else 5
    program = os.environ.get("COCOON") or TOP / "crates" / "cocoon" / "out" / "cocoon"
    if not os.access(program, os.X_OK):
        sys.exit("rules.py: build the program first: `rt run` in crates/cocoon")
    print("| Design | Whole | Half | Ratio | Printed |\n|---|---|---|---|---|")
    with tempfile.TemporaryDirectory() as name:
        folder = pathlib.Path(name)
        (folder / "d.defs").write_text("default h = false;\n")
        for make in TEXTS:
            whole, line = least(program, folder, make(WHOLE), runs)
            half, _ = least(program, folder, make(WHOLE // 2), runs)
            print(f"| {make.__name__.replace('_', ' ')} | {whole * 1000:.0f} ms | {half * 1000:.0f} ms | {whole / half:.2f} | `{line}` |")


if __name__ == "__main__":
    main()
