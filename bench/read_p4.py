#!/usr/bin/env python3
"""How long reading P4 texts takes: texts of 4 MiB, and their halves.

    bench/read_p4.py [RUNS]     reads each so often (5), the whole and its half in turn, and prints the least wall times

It needs the program of crates/text_tests: `rt run -- p4 <data/small.p4` there builds it. One text has one statement after the
other, one has tables of many keys, one expressions as deep as may be, and one has headers with all their fields. Each reads as a program.
"""

import os
import pathlib
import subprocess
import sys
import tempfile
import time

TOP = pathlib.Path(__file__).resolve().parent.parent
WHOLE = 4 * 1024 * 1024

HEAD = """#include <core.p4>
parser CocoonParser<H, M>(packet_in b, out H h, inout M m);
control CocoonIngress<H, M>(inout H h, inout M m, in bit<16> port, out bit<8> verdict, out bit<16> egress_port, out bit<16> group);
control CocoonEgress<H, M>(inout H h, inout M m, in bit<64> rid, out bit<8> verdict, out bit<16> egress_port);
control CocoonDeparser<H>(packet_out b, in H h);
package CocoonSwitch<H, M>(CocoonParser<H, M> p, CocoonIngress<H, M> i, CocoonEgress<H, M> e, CocoonDeparser<H> d);
"""

INGRESS = "control Ing(inout Headers h, inout Meta m, in bit<16> port, out bit<8> verdict, out bit<16> egress_port, out bit<16> group) {\n"
EGRESS = """control Egr(inout Headers h, inout Meta m, in bit<64> rid, out bit<8> verdict, out bit<16> egress_port) {
  apply {
    verdict = 8w0;
    egress_port = 16w0;
  }
}
"""
BEGINS = "  apply {\n    verdict = 8w0;\n    egress_port = 16w0;\n    group = 16w0;\n"

STATEMENTS = """    m.k{0} = (port + h.h_n0.f_0);
    if (((m.k{0} == 16w{1}) && (port != 16w1))) {{
      h.h_n0.f_1 = m.k{0};
      t0.apply();
    }} else {{
      egress_port = (true ? m.k{0} : port);
      verdict = 8w1;
      return;
    }}
"""

TABLE = """  action a{0}(bit<16> v) {{ m.k{1} = v; }}
  table t{0} {{
    key = {{ {2} }}
    actions = {{ a{0}; }}
    default_action = a{0}(16w0);
  }}
"""


def text(headers, metas, tables, statements):
    """A program of so many headers of 64 fields and so many meta fields, with these tables and statements in its ingress control."""
    names = [f"n{number}" for number in range(headers)]
    fields = "".join(f"  bit<16> f_{field};\n" for field in range(64))
    return "".join(
        [HEAD]
        + [f"header ht_{name} {{\n{fields}}}\n" for name in names]
        + ["struct Headers {\n", *(f"  ht_{name} h_{name};\n" for name in names), "}\nstruct Meta {\n"]
        + [f"  bit<16> k{number};\n" for number in range(metas)]
        + ["}\nparser Prs(packet_in b, out Headers h, inout Meta m) {\n  state start {\n"]
        + [f"    b.extract(h.h_{name});\n" for name in names]
        + ["    transition accept;\n  }\n}\n", INGRESS, tables, BEGINS, statements, "  }\n}\n", EGRESS]
        + ["control Dep(packet_out b, in Headers h) {\n  apply {\n", *(f"    b.emit(h.h_{name});\n" for name in names)]
        + ["  }\n}\nCocoonSwitch(Prs(), Ing(), Egr(), Dep()) main;\n"]
    )


def table(number, metas):
    keys = " ".join(f"m.k{(number + key) % metas} : ternary;" for key in range(8))
    return TABLE.format(number, number % metas, keys)


def statements(size):
    one_table = table(0, 64)
    parts, length, number = [], 0, 0
    while length < size - 10_000:
        parts.append(STATEMENTS.format(number % 64, number % 65536))
        length += len(parts[-1])
        number += 1
    return text(1, 64, one_table, "".join(parts))


def tables(size):
    parts, length, number = [], 0, 0
    while length < size - 10_000:
        parts.append(table(number, 64))
        length += len(parts[-1])
        number += 1
    return text(1, 64, "".join(parts), "")


def expressions(size):
    """Sums that open 500 brackets, and what has 1,000 operators in 500 slices."""
    deep = "    m.k0 = " + "(~" * 500 + "port" + ")" * 500 + ";\n"
    sliced = "    m.k0 = port" + "[15:0]" * 500 + ";\n"
    return text(1, 1, "", (deep + sliced) * ((size - 10_000) // len(deep + sliced)))


def declarations(size):
    """Names are looked up among many headers and many meta fields."""
    count = (size - 20_000) // 1350
    uses = "".join(f"    m.k{number} = h.h_n{number}.f_{number % 64};\n" for number in range(count))
    return text(count, count * 10, "", uses)


def one_run(program, path):
    """The wall time in seconds of one reading."""
    with open(path, "rb") as file:
        start = time.perf_counter()
        printed = subprocess.run([program, "p4"], stdin=file, stdout=subprocess.PIPE, check=False).stdout
        taken = time.perf_counter() - start
    if printed != b"read\n":
        sys.exit(f"read_p4.py: {path.name} printed {printed!r}")
    return taken


def main():
    runs = int(sys.argv[1]) if len(sys.argv) > 1 else 5
    program = TOP / "crates" / "text_tests" / "out" / "text_tests"
    if not os.access(program, os.X_OK):
        sys.exit("read_p4.py: build the program first: `rt run -- p4 <data/small.p4` in crates/text_tests")
    print("| Text | Whole | Half | Ratio |\n|---|---|---|---|")
    memory_folder = "/dev/shm" if os.access("/dev/shm", os.W_OK) else None
    with tempfile.TemporaryDirectory(dir=memory_folder) as name:
        for make in (statements, tables, expressions, declarations):
            paths = [pathlib.Path(name) / f"{make.__name__}.{size}" for size in (WHOLE, WHOLE // 2)]
            for path, size in zip(paths, (WHOLE, WHOLE // 2)):
                path.write_text(make(size))
            found = [[one_run(program, path) for path in paths] for _ in range(runs)]
            whole, half = (min(times) for times in zip(*found))
            sizes = [path.stat().st_size for path in paths]
            print(f"| {make.__name__} | {sizes[0]:,} bytes in {whole * 1000:.0f} ms | {sizes[1]:,} bytes in {half * 1000:.0f} ms | {whole / half:.2f} |", flush=True)


if __name__ == "__main__":
    main()
