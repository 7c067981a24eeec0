#!/usr/bin/env python3
"""Writes the texts of this folder whose programs are long: chain_*.ccn, with their definitions.

    bench/slow/chains.py
"""

import pathlib

FOLDER = pathlib.Path(__file__).resolve().parent


def write(name, wanted, functions, called=None):
    """A body that calls these functions of a chain, or its last one; each calls the one before with a call of it."""
    calls = " ".join(f"pkt.e.tag = f{k}(pkt.e.tag);" for k in called or [functions - 1])
    lines = [f"// {wanted}", "packet { header e { tag: bit<8>; } }", "function h(a: bit<16>): bool;", "function g(s: bit<16>): bool;",
             "function f0(a: bit<8>): bit<8> = 8w0;"]
    lines += [f"function f{k}(a: bit<8>): bit<8> = f{k - 1}(f{k - 1}(a));" for k in range(1, functions)]
    lines += ["role Out[a: bit<16>] | h(a) = { send SwIn[16w1, a]; }", "role In[a: bit<16>] | h(a);", "host (Out, In);",
              f"role SwIn[s: bit<16>, p: bit<16>] | g(s) and p < 16w4 = {{ {calls} send SwOut[s, p]; }}",
              "role SwOut[s: bit<16>, p: bit<16>] | g(s) and p < 16w4 = { send In[p]; }", "switch (SwIn, SwOut) ports 4;"]
    (FOLDER / f"chain_{name}.ccn").write_text("\n".join(lines) + "\n")
    (FOLDER / f"chain_{name}.defs").write_text("default h = false;\ndefault g = false;\n" + "".join(f"define g(16w{s}) = true;\n" for s in range(1, 65)))


def main():
    write("of_18", "10, at most 2 s and 300 MiB: 18 functions that each call the one before with a call of it, 2^18 calls in all, and 64 switches", 18)
    write("of_16", "10, at most 2 s and 300 MiB: 16 such functions, whose calls are counted as fewer bytes than a file may have, and have more", 16)
    write("below_the_limit", "0, at most 60 s and 2100 MiB: 64 programs of nearly 4 MiB each, and forward reads them all", 15, [14, 12, 12, 10])
    write("compiled", "0, at most 20 s and 300 MiB: 64 such programs, which are compiled and not read", 15, [14, 12, 12, 10])
    with open(FOLDER / "chain_below_the_limit.defs", "a", encoding="ascii") as rows:
        rows.write("define h(16w0) = true;\n")
    (FOLDER / "chain_below_the_limit.packets").write_text("0 00\n")


if __name__ == "__main__":
    main()
