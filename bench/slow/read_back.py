#!/usr/bin/env python3
"""Writes the texts of this folder that are slow to follow by the read-back rule: read_back_*.ccn, with their definitions.

    bench/slow/read_back.py
"""

import pathlib

FOLDER = pathlib.Path(__file__).resolve().parent
REST = """}
role In[a: bit<16>] | h(a);
host (Out, In);
refine Out within 3 {
role Out[a: bit<16>] | h(a) = { send SwIn[16w1, a]; }
role SwIn[s: bit<16>, p: bit<16>] | g(s) and p < 16w4 = { send SwOut[s, 16w1]; }
role SwOut[s: bit<16>, p: bit<16>] | g(s) and p < 16w4 = { send In[p]; }
switch (SwIn, SwOut) ports 4;
}
"""


def write(name, wanted, fields, body):
    head = f"// {wanted}\npacket {{ header e {{ {' '.join(f'{field}: bit<8>;' for field in fields)} }} }}\n"
    head += "function h(a: bit<16>): bool;\nfunction g(s: bit<16>): bool;\nrole Out[a: bit<16>] | h(a) = {\n"
    (FOLDER / f"read_back_{name}.ccn").write_text(head + "\n".join(body) + "\n" + REST)
    (FOLDER / f"read_back_{name}.defs").write_text("default h = false;\n")


def kept_sums(ifs, choices):
    """Fields are chosen, their sum is kept, and each `if` sets another field to it."""
    yield from (f"havoc pkt.e.c{i};" for i in range(choices))
    yield f"let m: bit<8> = {' + '.join(f'pkt.e.c{i}' for i in range(choices))};"
    yield from (f"if (h(a)) {{ pkt.e.f{i} = m; }}" for i in range(ifs))
    yield "send In[a];"


def copies(ifs):
    """Each `if` sets another field to a variable that was chosen."""
    yield "havoc x: bit<8>;"
    yield from (f"if (h(a)) {{ pkt.e.f{i} = x; }}" for i in range(ifs))
    yield "send In[a];"


def uses(choices):
    """Variables are chosen, and then each is in a condition."""
    yield from (f"havoc x{i}:bit<8>;" for i in range(choices))
    yield from (f"filter x{i}==8w1;" for i in range(choices - 1))


def main():
    write("states", "3, at most 5 s and 300 MiB: 12 `if`s each set another field to a sum of 50 choices", [*(f"f{i}" for i in range(12)), *(f"c{i}" for i in range(50))], kept_sums(12, 50))
    write("choices", "3, at most 5 s and 300 MiB: 2,944 choices, and conditions on each but one", ["tag"], uses(2944))
    write("most", "12, at most 20 s and 1024 MiB: 21 `if`s each set another field to a choice, so there would be 2^21 states", (f"f{i}" for i in range(21)), copies(21))


if __name__ == "__main__":
    main()
