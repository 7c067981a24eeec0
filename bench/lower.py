#!/usr/bin/env python3
"""How long lowering takes: the largest network, and two that have half of its bytes.

    bench/lower.py [RUNS]     runs `cocoon compile` on each so often (3), and prints the least wall times and the most memory

It needs the program of crates/cocoon: `rt run` there builds it; or COCOON names one. The largest network has 64 switches of 256
ports, 1,024 hosts and 8,192 rows, and the body of its switches has 65,536 nodes with functions in place of their calls. Of the two
others one has half of the switches and of the hosts, and one half of the rows of tables and of the nodes. The files are written
into memory where the machine has a folder for that, and each run reads, binds, lowers, prints and writes.
"""

import os
import pathlib
import subprocess
import sys
import tempfile
import time

TOP = pathlib.Path(__file__).resolve().parent.parent
HOSTS_AT_EACH = 16
FIRST_LINK = 248

DESIGN = """packet {{ header ip {{ src: bit<32>; dst: bit<32>; }} }}
function h(a: bit<32>): bool;
function g(s: bit<16>): bool;
function switchOf(a: bit<32>): bit<16>;
function portOf(a: bit<32>): bit<16>;
function hostAt(s: bit<16>, p: bit<16>): bit<32>;
function isLink(s: bit<16>, p: bit<16>): bool;
function peer(s: bit<16>, p: bit<16>): bit<16>;
function route(s: bit<16>, a: bit<32>): bit<16>;
{functions}role Out[a: bit<32>] | h(a) = {{ send SwIn[switchOf(a), portOf(a)]; }}
role In[a: bit<32>] | h(a);
host (Out, In);
role SwIn[s: bit<16>, p: bit<16>] | g(s) and p < 16w256 = {{
  filter pkt.ip.src == hostAt(s, p) or isLink(s, p);
{statements}  send SwOut[s, route(s, ~pkt.ip.dst)];
}}
role SwOut[s: bit<16>, p: bit<16>] | g(s) and p < 16w256 = {{
  if (isLink(s, p)) {{ send SwIn[peer(s, p), p]; }} else {{ send In[hostAt(s, p)]; }}
}}
switch (SwIn, SwOut) ports 256;
"""


def design(deepest):
    """A body of 2^(deepest + 3) nodes: f0 has 3 of them, each later function twice as many and one, each statement one more."""
    functions = "function f0(a: bit<32>): bit<32> = a + 32w1;\n" + "".join(
        f"function f{k}(a: bit<32>): bit<32> = f{k - 1}(a) + f{k - 1}(a);\n" for k in range(1, deepest + 1)
    )
    statements = "".join(f"  pkt.ip.dst = f{k}(pkt.ip.dst);\n" for k in range(deepest, 1, -1))
    return DESIGN.format(functions=functions, statements=statements)


def definitions(switches, hosts, rows):
    """So many rows; those that the switches and hosts leave are of `route`."""
    lines = [f"define g(16w{s}) = true;" for s in range(1, switches + 1)]
    for a in range(hosts):
        at = (a // HOSTS_AT_EACH + 1, a % HOSTS_AT_EACH)
        lines += [f"define h(32w{a}) = true;", f"define switchOf(32w{a}) = 16w{at[0]};", f"define portOf(32w{a}) = 16w{at[1]};"]
        lines.append(f"define hostAt(16w{at[0]}, 16w{at[1]}) = 32w{a};")
    for s in range(1, switches + 1):
        for p in range(FIRST_LINK, 256):
            other = (s + p - FIRST_LINK) % switches + 1
            lines += [f"define isLink(16w{s}, 16w{p}) = true;", f"define peer(16w{s}, 16w{p}) = 16w{other};"]
    lines += [f"define route(16w{k % switches + 1}, 32w{4294967295 - k}) = 16w{k % 256};" for k in range(rows - len(lines))]
    truths = ["h", "g", "isLink"]
    defaults = [f"default {f} = false;" for f in truths] + ["default switchOf = 16w0;", "default portOf = 16w0;", "default peer = 16w0;"]
    return "\n".join(defaults + ["default hostAt = 32w4294967295;", "default route = 16w0;"] + lines) + "\n"


# What is lowered: the design, the definitions, and the line that the command prints.
def networks():
    links = HOSTS_AT_EACH + 256 - FIRST_LINK
    line = "compiled switches {} hosts {} links {} obligations 0"
    kept = 64 + 64 * HOSTS_AT_EACH * 4 + 64 * (256 - FIRST_LINK) * 2
    yield "64 switches, 1,024 hosts, 8,192 rows, 65,536 nodes", design(13), definitions(64, 1024, 8192), line.format(64, 1024, 64 * links)
    yield "32 switches, 512 hosts, 8,192 rows, 65,536 nodes", design(13), definitions(32, 512, 8192), line.format(32, 512, 32 * links)
    half = kept + (8192 - kept) // 2
    yield f"64 switches, 1,024 hosts, {half:,} rows, 32,768 nodes", design(12), definitions(64, 1024, half), line.format(64, 1024, 64 * links)


def one_run(program, folder, wanted):
    """The wall time in seconds and the most memory in MiB of one run."""
    start = time.perf_counter()
    child = subprocess.Popen([program, "compile", "n.ccn", "n.defs", "out"], cwd=folder, stdout=subprocess.PIPE)
    printed = child.stdout.read().decode().strip()
    _, status, used = os.wait4(child.pid, 0)
    taken = time.perf_counter() - start
    if status != 0 or printed != wanted:
        sys.exit(f"lower.py: status {status >> 8}, printed {printed!r}, wanted {wanted!r}")
    return taken, used.ru_maxrss / 1024


def measured(program, texts, wanted, runs):
    """The least time, the most memory, and the bytes of the bundle."""
    memory_folder = "/dev/shm" if os.access("/dev/shm", os.W_OK) else None
    with tempfile.TemporaryDirectory(dir=memory_folder) as name:
        folder = pathlib.Path(name)
        (folder / "n.ccn").write_text(texts[0])
        (folder / "n.defs").write_text(texts[1])
        found = [one_run(program, folder, wanted) for _ in range(runs)]
        size = sum(path.stat().st_size for path in folder.glob("out.*"))
    return min(taken for taken, _ in found), max(memory for _, memory in found), size


def main():
    runs = int(sys.argv[1]) if len(sys.argv) > 1 else 3
    program = os.environ.get("COCOON") or TOP / "crates" / "cocoon" / "out" / "cocoon"
    if not os.access(program, os.X_OK):
        sys.exit("lower.py: build the program first: `rt run` in crates/cocoon")
    print("| Network | Bytes written | Time | Whole to half | Memory |\n|---|---|---|---|---|")
    whole = None
    for what, ccn, defs, line in networks():
        taken, memory, size = measured(program, (ccn, defs), line, runs)
        whole = whole or taken
        ratio = "" if whole == taken else f"{whole / taken:.2f}"
        print(f"| {what} | {size:,} | {taken:.2f} s | {ratio} | {memory:,.0f} MiB |", flush=True)


if __name__ == "__main__":
    main()
