#!/usr/bin/env python3
"""The most memory that each command takes on its largest inputs.

    bench/memory.py [WORD]     runs the built program on each input once, or on those whose line has this word, and prints the peaks

It needs the program of crates/cocoon: `rt run` there builds it; or COCOON names one. The inputs are made in memory where the machine has a
folder for that. A peak is the resident memory that the machine tells of the ended process; what starts the program has 9 MiB itself, so nothing
below is told. What would take more than a machine has is said to have 4 GiB: so many addresses the program may have there, and it has to
end with status 12.
"""

import os
import pathlib
import subprocess
import sys
import tempfile

import definitions
import lower
import rules

TOP = pathlib.Path(__file__).resolve().parent.parent
EXAMPLES = TOP / "examples"
WHOLE, MOST_PACKETS, MOST_BYTES, MOST_CASE = 4 << 20, 16 << 20, 65535, 65536
ADDRESSES = 4 << 30

# Runs the words with so many bytes of addresses, where that is not 0, and prints the status and the peak in KiB.
STARTED = """
import os, resource, sys
printed = os.open("printed", os.O_WRONLY | os.O_CREAT | os.O_TRUNC)
if int(sys.argv[1]):
    resource.setrlimit(resource.RLIMIT_AS, (int(sys.argv[1]),) * 2)
child = os.posix_spawn(sys.argv[2], sys.argv[2:], os.environ, file_actions=[(os.POSIX_SPAWN_DUP2, printed, 1)])
_, status, used = os.wait4(child, 0)
print(os.waitstatus_to_exitcode(status), used.ru_maxrss)
"""


def peak(program, folder, words, addresses=0):
    """The status, the first line, and the most memory in MiB."""
    started = subprocess.run([sys.executable, "-I", "-S", "-c", STARTED, str(addresses), program, *words], cwd=folder, stdout=subprocess.PIPE, check=True)
    status, memory = map(int, started.stdout.split())
    with open(folder / "printed", encoding="ascii") as printed:
        return status, printed.readline().rstrip("\n"), memory / 1024


def filled(line, size):
    """A line so often that it has at most so many bytes."""
    return line * (size // len(line))


def fan(members):
    """A design and definitions: what enters at port 0 of switch 1 is copied to so many ports, each linked to a switch that copies it to as many hosts."""
    design = (EXAMPLES / "f.ccn").read_text().replace("16w4", "16w256").replace("ports 4", "ports 256")
    design = design.replace("send In[p];", "if (s == 16w1) { send SwIn[16w2, p]; } else { send In[p]; }")
    rows = [f"define h(16w{host}) = true;" for host in range(members + 1)] + ["define g(16w1) = true;", "define g(16w2) = true;"]
    rows += [f"define m(16w{switch}, 16w{port}) = true;" for switch in (1, 2) for port in range(1, members + 1)]
    return design, "\n".join(["default h = false;", "default g = false;", "default m = false;", *rows]) + "\n"


def applied(switches, times, keys):
    """A design whose switches look a packet up so many times in one function of some 8,000 rows: each table of each switch has all of them."""
    params, given = (", ".join(text.format(n) for n in range(keys)) for text in ("a{}: bit<16>", "pkt.e.tag"))
    design = (EXAMPLES / "c.ccn").read_text().replace("tag: bit<8>", "tag: bit<16>").replace("tag == 8w1", "tag == 16w1")
    design = design.replace("role Out", f"function k({params}): bit<16>;\nrole Out").replace("  if (", f"  pkt.e.tag = k({given});\n" * times + "  if (")
    rows = ["define h(16w0) = true;", *(f"define g(16w{s}) = true;" for s in range(1, switches + 1))]
    rows += [f"define k({', '.join([f'16w{n}'] * keys)}) = 16w1;" for n in range(8_000)]
    return design, "\n".join(["default h = false;", "default g = false;", "default k = 16w0;", *rows]) + "\n"


def texts(folder, design, defs):
    (folder / "n.ccn").write_text(design)
    (folder / "n.defs").write_text(defs)


def example(folder, name):
    texts(folder, (EXAMPLES / f"{name}.ccn").read_text(), (EXAMPLES / f"{name}.defs").read_text())


# ---- inputs: each fills the folder, and says the words that are measured


COMPILE = ["compile", "n.ccn", "n.defs", "out"]
STEP = ["step", "n.ccn", "n.defs", "0", "n.case"]
FORWARD = ["forward", "out", "n.txt"]
UPDATE = ["update", "n.ccn", "n.defs", "out"]
MOST_CERTIFICATES = 64 << 20


def with_case(folder, case="SwIn 1 0\n1\n-\n"):
    (folder / "n.case").write_text(case)
    return STEP


def with_bundle(folder, program, packets):
    subprocess.run([program, *COMPILE], cwd=folder, check=True, stdout=subprocess.DEVNULL)
    (folder / "n.txt").write_text(packets)
    return FORWARD


def with_certificates(folder, program, entry="", size=0):
    """The bundle of a design, whose file of certificates is so many bytes of one log with the same step, if a size is given."""
    subprocess.run([program, *COMPILE], cwd=folder, check=True, stdout=subprocess.DEVNULL)
    if size:
        head, end = '{"certs":[{"instances":[],"log":[', ']}],"cocoon":1}'
        times = (size - len(head) - len(end) + 1) // (len(entry) + 1)
        (folder / "out.certs.json").write_text(head + ",".join([entry] * times) + end)
    return UPDATE


def inputs(program):
    """What is measured, and what makes it in a folder."""
    largest = next(lower.networks())

    def designs(make):
        return lambda folder: texts(folder, make(1 << 20), "default h = false;\n")

    for make in rules.TEXTS:
        what = f"a design of 1 MiB, {make.__name__.replace('_', ' ')}"
        yield f"compile: {what}", lambda folder, make=make: (designs(make)(folder), COMPILE)[1]
        yield f"step: {what}", lambda folder, make=make: (designs(make)(folder), with_case(folder))[1]
    for what, rows in (("4 MiB of definitions, 180,000 rows", definitions.short_rows(180_000)), ("8,192 rows of eight numbers", definitions.wide_rows(8192))):
        yield f"compile: {what}", lambda folder, rows=rows: (texts(folder, definitions.DESIGN, rows), COMPILE)[1]
        yield f"step: {what}", lambda folder, rows=rows: (texts(folder, definitions.DESIGN, rows), with_case(folder))[1]
    yield "compile: the largest network", lambda folder: (texts(folder, *largest[1:3]), COMPILE)[1]
    for shape in ((1, 26, 1), (64, 26, 1), (64, 26, 8), (1, 250, 1), (64, 250, 1)):
        what = "compile: {} switches with {} tables of 8,000 rows of {} numbers".format(*shape)
        yield what, lambda folder, shape=shape: (texts(folder, *applied(*shape)), COMPILE)[1]
    yield "update: the largest network", lambda folder: (texts(folder, *largest[1:3]), with_certificates(folder, program))[1]
    yield "update: 64 MiB of certificates, steps of one literal and one hint", lambda folder: (example(folder, "m"), with_certificates(folder, program, "[[1],[0]]", MOST_CERTIFICATES))[1]
    yield "update: 64 MiB of certificates, empty steps", lambda folder: (example(folder, "m"), with_certificates(folder, program, "[[],[]]", MOST_CERTIFICATES))[1]
    yield "gen: 200 hosts, 100,000 packets", lambda folder: ["gen", "200", "100000"]
    yield "step: the largest network", lambda folder: (texts(folder, *largest[1:3]), with_case(folder, "SwIn 1 0\n0 1\n-\n"))[1]
    yield "step: a case of 64 KiB, 32,000 choices", lambda folder: (example(folder, "f"), with_case(folder, "SwIn 1 0\n1\n" + " ".join(["1"] * 32_000) + "\n"))[1]
    yield "forward: the largest network, one packet", lambda folder: (texts(folder, *largest[1:3]), with_bundle(folder, program, "0 00000000fffffffe\n"))[1]
    yield "forward: 16 MiB of packets without bytes", lambda folder: (example(folder, "c"), with_bundle(folder, program, filled("0 -\n", MOST_PACKETS)))[1]
    yield "forward: 16 MiB of packets of one byte", lambda folder: (example(folder, "c"), with_bundle(folder, program, filled("0 01\n", MOST_PACKETS)))[1]
    yield "forward: 16 MiB of packets of 65,535 bytes", lambda folder: (
        example(folder, "c"),
        with_bundle(folder, program, filled(f"0 {'01' * MOST_BYTES}\n", MOST_PACKETS)),
    )[1]
    yield "forward: one packet of one byte, 64,516 copies", lambda folder: (texts(folder, *fan(254)), with_bundle(folder, program, "0 01\n"))[1]
    yield "forward: one packet of 65,535 bytes, 2,500 copies", lambda folder: (texts(folder, *fan(50)), with_bundle(folder, program, f"0 {'01' * MOST_BYTES}\n"))[1]
    yield "forward: one packet of 65,535 bytes, 64,516 copies, 4 GiB", lambda folder: (texts(folder, *fan(254)), with_bundle(folder, program, f"0 {'01' * MOST_BYTES}\n"))[1]


def main():
    word = sys.argv[1] if len(sys.argv) > 1 else ""
    program = os.environ.get("COCOON") or str(TOP / "crates" / "cocoon" / "out" / "cocoon")
    if not os.access(program, os.X_OK):
        sys.exit("memory.py: build the program first: `rt run` in crates/cocoon")
    memory_folder = "/dev/shm" if os.access("/dev/shm", os.W_OK) else None
    print("| Input | Memory | Status | First line |\n|---|---|---|---|")
    for what, make in inputs(program):
        if word not in what:
            continue
        with tempfile.TemporaryDirectory(dir=memory_folder) as name:
            folder = pathlib.Path(name)
            status, line, memory = peak(program, folder, make(folder), ADDRESSES if "4 GiB" in what else 0)
        print(f"| {what} | {memory:,.0f} MiB | {status} | `{line}` |", flush=True)


if __name__ == "__main__":
    main()
