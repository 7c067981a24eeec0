#!/usr/bin/env python3
"""How long `check` and `compile` take over designs that grow, and how much memory, with MiniSat's time on the same clauses beside.

    bench/scale.py                    the program alone
    bench/scale.py READING [EVERY]    besides, MiniSat on the clauses of each obligation that is asked, which another program in the folder READING makes;
                                      with EVERY of each EVERY-th one alone
    NAMES=word,word bench/scale.py .. only those whose name has one of these words

Two switches are followed through 5, 7, 9 and 11 bodies; leaves and spines have three levels; there are 16 blocks, a block that refines 63 roles, a role with 4,096 ways and one with too
many; and an access list for up to 1,024 hosts, of which `compile` asks an assumption. It needs the built program (`rt run` in crates/cocoon), or COCOON names
one, GNU time for the memory, and for the comparison `minisat`. The line of a run has its seconds of the processor, its seconds, its peak of memory, its status and its line.
"""

import os
import pathlib
import subprocess
import sys
import tempfile
import time

TOP = pathlib.Path(__file__).resolve().parent.parent
EXAMPLES = TOP / "examples"
PROGRAM = os.environ.get("COCOON", TOP / "crates" / "cocoon" / "out" / "cocoon")
HOSTS = [2, 40, 100, 200, 400, 1024]
MOST_SECONDS = 900


def text(*names):
    return EXAMPLES.joinpath(*names).read_text()


def blocks(count):
    """The smallest design with so many blocks, each with the same body."""
    block = "refine Out within 1 { role Out[a: bit<16>] | h(a) = { send SwIn[16w1, a]; } }\n"
    return text("c.ccn") + block * count


def roles(count):
    """A block that refines so many roles, three of them those of a switch."""
    more = count - 3
    above = "".join(f"role R{n}[a: bit<16>] | h(a) = {{ havoc x: bit<16>; send In[x]; }}\n" for n in range(more))
    below = "".join(f"  role R{n}[a: bit<16>] | h(a) = {{ send In[a]; }}\n" for n in range(more))
    lines = text("c.ccn").splitlines(keepends=True)
    same = "".join("  " + line for line in lines if line.startswith(("role Out", "role SwOut"))) + "".join("  " + line for line in lines[6:9])
    names = ", ".join(["Out", "SwIn", "SwOut", *(f"R{n}" for n in range(more))])
    return "".join(lines[:5]) + above + "".join(lines[5:]) + f"refine {names} within 1 {{\n{same}{below}}}\n"


def ways(above, below):
    """Bodies with so many `if`s, one behind the other, above and below."""
    ifs = lambda count: "".join(f"if (pkt.e.tag == 8w{n + 2}) {{ pkt.e.tag = 8w0; }} " for n in range(count))
    head = "role SwIn[s: bit<16>, p: bit<16>] | g(s) and p < 16w4 = {"
    lines = text("c.ccn").splitlines(keepends=True)
    upper = [f"{head} {ifs(above)}havoc x: bit<16>; send SwOut[s, x]; }}\n"]
    return "".join(lines[:6] + upper + lines[9:]) + f"refine SwIn within 1 {{ {head} {ifs(below)}send SwOut[s, 16w1]; }} }}\n"


def hosts(count):
    """Definitions of the access list for so many hosts, each at a port of a switch of 256, and who may send to whom."""
    at = lambda n: (n // 256 + 1, n % 256)
    address = lambda n: 167772161 + n
    lines = [f"default {name} = false;" for name in ("cHost", "acl", "sw")] + ["default swOf = 16w0;", "default portOf = 16w0;", "default hostAt = 32w0;"]
    lines += [f"define sw(16w{s + 1}) = true;" for s in range(count // 256 + 1)]
    for n in range(count):
        switch, port = at(n)
        lines += [f"define cHost(32w{address(n)}) = true;", f"define swOf(32w{address(n)}) = 16w{switch};", f"define portOf(32w{address(n)}) = 16w{port};"]
        lines += [f"define hostAt(16w{switch}, 16w{port}) = 32w{address(n)};", f"define acl(32w{address(n)}, 32w{address((n + 1) % count)}) = true;"]
    return "\n".join([*lines, ""])


def inputs():
    """A name, words, a design, and definitions."""
    two = text("refined", "two.ccn")
    wide = text("m.ccn").replace("16w4", "16w256").replace("ports 4", "ports 256")
    yield "the example", "check", text("r.ccn"), None
    yield "an access list", "check", text("m.ccn"), None
    for within in (5, 7, 9, 11, 12):
        yield f"two switches within {within}", "check", two.replace("within 5", f"within {within}"), None
    yield "leaves and spines", "check", text("fabric", "network.ccn"), None
    yield "leaves and spines", "compile", text("fabric", "network.ccn"), text("fabric", "network.defs")
    yield "16 blocks", "check", blocks(16), None
    yield "63 roles in one block", "check", roles(63), None
    yield "4,096 ways below", "check", ways(0, 12), None
    yield "64 ways above and below", "check", ways(6, 6), None
    for count in HOSTS:
        yield f"an access list for {count} hosts", "compile", wide, hosts(count)


def measured(room, command, conflicts):
    # What a process of this script's own has at its start would count as its peak.
    words = ["/usr/bin/time", "-f", "%M", "-o", "peak", PROGRAM, command, "d.ccn", *(["d.defs", "out"] if command == "compile" else []), *conflicts]
    began = time.monotonic()
    child = subprocess.Popen(words, cwd=room, stdout=subprocess.PIPE)
    line = child.stdout.read().decode().strip()
    _, status, used = os.wait4(child.pid, 0)
    clock, peak = time.monotonic() - began, pathlib.Path(room, "peak").read_text().split()[-1]
    return used.ru_utime + used.ru_stime, clock, int(peak) / 1024, os.waitstatus_to_exitcode(status), line


class Reading:
    """Clauses of obligations and of assumptions, by another program."""

    def __init__(self, folder):
        sys.path.insert(0, str(pathlib.Path(folder).resolve()))
        sys.setrecursionlimit(100000)
        import clauses, instances, load, verify
        from terms import Terms

        self.clauses, self.instances, self.load, self.verify, self.terms = clauses, instances, load, verify, Terms

    def lists(self, design, definitions, every):
        view = self.load.view_of(self.load.parse_design(design.encode()))
        terms, obligations = self.verify.build(view)
        for obligation in obligations[::every]:
            goal, _ = self.instances.query_of(view, obligation, [], terms)
            yield self.clauses.dimacs(self.clauses.blast(terms, goal)[0])
        if definitions:
            tables = self.load.bind_text(view, definitions.encode())
            for number in range(view.assume_count(view.last())):
                terms = self.terms()
                goal, _ = self.instances.aquery(view, number, tables, terms)
                yield self.clauses.dimacs(self.clauses.blast(terms, goal)[0])


def minisat(lists):
    """How many lists there are, and the seconds of the processor that MiniSat takes for all."""
    count, seconds = 0, 0.0
    for dimacs in lists:
        with tempfile.NamedTemporaryFile("w", suffix=".cnf") as file:
            file.write(dimacs)
            file.flush()
            child = subprocess.Popen(["minisat", "-verb=0", "-no-pre", file.name], stdout=subprocess.DEVNULL, stderr=subprocess.DEVNULL)
            _, _, used = os.wait4(child.pid, 0)
        count, seconds = count + 1, seconds + used.ru_utime + used.ru_stime
    return count, seconds


def main(*asked):
    reading = Reading(asked[0]) if asked else None
    every = int(asked[1]) if asked[1:] else 1
    wanted = os.environ.get("NAMES", "").split(",")
    print("| Input | Command | Processor, s | Clock, s | Memory, MiB | Status and line | MiniSat, s (lists) |")
    print("|---|---|---|---|---|---|---|")
    for name, command, design, definitions in inputs():
        if not any(word in name for word in wanted):
            continue
        with tempfile.TemporaryDirectory() as room:
            (pathlib.Path(room) / "d.ccn").write_text(design)
            (pathlib.Path(room) / "d.defs").write_text(definitions or "")
            processor, clock, memory, status, line = measured(room, command, ["--conflicts", "200000"])
        beside = ""
        if reading and status == 0:
            count, seconds = minisat(reading.lists(design, definitions, every))
            beside = f"{seconds:.2f} ({count})"
        print(f"| {name} | `{command}` | {processor:.2f} | {clock:.2f} | {memory:.0f} | {status} `{line}` | {beside} |", flush=True)


if __name__ == "__main__":
    main(*sys.argv[1:])
