#!/usr/bin/env python3
"""How long packets take through a large network: 100,000 of them, and half as many.

    bench/forward.py [RUNS]             runs `cocoon forward` on both so often (3), and prints the least wall times and the most memory
    bench/forward.py instructions N     prints how many instructions each of N packets takes, by cachegrind of valgrind
    bench/forward.py groups ..          the same of a network of 8,000 groups, of which each packet chooses one
    bench/forward.py line ..            the same of 64 switches in a line, all of which each packet visits
    bench/forward.py fan ..             the same of one switch, which makes 256 copies of each packet

It needs the program of crates/cocoon: `rt run` there builds it; or COCOON names one. The network has 64 switches of 256 ports, 512
hosts and 7,680 rows; each switch is linked to the eight that follow it in a ring, so a packet visits up to nine of them. The network of
groups has one switch of 4 ports with a host at each: a packet's first 16 bits are the number of its group, and its one copy leaves at the
member. In the line each switch has a route to each host, all of whose bits are compared. All files are in memory where the machine has a
folder for that, and each run reads the bundle and the packets, and prints. What it prints is compared with where each packet has to go.
Where a compiler `cc` is there, the C program visits.c reads the same network in its plain form and the same packets, and has to print the
same; it looks at one group after another. It does so twice: with rows that are tried one by one where they are not literal, and with rows in
groups of equal masks.
"""

import os
import pathlib
import re
import shutil
import subprocess
import sys
import tempfile
import time

from lower import FIRST_LINK, design
from plain_form import plain_form

TOP = pathlib.Path(__file__).resolve().parent.parent
SWITCHES = 64
HOSTS_AT_EACH = 8
LINKS = 256 - FIRST_LINK
HOSTS = SWITCHES * HOSTS_AT_EACH
LAST = 4294967295
PACKETS = 100_000
PAYLOAD = bytes(range(56)).hex()
GROUPS = 8_000
COPIES = 256
# Each value of `tag` has a group.
GROUPS_DESIGN = """packet { header e { tag: bit<16>; } }
function h(a: bit<16>): bool;
function g(s: bit<16>): bool;
function m(t: bit<16>, x: bit<16>): bool;
role Out[a: bit<16>] | h(a) = { send SwIn[16w1, a]; }
role In[a: bit<16>] | h(a);
host (Out, In);
role SwIn[s: bit<16>, p: bit<16>] | g(s) and p < 16w4 = {
  fork (x: bit<16> | m(pkt.e.tag, x)) { send SwOut[s, x]; }
}
role SwOut[s: bit<16>, p: bit<16>] | g(s) and p < 16w4 = { send In[p]; }
switch (SwIn, SwOut) ports 4;
"""
# Each packet is copied for all hosts.
FAN_DESIGN = GROUPS_DESIGN.replace("p < 16w4", f"p < 16w{COPIES}").replace("ports 4", f"ports {COPIES}")


class Ring:
    """Switches in a ring."""

    hops = 16
    name = f"switches {SWITCHES} hosts {HOSTS} links {SWITCHES * (HOSTS_AT_EACH + LINKS)}"
    design = design(1)

    @staticmethod
    def definitions():
        """A packet goes as far round the ring as a link leads, and then to its host. A route is found by the inverted address."""
        lines = [f"default {f} = false;" for f in ("h", "g", "isLink")]
        lines += [f"default {f} = 16w0;" for f in ("switchOf", "portOf", "peer", "route")] + [f"default hostAt = 32w{LAST};"]
        lines += [f"define g(16w{s}) = true;" for s in range(1, SWITCHES + 1)]
        for a in range(HOSTS):
            s, p = a // HOSTS_AT_EACH + 1, a % HOSTS_AT_EACH
            lines += [f"define h(32w{a}) = true;", f"define switchOf(32w{a}) = 16w{s};", f"define portOf(32w{a}) = 16w{p};"]
            lines += [f"define hostAt(16w{s}, 16w{p}) = 32w{a};", f"define route(16w{s}, 32w{LAST - a}) = 16w{p};"]
        block = LAST - HOSTS_AT_EACH + 1
        for s in range(1, SWITCHES + 1):
            for p in range(FIRST_LINK, 256):
                peer = (s + p - FIRST_LINK) % SWITCHES + 1
                lines += [f"define isLink(16w{s}, 16w{p}) = true;", f"define peer(16w{s}, 16w{p}) = 16w{peer};"]
            for steps in range(1, SWITCHES):
                first = (s - 1 + steps) % SWITCHES * HOSTS_AT_EACH
                port = FIRST_LINK + min(steps, LINKS) - 1
                lines.append(f"define route(16w{s}, 32w{LAST - first} &&& 32w{block}) = 16w{port};")
        return "\n".join(lines) + "\n"

    @staticmethod
    def packet(number):
        """The host, the host that it sends to, and the bytes. Each pair of hosts comes before any comes again."""
        source, target = number % HOSTS, (number * 37 + number // HOSTS) % HOSTS
        return source, [target], f"{source:08x}{target:08x}{PAYLOAD}"


class Line:
    """Switches in a line, with a host at each."""

    hops = SWITCHES
    name = f"switches {SWITCHES} hosts {SWITCHES} links {3 * SWITCHES}"
    design = design(1)

    @staticmethod
    def definitions():
        """A packet goes on by the first link port, and back by the second. The ends are joined, but no packet goes there."""
        lines = [f"default {f} = false;" for f in ("h", "g", "isLink")]
        lines += [f"default {f} = 16w0;" for f in ("switchOf", "portOf", "peer", "route")] + [f"default hostAt = 32w{LAST};"]
        for s in range(1, SWITCHES + 1):
            lines += [f"define g(16w{s}) = true;", f"define h(32w{s}) = true;", f"define switchOf(32w{s}) = 16w{s};"]
            lines.append(f"define hostAt(16w{s}, 16w0) = 32w{s};")
            for port, peer in ((FIRST_LINK, s % SWITCHES + 1), (FIRST_LINK + 1, (s - 2) % SWITCHES + 1)):
                lines += [f"define isLink(16w{s}, 16w{port}) = true;", f"define peer(16w{s}, 16w{port}) = 16w{peer};"]
            for a in range(1, SWITCHES + 1):
                port = 0 if a == s else FIRST_LINK if a > s else FIRST_LINK + 1
                lines.append(f"define route(16w{s}, 32w{LAST - a}) = 16w{port};")
        return "\n".join(lines) + "\n"

    @staticmethod
    def packet(number):
        """From the first host to the last."""
        return 1, [SWITCHES], f"{1:08x}{SWITCHES:08x}{number:08x}{PAYLOAD[8:]}"


class Copied:
    """One switch, which copies each packet for the members of a group."""

    hops = 16
    name = "switches 1 hosts 4 links 4"
    design = GROUPS_DESIGN

    @staticmethod
    def definitions():
        lines = [f"default {f} = false;" for f in ("h", "g", "m")] + ["define g(16w1) = true;"]
        lines += [f"define h(16w{a}) = true;" for a in range(4)]
        return "\n".join(lines + [f"define m(16w{k}, 16w{k % 4}) = true;" for k in range(GROUPS)]) + "\n"

    @staticmethod
    def packet(number):
        """All groups come before any comes again."""
        group = number * 37 % GROUPS
        return number % 4, [group % 4], f"{group:04x}{PAYLOAD}"


class Fan:
    """One switch, which copies each packet for all hosts."""

    hops = 16
    name = f"switches 1 hosts {COPIES} links {COPIES}"
    design = FAN_DESIGN

    @staticmethod
    def definitions():
        lines = [f"default {f} = false;" for f in ("h", "g", "m")] + ["define g(16w1) = true;"]
        lines += [f"define h(16w{a}) = true;\ndefine m(16w1, 16w{a}) = true;" for a in range(COPIES)]
        return "\n".join(lines) + "\n"

    @staticmethod
    def packet(number):
        return number % COPIES, list(range(COPIES)), f"0001{number % 65536:04x}{PAYLOAD[4:]}"


def compiled(program, folder, network):
    (folder / "n.ccn").write_text(network.design)
    (folder / "n.defs").write_text(network.definitions())
    done = subprocess.run([program, "compile", "n.ccn", "n.defs", "out"], cwd=folder, stdout=subprocess.PIPE, check=False)
    wanted = f"compiled {network.name} obligations 0"
    if done.stdout.decode().strip() != wanted:
        sys.exit(f"forward.py: compile printed {done.stdout!r}, wanted {wanted!r}")


def write_packets(folder, network, count):
    """A file of so many packets; what is to be printed of them."""
    packets = [network.packet(n) for n in range(count)]
    (folder / "packets").write_text("".join(f"{source} {sent}\n" for source, _, sent in packets))
    return "".join(
        f"{n + 1} delivered {len(targets)} travelling 0\n" + "".join(f"> {target} {sent}\n" for target in targets)
        for n, (_, targets, sent) in enumerate(packets)
    )


def one_run(words, folder, wanted):
    """The wall time in seconds and the most memory in MiB of one run."""
    with open(folder / "printed", "wb") as printed:
        start = time.perf_counter()
        child = subprocess.Popen(words, cwd=folder, stdout=printed)
        _, status, used = os.wait4(child.pid, 0)
        taken = time.perf_counter() - start
    if status != 0 or (folder / "printed").read_text() != wanted:
        sys.exit(f"forward.py: {words[0]} ends with status {status >> 8}, and not with the deliveries that are wanted")
    return taken, used.ru_maxrss / 1024


def measured(commands, folder, network, count, runs):
    """For each command the least time and the most memory for so many packets. They run in turn."""
    wanted = write_packets(folder, network, count)
    found = [[one_run(words, folder, wanted) for words in commands] for _ in range(runs)]
    return [(min(taken for taken, _ in of), max(memory for _, memory in of)) for of in zip(*found)]


def instructions(words, folder, network, count):
    """How many a packet takes: those of so many packets, without those of none."""
    totals = []
    for packets in (0, count):
        wanted = write_packets(folder, network, packets)
        asked = ["valgrind", "--tool=cachegrind", "--cache-sim=no", f"--cachegrind-out-file={folder / 'counts'}", *words]
        done = subprocess.run(asked, cwd=folder, stdout=subprocess.PIPE, stderr=subprocess.PIPE, check=False)
        if done.returncode != 0 or done.stdout.decode() != wanted:
            sys.exit(f"forward.py: {words[0]} ends with status {done.returncode}, and not with the deliveries that are wanted")
        totals.append(int(re.search(r"I\s+refs:\s+([\d,]+)", done.stderr.decode()).group(1).replace(",", "")))
    return (totals[1] - totals[0]) // count, totals[0]


def commands_for(program, folder, network):
    """The program, and beside it the plain one in both its ways where it can be built."""
    found = [[program, "forward", "out", "packets", "--hops", str(network.hops)]]
    if shutil.which("cc"):
        subprocess.run(["cc", "-O2", "-o", folder / "visits", TOP / "bench" / "visits.c"], check=True)
        (folder / "plain").write_text(plain_form(folder, "out"))
        found += [[folder / "visits", word, "plain", "packets", str(network.hops)] for word in ("forward", "grouped")]
    return found


def print_instructions(commands, folder, network, count):
    print("| Program | Instructions for a packet | For the bundle |\n|---|---|---|")
    for words in commands:
        each, bundle = instructions(words, folder, network, count)
        print(f"| {pathlib.Path(words[0]).name} {words[1]} | {each:,} | {bundle:,} |", flush=True)


def print_times(commands, folder, network, runs):
    print("| Packets | Time | Memory | In C | Memory | In groups in C | Memory | Ratios |\n|---|---|---|---|---|---|---|---|")
    whole = None
    for count in (0, PACKETS // 2, PACKETS):
        half, whole = whole, measured(commands, folder, network, count, runs)
        line = f"| {count:,}"
        for taken, memory in whole:
            line += f" | {taken:.2f} s | {memory:,.0f} MiB"
        ratios = ", ".join(f"{whole[0][0] / taken:.2f}" for taken, _ in whole[1:])
        print(f"{line} | {ratios} |", flush=True)
    print("Whole to half: " + ", ".join(f"{both[1][0] / both[0][0]:.2f}" for both in zip(half, whole)))


def main():
    words = sys.argv[1:]
    network = {"groups": Copied, "line": Line, "fan": Fan}.get(words[0] if words else "", Ring)
    if network is not Ring:
        words = words[1:]
    program = os.environ.get("COCOON") or TOP / "crates" / "cocoon" / "out" / "cocoon"
    if not os.access(program, os.X_OK):
        sys.exit("forward.py: build the program first: `rt run` in crates/cocoon")
    memory_folder = "/dev/shm" if os.access("/dev/shm", os.W_OK) else None
    with tempfile.TemporaryDirectory(dir=memory_folder) as name:
        folder = pathlib.Path(name)
        compiled(program, folder, network)
        commands = commands_for(program, folder, network)
        if words[:1] == ["instructions"]:
            print_instructions(commands, folder, network, int(words[1]))
        else:
            print_times(commands, folder, network, int(words[0]) if words else 3)


if __name__ == "__main__":
    main()
