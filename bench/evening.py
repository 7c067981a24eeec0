#!/usr/bin/env python3
"""How long an `update` takes, and what it spends its time on; and the same of `gen`.

    bench/evening.py PROGRAM update        the examples of several levels, each compiled and then updated with the same definitions
    bench/evening.py PROGRAM gen [N..]     networks of so many hosts (1, 3, 40 and 200), with so many packets that the numbers are those of docs/BENCH.md

It prints the least time of a processor of five runs, the most memory, and the instructions of the program's parts, of a part with all that it
calls, by callgrind of valgrind. Of `gen` it prints the conflicts, too: the same texts are compiled with fewer conflicts, until a search is given up.
"""

import os
import pathlib
import re
import shutil
import subprocess
import sys
import tempfile

TOP = pathlib.Path(__file__).resolve().parent.parent
DESIGNS = {"two switches": "refined/two", "fabric": "fabric/network", "vlan": "vlan/network", "nat": "nat/network"}
PACKETS = {1: 3, 3: 9, 40: 1000, 200: 100_000}
# The functions that parts begin with.
PARTS = {
    "update": [
        ("both texts", r"command_reports::\S*bound_texts"),
        ("assumptions", r"command_answers::assumptions::unmet"),
        ("recheck", r"command_answers::standing::accept"),
        ("of that reading", r"json_scan::pair::two_members"),
        ("obligations", r"obligation_gen::\S*::all_obligations"),
        ("queries", r"queries::asking::query"),
        ("clauses", r"bit_blast::blasting::blast"),
        ("wires", r"net_bundle::net_form::read_net"),
        ("lowering", r"command_answers::compile::lower_bound"),
        ("writing", r"net_bundle::write::write_bundle"),
    ],
    "gen": [
        ("both texts", r"command_reports::\S*bound_texts"),
        ("assumption", r"command_answers::assumptions::unmet"),
        ("obligation", r"command_answers::obligations::decide_all"),
        ("lowering", r"command_answers::compile::lower_bound"),
        ("written and read back", r"command_answers::generate::read_back"),
        ("packets", r"command_answers::generate::tell_packets"),
    ],
}


def run(words, folder):
    """The seconds of a processor, the KiB of memory, and what is printed."""
    ended = subprocess.run(["/usr/bin/time", "-f", "%U %S %M %e", *words], cwd=folder, stdout=subprocess.PIPE, stderr=subprocess.PIPE, text=True)
    user, system, memory, wall = map(float, ended.stderr.split()[-4:])
    return user + system, memory, ended.stdout.strip(), wall


def least(words, folder, times=5):
    runs = [run(words, folder) for _ in range(times)]
    return min(seconds for seconds, *_ in runs), max(memory for _, memory, *_ in runs), runs[0][2], min(one[3] for one in runs)


def parts(words, folder, kind):
    """The instructions of all, and of each part with what it calls."""
    out = f"{folder}/callgrind.out"
    subprocess.run(["valgrind", "--tool=callgrind", f"--callgrind-out-file={out}", *words], cwd=folder, stdout=subprocess.DEVNULL, stderr=subprocess.DEVNULL, check=False)
    told = subprocess.run(["callgrind_annotate", "--inclusive=yes", "--threshold=100", out], stdout=subprocess.PIPE, text=True).stdout
    os.unlink(out)
    all_of = int(re.search(r"^\s*([\d,]+).*PROGRAM TOTALS", told, re.M)[1].replace(",", ""))
    lines = re.findall(r"^\s*([\d,]+)\s+\([^)]*\)\s+\S*?:(\S+)", told, re.M) or re.findall(r"^\s*([\d,]+)\s+\S*?:(\S+)", told, re.M)
    found = {}
    for number, name in lines:
        for part, form in PARTS[kind]:
            if re.match(form, name):
                found[part] = max(found.get(part, 0), int(number.replace(",", "")))
    return all_of, [(part, found[part]) for part, _ in PARTS[kind] if part in found]


def tell(title, words, folder, kind, times=5):
    seconds, memory, line, wall = least(words, folder, times)
    print(f"{title}: {line}; {seconds:.3f} s of a processor, {wall:.3f} s of the clock, {memory / 1024:.1f} MiB", flush=True)
    if shutil.which("valgrind"):
        all_of, shares = parts(words, folder, kind)
        print(f"  {all_of / 1e6:.1f} million instructions:", ", ".join(f"{part} {number / 1e6:.1f} ({100 * number / all_of:.0f} %)" for part, number in shares), flush=True)


def updates(program):
    for title, name in DESIGNS.items():
        with tempfile.TemporaryDirectory() as folder:
            texts = [str(TOP / "examples" / f"{name}.{kind}") for kind in ("ccn", "defs")]
            for text, to in zip(texts, ("d.ccn", "d.defs")):
                shutil.copy(text, f"{folder}/{to}")
            run([program, "compile", "d.ccn", "d.defs", "lab"], folder)
            tell(title, [program, "update", "d.ccn", "d.defs", "lab"], folder, "update")


def definitions(hosts):
    """The definitions of a generated network, by docs/FORMATS.md."""
    address = [167772161 + host for host in range(hosts)]
    rows = ["default cHost = false;"] + [f"define cHost(32w{a}) = true;" for a in address]
    rows += ["default acl = false;"] + [f"define acl(32w{a}, 32w{address[(host + 1) % hosts]}) = true;" for host, a in enumerate(address)]
    rows += ["default sw = false;", "define sw(16w1) = true;", "default swOf = 16w0;"] + [f"define swOf(32w{a}) = 16w1;" for a in address]
    rows += ["default portOf = 16w0;"] + [f"define portOf(32w{a}) = 16w{host};" for host, a in enumerate(address)]
    rows += ["default hostAt = 32w0;"] + [f"define hostAt(16w1, 16w{host}) = 32w{a};" for host, a in enumerate(address)]
    return "\n".join(rows) + "\n"


def conflicts(program, hosts):
    """The fewest conflicts with which the assumption, and with which all, is decided."""
    with tempfile.TemporaryDirectory() as folder:
        design = (TOP / "examples" / "m.ccn").read_text().replace("16w4", "16w256").replace("ports 4", "ports 256")
        pathlib.Path(folder, "d.ccn").write_text(design)
        pathlib.Path(folder, "d.defs").write_text(definitions(hosts))

        def line(most):
            return run([program, "compile", "d.ccn", "d.defs", "lab", "--conflicts", str(most)], folder)[2]

        found = []
        for given_up in ("assumption", ""):
            low, high = 0, 20_000
            while high - low > 1:
                middle = (low + high) // 2
                told = line(middle)
                is_spent = told.startswith("budget") and given_up in told
                low, high = (middle, high) if is_spent else (low, middle)
            found.append(high)
        return found


def generated(program, numbers):
    for hosts in numbers:
        with tempfile.TemporaryDirectory() as folder:
            packets = PACKETS.get(hosts, hosts * hosts)
            least_of = conflicts(program, hosts)
            print(f"{hosts} hosts: with {least_of[0]} conflicts the assumption is decided, and with {least_of[1]} all is", flush=True)
            tell(f"gen {hosts} {packets}", [program, "gen", str(hosts), str(packets)], folder, "gen", 5 if hosts < 100 else 3)


if __name__ == "__main__":
    if len(sys.argv) < 3 or sys.argv[2] not in PARTS:
        sys.exit(__doc__)
    PROGRAM = os.path.abspath(sys.argv[1])
    if sys.argv[2] == "update":
        updates(PROGRAM)
    else:
        generated(PROGRAM, [int(word) for word in sys.argv[3:]] or list(PACKETS))
