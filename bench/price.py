#!/usr/bin/env python3
"""What the gate costs: processor seconds of each crate's own proof, its tests and its must-fail edits.

    bench/price.py            runs `rt ci` from nothing at the top of the repository and prints a table
    bench/price.py slowest    prints the slowest steps of the checks whose work stands in crates/*/out

The first needs Linux, `rt` on the path, and nothing else at work on the machine. It looks at the checker's processes four times a second, so
each process may have used a quarter of a second more than the table says. The second reads the times at which a check wrote its
files, one for each step: it says something only after a first check of a crate by one job (`rt check NAME --jobs 1`).
"""

import collections
import os
import pathlib
import subprocess
import sys
import threading
import time

TOP = pathlib.Path(__file__).resolve().parent.parent
CRATES = TOP / "crates"
TICKS = os.sysconf("SC_CLK_TCK")
# The most that a crate may cost: seconds for each line of its sources, definitions and proofs.
MOST = 120 / 1000
OWN, TESTS, EDITS = "itself", "tests", "edits"


def lines_of(crate):
    """The lines of a crate's sources, definitions and proofs."""
    files = (path for part in ("src", "specs", "proofs") for path in (CRATES / crate / part).rglob("*"))
    return sum(path.read_bytes().count(b"\n") for path in files if path.suffix in (".rt", ".antt"))


def status_of(pid):
    """The fields of a process after its name: its state, its parent, and so on."""
    return pathlib.Path("/proc", str(pid), "stat").read_text().rpartition(")")[2].split()


def is_ours(pid):
    """Whether this script started a process, or what started it."""
    while pid > 1 and pid != os.getpid():
        pid = int(status_of(pid)[1])
    return pid == os.getpid()


def work_of(pid):
    """The crate and the kind of work of one process of the checker, with the processor seconds used so far."""
    process = pathlib.Path("/proc", pid)
    words = (process / "cmdline").read_bytes().decode(errors="replace").split("\0")
    if os.path.basename(words[0]) != "rattle" or "--crate-name" not in words or not is_ours(int(pid)):
        return None
    crate = words[words.index("--crate-name") + 1]
    folder = os.readlink(process / "cwd")
    kind = TESTS if "--test" in words else OWN if os.path.basename(folder) == crate else EDITS
    user, system = status_of(pid)[11:13]
    return crate, kind, (int(user) + int(system)) / TICKS


def sample(seconds, is_done):
    """Keeps the last reading of each process until the gate is done."""
    while not is_done.wait(0.25):
        for pid in filter(str.isdigit, os.listdir("/proc")):
            try:
                work = work_of(pid)
            except (OSError, ValueError, IndexError):
                continue
            if work:
                seconds[(pid, *work[:2])] = work[2]


def edits_of(crate):
    return len(list((CRATES / crate / "must-fail").glob("*.edit")))


def row(crate, spent):
    """One line of the table."""
    lines, total = lines_of(crate), sum(spent.values())
    cells = [f"`{crate}`", f"{lines:,}"]
    cells += [f"{spent[kind]:.0f}" if spent[kind] else "-" for kind in (OWN, TESTS)]
    cells.append(f"{spent[EDITS]:.0f} ({edits_of(crate)})" if spent[EDITS] else "-")
    cells += [f"{total:.0f}", f"{total * 1000 / lines:.0f}" + (" over" if total > MOST * lines else "")]
    return "| " + " | ".join(cells) + " |"


def gate_words():
    """The words that run the gate from nothing: a kit that keeps what it proved has a word for that, and another begins anew anyway."""
    said = subprocess.run(["rt", "help"], stdout=subprocess.PIPE, stderr=subprocess.STDOUT, text=True).stdout
    return ["rt", "ci", *(["--anew"] if "--anew" in said else [])]


def gate():
    """Runs the gate from nothing and prints what it cost."""
    words, seconds, is_done, began = gate_words(), {}, threading.Event(), time.monotonic()
    sampler = threading.Thread(target=sample, args=(seconds, is_done))
    sampler.start()
    try:
        status = subprocess.run(words, cwd=TOP, stdin=subprocess.DEVNULL).returncode
    finally:
        is_done.set()
        sampler.join()
    wall = time.monotonic() - began
    crates = collections.defaultdict(collections.Counter)
    for (_, crate, kind), spent in seconds.items():
        crates[crate][kind] += spent
    names = [line.split(":")[0].split()[0] for line in (TOP / "crates.txt").read_text().splitlines() if ":" in line]
    print("\n| Crate | Lines | Itself | Tests | Edits | Together | A thousand lines |\n|---|---|---|---|---|---|---|")
    for crate in names:
        print(row(crate, crates[crate]))
    total = sum(sum(spent.values()) for spent in crates.values())
    lines = sum(map(lines_of, names))
    print(f"\n{len(names)} crates, {lines:,} lines: {total / 60:.0f} processor minutes, {wall / 60:.0f} minutes, {os.cpu_count()} processors")
    return status


def slowest():
    """Prints, for each crate, the steps that took longest."""
    for crate in sorted(path.name for path in CRATES.iterdir()):
        files = sorted((path.stat().st_mtime, path.name) for path in (CRATES / crate / "out" / "incremental").rglob("*.oantt"))
        steps = [(later[0] - earlier[0], later[1]) for earlier, later in zip(files, files[1:])]
        for spent, name in sorted(steps, reverse=True)[:5]:
            print(f"{spent:8.1f} s  {name.removesuffix('.oantt')}")
    return 0


if __name__ == "__main__":
    if sys.argv[1:] not in ([], ["slowest"]):
        sys.exit(__doc__)
    sys.exit(slowest() if sys.argv[1:] else gate())
