#!/usr/bin/env python3
"""Runs the built program on small inputs with each allocation and each call on files refused in turn.

    bench/refused.py

prints how each run ended and what stood in the folder then; runs that follow each other and are alike become one line. `BAD` is printed
where a file of the bundle is neither the old one nor the new one, or another file was changed. Of a run with more than 2,000 allocations
some 2,000 are refused, evenly spread, and the last 100. Then `forward` runs over what a `compile` and an `update` that stopped left, the `update`
is made again, and the program of the cases runs one of them over a folder in memory. docs/TRIED.md says what came of it. It needs a C compiler, the built program (`rt run` in
crates/cocoon) and that of crates/command_tests (`rt run` there builds it), and takes two minutes; the gate does not run it.
"""

import collections
import concurrent.futures
import itertools
import os
import pathlib
import shutil
import subprocess
import sys
import tempfile

TOP = pathlib.Path(__file__).resolve().parent.parent
PROGRAM = TOP / "crates" / "cocoon" / "out" / "cocoon"
TESTS = TOP / "crates" / "command_tests"
CASES = [TESTS / "out" / "command_tests", TESTS / "data" / "memory.cases"]
MEMORY_FOLDER = "/dev/shm" if os.access("/dev/shm", os.W_OK) else None
MOST = 2000
BUNDLE = ("one.s1.p4", "one.s1.rows.json", "one.certs.json", "one.net.json")
OLDER = b"older\n"
JOB, FORWARD, STEP = "compile c.ccn c.defs one", "forward one p.txt", "step c.ccn c.defs 0 c.case"
SPENT = "compile a.spent a.defs one --conflicts 1"
NARROW = "check r.narrow"
# The bundle of the first one stands where the second one writes its own.
BEFORE, EVENING = "compile m.ccn m.defs one", "update m.ccn m.evening one"
GENERATED = "gen 3 9"
WORDS = [
    JOB,
    "compile c.ccn c.defs",
    "compile none.ccn c.defs one",
    "compile c.ccn none.defs one",
    "compile c.long c.defs one",
    "compile c.slip c.defs one",
    BEFORE,
    "compile c.ccn c.short one",
    "compile a.broken a.defs one",
    SPENT,
    "check r.ccn",
    NARROW,
    EVENING,
    "update m.ccn m.moved one",
    GENERATED,
    FORWARD,
    STEP,
    "step m.ccn m.defs 1 m.case",
    "step f.ccn f.defs 0 c.case",
    "step none.ccn c.defs 0 c.case",
    "step c.ccn none.defs 0 c.case",
    "step c.ccn c.defs 0 none.case",
    "step c.ccn c.defs 0 long.case",
    "step c.slip c.defs 0 c.case",
    "step c.ccn c.short 0 c.case",
    "step c.ccn c.defs 1 c.case",
    "step c.ccn c.defs 0 line.case",
    "step c.ccn c.defs 0",
]


def inputs():
    """The files of the folder, but for those of a bundle."""
    files = {path.name: path.read_bytes() for path in (TOP / "examples").glob("?.*")}
    files |= {
        "c.long": bytes(1048577),
        "c.short": files["c.defs"].split(b"\n")[0] + b"\n",
        "c.slip": files["c.ccn"].replace(b"send", b"sned", 1),
        "a.broken": files["a.ccn"].replace(b"role", b"assume (t: bit<8>, p: bit<16>) pick(t, p) < 16w3;\nrole", 1),
        "a.spent": files["a.ccn"].replace(b"role", b"assume (a: bit<8>, b: bit<8>) a + b == b + a;\nrole", 1),
        "r.narrow": files["r.ccn"].replace(b"havoc x: bit<16>; send SwOut[s, x];", b"send SwOut[s, 16w1];", 1),
        "c.case": b"SwIn 1 0\n1\n-\n",
        "line.case": b"SwIn 1\n1\n-\n",
        "long.case": bytes(65537),
        "m.case": b"HostOut 167772161\n167772161 167772162\n-\n",
        "p.txt": b"0 0101\n1 02\n2 -\n",
        "m.txt": b"167772161 0a0000010a000002ff\n167772162 0a0000020a000001ff\n",
        "m.evening": files["m.defs"] + b"define acl(32w167772162, 32w167772161) = true;\n",
        "m.moved": files["m.defs"].replace(b"portOf(32w167772162) = 16w1", b"portOf(32w167772162) = 16w2").replace(b"hostAt(16w1, 16w1)", b"hostAt(16w1, 16w2)"),
    }
    return files


class Room:
    """A folder in which the program is run, with the library that refuses."""

    def __init__(self, library, files, bundles):
        self.at = pathlib.Path(tempfile.mkdtemp(dir=MEMORY_FOLDER))
        self.library, self.files, self.bundles = library, files, bundles
        for name, content in files.items():
            (self.at / name).write_bytes(content)

    def prepare(self, words):
        """Puts an older bundle there, and for `forward` and `update` one that is read."""
        self.bundle = self.bundles.get(words, self.bundles[JOB])
        self.older = self.bundle if words.startswith("forward") else self.bundles[BEFORE] if words.startswith("update") else dict.fromkeys(BUNDLE, OLDER)
        for name in BUNDLE:
            (self.at / name).write_bytes(self.older[name])
        for path in [*self.at.glob("*.new"), *self.at.glob("*.budget.json")]:
            path.unlink()

    def run(self, words, refused):
        """The status, the report and the library's counts of a run, over what stands there."""
        places = {**os.environ, "LD_PRELOAD": self.library, **refused}
        ended = subprocess.run([PROGRAM, *words.split()], cwd=self.at, env=places, stdout=subprocess.PIPE, stderr=subprocess.PIPE, text=True)
        return ended.returncode, ended.stdout.strip().replace("\n", " / "), ended.stderr.split()

    def left(self):
        """What each file of the bundle is, and the files beside that were not there."""
        contents = [(self.at / name).read_bytes() for name in BUNDLE]
        kinds = ["old" if content == self.older[name] else "new" if content == self.bundle[name] else "BAD" for name, content in zip(BUNDLE, contents)]
        beside = sorted(path.name for path in self.at.iterdir() if path.name not in self.files and path.name not in BUNDLE)
        return " ".join([*kinds, *beside])

    def tried(self, words, refused):
        """One run over an older bundle, as a line says it, and the counts."""
        self.prepare(words)
        status, report, counts = self.run(words, refused)
        return f"{status} [{report}] {self.left()}", counts

    def close(self):
        """Removes the folder, and says which other files were changed."""
        changed = [name for name, content in self.files.items() if (self.at / name).read_bytes() != content]
        shutil.rmtree(self.at)
        return changed


def chosen(last):
    """The numbers up to a last one: all, or every so many and the last 100."""
    step = -(-last // MOST)
    return sorted({*range(1, last + 1, step), *range(max(1, last - 99), last + 1)})


def each(make_room, words, variable, last, others):
    """Runs the words with the variable set to numbers up to a last one, and prints what came of it."""

    def part(numbers):
        room = make_room()
        lines = [(number, room.tried(words, {**others, variable: str(number)})[0]) for number in numbers]
        return lines, room.close()

    workers, numbers = os.cpu_count() or 1, chosen(last)
    with concurrent.futures.ThreadPoolExecutor(workers) as pool:
        parts = list(pool.map(part, [numbers[first::workers] for first in range(workers)]))
    for changed in (name for _, names in parts for name in names):
        print(f"BAD: {changed} was changed")
    for line, run in itertools.groupby(sorted(one for lines, _ in parts for one in lines), key=lambda one: one[1]):
        numbers = [number for number, _ in run]
        print(f"  {numbers[0]}-{numbers[-1]} {line}")


def refuse_memory(make_room):
    room = make_room()
    for words in WORDS:
        line, (allocations, _) = room.tried(words, {})
        print(f"{words}: {line}\n one of {allocations} allocations refused")
        each(make_room, words, "REFUSE", int(allocations), {})
        print(" it and all after it refused")
        each(make_room, words, "REFUSE", int(allocations), {"ON": "1"})
    room.close()


def refuse_files(make_room):
    room = make_room()
    for words in (JOB, SPENT, NARROW, EVENING, GENERATED, FORWARD, STEP):
        _, (_, calls) = room.tried(words, {})
        for fault in ("5", "28", "4"):
            print(f"one of {calls} calls on files of {words} fails with {fault}")
            each(make_room, words, "FAULT", int(calls), {"ERROR": fault})
        print(" a call and all after it fail with 5")
        each(make_room, words, "FAULT", int(calls), {"ERROR": "5", "ON": "1"})
        line, (_, calls) = room.tried(words, {"SHORT": "1"})
        print(f"one byte at a time: {line}, {calls} calls")
    room.close()


def stop_compiles(make_room):
    print("compile f.ccn f.defs one over the bundle of c.ccn, of whose calls one fails, and then forward")
    room = make_room()
    for number in range(1, 25):
        room.prepare(FORWARD)
        status, report, _ = room.run("compile f.ccn f.defs one", {"FAULT": str(number), "ERROR": "5"})
        then, delivered, _ = room.run(FORWARD, {})
        print(f"  {number} {status} [{report}], {then} [{delivered}]")
    room.close()


def stop_updates(make_room):
    print(f"{EVENING} over the bundle of m.defs, of whose calls one fails, forward, and the same update again")
    room = make_room()
    for number in range(1, 33):
        room.prepare(EVENING)
        status, report, _ = room.run(EVENING, {"FAULT": str(number), "ERROR": "5"})
        kinds = room.left()
        then, delivered, _ = room.run("forward one m.txt", {})
        again, mended, _ = room.run(EVENING, {})
        print(f"  {number} {status} [{report}] {kinds}, {then} [{delivered}], {again} [{mended}] {room.left()}")
    room.close()


def refuse_cases(library):
    """Counts the statuses of the program of the cases, with each of its allocations refused."""

    def status(refused):
        places = {**os.environ, "LD_PRELOAD": library, **refused}
        return subprocess.run(CASES, env=places, stdout=subprocess.DEVNULL, stderr=subprocess.PIPE, text=True)

    last = int(status({}).stderr.split()[-2])
    for on in ("0", "1"):
        with concurrent.futures.ThreadPoolExecutor() as pool:
            ended = pool.map(lambda number: status({"REFUSE": str(number), "ON": on}).returncode, range(1, last + 1))
        print(f"one of {last} allocations of memory.cases refused{' and all after it' * int(on)}: {dict(collections.Counter(ended))}")


def main():
    with tempfile.TemporaryDirectory() as folder:
        library = f"{folder}/refuse.so"
        subprocess.run(["cc", "-shared", "-fPIC", "-o", library, TOP / "bench" / "refuse.c"], check=True)
        files = inputs()
        bundles = {JOB: dict.fromkeys(BUNDLE, OLDER)}
        first = Room(library, files, bundles)
        for words in [words for words in WORDS if words.startswith("compile")] + [words for words in WORDS if words.startswith("update")]:
            first.prepare(words)
            first.run(words, {})
            bundles[words] = {name: (first.at / name).read_bytes() for name in BUNDLE}
        first.close()
        for step in (refuse_memory, refuse_files, stop_compiles, stop_updates):
            step(lambda: Room(library, files, bundles))
        refuse_cases(library)


if __name__ == "__main__":
    sys.exit(main())
