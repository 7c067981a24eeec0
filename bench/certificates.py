#!/usr/bin/env python3
"""How long files of certificates take, and how much memory: of 64 MiB, the most that there may be, of one byte more, and of half of it.

    bench/certificates.py [RUNS]     runs the built program on each so often (3), and prints the least processor time and the most memory

It needs the program of crates/text_tests: `rt run` there builds it. Each run reads the file from its input, and prints how many
certificates it has, or its fault.
"""

import os
import pathlib
import random
import subprocess
import sys
import tempfile

TOP = pathlib.Path(__file__).resolve().parent.parent
MOST = 64 << 20


def of_size(entries, size):
    """A file of certificates of just this size: entries while there is room, in a layout with blanks at the end."""
    parts, used = [], len('{"certs":[],"cocoon":1}')
    for entry in entries:
        if used + len(entry) + 1 > size:
            break
        parts.append(entry)
        used += len(entry) + 1
    text = '{"certs":[' + ",".join(parts) + '],"cocoon":1}'
    return (text + " " * (size - len(text))).encode()


def searched():
    """Logs as a search of bits makes them: 1,000 steps each, of three literals and eight hints on the average."""
    dice = random.Random(1)
    steps = []
    for at in range(1000):
        clause = [dice.choice([1, -1]) * dice.randint(1, 5000) for _ in range(dice.randint(1, 5))]
        hints = [dice.randint(0, 20000 + at) for _ in range(dice.randint(2, 14))]
        steps.append(f"[{clause},{hints}]".replace(" ", ""))
    entry = '{"instances":[[0,[1,2]]],"log":[' + ",".join(steps) + "]}"
    while True:
        yield entry


def hints():
    """One step each with 100,000 hints of one digit: the most numbers for the bytes."""
    entry = '{"instances":[],"log":[[[],[' + ",".join(["7"] * 100_000) + "]]]}"
    while True:
        yield entry


def steps():
    """10,000 steps each of one literal and one hint: the most lists for the bytes."""
    entry = '{"instances":[],"log":[' + ",".join(["[[1],[2]]"] * 10_000) + "]}"
    while True:
        yield entry


def blanks():
    """No certificates, and blanks."""
    return iter(())


KINDS = [("logs as a search makes them", searched), ("hints of one digit", hints), ("steps of one literal and one hint", steps), ("blanks", blanks)]


def run(program, path, runs):
    """The least processor time of some runs in seconds, the most memory in MiB, and what the program prints."""
    best, memory = None, 0
    for _ in range(runs):
        with path.open("rb") as text:
            process = subprocess.Popen([program, "certificates"], stdin=text, stdout=subprocess.PIPE)
            printed = process.stdout.read()
            _, _, used = os.wait4(process.pid, 0)
        taken = used.ru_utime + used.ru_stime
        best = taken if best is None else min(best, taken)
        memory = max(memory, used.ru_maxrss >> 10)
    return best, memory, printed.decode().strip()


def main():
    runs = int(sys.argv[1]) if len(sys.argv) > 1 else 3
    program = os.environ.get("TEXT_TESTS") or TOP / "crates" / "text_tests" / "out" / "text_tests"
    if not os.access(program, os.X_OK):
        sys.exit("certificates.py: build the program first: `rt run` in crates/text_tests")
    print("| Certificates | Bytes | Time | Memory | Printed |\n|---|---|---|---|---|")
    with tempfile.TemporaryDirectory() as name:
        path = pathlib.Path(name) / "certs.json"
        for kind, entries in KINDS:
            for size in (MOST // 2, MOST, MOST + 1):
                path.write_bytes(of_size(entries(), size))
                taken, memory, printed = run(program, path, runs)
                print(f"| {kind} | {size:,} | {taken:.2f} s | {memory:,} MiB | {printed} |", flush=True)


if __name__ == "__main__":
    main()
