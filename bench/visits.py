#!/usr/bin/env python3
"""How long visits take: packets through programs with 1, 10 and 100 tables of 1, 100 and 8,000 literal rows.

    bench/visits.py [RUNS [PACKETS]]     runs the built program on each so often (3) with 1,000,000 packets, and prints the least
                                         times and the instructions for one packet; with PACKETS so many through one table,
                                         and a tenth and a hundredth of it through ten and a hundred

It needs the program of crates/text_tests: `rt run` there builds it. Where a compiler `cc` is there, the same is done by the C
program bench/visits.c: every one of 10,000 results has to be the same, and the number that all results make. Times are seconds of
the processor in user mode for 1,000,000 packets, and those of a run without packets are taken off them. Instructions are counted
where valgrind is there, with 1,000 packets.
"""

import os
import pathlib
import re
import shutil
import subprocess
import sys
import tempfile

TOP = pathlib.Path(__file__).resolve().parent.parent
PACKETS = 1_000_000
COMPARED = 10_000
COUNTED = 1_000
COUNTS = ["valgrind", "--tool=cachegrind", "--cache-sim=no", "--cachegrind-out-file=/dev/null"]


def words(tables, rows):
    """The words of a program in which each table is applied once, and those of its rows. Half of all keys or less have a row, and
    each key depends on the result of the table before."""
    bits = rows.bit_length()
    program = ["field:a:16 field:b:48 header:h meta:k0:16 meta:r0:16"]
    program += [f"exact:{table}:1:0" for table in range(tables)]
    program += [f"{16 - bits}w0 h:0.0 slice:15.{16 - bits} ++ m:1 + 16w{2 ** bits - 1} & set:0 apply:{table}" for table in range(tables)]
    program += ["m:1 h:0.0 ^ set:0.0 m:1 egress_port verdict:1"]
    data = [f'"{rows} row:#:65535:# " rows:{table}:{table % rows}' for table in range(tables)]
    return " ".join(program), " ".join(data)


def run(words, count, asked):
    """What a program prints, what it says beside, and the seconds in user mode that it took."""
    with tempfile.TemporaryFile() as given, tempfile.TemporaryFile() as printed, tempfile.TemporaryFile() as said:
        given.write(f"{count}\n{asked[0]}\n{asked[1]}\n".encode())
        given.seek(0)
        child = subprocess.Popen(words, stdin=given, stdout=printed, stderr=said)
        _, status, usage = os.wait4(child.pid, 0)
        child.returncode = os.waitstatus_to_exitcode(status)
        if child.returncode != 0:
            sys.exit(f"visits.py: {words[0]} ends with status {child.returncode}")
        printed.seek(0)
        said.seek(0)
        return printed.read(), said.read().decode(), usage.ru_utime


def least(program, asked, runs, packets):
    """The number that all results make, and the least time of 1,000,000 packets alone."""
    numbers, loaded, whole = set(), [], []
    for _ in range(runs):
        loaded.append(run([program, "visits"], 0, asked)[2])
        number, _, taken = run([program, "visits"], packets, asked)
        numbers.add(number)
        whole.append(taken)
    if len(numbers) != 1:
        sys.exit("visits.py: two runs differ")
    return numbers.pop(), (min(whole) - min(loaded)) * PACKETS / packets


def instructions(program, asked):
    """The instructions for one packet; none where nothing counts them."""
    if not shutil.which(COUNTS[0]):
        return None
    said = [run([*COUNTS, program, "visits"], count, asked)[1] for count in (0, COUNTED)]
    none, some = (int(re.search(r"I\s+refs:\s+([\d,]+)", text)[1].replace(",", "")) for text in said)
    return (some - none) // COUNTED


def cells(ours, plain, form):
    """What both took, and the ratio; one cell where there is no C program."""
    both = [ours] if plain is None else [ours, plain]
    if None in both:
        return ["-"] * len(both) + ["-"] * (len(both) - 1)
    return [format(one, form) for one in both] + [f"{ours / plain:.1f}" for plain in both[1:]]


def main():
    runs = int(sys.argv[1]) if len(sys.argv) > 1 else 3
    look_ups = int(sys.argv[2]) if len(sys.argv) > 2 else None
    program = os.environ.get("TEXT_TESTS") or TOP / "crates" / "text_tests" / "out" / "text_tests"
    if not os.access(program, os.X_OK):
        sys.exit("visits.py: build the program first: `rt run` in crates/text_tests")
    with tempfile.TemporaryDirectory() as name:
        plain = pathlib.Path(name) / "visits"
        if shutil.which("cc"):
            subprocess.run(["cc", "-O2", "-o", plain, TOP / "bench" / "visits.c"], check=True)
        beside = "| In C | Ratio " if plain.exists() else ""
        head = f"| Tables | Rows of each | Instructions {beside}| Time, s {beside}| To 100 rows {'| In C ' if plain.exists() else ''}|"
        print(f"{head}\n{'|---' * (head.count('|') - 1)}|")
        for tables in (1, 10, 100):
            packets = look_ups // tables if look_ups else PACKETS
            of_100 = None
            for rows in (100, 1, 8000):
                asked = words(tables, rows)
                number, taken = least(program, asked, runs, packets)
                counted, in_c, counted_c = instructions(program, asked), None, None
                if plain.exists():
                    other, in_c = least(plain, asked, runs, packets)
                    counted_c = instructions(plain, asked)
                    each = [run([one, "each"], COMPARED, asked)[0] for one in (program, plain)]
                    if number != other or each[0] != each[1]:
                        sys.exit(f"visits.py: {tables} tables of {rows} rows: the results differ")
                figures = [one for one in (taken, in_c) if one is not None]
                of_100 = of_100 or figures
                line = [str(tables), f"{rows:,}", *cells(counted, counted_c if plain.exists() else None, ","), *cells(taken, in_c, ".2f")]
                line += [f"{one / first:.1f}" for one, first in zip(figures, of_100)]
                print(f"| {' | '.join(line)} |", flush=True)


if __name__ == "__main__":
    main()
