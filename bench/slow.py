#!/usr/bin/env python3
"""Runs the program on small texts that are within all limits and once took it minutes or gigabytes, and says which still do.

    bench/slow.py PROGRAM [NAME..]     these texts of bench/slow, or all

The texts are in bench/slow: NAME.ccn with NAME.defs is compiled. If there is NAME.case, then in place of this the case is run by `step`; and if
there is NAME.packets, the bundle is then also forwarded. The first line of NAME.ccn is a comment and says what is wanted:

    // STATUS, at most S s and M MiB: what the text is about
    // STATUS, level L, at most S s and M MiB: the same, of a case

STATUS is that of the last of the commands; seconds are those of the processor, and MiB the most resident memory. A line is printed for each command,
and the status is 1 if a text is over its bounds, or ends otherwise than is wanted.
"""

import os
import pathlib
import re
import resource
import shutil
import subprocess
import sys
import tempfile

SLOW = pathlib.Path(__file__).resolve().parent / "slow"
WANTED = re.compile(rb"// (\d+),(?: level (\d+),)? at most (\d+) s and (\d+) MiB: ")
# What a run may ask for beyond its bounds before it is ended: seconds of the processor, and bytes.
MOST_SECONDS, MOST_BYTES = 120, 12 << 30


def bound():
    resource.setrlimit(resource.RLIMIT_CPU, (MOST_SECONDS, MOST_SECONDS))
    resource.setrlimit(resource.RLIMIT_AS, (MOST_BYTES, MOST_BYTES))


def run(words, folder):
    """The status, the seconds, the MiB and the line of a command."""
    with open(folder / "line", "w+b") as line:
        begun = subprocess.Popen(words, cwd=folder, stdin=subprocess.DEVNULL, stdout=line, stderr=subprocess.STDOUT, preexec_fn=bound)
        _, ended, used = os.wait4(begun.pid, 0)
        begun.returncode = os.waitstatus_to_exitcode(ended)
        line.seek(0)
        first = line.readline().decode(errors="replace").rstrip()
    return begun.returncode, used.ru_utime + used.ru_stime, used.ru_maxrss / 1024, first


def commands(program, text, level):
    """The commands that are run on a text, in a folder that has its files."""
    texts = [f"{text.name}.ccn", f"{text.name}.defs"]
    if text.with_suffix(".case").exists():
        yield [program, "step", *texts, level, f"{text.name}.case"]
        return
    yield [program, "compile", *texts, "out"]
    if text.with_suffix(".packets").exists():
        yield [program, "forward", "out", f"{text.name}.packets"]


def try_text(program, text):
    """Whether a text is within its bounds and ends as is wanted."""
    with open(text.with_suffix(".ccn"), "rb") as design:
        wanted = WANTED.match(design.readline())
    if not wanted:
        sys.exit(f"slow.py: {text.name}.ccn does not begin with what is wanted of it")
    status, level, seconds, mebibytes = (int(part or 0) for part in wanted.groups())
    good = True
    with tempfile.TemporaryDirectory() as folder:
        # (a budget that is spent leaves a file beside the design)
        for path in SLOW.glob(f"{text.name}.*"):
            shutil.copy(path, folder)
        for words in commands(program, text, str(level)):
            got, took, memory, line = run(words, pathlib.Path(folder))
            within = took <= seconds and memory <= mebibytes
            good &= within
            print(f"{text.name}: {words[1]} {took:.2f} s {memory:.0f} MiB, status {got}, {line[:80]}{'' if within else ': OVER'}", flush=True)
    if got != status:
        print(f"{text.name}: status {status} is wanted", flush=True)
    return good and got == status


def main(program, names):
    program = str(pathlib.Path(program).resolve())
    texts = [SLOW / name for name in names] or sorted(path.with_suffix("") for path in SLOW.glob("*.ccn"))
    results = [try_text(program, text) for text in texts]
    print(f"{sum(results)} of {len(results)} texts are as wanted")
    return 0 if all(results) else 1


if __name__ == "__main__":
    if len(sys.argv) < 2:
        sys.exit(__doc__)
    sys.exit(main(sys.argv[1], sys.argv[2:]))
