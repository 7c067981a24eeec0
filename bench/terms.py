#!/usr/bin/env python3
"""How long calls take over large arenas of terms, and what constants cost whose hashes are one.

    bench/terms.py [FOLDER]     prints the least wall times of nine processes, in milliseconds, and for a chain also how many times those of its half it takes

It copies the crates that it needs, with the program of bench/terms, into this folder or into a temporary one. There it has `rt run` prove and build
what is not kept on this machine. A program that is built in this folder is run as it is. A chain and its half have processes of their own.
"""

import os
import pathlib
import re
import shutil
import subprocess
import sys
import tempfile

TOP = pathlib.Path(__file__).resolve().parent.parent
RUNS = 9
NEEDED = ["cocoon_num", "numbering", "bv_terms"]


def laid_out(folder):
    """The folder of the program, over copies of the crates."""
    program = folder / "crates" / "terms_time"
    for crate in NEEDED:
        for part in ("src", "specs", "proofs"):
            if (TOP / "crates" / crate / part).is_dir():
                shutil.copytree(TOP / "crates" / crate / part, folder / "crates" / crate / part, dirs_exist_ok=True)
    # (a file of Rattle stands in a crate alone: here each has `.txt` after its name)
    for path in (TOP / "bench" / "terms").rglob("*.txt"):
        to = program / path.relative_to(TOP / "bench" / "terms").with_suffix("")
        to.parent.mkdir(parents=True, exist_ok=True)
        shutil.copyfile(path, to)
    lines = [line for line in (TOP / "crates.txt").read_text().splitlines() if line.split(":")[0] in NEEDED]
    (folder / "crates.txt").write_text("\n".join([*lines, f"terms_time: indexmap {' '.join(NEEDED)}"]) + "\n")
    return program


def built(folder):
    """The program."""
    path = folder / "crates" / "terms_time" / "out" / "terms_time"
    if path.exists():
        return path
    long = {**os.environ, "RT_SECONDS": "600"}
    said = subprocess.run(["rt", "run"], cwd=laid_out(folder), env=long, stdout=subprocess.PIPE, stderr=subprocess.STDOUT, text=True).stdout
    if not path.exists():
        sys.exit(said)
    return path


def main():
    least = {}
    with tempfile.TemporaryDirectory() as name:
        program = built(pathlib.Path(sys.argv[1] if len(sys.argv) > 1 else name))
        for words in RUNS * [["whole"], ["half"], []]:
            said = subprocess.run([program, *words], stdout=subprocess.PIPE, text=True, check=True).stdout
            for kind, count, micros in re.findall(r"^([a-z ]+) (\d+) (\d+)$", said, re.MULTILINE):
                key = (kind, int(count))
                least[key] = min(int(micros), least.get(key, int(micros)))
    for (kind, count), micros in least.items():
        half = least.get((kind, count // 2))
        times = f", {micros / half:.2f} times the half" if half else ""
        print(f"{kind}, {count:,}: {micros / 1000:.1f} ms{times}")


if __name__ == "__main__":
    main()
