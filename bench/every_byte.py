#!/usr/bin/env python3
"""Replaces each byte of the first example's design and definitions by each other byte, compiles, and compares how that ends.

    bench/every_byte.py

prints each text that ends otherwise than the rules below say, and then how often each status came. docs/TRIED.md says what came of it. It
needs the built program (`rt run` in crates/cocoon builds it) and takes some minutes; the gate does not run it.
"""

import collections
import concurrent.futures
import pathlib
import re
import subprocess
import sys
import tempfile

TOP = pathlib.Path(__file__).resolve().parent.parent
PROGRAM = TOP / "crates" / "cocoon" / "out" / "cocoon"
TEXTS = {name: (TOP / "examples" / name).read_bytes() for name in ("c.ccn", "c.defs")}
REFUSED = {"c.ccn": 3, "c.defs": 4}
LETTERS = b"ABCDEFGHIJKLMNOPQRSTUVWXYZabcdefghijklmnopqrstuvwxyz"


def places(pattern, *names):
    """Where the group of the pattern stands in the texts of these names."""
    return {(name, found.start(1)) for name in names for found in re.finditer(pattern, TEXTS[name])}


# The bytes that may come for one that stands there; with all others the text is refused.
KEPT = [
    (places(rb"([ \n])", "c.ccn", "c.defs"), b" \t\n\r"),
    (places(rb"(?:SwIn\[16|== 8|SwOut\[s, 16)w(\d)", "c.ccn") | places(rb"16w(\d)", "c.defs"), b"0123456789"),
    (places(rb"[,<=]( )\d", "c.ccn"), b"0"),
    (places(rb"function \w\((\w)", "c.ccn"), LETTERS),
    (places(rb"(?:16w1,|==|SwOut\[s,)( )", "c.ccn"), b"~"),
    (places(rb"tag (=)=", "c.ccn"), b"!<>"),
    (places(rb"In\[(p)\]", "c.ccn"), b"s"),
    (places(rb"define (.)", "c.defs"), b"gh"),
]


def wanted(name, offset, byte):
    """The status that is wanted with this byte at this offset."""
    is_kept = byte == TEXTS[name][offset] or any((name, offset) in there and byte in these for there, these in KEPT)
    return 0 if is_kept else REFUSED[name]


def tried(case):
    """Compiles with each byte at one offset: the statuses, and a line for each that is not wanted."""
    name, offset = case
    ended, wrong = collections.Counter(), []
    with tempfile.TemporaryDirectory() as room:
        for other, text in TEXTS.items():
            pathlib.Path(room, other).write_bytes(text)
        text = TEXTS[name]
        for byte in range(256):
            pathlib.Path(room, name).write_bytes(text[:offset] + bytes([byte]) + text[offset + 1 :])
            words = [PROGRAM, "compile", "c.ccn", "c.defs", "one"]
            status = subprocess.run(words, cwd=room, stdout=subprocess.DEVNULL).returncode
            ended[name, status] += 1
            if status != wanted(name, offset, byte):
                wrong.append(f"{name} {offset} {bytes([byte])!r}: {status}")
    return ended, wrong


def main():
    cases = [(name, offset) for name, text in TEXTS.items() for offset in range(len(text))]
    ended, wrong = collections.Counter(), []
    with concurrent.futures.ThreadPoolExecutor() as pool:
        for counted, lines in pool.map(tried, cases):
            ended += counted
            wrong += lines
    print(*wrong, *(f"{name} {status}: {count}" for (name, status), count in sorted(ended.items())), sep="\n")
    return 1 if wrong else 0


if __name__ == "__main__":
    sys.exit(main())
