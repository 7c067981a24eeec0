#!/usr/bin/env python3
"""Whether the cases of masks.txt, in crates/text_tests/data, want what their rows say: the first row that matches decides.

    bench/masks.py     prints how many cases there are, and those that want another result

It reads the cases by itself and tries one row after another. Of a program it knows what these cases have: keys that are set to a field or to
a literal, also in the branches of one test of the first field, and one table, whose result is the port.
"""

import pathlib
import re
import shlex
import sys

CASES = pathlib.Path(__file__).resolve().parent.parent / "crates" / "text_tests" / "data" / "masks.txt"


def spelled_out(line):
    """The words of a line, those in quotes as often as they say."""
    found = []
    for word in shlex.split(line, comments=False):
        times, _, rest = word.partition(" ")
        if rest and times.isdigit():
            for k in range(int(times)):
                found += rest.replace("#", str(k)).split()
        else:
            found.append(word)
    return found


def fields_of(words, sent):
    """The fields of the header, cut from the bytes."""
    widths = [int(word.split(":")[2]) for word in words if word.startswith("field:")]
    number, left, found = int(sent, 16), 4 * len(sent), []
    for width in widths:
        left -= width
        found.append(number >> left & (1 << width) - 1)
    return found


def set_keys(words, fields, meta):
    """Runs words that set meta fields."""
    waiting = None
    for word in words:
        if word.startswith("h:0."):
            waiting = fields[int(word[4:])]
        elif re.fullmatch(r"\d+w\d+", word):
            waiting = int(word.partition("w")[2])
        elif word.startswith("set:"):
            meta[int(word[4:])] = waiting


def keys_of(words, fields):
    meta = {}
    body = " ".join(words[[w.startswith("ternary:") for w in words].index(True) + 1 : words.index("apply:0")])
    tested = re.fullmatch(r"h:0\.0 8w(\d+) == \{ ([^}]*) \} (?:\{ ([^}]*) \} else|if) (.*)", body)
    if tested:
        chosen = tested[2] if fields[0] == int(tested[1]) else tested[3] or ""
        set_keys(chosen.split(), fields, meta)
        body = tested[4]
    set_keys(body.split(), fields, meta)
    table = next(word for word in words if word.startswith("ternary:")).split(":")
    return [meta.get(int(key), 0) for key in table[3].split(",")]


def answer(rows, keys):
    default = int(rows[-1].split(":")[2])
    for row in rows[:-1]:
        _, values, masks, result = row.split(":")
        values, masks = ([int(x) for x in part.split(",")] for part in (values, masks))
        if all(key & mask == value & mask for key, value, mask in zip(keys, values, masks, strict=True)):
            return int(result)
    return default


def main():
    program, rows, cases, wrong = [], [], 0, 0
    for line in CASES.read_text().splitlines():
        if line.startswith("program "):
            program = spelled_out(line)[1:]
        elif line.startswith("rows "):
            rows = spelled_out(line)[1:]
        elif " | visit 0 " in line:
            wanted, _, sent = line.strip().partition(" | visit 0 ")
            right = f"{answer(rows, keys_of(program, fields_of(program, sent)))} {sent}"
            cases += 1
            if wanted != right:
                wrong += 1
                print(f"{wanted!r} is wanted, and not {right!r}, of {line.strip()}")
    print(f"{cases} cases, {wrong} differ")
    return wrong != 0


if __name__ == "__main__":
    sys.exit(main())
