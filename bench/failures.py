#!/usr/bin/env python3
"""Failures of refinements: each that `check` reports is judged by an independent reading of the language, and made again body by body.

    bench/failures.py designs READING [COUNT [SEED]]    draws so many designs (2,000) from this seed (1) on: status and first line of `check` are those of the
                                                        reading, or a failure of which both say that it is real; each report is judged by the reading and replayed
    bench/failures.py broken READING FOLDER             the designs of the folder, each with a filter, an assumption or a bound left out: status, first line
                                                        and seconds, each report judged and replayed

A report is replayed so: `step` at the level of the block leads from `at` with `packet` and the first of the `choices`, body after body, to `to` and `sent`; and `compile`
with the printed definitions is refused with the same first line.

READING is a folder with another program, as bench/refined.py takes it. It needs the built program (`rt run` in crates/cocoon); or COCOON names one.
"""

import collections
import pathlib
import re
import sys
import tempfile
import time

import refined

ROUNDS = 64
# So many bodies a block may allow, and a report is replayed within them.
MOST_BODIES = 64
# What is left out of a design of the folder, one place at a time: a text, and what takes its place.
LEFT_OUT = [(r"\n {4,}filter [^\n;]*;", ""), (r"\n  assume \([^;]*;", ""), (r"within \d+", "within 1")]
# What else is changed in some of them.
CHANGED = {"acl": [(r"=> allowed\(a, b, p\)", "=> allowed(b, a, p)")]}


class Report:
    """What `check` reports of a failure, line by line."""

    def __init__(self, text):
        self.text, lines = text, text.split("\n")
        self.first = lines[0]
        word, _, level, _, self.role, _, _ = lines[0].split(" ")
        self.level, self.is_over = int(level), word == "hopbound"
        self.at, self.packet, self.choices, self.to, self.sent = [line.partition(" ")[2] for line in lines[1:6]]
        self.defs = "\n".join(lines[6:])


def numbers(words):
    return [] if words == "-" else words.split(" ")


def stepped(room, level, at, packet, choices):
    """Where the body leads, and what it sends; None, if nothing."""
    (room.at / "way.case").write_text("\n".join([at, packet, " ".join(choices) or "-", ""]))
    status, line = room.run(f"step d.ccn printed.defs {level} way.case")
    if status != 0 or line == "nothing\n":
        return None
    return tuple(line.rstrip("\n").split(" : "))


def replayed(room, report):
    """Why `step` does not make the failure again; None, if it does. A body takes as many of the choices as it makes, which is seen by trying."""
    (room.at / "printed.defs").write_text(report.defs)
    at, packet, left = report.at, report.packet, numbers(report.choices)
    for _ in range(MOST_BODIES):
        ways = (stepped(room, report.level, at, packet, left[:many]) for many in range(len(left) + 1))
        many, found = next(((many, way) for many, way in enumerate(ways) if way), (0, None))
        if found is None:
            return f"step gives nothing at {at}"
        (at, packet), left = found, left[many:]
        if (at, packet) == (report.to, report.sent) and not left:
            return None
    return "step goes on for too long"


def refused_again(room, report, assumptions):
    """Why `compile` with the printed definitions is not refused with the same first line; None, if it is. An assumption behind the first so many, which are those up to the
    level of the block, may be broken: then `compile` says that before."""
    status, text = room.run("compile d.ccn printed.defs printed")
    first = text.split("\n")[0]
    if (status, first) == (5 if report.is_over else 1, report.first):
        return None
    found = re.match(r"(?:broken|budget conflicts \d+) assumption (\d+)", first)
    return None if found and int(found[1]) >= assumptions else f"compile with the printed definitions: {status} {first!r}"


def judged(reading, room, text):
    """What is wrong with a report; None, if nothing is."""
    report, view = Report(text), reading.view((room.at / "d.ccn").read_bytes())
    try:
        reading.verify.verify_failure(view, text)
    except reading.verify.Refused as why:
        return f"the reading: {why}"
    return replayed(room, report) or refused_again(room, report, view.assume_count(report.level))


def compared(reading, room):
    """What `check` says, what kind of answer that is, and what is wrong with it."""
    status, text = room.run("check d.ccn")
    if status == 3:
        return "language", status, text, None
    design = (room.at / "d.ccn").read_bytes()
    wanted, told = reading.verify.own_check(reading.view(design), ROUNDS)
    first, told = text.split("\n")[0], told.split("\n")[0]
    kind = " ".join(first.split(" ")[:2 if status == 6 else 1])
    wrong = judged(reading, room, text) if status in (1, 5) else None
    # One may spend its rounds where the other does not.
    if (status, first) != (wanted, told) and 6 not in (status, wanted) and not {status, wanted} <= {1, 5}:
        wrong = wrong or f"wanted {wanted} {told!r}"
    if (status, first) != (wanted, told):
        kind += f", where the reading says {told.split(' ')[0]}"
    return kind, status, first, wrong


def designs(reading, count, seed):
    kinds, wrong = collections.Counter(), 0
    for seed in range(seed, seed + count):
        design, defs = reading.draw(seed)
        with tempfile.TemporaryDirectory() as made:
            kind, status, first, why = compared(reading, refined.Room(made, design, defs))
        kinds[kind] += 1
        if why:
            wrong += 1
            print(f"seed {seed}: {status} {first!r}: {why}", flush=True)
    for kind, number in sorted(kinds.items()):
        print(f"{number:6} {kind}")
    print(f"{count} designs, {wrong} answers are wrong")
    return wrong


def variants(text, pattern, instead):
    """The text with one place changed, for each place in turn."""
    for found in re.finditer(pattern, text):
        yield text[: found.start()] + found.expand(instead) + text[found.end() :]


def broken(reading, folder):
    wrong = 0
    for path in sorted(pathlib.Path(folder).glob("*.ccn")):
        name, text = path.stem, path.read_text()
        changes = LEFT_OUT + CHANGED.get(name, [])
        for place, changed in enumerate(changed for change in changes for changed in variants(text, *change)):
            with tempfile.TemporaryDirectory() as made:
                room = refined.Room(made, changed.encode(), b"")
                begun = time.time()
                status, report = room.run("check d.ccn")
                seconds = time.time() - begun
                why = judged(reading, room, report) if status in (1, 5) else None
            wrong += why is not None
            print(f"{name} {place}: {status} {report.split(chr(10))[0]!r} {seconds:.2f} s{': ' + why if why else ''}", flush=True)
    return wrong


def main(what, folder, *rest):
    sys.path.insert(0, folder)
    import decide

    whole = decide.decide
    reading = refined.Reading(folder)
    # The reading looks for failures itself.
    decide.decide = whole
    if what == "broken":
        return broken(reading, *rest)
    count, seed = map(int, rest + ("2000", "1")[len(rest) :])
    return designs(reading, count, seed)


if __name__ == "__main__":
    sys.exit(1 if main(*sys.argv[1:]) else 0)
