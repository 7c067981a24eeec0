#!/usr/bin/env python3
"""Builds the program `cocoon` and moves it to crates/cocoon/out/cocoon, with its record beside it (`./cocoon` calls this).

To build is to prove: the kit (`rt ci`) proves the crates that the program stands on in a copy, without their edits that must fail, side by
side where they do not stand on each other. Lines on the standard error say how far that is. There is one build of a checkout at a time; a
second one waits, and then takes what the first has built. Where it is broken off, the checkout is as it was; what was proved by then is lost,
but for what the kit keeps.
"""

import fcntl
import heapq
import os
import pathlib
import re
import shutil
import signal
import subprocess
import sys
import tempfile
import time

TOP = pathlib.Path(__file__).resolve().parent.parent
PROGRAM = TOP / "crates" / "cocoon" / "out" / "cocoon"
RECORD = PROGRAM.with_name("cocoon.txt")
SOURCES = TOP / "dist" / "sources"


def say(text):
    print(f"cocoon: {text}", file=sys.stderr, flush=True)


def printed(*words):
    return subprocess.run(words, stdin=subprocess.DEVNULL, stdout=subprocess.PIPE, text=True, check=True).stdout.strip()


def read_record(path):
    """What stands beside a program: each value by its word."""
    lines = path.read_text().splitlines() if path.is_file() else []
    return dict(line.split(" ", 1) for line in lines if " " in line)


def record_of(program, sources=None):
    """The record of a program that was built from the sources as they are, or from those with this digest."""
    record = dict(line.split(" ", 1) for line in printed(SOURCES, "record", program).splitlines())
    return {**record, "sources": sources or record["sources"]}


# ---- how far it is


class Plan:
    """The crates that are to be proved, and how long that takes."""

    def __init__(self, lines, processors):
        self.uses = {line.split(":")[0].split()[0]: line.split(":")[1].split() for line in lines}
        table = (TOP / "docs" / "BENCH.md").read_text()
        known = {name: int(seconds) for name, seconds in re.findall(r"^\| `(\w+)` \| [\d,]+ \| (\d+) \|", table, re.M)}
        usual = sum(known.values()) / max(len(known), 1)
        self.seconds = {name: known.get(name, usual) for name in self.uses}
        self.processors = processors
        self.left = set(self.uses)
        self.at_first = self.wall_seconds()
        self.began = time.monotonic()

    def behind(self):
        """The seconds of each crate and of the longest chain that stands on it."""
        found = {}
        for name in reversed(self.uses):
            found[name] = found.get(name, 0) + self.seconds[name]
            for below in self.uses[name]:
                found[below] = max(found.get(below, 0), found[name])
        return found

    def wall_seconds(self):
        """How long the crates that are left take side by side, each after those that it stands on, the longest chain first."""
        behind, now, running, done = self.behind(), 0, [], set(self.uses) - self.left
        waiting = sorted(self.left, key=lambda name: -behind[name])
        while waiting or running:
            for name in [name for name in waiting if done.issuperset(set(self.uses[name]) & set(self.uses))]:
                if len(running) < self.processors:
                    waiting.remove(name)
                    heapq.heappush(running, (now + self.seconds[name], name))
            now, ended = heapq.heappop(running)
            done.add(ended)
        return now

    def told_left(self):
        """How much is left, and how long it takes if the rest goes as the crates that are proved went."""
        wall = self.wall_seconds()
        planned = self.at_first - wall
        pace = (time.monotonic() - self.began) / planned if planned > 0 else 1
        share = 100 - 100 * sum(self.seconds[name] for name in self.left) / sum(self.seconds.values())
        return f"{share:.0f} % done, {len(self.left)} crates left, about {minutes(wall * pace)}"

    def kept(self, name):
        """The kit has this one from before."""
        before = self.wall_seconds()
        self.left.discard(name)
        self.at_first -= before - self.wall_seconds()


def minutes(seconds):
    number = round(seconds / 60)
    return "less than a minute" if number < 1 else "a minute" if number == 1 else f"{number} minutes"


# ---- the build


def copy_crates(lines, room):
    """Copies what is to be proved, without what builds left and without the edits that must fail, which the gate tries."""
    for line in lines:
        name = line.split(":")[0].split()[0]
        shutil.copytree(TOP / "crates" / name, room / "crates" / name, ignore=shutil.ignore_patterns("out", "must-fail"))
    (room / "crates.txt").write_text("".join(f"{line}\n" for line in lines))
    shutil.copy(TOP / "HANDLES", room)


def prove(room, plan):
    """Runs the kit in the copy. True where all is proved and the program is built."""
    said = []
    with subprocess.Popen(["rt", "ci"], cwd=room, stdin=subprocess.DEVNULL, stdout=subprocess.PIPE, stderr=subprocess.STDOUT, text=True) as kit:
        try:
            for line in kit.stdout:
                said.append(line)
                told = re.match(r"rt: (\w+) (proved|is kept)", line)
                if told and told[2] == "is kept":
                    plan.kept(told[1])
                elif told and told[1] in plan.left:
                    plan.left.discard(told[1])
                    say(f"{told[1]} is proved: {plan.told_left()}")
        except BaseException:
            # (whatever the kit started ends with it)
            kit.terminate()
            raise
    if said and said[-1].endswith(" 0 failed\n") and os.access(room / "crates" / "cocoon" / "out" / "cocoon", os.X_OK):
        return True
    sys.stderr.write("".join(line for line in said if not line.endswith(": proved\n")))
    return False


def replace(path, write):
    """Makes a file beside, and moves it into place once it is whole."""
    beside = path.with_name(f"{path.name}.new")
    write(beside)
    os.replace(beside, path)


def place(program, to, record):
    """Moves a program into place, and then its record."""
    replace(to, lambda beside: shutil.copy(program, beside))
    place_record(to, record)


def place_record(program, record):
    text = "".join(f"{word} {value}\n" for word, value in record.items())
    replace(program.with_name(f"{program.name}.txt"), lambda beside: beside.write_text(text))


def is_built():
    return PROGRAM.is_file() and read_record(RECORD) == record_of(PROGRAM)


def build():
    kit = printed("rt", "version")
    lines = printed(SOURCES, "crates").splitlines()
    plan = Plan(lines, len(os.sched_getaffinity(0)))
    shipped_by = read_record(TOP / "dist" / "cocoon.txt").get("kit")
    if kit != shipped_by:
        say(f"this kit is {kit}; the program that is shipped was built with {shipped_by}")
    say(f"proving {len(lines)} crates, which takes about {minutes(plan.at_first)} on {plan.processors} processors")
    say("if this is broken off, all that was proved is lost, but for what the kit keeps")
    with tempfile.TemporaryDirectory(prefix="cocoon-") as name:
        room = pathlib.Path(name)
        copy_crates(lines, room)
        if not prove(room, plan):
            say("it is not built, since not all is proved")
            return 1
        built = room / "crates" / "cocoon" / "out" / "cocoon"
        place(built, PROGRAM, record_of(built, printed(SOURCES, "digest", room)))
    return 0


def main():
    for number in (signal.SIGHUP, signal.SIGINT, signal.SIGTERM):
        signal.signal(number, lambda number, _: sys.exit(f"cocoon: broken off by {signal.Signals(number).name}; nothing is built"))
    try:
        PROGRAM.parent.mkdir(parents=True, exist_ok=True)
        with open(PROGRAM.with_name("cocoon.lock"), "w") as lock:
            try:
                fcntl.flock(lock, fcntl.LOCK_EX | fcntl.LOCK_NB)
            except BlockingIOError:
                say("another build of this checkout is under way; waiting for it")
                fcntl.flock(lock, fcntl.LOCK_EX)
                if is_built():
                    return 0
            return build()
    except subprocess.CalledProcessError as failed:
        say(f"`{' '.join(map(str, failed.cmd))}` fails with status {failed.returncode}")
    except OSError as error:
        say(f"it cannot be built here: {error}")
    return 1


if __name__ == "__main__":
    sys.exit(main())
