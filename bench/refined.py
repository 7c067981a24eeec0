#!/usr/bin/env python3
"""Designs of one to three blocks, drawn by chance: what `check` and `compile` say of them, and what their networks deliver, against an
independent reading of the language.

    bench/refined.py designs READING [COUNT [SEED]] [one]   draws so many designs (2,000) from this seed (1) on: status and first line of `check` and of
                                                        `compile` are those of the reading, and each file of a spent budget is judged by it
    bench/refined.py packets READING [COUNT [SEED]] [one]   draws designs until so many (1,000) compile, and sends packets through each: a delivery of
                                                        `forward` has to be one that `step`, chained at level 0, makes with some choices
    bench/refined.py cases READING [COUNT [SEED]]       prints the designs as a file of cases for crates/command_tests, with what the reading says of each

With the word `one` behind all numbers the designs of `designs` and `packets` have one block, within one body, whose roles all stand in its list; `designs` then decides each
also with few conflicts.

READING is a folder with another program, which is no part of this repository: `refcli.run` answers words over files, `symgen` and `levels` draw designs,
`verify` judges reports and files, and finds choices. It needs the built program (`rt run` in crates/cocoon); or COCOON names one.
"""

import collections
import functools
import itertools
import json
import os
import pathlib
import random
import re
import subprocess
import sys
import tempfile

TOP = pathlib.Path(__file__).resolve().parent.parent
PROGRAM = os.environ.get("COCOON", TOP / "crates" / "cocoon" / "out" / "cocoon")
# As the reading counts what is built: obligations are decided in rounds, and failures are printed.
STAGE = 9
DECIDING = ["check d.ccn", "compile d.ccn d.defs out"]
FAILURES = "refuted ", "hopbound "
USUAL = {"conflicts": 20_000, "rounds": 64}
FEW_CONFLICTS = [1, 1, 1, 2, 3, 5, 10]
PACKETS = 12


class Reading:
    """The other program's modules."""

    def __init__(self, folder):
        self.folder = pathlib.Path(folder).resolve()
        sys.path.insert(0, str(self.folder))
        sys.setrecursionlimit(100000)
        import bundle, decide, levels, lexer, meaning, random_design, refcli, symgen, verify
        import load as texts

        self.bundle, self.levels, self.meaning, self.refcli, self.symgen, self.texts, self.verify = bundle, levels, meaning, refcli, symgen, texts, verify
        self.one_level = random_design
        # Each text is read once, and each obligation decided once.
        lexer.lex, self.view, self.bound, self.tables = [functools.lru_cache(16)(call) for call in (lexer.lex, self.view, levels.bound, self.tables)]
        self.first_decided, decide.decide, self.asked, self.design = decide.decide, self.decide, {}, b""

    def draw(self, seed):
        """A design and its definitions: mostly access lists that a switch keeps to, or nearly; each fourth one has roles and bodies of any kind, and each fourth
        one a block whose body does what the body above does, or less."""
        if seed % 4 == 2:
            return self.levels.Levels(random.Random(seed)).design(refines=1 + seed // 4 % 3)
        if seed % 4 == 3:
            design, defs = self.one_level.Gen(random.Random(seed)).design()
            head, body = re.search(rb"^(role SwIn.*? = \{)(.*)$", design, re.M).groups()
            less = random.Random(seed).choice([b"", b" filter p != 16w3;", b" filter s == 16w1 or p < 16w2;"])
            return design + b"refine SwIn within 1 { " + head + less + body + b" }\n", defs
        design = self.symgen.make(seed).encode()
        return design, with_hosts(self.symgen.definitions(str(seed), self.view(design)), design, random.Random(seed))

    def draw_one(self, seed):
        """A design of one block, within one body and without new roles, and its definitions: half of them switches below which the same is done, or nearly; each fourth one refines
        roles by bodies of any kind, and each fourth one a switch by a body that does less, often where the body above chooses the port."""
        dice = random.Random(seed)
        if seed % 4 == 2:
            return next(filter(has_no_new_role, map(self.levelled(seed), itertools.count())))
        if seed % 4 == 3:
            design, defs = self.draw(seed)
            return (chosen_port(design) if dice.random() < 0.5 else design), defs
        design = next(filter(None, (one_block(self.symgen.make(f"{seed} {place}"), dice) for place in itertools.count())))
        return design, with_hosts(self.symgen.definitions(str(seed), self.view(design)), design, dice)

    def levelled(self, seed):
        def at(place):
            design, defs = self.levels.Levels(random.Random(f"{seed} {place}")).design(refines=1)
            return re.sub(rb"within \d+", b"within 1", design), defs

        return at

    def view(self, design):
        return self.texts.view_of(self.texts.parse_design(design))

    def tables(self, design, defs):
        return self.texts.bind_text(self.view(design), defs)

    def decide(self, checked, terms, obligation, rounds=400):
        """What the reading says of an obligation."""
        key = obligation.level, obligation.role, obligation.leaf, obligation.kind, rounds
        if key not in self.asked:
            self.asked[key] = self.first_decided(checked, terms, obligation, rounds)
        return self.asked[key]

    def answer(self, words, files):
        """Status, report, and the file of a spent budget."""
        self.take(files["d.ccn"])
        folder = self.bundle.MemFolder(dict(files))
        status, report = self.refcli.run(words.split(), folder, STAGE)
        return status, report.decode(), folder.files.get("d.ccn.budget.json")

    def take(self, design):
        if design != self.design:
            self.asked, self.design = {}, design

    def accepts(self, room, *words):
        """Whether the verifier accepts a report."""
        ran = subprocess.run([sys.executable, self.folder / "verify.py", *words], cwd=room, capture_output=True)
        return ran.returncode == 0

    def refuses(self, design, budget, number, defs=None):
        """Why the verifier refuses the file of a spent budget; None, if it does not."""
        if budget is None:
            return "no file"
        self.take(design)
        view = self.view(design)
        try:
            self.verify.verify_budget(view, budget, number, self.tables(design, defs) if defs else None, out=lambda _: None)
        except self.verify.Refused as why:
            return f"its file: {why}"

    def choices(self, design, defs, start, packet, end, sent):
        """Choices with which the body at level 0 sends there; None, if there are none."""
        view = self.view(design)
        place = lambda words: (view.role_of(words[0].encode()), [int(value) for value in words[1:]])
        return self.verify.reachable_above(view, self.tables(design, defs), 0, place(start), packet, place(end), sent)


def with_hosts(drawn, design, dice):
    """Definitions whose hosts stand where they are said to stand, in the place of those that were drawn."""
    width = int(re.search(rb"function h\(p0: bit<(\d+)>", design)[1])
    ports = int(re.search(rb"ports (\d+)", design)[1])
    hosts = dice.sample(range(1, 1 << width), min(3, ports, (1 << width) - 1))
    kept = [line for line in drawn.splitlines() if not re.match(r"(default|define) (h|g|acl|swOf|portOf|hostAt)\b", line)]
    made = ["default h = false;", "default g = false;", "define g(16w1) = true;", "default swOf = 16w1;", "default portOf = 16w0;"]
    made += [f"default hostAt = {width}w0;", f"default acl = {dice.choice(['true', 'true', 'false'])};"]
    for port, host in enumerate(hosts):
        made += [f"define h({width}w{host}) = true;", f"define portOf({width}w{host}) = 16w{port};"]
        made += [f"define hostAt(16w1, 16w{port}) = {width}w{host};", f"define acl({width}w{host}, _) = {dice.choice(['true', 'false'])};"]
    return "\n".join([*kept, *made, ""]).encode()


def has_no_new_role(drawn):
    names, block = drawn[0].split(b"refine ")[1].split(b" within", 1)
    return set(re.findall(rb"\brole (\w+)", block)) <= set(names.split(b", "))


def chosen_port(design):
    """The body above chooses to which port it sends."""
    head, body = re.search(rb"^(role SwIn.*? = \{)(.*)$", design, re.M).groups()
    if b"fork" in body:
        return design
    sends = re.sub(rb"send SwOut\[s, .*?\];", b"send SwOut[s, c];", body)
    return design.replace(head + body, head + b" havoc c: bit<16>;" + sends, 1)


def one_block(text, dice):
    """A design whose last block is the only one, and whose top is all above it; none, if there is one block alone. At times the last block refines the other way as well."""
    top, *blocks = re.split(r"^refine ", text, flags=re.M)
    if len(blocks) < 2:
        return None
    above = [line for line in top.splitlines() if not line.startswith("role Out")] + [line.strip() for line in blocks[0].splitlines()[1:-1]]
    last = blocks[1]
    if dice.random() < 0.4:
        names = dice.choice(["SwOut, SwIn", "SwIn, SwOut"])
        end = next(line for line in above if line.startswith("role SwOut"))
        last = last.replace("SwIn within 1 {", f"{names} within 1 {{\n  {end}", 1)
        if dice.random() < 0.5 and "SwIn[" not in end:
            width = re.search(r"function h\(p0: bit<(\d+)>", text)[1]
            freed = re.sub(r"= \{.*\}", f"= {{ havoc c: bit<{width}>; send In[c]; }}", end)
            above = [freed if line == end else line for line in above]
    return "\n".join([*above, "refine " + last]).encode()


class Room:
    """A folder in which the program is run over a design and its definitions."""

    def __init__(self, at, design, defs):
        self.at = pathlib.Path(at)
        (self.at / "d.ccn").write_bytes(design)
        (self.at / "d.defs").write_bytes(defs)

    def run(self, words):
        ran = subprocess.run([PROGRAM, *words.split()], cwd=self.at, capture_output=True)
        return ran.returncode, ran.stdout.decode()

    def budget(self):
        path = self.at / "d.ccn.budget.json"
        return path.read_bytes() if path.exists() else None


# ---- statuses and first lines


def judged(reading, room, words):
    """What the program says, and what is wrong with it."""
    design, defs = (room.at / "d.ccn").read_bytes(), (room.at / "d.defs").read_bytes()
    status, report = room.run(words)
    wanted, told, _ = reading.answer(words, {"d.ccn": design, "d.defs": defs})
    kind = " ".join(word for word in report.split("\n")[0].split(" ")[:2] if not word[:1].isdigit()) or f"status {status}"
    differs = f"wanted {wanted} {told!r}, found {status} {report!r}"
    if report.startswith("budget"):
        _, of, number, what, *_ = report.split()
        if status != 6 or int(number) != allowed(words, of):
            return kind, differs
        return f"{kind} {what}", reading.refuses(design, room.budget(), int(number), defs if words.startswith("compile") else None)
    if report.startswith("broken assumption"):
        (room.at / "report.txt").write_text(report)
        same = (status, report.split(" at ")[0]) == (wanted, told.split(" at ")[0])
        real = report == told or reading.accepts(room.at, "output", "d.ccn", "report.txt", "d.defs")
        return kind, None if same and real else differs
    if report.startswith(FAILURES):
        (room.at / "report.txt").write_text(report)
        same = (status, report.split("\n")[0]) == (wanted, told.split("\n")[0])
        real = report == told or reading.accepts(room.at, "output", "d.ccn", "report.txt")
        return report.split(" ")[0], None if same and real else differs
    return kind, None if (status, report) == (wanted, told) else differs


def allowed(words, of):
    """How many conflicts or rounds there may be."""
    found = re.search(rf"--{of} (\d+)", words)
    return int(found[1]) if found else USUAL[of]


def designs(reading, count, seed, one):
    kinds, fared, wrong = collections.Counter(), collections.Counter(), 0
    for seed in range(seed, seed + count):
        design, defs = reading.draw_one(seed) if one else reading.draw(seed)
        few = random.Random(seed).choice(FEW_CONFLICTS)
        for words in DECIDING + ([f"{words} --conflicts {few}" for words in DECIDING] if one else []):
            with tempfile.TemporaryDirectory() as made:
                room = Room(made, design, defs)
                kind, why = judged(reading, room, words)
                if words in DECIDING and (room.at / "out.net.json").exists():
                    found = tried(reading, room, design, defs, random.Random(seed))
                    fared += found
                    why = why or ("a delivery is not made at level 0" if found["NOT MADE"] else None)
            kinds[f"{words.split()[0]}: {kind.strip()}"] += 1
            if why:
                wrong += 1
                print(f"seed {seed}: {words}: {why}", flush=True)
    for kind, number in sorted(kinds.items()):
        print(f"{number:6} {kind}")
    print(f"{count} designs, {wrong} answers are wrong; of those that compile " + ", ".join(f"{number} {what}" for what, number in sorted(fared.items())))
    return wrong


# ---- deliveries


def fields_of(design):
    return [int(width) for width in re.findall(rb"\bf\d+: bit<(\d+)>", design.split(b"function")[0])]


def number_of(bytes, widths):
    """The fields of the bytes."""
    left, total, found = int.from_bytes(bytes, "big"), sum(widths), []
    for width in widths:
        total -= width
        found.append(left >> total & (1 << width) - 1)
    return found


def stepped(room, place, packet, choices):
    """Where the body at level 0 sends, and what; None, if nothing."""
    lines = [" ".join(place), " ".join(map(str, packet)), " ".join(map(str, choices)) or "-", ""]
    (room.at / "way.case").write_text("\n".join(lines))
    status, line = room.run("step d.ccn d.defs 0 way.case")
    if status != 0 or line == "nothing\n":
        return None
    there, _, sent = line.rstrip("\n").partition(" : ")
    return there.split(" "), [int(number) for number in sent.split(" ")]


def walk(reading, design, defs, host, entered, end, delivered):
    """The places and packets of a walk over bodies of the last level that delivers; None, if there is none."""
    checked, bound = reading.bound(design, defs)
    start, aim = ((checked.entry_role(), (host,)), tuple(entered)), ((checked.sink_role(), (end,)), tuple(delivered))
    came, left = {start: None}, [start]
    while left and aim not in came:
        at = left.pop()
        for _, there in reading.meaning.last_successors(checked, bound, *at) if at[0][0] != aim[0][0] else []:
            if there not in came:
                came[there] = at
                left.append(there)
    found = []
    while aim in came and aim is not None:
        found.append(aim)
        aim = came[aim]
    names = [name.decode() if isinstance(name, bytes) else name for name in checked.role_names]
    return [([names[role], *map(str, values)], list(packet)) for (role, values), packet in reversed(found)]


def chained(reading, room, design, defs, *delivery):
    """Whether `step`, chained at level 0, makes a delivery: between each two places of that level on a walk at the last one."""
    top = set(re.findall(rb"^role (\w+)", design.split(b"refine ")[0], re.M))
    states = [state for state in walk(reading, design, defs, *delivery) if state[0][0].encode() in top]
    for (place, packet), (there, sent) in itertools.pairwise(states):
        choices = reading.choices(design, defs, place, packet, there, sent)
        if choices is None or stepped(room, place, packet, choices) != (there, sent):
            return False
    return len(states) > 1


def tried(reading, room, design, defs, dice):
    """Of a design that compiles, how each delivery of some packets fares."""
    widths, fared = fields_of(design), collections.Counter()
    hosts = [host[0] for host in json.loads((room.at / "out.net.json").read_text())["hosts"] if len(host) == 3]
    size = sum(widths) // 8
    lines = []
    for _ in range(PACKETS if hosts else 0):
        some = [dice.choice([*hosts, dice.randrange(1 << 16)]) % (1 << width) for width in widths]
        number = 0
        for width, value in zip(widths, some):
            number = number << width | value
        lines.append((dice.choice(hosts), number.to_bytes(size, "big"), dice.choice(["", "ff"])))
    (room.at / "p.txt").write_text("".join(f"{host} {bytes.hex()}{payload}\n" for host, bytes, payload in lines))
    status, report = room.run("forward out p.txt")
    fared["packets"] += len(lines)
    if status != 0:
        fared[f"forward: status {status}"] += 1
    number = 0
    for line in report.splitlines() if status == 0 else []:
        if not line.startswith("> "):
            number = int(line.split(" ")[0])
            continue
        _, end, bytes = line.split(" ")
        host, entered, payload = lines[number - 1]
        found = number_of(entered, widths), number_of(b"".fromhex(bytes)[:size], widths)
        made = chained(reading, room, design, defs, host, found[0], int(end), found[1]) and b"".fromhex(bytes)[size:].hex() == payload
        fared["made by step" if made else "NOT MADE"] += 1
        if not made:
            print(f"    packet {host} {entered.hex()}{payload}: delivered at {end} as {bytes}")
    return fared


def packets(reading, count, seed, one):
    fared, compiled = collections.Counter(), 0
    while compiled < count:
        design, defs = reading.draw_one(seed) if one else reading.draw(seed)
        with tempfile.TemporaryDirectory() as made:
            room = Room(made, design, defs)
            if room.run("compile d.ccn d.defs out")[0] == 0:
                compiled += 1
                found = tried(reading, room, design, defs, random.Random(seed))
                fared += found
                if found["NOT MADE"]:
                    print(f"seed {seed}: a delivery is not made at level 0", flush=True)
        seed += 1
    print(f"{compiled} designs, seeds up to {seed - 1}: " + ", ".join(f"{number} {what}" for what, number in sorted(fared.items())))
    return fared["NOT MADE"]


# ---- cases


def quoted(text):
    return '"' + text.replace("\\", "\\\\").replace('"', '\\"').replace("\n", "\\n") + '"'


def cases(reading, count, seed, _one):
    print("# Designs that were drawn by bench/refined.py, with what another reading of the language says of them.\n")
    for seed in range(seed, seed + count):
        design, defs = reading.draw(seed)
        for words in DECIDING:
            status, report, budget = reading.answer(words, {"d.ccn": design, "d.defs": defs})
            if report.startswith("broken assumption") or budget:
                continue
            print(f"case seed {seed}, {words.split()[0]}\ntext d.ccn {quoted(design.decode())}\ntext d.defs {quoted(defs.decode())}")
            print(f"words cocoon {words}\nstatus {status}")
            if report.startswith(FAILURES):
                print(f"report {quoted(report.splitlines()[0])}\ngoes-on")
            else:
                print(f"report {quoted(report.rstrip(chr(10)))}")
            print("absent d.ccn.budget.json\n", flush=True)
    return 0


TRIED = {"designs": (designs, 2000), "packets": (packets, 1000), "cases": (cases, 2000)}


def main(asked, folder, *numbers):
    what, usual = TRIED[asked]
    one = numbers[-1:] == ("one",)
    numbers = numbers[:-1] if one else numbers
    count, seed = [int(number) for number in [*numbers, *[usual, 1][len(numbers) :]]]
    return 1 if what(Reading(folder), count, seed, one) else 0


if __name__ == "__main__":
    if len(sys.argv) < 3 or sys.argv[1] not in TRIED:
        sys.exit(__doc__)
    sys.exit(main(*sys.argv[1:]))
