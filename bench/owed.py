#!/usr/bin/env python3
"""What refinements owe by an independent reading of the language, in cases of obligation_tests.

    bench/owed.py READING [FILE]     prints a file of cases, owed.cases if none is named, with what the reading wants of each case
    bench/owed.py READING numbers DESIGN DEFINITIONS SEED COUNT
                                            prints so many tuples of numbers, at each of which other leaves are true or other formulas
    bench/owed.py READING random SEED COUNT [TUPLES]
                                            lets the built program crates/obligation_tests/out judge the obligations of so many random designs with blocks,
                                            from a seed on, each at so many tuples, 24 if none are said; and prints what differs, and how much was compared
    bench/owed.py times              prints the instructions, the time and the most memory of that program for some designs

READING is the folder of the reading, which shares nothing with this repository but the language. docs/CASES.md says what the cases ask.
"""

import itertools
import pathlib
import random
import re
import subprocess
import sys
import tempfile

import trees

TOP = pathlib.Path(__file__).resolve().parent.parent
DATA = TOP / "crates" / "obligation_tests" / "data"
PROGRAM = TOP / "crates" / "obligation_tests" / "out" / "obligation_tests"
MOST_PAIRS = 100000


class Owed:
    """What a level of a design owes, or the whole design, by the reading."""

    def __init__(self, design, definitions, level=None):
        import obligations
        from inline import Paths
        from terms import Terms

        self.reading = trees.Reading(design, definitions)
        self.terms, self.over = Terms(), None
        try:
            checked = self.reading.checked
            made = obligations.obligations(checked, level, self.terms) if level else obligations.all_obligations(checked, self.terms)
            self.all = made
        except Paths as over:
            self.all, self.over = [], over.count

    def leaf(self, one):
        return one.tree.leaves[one.leaf]

    def inputs(self, one, word):
        """The numbers of inputs that a tuple says of an obligation."""
        args, fields, choices = ([int(number) for number in part.split(",") if number] for part in word.split(";"))
        inputs = {term: 0 for term in self.terms.inputs}
        trees.put_in(inputs, self.terms, one.tree.args, args)
        trees.put_in(inputs, self.terms, one.tree.fields, fields)
        trees.put_in(inputs, self.terms, self.leaf(one).choices, choices)
        return inputs

    def truths(self, one, words):
        return [self.terms.evaluate(one.formula, self.inputs(one, word), self.reading.tables, {}) for word in words]

    def conditions(self, one, words):
        leaf = self.leaf(one)
        return [self.terms.evaluate(leaf.cond, self.inputs(one, word), self.reading.tables, {}) for word in words]

    def text(self, one, words):
        role = self.reading.checked.role_name(one.role)
        return f"{one.level} {role} {one.leaf} {one.kind.lower()} {''.join(map(str, self.truths(one, words)))}"

    def pairs(self):
        """How many pairs of a leaf and an old leaf send to one role."""
        return sum(sum(old.role == self.leaf(one).role for old in one.old.leaves) for one in self.all)


def answer(owed, kind, words):
    if owed.over is not None:
        return f"over {owed.over}"
    if kind == "count":
        return str(len(owed.all))
    if kind.isdigit():
        return owed.text(owed.all[int(kind)], words)
    text = " ; ".join(owed.text(one, words) for one in owed.all) or "none"
    return text if kind == "owed" else str(trees.digest(text))


def wanted(asked, lines, folder):
    words, _, declared = asked.partition(" :: ")
    kind, _, level = words.partition(" ")
    owed = Owed(trees.framed(lines["design"], declared, folder), trees.expanded(lines["definitions"], folder), int(level or 0))
    return answer(owed, kind, lines.get("numbers", "").split(" "))


def print_cases(path):
    lines = {}
    for line in path.read_text().splitlines():
        if line.startswith("  "):
            old, asked = line.split("| ", 1)
            by_hand = old.strip() in ("no memory", "nothing asked")
            print(line if by_hand else f"  {wanted(asked, lines, path.parent)} | {asked}")
        else:
            word, _, rest = line.partition(" ")
            lines[word] = rest
            print(line)


def drawn(owed, draw, count, tries):
    """Tuples of numbers that the definitions speak of: of many that are drawn, those at which other leaves or formulas are true than before."""
    rows = [row for table in owed.reading.tables if table for row in table.rows]
    known = sorted({number for row in rows for number in [*row.values, row.result.value]} | {0, 1, 2, 3})
    widths = lambda terms: [owed.terms.widths[term] for term in terms]
    longest = lambda parts: max(parts, key=len, default=[])
    args = longest([widths(one.tree.args) for one in owed.all])
    fields = longest([widths(one.tree.fields) for one in owed.all])
    choices = longest([widths(owed.leaf(one).choices) for one in owed.all])
    number = lambda width: draw.choice(known) % 2**width if draw.random() < 0.9 else draw.randrange(2**width)
    found, seen = [], set()
    for _ in range(tries):
        word = ";".join(",".join(str(number(width)) for width in part) for part in (args, fields, choices))
        sight = tuple((owed.conditions(one, [word])[0], owed.truths(one, [word])[0]) for one in owed.all)
        if any(condition for condition, _ in sight) and sight not in seen:
            seen.add(sight)
            found.append(word)
        if len(found) == count:
            break
    return found


def print_numbers(design, definitions, seed, count):
    owed = Owed(pathlib.Path(design).read_text(), pathlib.Path(definitions).read_text())
    for word in drawn(owed, random.Random(int(seed)), int(count), 10000):
        print(word, "".join(str(truth) for one in owed.all for truth in owed.truths(one, [word])))


def asked_of(seed, count, folder):
    """A file of cases on a random design with a block, and what there is to compare: obligations, those whose formula or condition is true somewhere,
    and truths."""
    import levels

    design, definitions = (text.decode() for text in levels.Levels(random.Random(seed)).design())
    (folder / f"{seed}.ccn").write_text(design)
    (folder / f"{seed}.defs").write_text(definitions)
    owed = Owed(design, definitions)
    if owed.reading.checked.levels() < 2:
        return None
    lines = ['ask formulas', f'design "{seed}.ccn"', f'definitions "{seed}.defs"', f"  {answer(owed, 'count', [])} | count"]
    if owed.over is not None or not owed.all or owed.pairs() > MOST_PAIRS:
        return lines, (len(owed.all), 0, 0, 0, 0)
    draw = random.Random(seed)
    words = drawn(owed, draw, count, max(2, min(200, 4000 // len(owed.all)))) or ["0;0;0"]
    lines.append(f"numbers {' '.join(words)}")
    # Where there are many, some stand for all, and a digest tells the others.
    shown = draw.sample(range(len(owed.all)), min(3, len(owed.all)))
    lines += [f"  {answer(owed, str(place), words)} | {place}" for place in sorted(shown)]
    lines.append(f"  {answer(owed, 'digest', words)} | digest")
    for level in range(1, owed.reading.checked.levels()):
        alone = Owed(design, definitions, level)
        lines.append(f"  {answer(alone, 'digest', words)} | digest {level}")
    truths = [owed.truths(one, words) for one in owed.all]
    conditions = [owed.conditions(one, words) for one in owed.all]
    true, reached = (sum(any(row) for row in rows) for rows in (truths, conditions))
    return lines, (len(owed.all), true, reached, sum(map(len, truths)), sum(map(sum, truths)))


def judged(lines, folder):
    """How many cases there are, and how many differ."""
    (folder / "one.cases").write_text("\n".join(lines) + "\n")
    said = subprocess.run([PROGRAM, "one.cases"], cwd=folder, capture_output=True, text=True).stdout
    last = re.search(r"(\d+) cases, (\d+) differ", said)
    if last is None or last[2] != "0":
        print(said)
    return (int(last[1]), int(last[2])) if last else (1, 1)


def judge_random(first, count, tuples):
    sums, cases, differ, over = [0] * 5, 0, 0, 0
    with tempfile.TemporaryDirectory() as name:
        folder = pathlib.Path(name)
        made = (found for seed in itertools.count(first) if (found := asked_of(seed, tuples, folder)))
        for lines, figures in itertools.islice(made, count):
            some, wrong = judged(lines, folder)
            cases, differ = cases + some, differ + wrong
            sums = [total + figure for total, figure in zip(sums, figures)]
            over += "over" in lines[3]
    owed, true, reached, values, trues = sums
    print(f"{count} designs, {over} of them over a limit: {owed} obligations, {reached} with a leaf that is true somewhere, {true} with a formula that is; "
          f"{values} truths, {trues} of them true; {cases} cases, {differ} differ")
    return 1 if differ else 0


HEAD = "packet {{ header e {{ a: bit<16>; b: bit<16>; }} }} function h(a: bit<16>): bool; function g(s: bit<16>): bool; " \
    "role Out[a: bit<16>] | h(a) = {{ send SwIn[16w1, a]; }} role In[a: bit<16>] | h(a); host (Out, In); " \
    "role SwIn[s: bit<16>, p: bit<16>] | g(s) and p < 16w4 = {{ {} send SwOut[s, 16w1]; }} " \
    "role SwOut[s: bit<16>, p: bit<16>] | g(s) and p < 16w4 = {{ send In[p]; }} switch (SwIn, SwOut) ports 4; " \
    "refine SwIn within 1 {{ role SwIn[s: bit<16>, p: bit<16>] | g(s) and p < 16w4 = {{ {} send SwOut[s, 16w1]; }} }}\n"
COUNTED = ((6, 7), (5, 8), (6, 8))
TIMED = ((9, 9), (9, 10), (10, 10), (11, 11), (12, 12))


def ways(count, first):
    """Statements with two ways each, which make other packets."""
    return " ".join(f"if (pkt.e.a == 16w{first + one}) {{ pkt.e.b = pkt.e.b + 16w{1 << one}; }}" for one in range(count))


def laid_out(old, new, folder):
    """A case on a design: so many statements above, and so many that refine them."""
    (folder / "one.ccn").write_text(HEAD.format(ways(old, 0), ways(new, 100)))
    (folder / "one.cases").write_text('ask formulas\ndesign "one.ccn"\ndefinitions default h = false; default g = false;\n  ? | terms\n')
    return [PROGRAM, "one.cases"]


def instructions(words, folder):
    tool = ["valgrind", "--tool=cachegrind", "--cache-sim=no", "--cachegrind-out-file=/dev/null"]
    said = subprocess.run([*tool, *words], cwd=folder, capture_output=True, text=True).stderr
    return int(re.search(r"I +refs: +([0-9,]+)", said)[1].replace(",", ""))


def print_times():
    for old, new in COUNTED + TIMED:
        with tempfile.TemporaryDirectory() as name:
            folder = pathlib.Path(name)
            words = laid_out(old, new, folder)
            said = subprocess.run(["/usr/bin/time", "-f", "%U %S %M", *words], cwd=folder, capture_output=True, text=True)
            user, system, kib = said.stderr.split()[-3:]
            counted = f", {instructions(words, folder):,} instructions" if (old, new) in COUNTED else ""
        found = re.search(r"found +(.*)", said.stdout)[1]
        print(f"{2**new} ways against {2**old}: {found}, {user} + {system} s, {int(kib) // 1024:,} MiB{counted}", flush=True)


def main():
    if sys.argv[1:] == ["times"]:
        return print_times()
    sys.path.insert(0, sys.argv[1])
    if sys.argv[2:3] == ["numbers"]:
        return print_numbers(*sys.argv[3:])
    if sys.argv[2:3] == ["random"]:
        return judge_random(*map(int, [*sys.argv[3:], 24][:3]))
    print_cases(pathlib.Path(sys.argv[2]) if len(sys.argv) > 2 else DATA / "owed.cases")


if __name__ == "__main__":
    sys.exit(main())
