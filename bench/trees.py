#!/usr/bin/env python3
"""The leaves of bodies' trees by an independent reading of the language, in cases of obligation_tests.

    bench/trees.py READING [FILE]     prints a file of cases, that of the trees if none is named, with what the reading wants of each case
    bench/trees.py READING numbers DESIGN DEFINITIONS LEVEL ROLE WITHIN SEED COUNT
                                      prints so many tuples of numbers, at each of which other leaves are true
    bench/trees.py times              prints the instructions, the time and the most memory of the built program crates/obligation_tests/out for some trees

READING is the folder of the reading, which shares nothing with this repository but the language. docs/CASES.md says what the cases ask.
"""

import pathlib
import random
import re
import subprocess
import sys
import tempfile

TOP = pathlib.Path(__file__).resolve().parent.parent
CASES = TOP / "crates" / "obligation_tests" / "data" / "trees.cases"


def expanded(text, folder):
    """A text that is written down in short, written out."""
    for letter, byte in (("n", "\n"), ("t", "\t"), ("r", "\r")):
        text = text.replace("\\" + letter, byte)
    out = []
    for index, part in enumerate(text.split('"')):
        if index % 2 == 0:
            out.append(part)
        elif " " in part:
            count, piece = part.split(" ", 1)
            out.extend(piece.replace("#", str(time)) for time in range(int(count)))
        else:
            out.append((folder / part).read_text())
    return "".join(out)


def framed(frame, text, folder):
    before, _, behind = frame.partition("...")
    return expanded(before, folder) + expanded(text, folder) + expanded(behind, folder)


class Reading:
    """The design and the definitions of a case, as the reading has them."""

    def __init__(self, design, definitions):
        import load

        self.checked = load.view_of(load.checked_design(load.parse_design(design.encode())))
        self.tables = load.bind_text(self.checked, definitions.encode())

    def tree(self, words):
        """The tree with its arena, or how many leaves it would have."""
        import inline
        from terms import Terms

        kind, level, role, *within = words.split(" ")
        number = self.checked.role_of(role.encode())
        terms = Terms()
        try:
            if kind == "inlined":
                return inline.inline(self.checked, int(level), number, int(within[0]), terms), terms
            return inline.body_tree(self.checked, int(level), number, terms), terms
        except inline.Paths as over:
            return over.count, None


def put_in(inputs, terms, ids, numbers):
    for term, number in zip(ids, numbers):
        inputs[term] = number % 2 ** terms.widths[term]


def inputs_at(tree, terms, word):
    """The numbers of inputs that a tuple says: those of parameters, of fields, and of choices in the order in which a leaf takes them."""
    args, fields, choices = ([int(number) for number in part.split(",") if number] for part in word.split(";"))
    inputs = {term: 0 for term in terms.inputs}
    put_in(inputs, terms, tree.args, args)
    put_in(inputs, terms, tree.fields, fields)
    for leaf in tree.leaves:
        put_in(inputs, terms, leaf.choices, choices)
    return inputs


def parts(terms, cond):
    """The parts of a chain, the first one first."""
    found = []
    while terms.nodes[cond][0] == "bin" and terms.nodes[cond][1] == "And":
        found.append(terms.nodes[cond][3])
        cond = terms.nodes[cond][2]
    return [cond, *reversed(found)]


def joined(words):
    return ",".join(str(word) for word in words) or "-"


def leaf_text(reading, tree, terms, leaf, words, memos):
    role = reading.checked.role_name(leaf.role)
    text = f"{leaf.kind.lower()} {role} {joined(terms.widths[choice] for choice in leaf.choices)}"
    for word in words:
        inputs, memo = memos[word]
        terms.evaluate(leaf.cond, inputs, reading.tables, memo)
        value = lambda term: memo[term] if term in memo else terms.evaluate(term, inputs, reading.tables, memo)
        bits = "".join(str(value(part)) for part in parts(terms, leaf.cond))
        text += f" : {bits} {joined(map(value, leaf.values))} {joined(map(value, leaf.fields))}"
    return text


def digest(text):
    """64 bits of a text, by a sum and a product for each byte."""
    state = 0xCBF29CE484222325
    for byte in text.encode():
        state = (state ^ byte) * 0x100000001B3 % 2**64
    return state


def wanted(asked, lines, folder):
    words, _, declared = asked.partition(" :: ")
    reading = Reading(framed(lines["design"], declared, folder), expanded(lines["definitions"], folder))
    kind, words = words.split(" ", 1)
    number, words = words.split(" ", 1) if kind == "leaf" else (None, words)
    tree, terms = reading.tree(words)
    if terms is None:
        return f"over {tree}"
    if kind == "leaves":
        return str(len(tree.leaves))
    tuples = lines["numbers"].split(" ")
    memos = {word: (inputs_at(tree, terms, word), {}) for word in tuples}
    leaves = tree.leaves if number is None else tree.leaves[int(number) : int(number) + 1]
    texts = [leaf_text(reading, tree, terms, leaf, tuples, memos) for leaf in leaves]
    return texts[0] if kind == "leaf" else str(digest("".join(text + "\n" for text in texts)))


def print_cases(path):
    lines = {}
    for line in path.read_text().splitlines():
        if line.startswith("  "):
            asked = line.split("| ", 1)[1]
            print(f"  {wanted(asked, lines, path.parent)} | {asked}")
        else:
            word, _, rest = line.partition(" ")
            lines[word] = rest
            print(line)


def print_numbers(design, definitions, level, role, within, seed, count):
    """Tuples of numbers that the definitions speak of: of many that are drawn, those at which other leaves are true than before."""
    from load import view_of

    reading = Reading(pathlib.Path(design).read_text(), pathlib.Path(definitions).read_text())
    tree, terms = reading.tree(f"inlined {level} {role} {within}")
    known = sorted({number for table in reading.tables if table for row in table.rows for number in [*row.values, row.result.value]} | {0, 1, 2, 3})
    draw = random.Random(int(seed))
    seen = set()
    most = max((len(leaf.choices) for leaf in tree.leaves), default=0)
    for _ in range(100000):
        numbers = [[draw.choice(known) % 2 ** width for width in widths] for widths in ([terms.widths[t] for t in tree.args], [terms.widths[t] for t in tree.fields], most * [64])]
        word = ";".join(",".join(map(str, part)) for part in numbers)
        inputs, memo = inputs_at(tree, terms, word), {}
        true = [index for index, leaf in enumerate(tree.leaves) if terms.evaluate(leaf.cond, inputs, reading.tables, memo)]
        if true and tuple(true) not in seen:
            seen.add(tuple(true))
            print(word, true)
        if len(seen) == int(count):
            break


TRUNK = 'design "t.ccn"\ndefinitions "t.defs"\n', "inlined 1 HostOut {}"
WAYS = (
    'design "hops-above.ccn"..."hops-below.ccn"\ndefinitions "trees.defs"\n',
    'inlined 1 Out 2 :: role Out[a: bit<16>] | h(a) = {{ "{} if (a == 16w#) {{ send N[a, 8w#]; }} " send N[a, 8w99]; }} '
    'role N[a: bit<16>, b: bit<8>] | h(a) and f(b) < b = {{ "63 if (b == 8w#) {{ send In[a]; }} " send In[a]; }}',
)


def measured(lines, tree, value):
    """What the program takes for one tree: instructions, seconds, and KiB."""
    program = TOP / "crates" / "obligation_tests" / "out" / "obligation_tests"
    with tempfile.TemporaryDirectory() as name:
        folder = pathlib.Path(name)
        for path in (TOP / "crates" / "obligation_tests" / "data").glob("*.*"):
            (folder / path.name).write_bytes(path.read_bytes())
        (folder / "one.cases").write_text("ask terms\n" + lines + f"  ? | leaves {tree.format(value)}\n")
        tool = ["valgrind", "--tool=cachegrind", "--cache-sim=no", "--cachegrind-out-file=/dev/null"]
        counted = subprocess.run([*tool, program, "one.cases"], cwd=folder, capture_output=True, text=True)
        said = subprocess.run(["/usr/bin/time", "-f", "%U %M", program, "one.cases"], cwd=folder, capture_output=True, text=True)
    instructions = int(re.search(r"I +refs: +([0-9,]+)", counted.stderr)[1].replace(",", ""))
    found = re.search(r"found +(.*)", said.stdout)[1]
    return found, instructions, said.stderr.split()[-2:]


def print_times():
    for (lines, tree), values in ((TRUNK, (1, 7, 9, 10, 11, 12)), (WAYS, (15, 31, 63))):
        for value in values:
            found, instructions, (seconds, kib) = measured(lines, tree, value)
            print(f"{found:>10} leaves {instructions:>15,} instructions {seconds} s {kib} KiB")


def main():
    if sys.argv[1:] == ["times"]:
        return print_times()
    sys.path.insert(0, sys.argv[1])
    if sys.argv[2:3] == ["numbers"]:
        print_numbers(*sys.argv[3:])
    else:
        print_cases(pathlib.Path(sys.argv[2]) if len(sys.argv) > 2 else CASES)


if __name__ == "__main__":
    main()
