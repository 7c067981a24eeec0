#!/usr/bin/env python3
"""Flat goals by an independent reading of the language, in cases of solver_tests.

    bench/flat_goals.py READING [FILE]             prints a file of cases, that of flat goals if none is named, with what the reading wants of each case
    bench/flat_goals.py READING draw SEED COUNT    prints so many random goals

READING is the folder of the reading, which shares nothing with this repository but the language. docs/CASES.md says what the cases ask.
"""

import pathlib
import random
import sys

TOP = pathlib.Path(__file__).resolve().parent.parent
CASES = TOP / "crates" / "solver_tests" / "data" / "flat.cases"
OPERATORS = ("Add", "Sub", "And", "Or", "Xor", "Concat", "Equal", "Less")


def expanded(words):
    """The words, of which a part in quotes stands for its words so many times."""
    out = []
    for index, part in enumerate(words.split('"')):
        count, piece = (part.split(" ", 1) if index % 2 else (1, part))
        out.extend(piece.split() * int(count))
    return out


def term_of(terms, words):
    """The last term of the words."""
    waiting = []
    for word in expanded(words):
        if word in OPERATORS:
            second, first = waiting.pop(), waiting.pop()
            made = terms.binary(word, first, second)
        elif word == "Not":
            made = terms.not_(waiting.pop())
        elif word == "Pick":
            second, first, choice = waiting.pop(), waiting.pop(), waiting.pop()
            made = terms.pick(choice, first, second)
        elif word.startswith("Slice."):
            high, low = map(int, word[6:].split("."))
            made = terms.slice(waiting.pop(), high, low)
        elif word.startswith("Apply."):
            function, width, *count = map(int, word[6:].split("."))
            count = count[0] if count else 2
            args = waiting[len(waiting) - count:]
            del waiting[len(waiting) - count:]
            made = terms.apply(function, args, width)
        elif word.startswith("in"):
            made = terms.input(int(word[2:]))
        elif word.startswith("x"):
            made = terms.inputs[int(word[1:])]
        else:
            made = terms.constant(*map(int, word.split("w")))
        waiting.append(made)
    return waiting.pop()


def argument(terms, term):
    node = terms.nodes[term]
    if node[0] == "input":
        return f"x{node[1]}"
    return f"{node[1]}w{node[2]}" if node[0] == "const" else "."


def wanted(reading, asked):
    """What the reading wants of a case."""
    terms_of, instances, clauses = reading
    word, words = asked.split(" ", 1)
    terms = terms_of.Terms()
    goal = term_of(terms, words)
    if word == "flat-size":
        count = instances.flat_size(goal, terms) if instances.pairs_of(goal, terms) > 100000 else clauses.count(terms, instances.flatten(goal, terms)[0])
        return f"{count[1]} refused" if count[1] > clauses.MAX_CLAUSES else f"{count[1]} over {count[0]}"
    flat, applied = instances.flatten(goal, terms)
    if word == "applied":
        return " ".join(f"{one.function}({' '.join(argument(terms, arg) for arg in one.args)})=x{terms.input_id(one.result)}" for one in applied)
    cnf = clauses.blast(terms, flat)[0]
    return " ".join([str(cnf.vars), *(" ".join(map(str, (*clause, 0))) for clause in cnf.clauses)])


class Drawn:
    """The words of a random goal. Function f has f % 4 arguments, of the widths and with a result of the width that follow from its number."""

    def __init__(self, source):
        self.source = source
        self.inputs = []
        self.words = []

    def leaf(self, width):
        own = [f"x{number}" for number, other in enumerate(self.inputs) if other == width]
        if own and self.source.random() < 0.7:
            return self.words.append(self.source.choice(own))
        if self.source.random() < 0.2:
            return self.words.append(f"{width}w{self.source.randrange(2 ** width)}")
        self.inputs.append(width)
        return self.words.append(f"in{width}")

    def term(self, width, depth):
        if depth == 0:
            return self.leaf(width)
        pick = self.source.randrange(9)
        if pick < 5:
            function = self.source.choice([f for f in range(6) if 1 + f % 3 == width])
            for place in range(function % 4):
                self.term(1 + (function + place) % 3, self.source.randrange(depth))
            return self.words.append(f"Apply.{function}.{width}.{function % 4}")
        if pick == 5 and width == 1:
            other = self.source.randrange(1, 4)
            self.term(other, depth - 1)
            self.term(other, depth - 1)
            return self.words.append(self.source.choice(("Equal", "Less")))
        if pick == 6:
            self.term(width, depth - 1)
            return self.words.append("Not")
        if pick == 7:
            self.term(1, depth - 1)
            self.term(width, depth - 1)
            self.term(width, depth - 1)
            return self.words.append("Pick")
        self.term(width, depth - 1)
        self.term(width, depth - 1)
        return self.words.append(self.source.choice(("And", "Or", "Xor", "Add", "Sub")))


def draw(seed, count):
    source = random.Random(seed)
    for number in range(count):
        goal = Drawn(source)
        goal.term(1, source.randrange(1, 5))
        for part in range(source.randrange(4)):
            goal.term(1, source.randrange(1, 4))
            goal.words.append("And")
        yield f"{source.choice(('flat', 'flat', 'flat-size', 'applied'))} {' '.join(goal.words)}"


def main(folder, words):
    sys.path.insert(0, folder)
    import clauses
    import instances
    import terms
    reading = (terms, instances, clauses)
    if words[:1] == ["draw"]:
        for asked in draw(int(words[1]), int(words[2])):
            print(f"  {wanted(reading, asked)} | {asked}")
        return
    for line in pathlib.Path(words[0] if words else CASES).read_text().splitlines():
        _, between, asked = line.partition(" | ")
        print(f"  {wanted(reading, asked)} | {asked}" if between else line)


if __name__ == "__main__":
    main(sys.argv[1], sys.argv[2:])
