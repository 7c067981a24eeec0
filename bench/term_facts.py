#!/usr/bin/env python3
"""How many obligations of designs would be refuted by unit propagation over their terms, before any clause is made.

    bench/term_facts.py READING EVERY DESIGN..     of each EVERY-th obligation of these designs

What is known of a term are some of its bits. The formula is true at first, and then each operator says what bits of its parts say of its own bits and the other way round, down and up over
all terms of the formula, until a bit would be both or nothing more is known. Applications of run-time functions are taken as inputs, and assumptions play no part. READING is a folder with
another program, which makes the formulas, as bench/scale.py takes it. The program does nothing of this: the script tells what it would gain (docs/TRIED.md).
"""

import pathlib
import sys

from scale import Reading

# So often at most all terms are gone over.
SWEEPS = 12


class Conflict(Exception):
    """A bit would be 0 and 1."""


def parts(node):
    kind = node[0]
    if kind == "apply":
        return node[2]
    if kind in ("not", "slice"):
        return node[1:2]
    if kind == "bin":
        return node[2:4]
    return node[1:4] if kind == "pick" else ()


class Facts:
    """The bits that are known of the terms of a formula: by term those that are, and their values."""

    def __init__(self, terms, formula):
        self.nodes, self.widths = terms.nodes, terms.widths
        self.terms, waiting = set(), [formula]
        while waiting:
            term = waiting.pop()
            if term not in self.terms:
                self.terms.add(term)
                waiting.extend(parts(self.nodes[term]))
        self.known, self.value = dict.fromkeys(self.terms, 0), dict.fromkeys(self.terms, 0)
        self.visits, self.is_changed = 0, True
        self.learn(formula, 1, 1)

    def learn(self, term, mask, value):
        if (self.value[term] ^ value) & mask & self.known[term]:
            raise Conflict
        new = mask & ~self.known[term]
        if new:
            self.known[term] |= new
            self.value[term] |= value & new
            self.is_changed = True

    def ones(self, term):
        return self.known[term] & self.value[term]

    def zeros(self, term):
        return self.known[term] & ~self.value[term]

    def all_bits(self, term):
        return (1 << self.widths[term]) - 1

    def is_whole(self, term):
        return self.known[term] == self.all_bits(term)

    def apply_rule(self, term):
        self.visits += 1
        node = self.nodes[term]
        rule = getattr(self, f"of_{node[1].lower() if node[0] == 'bin' else node[0]}", None)
        if rule:
            rule(term, *(node[2:] if node[0] == "bin" else node[1:]))

    def of_const(self, term, _width, value):
        self.learn(term, self.all_bits(term), value)

    def of_not(self, term, a):
        self.learn(term, self.known[a], self.zeros(a))
        self.learn(a, self.known[term], self.zeros(term))

    def of_slice(self, term, a, _high, low):
        self.learn(term, self.known[a] >> low & self.all_bits(term), self.value[a] >> low & self.all_bits(term))
        self.learn(a, self.known[term] << low, self.value[term] << low)

    def of_pick(self, term, c, a, b):
        if self.known[c]:
            chosen = a if self.value[c] else b
            self.learn(term, self.known[chosen], self.value[chosen])
            self.learn(chosen, self.known[term], self.value[term])
            return
        agreed = self.known[a] & self.known[b] & ~(self.value[a] ^ self.value[b])
        self.learn(term, agreed, self.value[a] & agreed)
        for other, choice in ((a, 0), (b, 1)):
            if self.known[term] & self.known[other] & (self.value[term] ^ self.value[other]):
                self.learn(c, 1, choice)

    def of_and(self, term, a, b):
        self.learn(term, self.zeros(a) | self.zeros(b) | self.ones(a) & self.ones(b), self.ones(a) & self.ones(b))
        for part, other in ((a, b), (b, a)):
            self.learn(part, self.ones(term), self.ones(term))
            self.learn(part, self.zeros(term) & self.ones(other), 0)

    def of_or(self, term, a, b):
        self.learn(term, self.ones(a) | self.ones(b) | self.zeros(a) & self.zeros(b), self.ones(a) | self.ones(b))
        for part, other in ((a, b), (b, a)):
            self.learn(part, self.zeros(term), 0)
            self.learn(part, self.ones(term) & self.zeros(other), self.ones(term) & self.zeros(other))

    def of_xor(self, *terms):
        for at in range(3):
            first, second = terms[at - 1], terms[at - 2]
            both = self.known[first] & self.known[second]
            self.learn(terms[at], both, (self.value[first] ^ self.value[second]) & both)

    def of_concat(self, term, a, b):
        width = self.widths[b]
        self.learn(term, self.known[a] << width | self.known[b], self.value[a] << width | self.value[b])
        self.learn(b, self.known[term] & self.all_bits(b), self.value[term] & self.all_bits(b))
        self.learn(a, self.known[term] >> width, self.value[term] >> width)

    def of_equal(self, term, a, b):
        differ = self.known[a] & self.known[b] & (self.value[a] ^ self.value[b])
        if differ:
            self.learn(term, 1, 0)
        elif a == b or self.is_whole(a) and self.is_whole(b):
            self.learn(term, 1, 1)
        if self.ones(term):
            self.learn(a, self.known[b], self.value[b])
            self.learn(b, self.known[a], self.value[a])
        open_bits = self.all_bits(a) & ~(self.known[a] & self.known[b])
        if self.zeros(term) and not differ and open_bits & (open_bits - 1) == 0:
            self.learn(b, open_bits & self.known[a], ~self.value[a])
            self.learn(a, open_bits & self.known[b], ~self.value[b])

    def of_add(self, term, a, b, sign=1):
        both = self.known[a] & self.known[b]
        low = (both ^ both + 1) >> 1 & self.all_bits(term)
        self.learn(term, low, self.value[a] + sign * self.value[b])

    def of_sub(self, term, a, b):
        self.of_add(term, a, b, -1)

    def of_less(self, term, a, b):
        if self.is_whole(a) and self.is_whole(b):
            self.learn(term, 1, int(self.value[a] < self.value[b]))

    def refute(self):
        """Whether the formula cannot be true."""
        order = sorted(self.terms)
        for sweep in range(SWEEPS):
            self.is_changed = False
            try:
                for term in reversed(order) if sweep % 2 == 0 else order:
                    self.apply_rule(term)
            except Conflict:
                return True
            if not self.is_changed:
                break
        return False


def main(reading, every, *designs):
    made = Reading(reading)
    print("| Design | Obligations | Asked | Refuted | Terms | Visits |\n|---|---|---|---|---|---|")
    for design in map(pathlib.Path, designs):
        view = made.load.view_of(made.load.parse_design(design.read_bytes()))
        terms, obligations = made.verify.build(view)
        asked = obligations[:: int(every)]
        refuted, count, visits = 0, 0, 0
        for obligation in asked:
            facts = Facts(terms, obligation.formula)
            refuted += facts.refute()
            count, visits = count + len(facts.terms), visits + facts.visits
        few = max(len(asked), 1)
        print(f"| `{design.name}` | {len(obligations)} | {len(asked)} | {refuted} | {count // few} | {visits // few} |", flush=True)


if __name__ == "__main__":
    if len(sys.argv) < 4:
        sys.exit(__doc__)
    main(*sys.argv[1:])
