#!/usr/bin/env python3
"""The clauses of what a design owes, made from its text by the pages alone: docs/LANGUAGE.md, docs/FORMATS.md and docs/CLAUSES.md.

    bench/design_clauses.py list DESIGN                    the obligations, a line each
    bench/design_clauses.py clauses DESIGN NUMBER [CERTS]  the clauses of one obligation's query in DIMACS form; with the instances of its entry in CERTS
    bench/design_clauses.py check DESIGN CERTS             checks each entry of CERTS by bench/check_certs.c over these clauses

The text has to keep the rules of designs: that is not looked at. The status of `check` is 0 if all entries show their obligations.
"""

import json
import pathlib
import re
import subprocess
import sys
import tempfile

TOP = pathlib.Path(__file__).resolve().parent.parent
MOST_LEAVES, MOST_TAKEN, MOST_CLAUSES, MOST_COUNT = 4_096, 4_096, 4_000_000, 2**64 - 1


# ---- the grammar

TOKEN = re.compile(r"(?:\s|//[^\n]*|/\*.*?\*/)*(?:([A-Za-z_][A-Za-z0-9_]*)|([0-9][A-Za-z0-9_]*)|(&&&|\+\+|=>|<=|>=|==|!=|[-{}()\[\]<>=+&|^~,;:.?])|$)", re.S)


def tokens_of(text):
    tokens, at = [], 0
    while at < len(text):
        found = TOKEN.match(text, at)
        if not found:
            sys.exit(f"design_clauses.py: no token at byte {at}")
        at = found.end()
        tokens.extend(token for token in found.groups() if token)
    return tokens


class Parser:
    """Trees as tuples whose first part is the kind."""

    def __init__(self, text):
        self.tokens, self.at = tokens_of(text), 0

    def peek(self, *words):
        return self.at < len(self.tokens) and self.tokens[self.at] in words

    def next(self):
        if self.at == len(self.tokens):
            sys.exit("design_clauses.py: the text ends too early")
        self.at += 1
        return self.tokens[self.at - 1]

    def take(self, *words):
        for word in words:
            found = self.next()
            if found != word:
                sys.exit(f"design_clauses.py: token {self.at - 1} is {found}, not {word}")

    def has(self, word):
        if self.peek(word):
            self.at += 1
            return True
        return False

    def listed(self, item, between=","):
        items = [item()]
        while self.has(between):
            items.append(item())
        return items

    # declarations

    def design(self):
        """The fields, and the declarations of each level with the list and the bound of its block."""
        self.take("packet", "{")
        fields = []
        while self.has("header"):
            header = self.next()
            self.take("{")
            while not self.has("}"):
                name = self.next()
                self.take(":")
                fields.append((header, name, self.bits()))
                self.take(";")
        self.take("}")
        levels = [([], 0, self.decls())]
        while self.has("refine"):
            names = self.listed(self.next)
            self.take("within")
            within = int(self.next())
            self.take("{")
            levels.append((names, within, self.decls()))
            self.take("}")
        if self.at < len(self.tokens):
            sys.exit(f"design_clauses.py: token {self.at} cannot stand there")
        return fields, levels

    def bits(self):
        self.take("bit", "<")
        width = int(self.next())
        self.take(">")
        return width

    def param(self):
        name = self.next()
        self.take(":")
        return name, self.bits()

    def decls(self):
        decls = []
        while self.peek("function", "assume", "role", "host", "switch"):
            decls.append(getattr(self, self.next() + "_decl")())
        return decls

    def function_decl(self):
        name = self.next()
        self.take("(")
        params = self.listed(self.param)
        self.take(")", ":")
        width = 1 if self.has("bool") else self.bits()
        body = self.expr() if self.has("=") else None
        self.take(";")
        return "function", name, params, width, body

    def assume_decl(self):
        self.take("(")
        params = [] if self.peek(")") else self.listed(self.param)
        self.take(")")
        body = self.expr()
        self.take(";")
        return "assume", params, body

    def role_decl(self):
        name = self.next()
        self.take("[")
        params = self.listed(self.param)
        self.take("]", "|")
        guard = self.expr()
        body = None if self.has(";") else (self.take("="), self.block())[1]
        return "role", name, params, guard, body

    def host_decl(self):
        return self.passed("host")

    def switch_decl(self):
        return self.passed("switch")

    def passed(self, kind):
        """A declaration of which nothing is needed."""
        while not self.has(";"):
            self.next()
        return (kind,)

    # statements

    def block(self):
        self.take("{")
        stmts = []
        while not self.has("}"):
            stmts.append(self.stmt())
        return stmts

    def field(self):
        self.take(".")
        header = self.next()
        self.take(".")
        return header, self.next()

    def stmt(self):
        word = self.next()
        if word == "if":
            self.take("(")
            test = self.expr()
            self.take(")")
            first = self.block()
            return "if", test, first, self.block() if self.has("else") else []
        if word == "fork":
            self.take("(")
            name, width = self.param()
            self.take("|")
            test = self.expr()
            self.take(")")
            return "fork", name, width, test, self.block()
        if word == "let":
            name, _ = self.param()
            self.take("=")
            made = "let", name, self.expr()
        elif word == "pkt":
            field = self.field()
            self.take("=")
            made = "write", field, self.expr()
        elif word == "havoc":
            made = ("havoc field", self.field()) if self.has("pkt") else ("havoc", *self.param())
        elif word in ("filter", "assume"):
            made = "filter", self.expr()
        else:
            role = self.next()
            self.take("[")
            made = "send", role, self.listed(self.expr)
            self.take("]")
        self.take(";")
        return made

    # expressions

    def expr(self):
        left = self.chain(0)
        return ("=>", left, self.expr()) if self.has("=>") else left

    CHAINS = (("or",), ("and",), ("==", "!=", "<", "<=", ">", ">="), ("++",), ("&", "|", "^"), ("+", "-"))

    def chain(self, rank):
        if rank == len(self.CHAINS):
            return self.unary()
        left = self.chain(rank + 1)
        while self.peek(*self.CHAINS[rank]):
            operator = self.next()
            left = operator, left, self.chain(rank + 1)
        return left

    def unary(self):
        if self.peek("~", "not"):
            self.next()
            return "not", self.unary()
        made = self.prim()
        while self.has("["):
            high = int(self.next())
            self.take(":")
            made = "slice", high, int(self.next()), made
            self.take("]")
        return made

    def prim(self):
        word = self.next()
        if word == "(":
            made = self.expr()
            if self.has("?"):
                first = self.expr()
                self.take(":")
                made = "pick", made, first, self.expr()
            self.take(")")
            return made
        if word in ("true", "false"):
            return "literal", 1, int(word == "true")
        if word == "pkt":
            return "field", self.field()
        if word[0].isdigit():
            width, _, value = word.partition("w")
            return "literal", int(width), int(value, 16 if value[:2] == "0x" else 10)
        if self.has("("):
            args = self.listed(self.expr)
            self.take(")")
            return "call", word, args
        return "variable", word


# ---- terms

class Terms:
    """Terms under numbers: equal ones have one. A node is its kind, its width, what else it has, and its arguments."""

    def __init__(self):
        self.nodes, self.numbers, self.inputs = [], {}, 0

    def put(self, kind, width, extra, *args):
        node = kind, width, extra, args
        if node not in self.numbers:
            self.numbers[node] = len(self.nodes)
            self.nodes.append(node)
        return self.numbers[node]

    def input(self, width):
        self.inputs += 1
        return self.put("input", width, self.inputs - 1)

    def constant(self, width, value):
        return self.put("constant", width, value)

    def width(self, term):
        return self.nodes[term][1]

    def of(self, kind, *args):
        """A term whose width follows from those of its arguments."""
        if kind == "Concat":
            width = sum(map(self.width, args))
        else:
            width = 1 if kind in ("Equal", "Less") else self.width(args[-1])
        return self.put(kind, width, None, *args)

    def chain(self, kind, parts):
        joined = parts[0]
        for part in parts[1:]:
            joined = self.of(kind, joined, part)
        return joined

    def walk(self, goal):
        """Each term of the goal, its arguments before it."""
        left, seen, open_terms = [], set(), [(goal, False)]
        while open_terms:
            term, is_done = open_terms.pop()
            if is_done:
                left.append(term)
            elif term not in seen:
                seen.add(term)
                open_terms.append((term, True))
                open_terms.extend((arg, False) for arg in reversed(self.nodes[term][3]))
        return left

    def replaced(self, goal, by):
        """The goal with some of its terms replaced, by numbers."""
        made = {}
        for term in self.walk(goal):
            kind, width, extra, args = self.nodes[term]
            made[term] = by[term] if term in by else self.put(kind, width, extra, *(made[arg] for arg in args))
        return made[goal]


OPERATORS = {"+": "Add", "-": "Sub", "&": "And", "|": "Or", "^": "Xor", "++": "Concat", "==": "Equal", "<": "Less", "and": "And", "or": "Or"}
TURNED = {"!=": ("Equal", False), ">": ("Less", True), "<=": ("Less", True), ">=": ("Less", False)}


class Owed:
    """The obligations of a design: of each its level, its role, where it ends and its formula."""

    def __init__(self, text):
        self.fields, self.levels = Parser(text).design()
        self.terms = Terms()
        self.functions, self.assumptions, self.roles, bodies = {}, [], {}, []
        for level, (_, _, decls) in enumerate(self.levels):
            bodies.append(dict(bodies[-1]) if bodies else {})
            for decl in decls:
                if decl[0] == "function":
                    self.functions[decl[1]] = (len(self.functions), *decl[2:])
                elif decl[0] == "assume":
                    self.assumptions.append((level, *decl[1:]))
                elif decl[0] == "role":
                    self.roles.setdefault(decl[1], (level, *decl[2:4]))
                    bodies[level][decl[1]] = decl[4]
        self.bodies = bodies
        self.obligations = []
        self.over = self.first_large_tree()
        if self.over is None:
            for level, (names, within, _) in enumerate(self.levels):
                for name in names:
                    self.obligations += self.owed_by(level, name, within)

    # how many leaves

    def leaves(self, level, role, bodies, seen):
        """The ways of a tree that send; those of the bodies that it goes on with, among them."""
        if (role, bodies) not in seen:
            seen[role, bodies] = self.ways(level, self.bodies[level][role], bodies, seen)[0]
        return seen[role, bodies]

    def ways(self, level, stmts, bodies, seen):
        """How many ways of a block send, and how many go on."""
        sent, open_ways = 0, 1
        for stmt in stmts:
            if stmt[0] == "if":
                first, other = (self.ways(level, block, bodies, seen) for block in stmt[2:])
                sent, open_ways = sent + open_ways * (first[0] + other[0]), open_ways * (first[1] + other[1])
            elif stmt[0] == "fork":
                sent, open_ways = sent + open_ways * self.ways(level, stmt[4], bodies, seen)[0], 0
            elif stmt[0] == "send":
                goes_on = self.is_new(level, stmt[1]) and bodies > 1
                sent, open_ways = sent + open_ways * (self.leaves(level, stmt[1], bodies - 1, seen) if goes_on else 1), 0
        return sent, open_ways

    def is_new(self, level, role):
        return 0 < level == self.roles[role][0]

    def first_large_tree(self):
        for level, (names, within, _) in enumerate(self.levels):
            for name in names:
                count = self.leaves(level, name, within, {})
                if count > MOST_LEAVES:
                    return min(count, MOST_COUNT)
        return None

    # expressions as terms

    def term(self, expr, variables, fields):
        kind, *parts = expr
        if kind == "variable":
            return variables[parts[0]]
        if kind == "field":
            return fields[parts[0]]
        if kind == "literal":
            return self.terms.constant(*parts)
        if kind == "call":
            number, params, width, body = self.functions[parts[0]]
            args = [self.term(arg, variables, fields) for arg in parts[1]]
            if body is None:
                return self.terms.put("apply", width, number, *args)
            return self.term(body, {name: arg for (name, _), arg in zip(params, args)}, {})
        if kind == "slice":
            high, low, whole = parts
            return self.terms.put("slice", high - low + 1, (high, low), self.term(whole, variables, fields))
        args = [self.term(part, variables, fields) for part in parts]
        if kind == "not":
            return self.terms.of("Not", *args)
        if kind == "pick":
            return self.terms.of("pick", *args)
        if kind == "=>":
            return self.terms.of("Or", self.terms.of("Not", args[0]), args[1])
        if kind in OPERATORS:
            return self.terms.of(OPERATORS[kind], *args)
        operator, is_turned = TURNED[kind]
        made = self.terms.of(operator, *(reversed(args) if is_turned else args))
        return made if kind == ">" else self.terms.of("Not", made)

    def assumed(self, number, terms):
        _, params, body = self.assumptions[number]
        return self.term(body, {name: term for (name, _), term in zip(params, terms)}, {})

    # leaves

    def tree(self, role, level, is_hop, within):
        """The inputs of a tree, its choices and its leaves: each a condition, a role or none, the values and the fields."""
        _, params, guard = self.roles[role]
        values = [self.terms.input(width) for _, width in params]
        fields = {(header, name): self.terms.input(width) for header, name, width in self.fields}
        inputs, choices, leaves = values + list(fields.values()), [], []
        variables = self.named(params, values)

        def choice(width):
            choices.append(self.terms.input(width))
            return choices[-1]

        def follow(stmts, way, bodies, then):
            """Follows a block, and what comes then in each way that goes on."""
            if not stmts:
                return then(way)
            (kind, *parts), rest = stmts[0], stmts[1:]
            condition, variables, fields = way

            def go(condition=condition, variables=variables, fields=fields):
                follow(rest, (condition, variables, fields), bodies, then)

            def holds(test, variables=variables):
                return self.terms.of("And", condition, self.term(test, variables, fields))

            if kind == "let":
                go(variables={**variables, parts[0]: self.term(parts[1], variables, fields)})
            elif kind == "write":
                go(fields={**fields, parts[0]: self.term(parts[1], variables, fields)})
            elif kind == "havoc":
                go(variables={**variables, parts[0]: choice(parts[1])})
            elif kind == "havoc field":
                go(fields={**fields, parts[0]: choice(self.terms.width(fields[parts[0]]))})
            elif kind == "filter":
                go(condition=holds(parts[0]))
            elif kind == "if":
                own = self.term(parts[0], variables, fields)
                for test, block in ((own, parts[1]), (self.terms.of("Not", own), parts[2])):
                    follow(block, (self.terms.of("And", condition, test), variables, fields), bodies,
                           lambda end: follow(rest, (end[0], variables, end[2]), bodies, then))
            elif kind == "fork":
                inner = {**variables, parts[0]: choice(parts[1])}
                follow(parts[3], (holds(parts[2], inner), inner, fields), bodies, lambda end: None)
            else:
                send(parts[0], [self.term(value, variables, fields) for value in parts[1]], condition, fields, bodies)

        def send(to, values, condition, fields, bodies):
            _, params, guard = self.roles[to]
            inner = self.named(params, values)
            condition = self.terms.of("And", condition, self.term(guard, inner, {}))
            if not (is_hop and self.is_new(level, to)):
                leaves.append((condition, to, values, list(fields.values())))
            elif bodies == within:
                leaves.append((condition, None, values, list(fields.values())))
            else:
                follow(self.bodies[level][to], (condition, inner, fields), bodies + 1, lambda end: None)

        start = self.term(guard, variables, {}), variables, fields
        follow(self.bodies[level][role], start, 1, lambda end: None)
        return inputs, choices, leaves

    @staticmethod
    def named(params, values):
        return {name: value for (name, _), value in zip(params, values)}

    # formulas

    def owed_by(self, level, role, within):
        inputs, _, leaves = self.tree(role, level, True, within)
        old_inputs, choices, old_leaves = self.tree(role, level - 1, False, 1)
        owed = []
        for condition, to, values, fields in leaves:
            formula = condition
            if to is not None:
                parts = [self.part(old, choices, dict(zip(old_inputs, inputs)), values, fields) for old in old_leaves if old[1] == to]
                sent = self.terms.chain("Or", parts) if parts else self.terms.constant(1, 0)
                formula = self.terms.of("And", condition, self.terms.of("Not", sent))
            owed.append((level, role, to, formula))
        return owed

    def part(self, old, choices, by, values, fields):
        condition, _, old_values, old_fields = old
        for choice in choices:
            if choice in old_values:
                by[choice] = values[old_values.index(choice)]
            elif choice in old_fields:
                by[choice] = fields[old_fields.index(choice)]
            else:
                by[choice] = self.terms.constant(self.terms.width(choice), 0)
        equals = [self.terms.of("Equal", self.terms.replaced(before, by), now)
                  for before, now in zip(old_values + old_fields, values + fields)]
        return self.terms.chain("And", [self.terms.replaced(condition, by), *equals])

    # queries

    def applications(self, goal):
        return [term for term in self.terms.walk(goal) if self.terms.nodes[term][0] == "apply"]

    def patterns(self, number):
        """Of each pattern its function, and for each parameter the place where the pattern has it."""
        _, params, _ = self.assumptions[number]
        inputs = [self.terms.input(width) for _, width in params]
        found = []
        for term in self.applications(self.assumed(number, inputs)):
            _, _, function, args = self.terms.nodes[term]
            if sorted(args) == sorted(inputs):
                found.append((function, [args.index(own) for own in inputs]))
        return found

    def taken(self, level, formula):
        """What the formula takes of the assumptions up to its level, by their patterns."""
        applied = [self.terms.nodes[term][2:] for term in self.applications(formula)]
        taken = []
        for number, (own, params, _) in enumerate(self.assumptions):
            if own > level:
                continue
            tuples = {} if params else {(): None}
            patterns = self.patterns(number) if params else []
            for function, args in applied:
                for wanted, places in patterns:
                    if function == wanted:
                        tuples[tuple(args[place] for place in places)] = None
            taken += [self.assumed(number, terms) for terms in tuples]
        return taken[:MOST_TAKEN]

    def fits(self, level, number, values):
        if number >= len(self.assumptions) or self.assumptions[number][0] > level:
            return False
        params = self.assumptions[number][1]
        return len(values) == len(params) and all(value < 1 << width for value, (_, width) in zip(values, params))

    def query(self, number, instances):
        """The goal of an obligation's query, without functions; nothing if an instance does not fit."""
        level, _, _, formula = self.obligations[number]
        if not all(self.fits(level, *instance) for instance in instances):
            return None
        parts = [formula, *self.taken(level, formula)]
        for assumption, values in instances:
            widths = [width for _, width in self.assumptions[assumption][1]]
            parts.append(self.assumed(assumption, [self.terms.constant(width, value) for width, value in zip(widths, values)]))
        return self.flat(self.terms.chain("And", parts))

    def flat(self, goal):
        terms, made, earlier, parts = self.terms, {}, {}, []
        for term in terms.walk(goal):
            kind, width, extra, args = terms.nodes[term]
            args = [made[arg] for arg in args]
            if kind != "apply":
                made[term] = terms.put(kind, width, extra, *args)
                continue
            made[term] = terms.input(width)
            for other, result in earlier.setdefault(extra, []):
                same = terms.chain("And", [terms.of("Equal", before, now) for before, now in zip(other, args)])
                parts.append(terms.of("Or", terms.of("Not", same), terms.of("Equal", result, made[term])))
            earlier[extra].append((args, made[term]))
        return terms.chain("And", [made[goal], *parts])


# ---- clauses

class Clauses:
    """The clauses of a goal that has no function in it."""

    def __init__(self, terms, goal):
        self.made, self.vars = [(1,)], 1
        bits = {}
        for term in terms.walk(goal):
            kind, width, extra, args = terms.nodes[term]
            bits[term] = getattr(self, kind.lower())(width, extra, *(bits[arg] for arg in args))
        self.made.append((bits[goal][0],))

    @staticmethod
    def count(terms, goal):
        """How many there are, without making them."""
        count = 2
        for term in terms.walk(goal):
            kind, _, _, args = terms.nodes[term]
            w = terms.width(args[-1]) if args else 0
            count += {"Add": 14 * w, "Sub": 14 * w, "And": 3 * w, "Or": 3 * w, "Xor": 4 * w, "Equal": 7 * w - 3, "Less": 10 * w, "pick": 6 * w}.get(kind, 0)
        return count

    def dimacs(self):
        return f"p cnf {self.vars} {len(self.made)}\n" + "".join(" ".join(map(str, (*clause, 0))) + "\n" for clause in self.made)

    # gates

    def fresh(self):
        self.vars += 1
        return self.vars

    def gate(self, clauses):
        g = self.fresh()
        self.made.extend(clauses(g))
        return g

    def both(self, a, b):
        return self.gate(lambda g: ((-g, a), (-g, b), (g, -a, -b)))

    def either(self, a, b):
        return self.gate(lambda g: ((g, -a), (g, -b), (-g, a, b)))

    def differ(self, a, b):
        return self.gate(lambda g: ((-g, a, b), (-g, -a, -b), (g, -a, b), (g, a, -b)))

    def same(self, a, b):
        return self.gate(lambda g: ((g, a, b), (g, -a, -b), (-g, -a, b), (-g, a, -b)))

    def choice(self, c, a, b):
        return self.gate(lambda g: ((-c, -a, g), (-c, a, -g), (c, -b, g), (c, b, -g), (-a, -b, g), (a, b, -g)))

    def carry(self, a, b, c):
        return self.gate(lambda g: ((-a, -b, g), (-a, -c, g), (-b, -c, g), (a, b, -g), (a, c, -g), (b, c, -g)))

    # terms: their bits from bit 0 on

    def constant(self, width, value):
        return [1 if value >> at & 1 else -1 for at in range(width)]

    def input(self, width, _):
        return [self.fresh() for _ in range(width)]

    def slice(self, width, ends, a):
        return a[ends[1] : ends[0] + 1]

    def concat(self, width, _, a, b):
        return b + a

    def pick(self, width, _, c, a, b):
        return [self.choice(c[0], *pair) for pair in zip(a, b)]

    def equal(self, width, _, a, b):
        chain = None
        for pair in zip(a, b):
            own = self.same(*pair)
            chain = own if chain is None else self.both(chain, own)
        return [chain]

    def less(self, width, _, a, b):
        below = -1
        for one, other in zip(a, b):
            below = self.choice(self.differ(one, other), other, below)
        return [below]

    def summed(self, a, b, carry):
        bits = []
        for one, other in zip(a, b):
            bits.append(self.differ(self.differ(one, other), carry))
            carry = self.carry(one, other, carry)
        return bits

    def add(self, width, _, a, b):
        return self.summed(a, b, -1)

    def sub(self, width, _, a, b):
        return self.summed(a, [-bit for bit in b], 1)


def by_bit(gate):
    return lambda self, width, _, *args: [gate(self, *bits) for bits in zip(*args)]


for name, gate in (("not", lambda self, a: -a), ("and", Clauses.both), ("or", Clauses.either), ("xor", Clauses.differ)):
    setattr(Clauses, name, by_bit(gate))


def clauses_of(owed, number, instances):
    """The clauses of an obligation's query in DIMACS form, or how many there are if these are too many; nothing if an instance does not fit."""
    goal = owed.query(number, instances)
    if goal is None:
        return None
    count = Clauses.count(owed.terms, goal)
    return Clauses(owed.terms, goal).dimacs() if count <= MOST_CLAUSES else count


# ---- certificates

def checked(owed, path):
    """Checks each entry of a file of certificates by the program in C, and prints what it says."""
    certs = json.loads(path.read_text())["certs"]
    if len(certs) != len(owed.obligations):
        print(f"{len(certs)} certificates of {len(owed.obligations)} obligations")
        return 1
    refused = []
    with tempfile.TemporaryDirectory() as folder:
        program, clauses = pathlib.Path(folder, "check_certs"), pathlib.Path(folder, "clauses")
        subprocess.run(["cc", "-O2", "-o", program, TOP / "bench" / "check_certs.c"], check=True)
        for number, cert in enumerate(certs):
            made = clauses_of(owed, number, [(of, values) for of, values in cert["instances"]])
            clauses.write_text(made if isinstance(made, str) else "")
            shows = isinstance(made, str) and subprocess.run([program, clauses, path, str(number)], stdout=subprocess.DEVNULL).returncode == 0
            refused += [] if shows else [number]
    print(f"{len(certs) - len(refused)} of {len(certs)} certificates derive the empty clause" + "".join(f"; not {number}" for number in refused))
    return int(bool(refused))


def main(word, design, *words):
    sys.setrecursionlimit(100_000)
    owed = Owed(pathlib.Path(design).read_text())
    if owed.over is not None:
        sys.exit(f"design_clauses.py: a tree has {owed.over} leaves")
    if word == "list":
        for number, (level, role, to, formula) in enumerate(owed.obligations):
            print(f"{number}: level {level} role {role} to {to or 'a new role'}, {Clauses.count(owed.terms, owed.query(number, []))} clauses")
    elif word == "check":
        return checked(owed, pathlib.Path(words[0]))
    elif word == "clauses":
        entry = json.loads(pathlib.Path(words[1]).read_text())["certs"][int(words[0])] if words[1:] else {"instances": []}
        made = clauses_of(owed, int(words[0]), [tuple(instance) for instance in entry["instances"]])
        if not isinstance(made, str):
            sys.exit("design_clauses.py: " + ("an instance does not fit" if made is None else f"{made} clauses"))
        print(made, end="")
    return 0


if __name__ == "__main__":
    if len(sys.argv) < 3 or sys.argv[1] not in ("list", "clauses", "check"):
        sys.exit(__doc__)
    sys.exit(main(*sys.argv[1:]))
