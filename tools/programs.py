"""P4 programs of bundles: they are read and run, with a note of what decided. docs/FORMATS.md says what they mean; nothing here is proved."""

import re
import typing

TOKEN = re.compile(r"#include <core\.p4>|\d+w(?:0[xX][0-9a-fA-F]+|\d+)|\w+|==|!=|<=|>=|&&|\|\||\+\+|[^\s\w]")
BLANK = re.compile(r"\s+|//[^\n]*|/\*.*?\*/", re.S)


class Table(typing.NamedTuple):
    number: int
    keys: list
    is_exact: bool
    result: str


class Set(typing.NamedTuple):
    line: int
    target: str
    value: typing.Callable
    text: str


class Apply(typing.NamedTuple):
    line: int
    table: int


class If(typing.NamedTuple):
    line: int
    test: typing.Callable
    then: list
    other: list


class Return(typing.NamedTuple):
    line: int


def cut(width):
    return (1 << width) - 1


# Each operator gives the width of its result, None for a truth value, and the value, of two operands with their widths.
OPERATORS = {
    "+": lambda w, v: (w, lambda a, b: a + b & cut(w)),
    "-": lambda w, v: (w, lambda a, b: a - b & cut(w)),
    "&": lambda w, v: (w, lambda a, b: a & b),
    "|": lambda w, v: (w, lambda a, b: a | b),
    "^": lambda w, v: (w, lambda a, b: a ^ b),
    "++": lambda w, v: (w + v, lambda a, b: a << v | b),
    "==": lambda w, v: (None, lambda a, b: a == b),
    "!=": lambda w, v: (None, lambda a, b: a != b),
    "<": lambda w, v: (None, lambda a, b: a < b),
    "<=": lambda w, v: (None, lambda a, b: a <= b),
    ">": lambda w, v: (None, lambda a, b: a > b),
    ">=": lambda w, v: (None, lambda a, b: a >= b),
    "&&": lambda w, v: (None, lambda a, b: a and b),
    "||": lambda w, v: (None, lambda a, b: a or b),
}


class Program:
    """A program: the widths of what it names, its tables, and the statements of both controls."""

    def __init__(self, text):
        self.tokens, self.lines, at = [], [], 0
        while at < len(text):
            found = BLANK.match(text, at) or TOKEN.match(text, at)
            if not found:
                raise ValueError(f"byte {at} begins no token")
            if found.re is TOKEN:
                self.tokens.append(found[0])
                self.lines.append(text.count("\n", 0, at) + 1)
            at = found.end()
        self.at, self.headers, self.tables = 0, [], {}
        self.widths = {"port": 16, "rid": 64, "verdict": 8, "egress_port": 16, "group": 16}
        self.read_declarations()
        self.ingress, self.egress = self.read_control("Ing"), self.read_control("Egr")

    def sends_to_member(self):
        """Whether a copy's member is the number of its port: the egress control sets the port to a field that the member was put into."""
        found, blocks = [], [self.egress]
        while blocks:
            for one in blocks.pop():
                found += [one] if isinstance(one, Set) else []
                blocks += [one.then, one.other] if isinstance(one, If) else []
        put = {one.target for one in found if one.text.startswith("rid")}
        return any(one.target == "egress_port" and one.text in put for one in found)

    # ---- tokens

    def next(self):
        self.at += 1
        return self.tokens[self.at - 1]

    def take(self, *wanted):
        for one in wanted:
            if self.next() != one:
                raise ValueError(f"line {self.lines[self.at - 1]}: `{self.tokens[self.at - 1]}` and not `{one}`")

    def peek(self, ahead=0):
        return self.tokens[self.at + ahead]

    def seek(self, *wanted):
        while tuple(self.tokens[self.at : self.at + len(wanted)]) != wanted:
            self.at += 1
        self.at += len(wanted)

    def name(self):
        parts = [self.next()]
        while self.peek() == ".":
            self.at += 1
            parts.append(self.next())
        return ".".join(parts)

    # ---- declarations

    def read_fields(self, owner):
        self.take("{")
        while self.peek() != "}":
            self.take("bit", "<")
            width = int(self.next())
            self.take(">")
            field = self.next()
            self.widths[f"{owner}.{field}"] = width
            self.take(";")
            yield field, width
        self.at += 1

    def read_declarations(self):
        self.seek("package")
        self.seek(";")
        while self.peek() == "header":
            header = self.tokens[self.at + 1].removeprefix("ht_")
            self.at += 2
            self.headers += [(f"h.h_{header}.{field}", width) for field, width in self.read_fields(f"h.h_{header}")]
        self.seek("struct", "Meta")
        self.meta = [f"m.{field}" for field, _ in self.read_fields("m")]

    def read_control(self, control):
        self.seek("control", control)
        self.seek("{")
        while self.peek() == "action":
            self.read_table()
        self.take("apply")
        return self.read_block()

    def read_table(self):
        self.seek("{")
        result = self.name()
        self.seek("table")
        number = int(self.next()[1:])
        self.take("{", "key", "=", "{")
        keys, is_exact = [], False
        while self.peek() != "}":
            keys.append(self.name())
            is_exact = self.peek(1) == "exact"
            self.seek(";")
        self.seek("default_action")
        self.seek(";")
        self.take("}")
        self.tables[number] = Table(number, keys, is_exact, result)

    # ---- statements and expressions

    def read_block(self):
        self.take("{")
        block = []
        while self.peek() != "}":
            block.append(self.read_statement())
        self.at += 1
        return block

    def read_statement(self):
        line = self.lines[self.at]
        if self.peek() == "if" and self.peek(1) == "(":
            self.take("if", "(")
            test = self.read_expression()[1]
            self.take(")")
            then, other = self.read_block(), []
            if self.peek() == "else":
                self.at += 1
                other = self.read_block()
            return If(line, test, then, other)
        if self.peek() == "return" and self.peek(1) == ";":
            self.take("return", ";")
            return Return(line)
        target = self.name()
        if target.endswith(".apply"):
            self.take("(", ")", ";")
            return Apply(line, int(target.removesuffix(".apply")[1:]))
        self.take("=")
        begin = self.at
        value = self.read_expression()[1]
        self.take(";")
        return Set(line, target, value, "".join(self.tokens[begin : self.at - 1]))

    def read_expression(self):
        width, value = self.read_primary()
        while self.peek() == "[":
            self.take("[")
            high = int(self.next())
            self.take(":")
            low = int(self.next())
            self.take("]")
            width, value = high - low + 1, lambda s, v=value, h=high, l=low: v(s) >> l & cut(h - l + 1)
        return width, value

    def read_primary(self):
        if self.peek() != "(":
            if not self.peek()[0].isdigit():
                name = self.name()
                return self.widths[name], lambda s: s[name]
            width, _, number = self.next().partition("w")
            constant = int(number, 16 if number[:2] in ("0x", "0X") else 10)
            return int(width), lambda s: constant
        self.take("(")
        if self.peek() in "!~":
            mark = self.next()
            width, value = self.read_expression()
            made = width, (lambda s: not value(s)) if mark == "!" else (lambda s: value(s) ^ cut(width))
        else:
            made = self.read_operation()
        self.take(")")
        return made

    def read_operation(self):
        first, left = self.read_expression()
        mark = self.next()
        second, right = self.read_expression()
        if mark == "?":
            self.take(":")
            other = self.read_expression()[1]
            return second, lambda s: right(s) if left(s) else other(s)
        width, made = OPERATORS[mark](first, second)
        return width, lambda s: made(left(s), right(s))
