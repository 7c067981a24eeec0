#!/usr/bin/env python3
"""Random bodies with choices of at most 3 bits: whether they can send, asked of the program, against trying all lists of choices.

    bench/sends.py [BODIES [SEED]]     makes so many bodies (10,000) from this seed (1), and prints how many cases differ

It needs the program of crates/design_tests: `rt run` there builds it, or DESIGN_TESTS names it. Bodies are made and run here, by the section
"A body's run" of docs/LANGUAGE.md, and kept where no choice is hidden, by the section "Read-back rule". Sends that are asked about are
those that some list of choices gives, those with one number changed, and others. Where READING names a folder with another program's
run of bodies (`meaning.go`), what each list of choices gives is asked of that, too.
"""

import itertools
import os
import pathlib
import random
import subprocess
import sys
import tempfile

TOP = pathlib.Path(__file__).resolve().parent.parent
READING = os.environ.get("READING")
FIELDS = {"x": 3, "y": 2, "z": 3}
PARAMS = {"a": 3, "b": 2}
OWN_GUARD = "a != 3w6"
TARGETS = {"To": [3, 2, 1], "Near": [3, 3], "Far": [2]}
TRUE_AT = {1, 2, 6}
PER_DESIGN = 5
HEAD = """packet { header e { x: bit<3>; y: bit<2>; z: bit<3>; } }
function h(a: bit<3>): bool;
function t(a: bit<3>): bool;
role Out[a: bit<3>] | h(a) = { send In[a]; }
role In[a: bit<3>] | h(a);
host (Out, In);
role To[p: bit<3>, q: bit<2>, r: bit<1>] | p != 3w5 or q == 2w1 = { send In[p]; }
role Near[p: bit<3>, q: bit<3>] | true = { send In[p]; }
role Far[p: bit<2>] | p < 2w3 = { send In[3w1]; }
"""
TAIL = """  function sw(s: bit<16>): bool;
  role Out[a: bit<3>] | h(a) = { send SwIn[16w1, 16w0]; }
  role SwIn[s: bit<16>, p: bit<16>] | sw(s) and p < 16w4 = { send SwOut[s, p]; }
  role SwOut[s: bit<16>, p: bit<16>] | sw(s) and p < 16w4 = { send In[3w1]; }
  switch (SwIn, SwOut) ports 4;
}
"""
DEFS = "default h = false; default sw = false; default t = false; " + " ".join(f"define t(3w{n}) = true;" for n in sorted(TRUE_AT))


def guard(role, values):
    """Whether a packet can stand there."""
    if role == "To":
        return values[0] != 5 or values[1] == 1
    return role == "Near" or values[0] < 3


# ---- expressions: a text, what it is from variables and fields, and the variable or field that it is alone


def number(dice, width, scope, depth=1):
    """An expression of a width."""
    names = [("v", name) for name, w in scope.items() if w == width] + [("f", name) for name, w in FIELDS.items() if w == width]
    kind = dice.random()
    if names and kind < 0.6:
        return dice.choice(names)
    if depth == 0 or kind < 0.75:
        return ("n", width, dice.randrange(1 << width))
    return (dice.choice("+^&"), width, number(dice, width, scope, depth - 1), number(dice, width, scope, depth - 1))


def truth(dice, scope, depth=1):
    """A condition."""
    kind = dice.random()
    if depth and kind < 0.2:
        return (dice.choice(["and", "or"]), truth(dice, scope, 0), truth(dice, scope, 0))
    if kind < 0.3:
        return ("t", number(dice, 3, scope))
    width = dice.choice([1, 2, 3])
    return (dice.choice(["==", "!=", "<", "<="]), number(dice, width, scope), number(dice, width, scope))


def text(e):
    """How an expression is written."""
    if e[0] == "v":
        return e[1]
    if e[0] == "f":
        return f"pkt.e.{e[1]}"
    if e[0] == "n":
        return f"{e[1]}w{e[2]}"
    if e[0] == "t":
        return f"t({text(e[1])})"
    return f"({text(e[-2])} {e[0]} {text(e[-1])})"


def value(e, env, packet):
    """What it is."""
    if e[0] == "v":
        return env[e[1]]
    if e[0] == "f":
        return packet[e[1]]
    if e[0] == "n":
        return e[2]
    if e[0] == "t":
        return value(e[1], env, packet) in TRUE_AT
    left, right = value(e[-2], env, packet), value(e[-1], env, packet)
    if e[0] in "+^&":
        return {"+": left + right, "^": left ^ right, "&": left & right}[e[0]] % (1 << e[1])
    return {"==": left == right, "!=": left != right, "<": left < right, "<=": left <= right, "and": left and right, "or": left or right}[e[0]]


# ---- statements


def block(dice, scope, depth, falls):
    """Some statements, and whether what follows them is reached; where it may not be, they end with a send or a fork."""
    scope = dict(scope)
    stmts = []
    for _ in range(dice.randrange(4)):
        free = [name for name in "cdef" if name not in scope]
        kind = dice.random()
        if kind < 0.35 and free:
            name, width = dice.choice(free), dice.choice([1, 2, 3])
            stmts.append(("havoc", name, width))
            scope[name] = width
        elif kind < 0.45:
            stmts.append(("havoc_field", dice.choice(list(FIELDS))))
        elif kind < 0.6 and free:
            name, width = dice.choice(free), dice.choice([1, 2, 3])
            stmts.append(("let", name, width, number(dice, width, scope)))
            scope[name] = width
        elif kind < 0.72:
            field = dice.choice(list(FIELDS))
            stmts.append(("set", field, number(dice, FIELDS[field], scope)))
        elif kind < 0.8:
            stmts.append((dice.choice(["filter", "assume"]), truth(dice, scope)))
        elif depth:
            first, one = block(dice, scope, depth - 1, True)
            second, other = block(dice, scope, depth - 1, True) if dice.random() < 0.6 else ([], True)
            stmts.append(("if", truth(dice, scope), first, second))
            if not one and not other:
                return stmts, False
    if falls and dice.random() < 0.6:
        return stmts, True
    free = [name for name in "cdef" if name not in scope]
    if free and depth and dice.random() < 0.3:
        name, width = dice.choice(free), dice.choice([1, 2, 3])
        inner = {**scope, name: width}
        stmts.append(("fork", name, width, truth(dice, inner), block(dice, inner, depth - 1, False)[0]))
    else:
        role = dice.choice(list(TARGETS))
        stmts.append(("send", role, [number(dice, width, scope, 0) for width in TARGETS[role]]))
    return stmts, False


def written(stmts):
    """How a block is written."""
    parts = []
    for s in stmts:
        if s[0] == "havoc":
            parts.append(f"havoc {s[1]}: bit<{s[2]}>;")
        elif s[0] == "havoc_field":
            parts.append(f"havoc pkt.e.{s[1]};")
        elif s[0] == "let":
            parts.append(f"let {s[1]}: bit<{s[2]}> = {text(s[3])};")
        elif s[0] == "set":
            parts.append(f"pkt.e.{s[1]} = {text(s[2])};")
        elif s[0] in ("filter", "assume"):
            parts.append(f"{s[0]} {text(s[1])};")
        elif s[0] == "if":
            parts.append(f"if ({text(s[1])}) {written(s[2])}" + (f" else {written(s[3])}" if s[3] else ""))
        elif s[0] == "fork":
            parts.append(f"fork ({s[1]}: bit<{s[2]}> | {text(s[3])}) {written(s[4])}")
        else:
            parts.append(f"send {s[1]}[{', '.join(map(text, s[2]))}];")
    return "{ " + " ".join(parts) + " }"


def ends(stmts, env, packet):
    """How a block ends, with every list of choices: with variables and a packet, or with a send."""
    if not stmts:
        yield env, packet, None
        return
    s, rest = stmts[0], stmts[1:]
    if s[0] in ("havoc", "fork"):
        for choice in range(1 << s[2]):
            inner = {**env, s[1]: choice}
            if s[0] == "havoc":
                yield from ends(rest, inner, packet)
            elif value(s[3], inner, packet):
                yield from (end for end in ends(s[4], inner, packet) if end[2])
    elif s[0] == "havoc_field":
        for choice in range(1 << FIELDS[s[1]]):
            yield from ends(rest, env, {**packet, s[1]: choice})
    elif s[0] == "let":
        yield from ends(rest, {**env, s[1]: value(s[3], env, packet)}, packet)
    elif s[0] == "set":
        yield from ends(rest, env, {**packet, s[1]: value(s[2], env, packet)})
    elif s[0] in ("filter", "assume"):
        if value(s[1], env, packet):
            yield from ends(rest, env, packet)
    elif s[0] == "if":
        for _, after, sent in ends(s[2] if value(s[1], env, packet) else s[3], env, packet):
            if sent:
                yield None, None, sent
            else:
                yield from ends(rest, _within(_, env), after)
    else:
        values = tuple(value(e, env, packet) for e in s[2])
        if guard(s[1], values):
            yield None, None, (s[1], values, tuple(packet[name] for name in FIELDS))


def _within(inner, env):
    """The variables that were there before a block."""
    return {name: inner[name] for name in env}


# ---- the read-back rule: of a value, the choices that occur in it, and the one that it is alone

NOTHING = (frozenset(), None)


def holds(e, env, packet):
    """What it holds of the choices."""
    if e[0] == "v":
        return env[e[1]]
    if e[0] == "f":
        return packet[e[1]]
    if e[0] == "n":
        return NOTHING
    return frozenset().union(*(holds(part, env, packet)[0] for part in e if isinstance(part, tuple))), None


def hidden(stmts, env, packet, met, made):
    """Ends of its paths, as variables, fields, and the choices met in conditions; `None` of a path that hides a choice."""
    if not stmts:
        yield env, packet, met
        return
    s, rest = stmts[0], stmts[1:]
    choice = (frozenset([(made, id(s))]), (made, id(s)))
    if s[0] == "havoc":
        yield from hidden(rest, {**env, s[1]: choice}, packet, met, made)
    elif s[0] == "fork":
        inner = {**env, s[1]: choice}
        yield from (end for end in hidden(s[4], inner, packet, met | holds(s[3], inner, packet)[0], made) if end is None)
    elif s[0] == "havoc_field":
        yield from hidden(rest, env, {**packet, s[1]: choice}, met, made)
    elif s[0] == "let":
        yield from hidden(rest, {**env, s[1]: holds(s[3], env, packet)}, packet, met, made)
    elif s[0] == "set":
        yield from hidden(rest, env, {**packet, s[1]: holds(s[2], env, packet)}, met, made)
    elif s[0] in ("filter", "assume"):
        yield from hidden(rest, env, packet, met | holds(s[1], env, packet)[0], made)
    elif s[0] == "if":
        for part in s[2], s[3]:
            for end in hidden(part, env, packet, met | holds(s[1], env, packet)[0], made):
                if end is None:
                    yield None
                else:
                    yield from hidden(rest, _within(end[0], env), end[1], end[2], made)
    else:
        sent = [holds(e, env, packet) for e in s[2]] + list(packet.values())
        if met.union(*(within for within, _ in sent)) - {alone for _, alone in sent}:
            yield None


def body(dice):
    """A body that hides no choice, and whose choices have few lists."""
    while True:
        made, _ = block(dice, PARAMS, 2, False)
        env, packet = {name: NOTHING for name in PARAMS}, {name: NOTHING for name in FIELDS}
        if 0 < bits(made) <= 9 and None not in hidden(made, env, packet, frozenset(), 0):
            return made


def bits(stmts):
    """At most so many bits are chosen on a path."""
    most = 0
    for s in stmts:
        if s[0] == "havoc":
            most += s[2]
        elif s[0] == "havoc_field":
            most += FIELDS[s[1]]
        elif s[0] == "if":
            most += max(bits(s[2]), bits(s[3]))
        elif s[0] == "fork":
            most += s[2] + bits(s[4])
    return most


def asked(dice, name, made, other):
    """Some sends from one place, each with whether some list of choices gives it."""
    values, fields = [dice.randrange(1 << w) for w in PARAMS.values()], [dice.randrange(1 << w) for w in FIELDS.values()]
    given = {sent for _, _, sent in ends(made, dict(zip(PARAMS, values)), dict(zip(FIELDS, fields))) if sent} if values[0] != 6 else set()
    if other and other(name, widths_of_lists(made), values, fields) != given:
        sys.exit(f"sends.py: the two runs differ: {written(made)}, from {values} with {fields}")
    sends = dice.sample(sorted(given), min(3, len(given)))
    for role, to, packet in list(sends):
        numbers, widths = list(to + packet), TARGETS[role] + list(FIELDS.values())
        at = dice.randrange(len(numbers))
        numbers[at] ^= 1 << dice.randrange(widths[at])
        sends.append((role, tuple(numbers[: len(to)]), tuple(numbers[len(to) :])))
    role = dice.choice(list(TARGETS))
    sends.append((role, tuple(dice.randrange(1 << w) for w in TARGETS[role]), tuple(fields)))
    place = " ".join(map(str, values)) + " : " + " ".join(map(str, fields))
    return [("yes" if send in given else "no", place, f"{send[0]} {' '.join(map(str, send[1]))} : {' '.join(map(str, send[2]))}") for send in sends]


def widths_of_lists(stmts):
    """The widths of the choices on each of its paths, and whether it goes on after them."""
    lists = {((), True)}
    for s in stmts:
        after = set()
        for widths, goes_on in lists:
            if not goes_on:
                after.add((widths, False))
            elif s[0] in ("havoc", "havoc_field"):
                after.add((widths + (s[2] if s[0] == "havoc" else FIELDS[s[1]],), True))
            elif s[0] == "if":
                after |= {(widths + more, goes) for part in s[2:] for more, goes in widths_of_lists(part)}
            elif s[0] == "fork":
                after |= {(widths + (s[2],) + more, False) for more, _ in widths_of_lists(s[4])}
            else:
                after.add((widths, s[0] != "send"))
        lists = after
    return lists


def other_run(design):
    """What another program's run of bodies gives, with all lists of choices of some widths."""
    sys.path.insert(0, READING)
    import defs
    import lexer
    import meaning
    import parser
    import rules

    checked = rules.resolve(parser.parse_design(design, lexer.lex(design, False), False))
    bound = defs.bind(checked, parser.parse_defs(DEFS.encode(), lexer.lex(DEFS.encode(), False), False))

    def given(name, lists, values, fields):
        at, sends = (checked.role_of(name.encode()), tuple(values)), set()
        for widths in {widths for widths, _ in lists}:
            for choices in itertools.product(*(range(1 << width) for width in widths)):
                led = meaning.go(checked, bound, 0, at, tuple(fields), list(choices))
                if led:
                    sends.add((checked.role_names[led[0][0]].decode(), led[0][1], led[1]))
        return sends

    return given


def files(dice, folder, index, count):
    """Writes a design with so many bodies and the cases of them. Gives how many cases want `yes`, and how many there are."""
    bodies = [body(dice) for _ in range(count)]
    names = [f"R{n}" for n in range(count)]
    params = ", ".join(f"{name}: bit<{width}>" for name, width in PARAMS.items())
    above = "".join(f"role {name}[{params}] | {OWN_GUARD} = {written(made)}\n" for name, made in zip(names, bodies))
    below = "".join(f"  role {name}[{params}] | {OWN_GUARD} = {{ send In[a]; }}\n" for name in names)
    design = HEAD + above + f"refine Out, {', '.join(names)} within 3 {{\n" + below + TAIL
    (folder / f"{index}.ccn").write_text(design)
    other = other_run(design.encode()) if READING else None
    cases = [(name, case) for name, made in zip(names, bodies) for case in asked(dice, name, made, other)]
    lines = [f"  {wanted} | {name} {place} > {send}\n" for name, (wanted, place, send) in cases]
    (folder / f"{index}.txt").write_text(f"design {index}.ccn\ntext {DEFS}\nask send 0\n\n" + "".join(lines))
    return sum(case[0] == "yes" for _, case in cases), len(cases)


def main():
    bodies = int(sys.argv[1]) if len(sys.argv) > 1 else 10_000
    dice = random.Random(int(sys.argv[2]) if len(sys.argv) > 2 else 1)
    program = os.environ.get("DESIGN_TESTS") or TOP / "crates" / "design_tests" / "out" / "design_tests"
    if not os.access(program, os.X_OK):
        sys.exit("sends.py: build the program first: `rt run` in crates/design_tests")
    yes = cases = 0
    failed = []
    with tempfile.TemporaryDirectory() as name:
        folder = pathlib.Path(name)
        for index, first in enumerate(range(0, bodies, PER_DESIGN)):
            some, all_of_them = files(dice, folder, index, min(PER_DESIGN, bodies - first))
            yes, cases = yes + some, cases + all_of_them
            ended = subprocess.run([program, f"{index}.txt"], cwd=folder, stdout=subprocess.PIPE, text=True)
            if ended.returncode:
                failed.append((folder / f"{index}.ccn").read_text() + ended.stdout)
    for report in failed[:3]:
        print(report)
    print(f"{bodies} bodies, {cases} cases, {yes} of them can be sent, {len(failed)} of the designs differ")
    return 1 if failed else 0


if __name__ == "__main__":
    sys.exit(main())
