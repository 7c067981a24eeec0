#!/usr/bin/env python3
"""Searches for small designs that take long or much memory for their bytes, and says which are over the bounds.

    bench/find_slow.py PROGRAM [SECONDS] [SEED] [FOLDER]     searches for so long (600 s), from this seed (1); what is over a bound,
                                                             and the worst text of each command, is kept in FOLDER (out/slow)

A design is a list of a few plain numbers: how long its chain of functions is, how often each calls the one before and with what,
how many statements, `if`s, choices, fields, ports and switches there are, where a call stands. Each step changes one to three of
the numbers of a good design (one that took long for its bytes) or makes new ones, and runs `check`, `compile`, `step` and, where a
network was written, `forward`, each with the budget that it has if no word says it. Texts of over 10 KiB (the design with its
definitions) are left out. Where there are levels, each block refines `Up` by roles that hand the packet on, and what bodies ask run-time
functions and choose is of the numbers, too.

A run is over the bounds if it takes more than 10 s of the processor or 1 GiB; it is ended at twice that. Seconds are those of the
processor, so other work on the machine changes them little. The same seed gives the same designs as long as the program takes
the same time for them. The last lines give the worst of each command; the status is 1 if a text is over a bound.
"""

import pathlib
import random
import resource
import subprocess
import sys
import tempfile
import time
import os

TOP = pathlib.Path(__file__).resolve().parent.parent
MOST_BYTES, MOST_SECONDS, MOST_MEBIBYTES = 10 << 10, 10, 1 << 10

# The numbers of a design, with the most that each may be.
MOST = {
    "chain": 60, "calls": 3, "arguments": 4, "width": 3, "statements": 120, "depth": 12, "branches": 24, "choices": 60,
    "fields": 32, "ports": 256, "switches": 64, "hosts": 64, "unused": 2, "place": 8, "rows": 120, "forks": 12, "lets": 60,
    "level": 1, "blocks": 4, "sends": 16, "assumptions": 20, "hops": 8, "within": 12, "asks": 24, "told": 16, "wide": 4,
}


def width_of(n):
    """The width of fields and of results, such that a header has whole bytes."""
    return (8, 16, 32, 64)[n["width"]]


def chain(n):
    """Functions, each of which calls the one before."""
    width, arguments = width_of(n), n["arguments"]
    names = [f"a{k}" for k in range(arguments)]
    params = ", ".join(f"{a}: bit<{width}>" for a in names)
    yield f"function f0({params}): bit<{width}> = a0;"
    for k in range(1, n["chain"]):
        own = [", ".join(names), ", ".join(reversed(names)), ", ".join([f"(a0 + {width}w1)", *names[1:]])]
        if n["unused"]:
            own[1] = ", ".join([f"f{k - 1}({', '.join(names)})", *names[1:]] if n["unused"] == 1 else [*names[:-1], f"f{k - 1}({', '.join(names)})"])
        calls = [f"f{k - 1}({own[at % len(own)]})" for at in range(n["calls"])]
        yield f"function f{k}({params}): bit<{width}> = {' + '.join(calls)};"


def call(n, value):
    """A call of the last function, whose first argument is this and whose result has `width` bits."""
    return f"f{n['chain'] - 1}({', '.join([value] * n['arguments'])})"


def fitted(width, value, wanted):
    """A value of one width as one of another."""
    if width == wanted:
        return value
    return f"({value})[{wanted - 1}:0]" if width > wanted else f"({wanted - width}w0 ++ {value})"


def body(n, sends, parameter="p"):
    """The statements of a body with this parameter of 16 bits, which ends with these sends."""
    width, at, lines = width_of(n), n["place"], []
    value = fitted(16, parameter, width)
    choices = n["choices"] if n["level"] else 0
    lines += [f"havoc c{k}: bit<{width}>;" for k in range(choices)]
    last = value
    for k in range(n["lets"]):
        lines.append(f"let l{k}: bit<{width}> = {last} + {last};")
        last = f"l{k}"
    for k in range(n["statements"]):
        field = f"pkt.e.f{k % n['fields']}"
        other = f"pkt.e.f{(k + 1) % n['fields']}"
        lines.append([f"{field} = {other} + {other};", f"{field} = {call(n, field)};", f"filter {field} != {call(n, other)};",
                      f"{field} = ({field} == {other} ? {call(n, other)} : {last});"][at % 4])
    for k in range(n["branches"]):
        field, chosen = f"pkt.e.f{k % n['fields']}", f"c{k % n['choices']}" if n["level"] and n["choices"] else last
        lines.append(f"if ({field} == {width}w{k % 2}) {{ {field} = {chosen} + {field}; }}" + (f" else {{ {field} = {call(n, field)}; }}" if at & 4 else ""))
    lines += [f"pkt.e.f{k} = c{k};" for k in range(min(n["told"], choices, n["fields"]))]
    depth = n["depth"]
    return " ".join(lines) + "".join(f" if (pkt.e.f{k % n['fields']} == {width}w1) {{" for k in range(depth)) + f" {sends} " + "}" * depth


def asked(n, value):
    """Statements that ask run-time functions at this value of 16 bits and at a field."""
    field = fitted(width_of(n), "pkt.e.f0", 16)
    forms = ["filter h({2} + 16w{0});", "filter k({2}, 16w{0}) < k({1}, {2});", "if (h({1} + 16w{0})) {{ filter k({1}, 16w{0}) != {1}; }}",
             "filter k(k({2}, 16w{0}), {1}) == 16w{0};"]
    return "".join(forms[k % len(forms)].format(k, field, value) + " " for k in range(n["asks"]))


def assumptions(n):
    """Assumptions on the run-time functions: one that the definitions meet, one of more variables that any meet, one that few meet."""
    names = [f"v{k}" for k in range(n["wide"] + 1)]
    params, chain = ", ".join(f"{v}: bit<16>" for v in names), " and ".join(f"k({v}, {w}) == {w}" for v, w in zip(names, names[1:]))
    for at in range(n["assumptions"]):
        yield [f"assume (s: bit<16>, p: bit<16>) g(s) => k(s, p) < 16w{n['ports']};", f"assume ({params}) {chain or 'h(v0)'} => {f'k({names[-2]}, {names[-1]}) <= {names[-1]}' if chain else 'h(v0)'};",
               f"assume ({params}) {chain or 'h(v0)'} => h(v0 + 16w{at});"][0 if at == 0 else 1 if at % 4 else 2]


def roles(n, is_last):
    """The roles of a switch, with a body of the last level or one above."""
    width, ports = width_of(n), n["ports"]
    guard = f" and {call(n, fitted(16, 'p', width))} == {width}w0" if n["place"] == 5 else ""
    port = f"p + {fitted(width, call(n, fitted(16, 'p', width)), 16)}" if n["place"] == 6 else "k(s, p)"
    sends = " ".join(f"if (p == 16w{at}) {{ send SwOut[s, {port}]; }}" for at in range(n["sends"])) + f" send SwOut[s, {port}];"
    if n["forks"] and n["place"] == 7:
        sends = f"fork (q: bit<16> | q < 16w{n['forks']}) {{ send SwOut[s, q]; }}"
    free = dict(n, choices=0, level=0) if is_last else n
    questions = asked(n, "p") if n["level"] else ""
    wire = f"if (p < 16w{n['hops']}) {{ send SwIn[s, p + 16w1]; }} else {{ send In[{port}]; }}" if n["hops"] else f"send In[{port}];"
    return [f"role SwIn[s: bit<16>, p: bit<16>] | g(s) and p < 16w{ports}{guard} = {{ {body(free, questions + sends)} }}",
            f"role SwOut[s: bit<16>, p: bit<16>] | g(s) and p < 16w{ports} = {{ {wire} }}"]


def design(n):
    """The text of a design: of one level, or of what `Out` may do, then a network, then its switches once more in each further block."""
    width, switch = width_of(n), f"switch (SwIn, SwOut) ports {n['ports']};"
    fields = " ".join(f"f{k}: bit<{width}>;" for k in range(n["fields"]))
    out = [f"packet {{ header e {{ {fields} }} }}", "function h(a: bit<16>): bool;", "function g(s: bit<16>): bool;",
           "function k(s: bit<16>, p: bit<16>): bit<16>;", *chain(n), *assumptions(n)]
    wire = "role Out[a: bit<16>] | h(a) = { send SwIn[16w1, a]; }"
    above = f"role Out[a: bit<16>] | h(a) = {{ havoc d: bit<16>; {body(n, asked(n, 'a') + 'send In[d];', 'a')} }}"
    out += [above if n["level"] else wire, "role In[a: bit<16>] | h(a);", "host (Out, In);"]
    if not n["level"]:
        return "\n".join([*out, *roles(n, True), switch]) + "\n"
    blocks = max(n["blocks"], 1)
    for at in range(blocks):
        is_last = at + 1 == blocks
        parts = [wire, *roles(n, is_last)] if at == 0 else roles(n, is_last)[:1]
        refined, within = ("Out", max(n["within"], 1)) if at == 0 else ("SwIn", 1)
        out.append(f"refine {refined} within {within} {{ {' '.join([*parts, *([switch] if is_last else [])])} }}")
    return "\n".join(out) + "\n"


def definitions(n):
    """The text of its definitions."""
    lines = [*("default h = false;", "default g = false;", "default k = 16w0;")]
    lines += [f"define h(16w{a}) = true;" for a in range(n["hosts"])]
    lines += [f"define g(16w{s}) = true;" for s in range(n["switches"])]
    lines += [f"define k(16w{r % 64}, 16w{r}) = 16w{r % n['ports']};" for r in range(n["rows"])]
    return "\n".join(lines) + "\n"


def bound():
    resource.setrlimit(resource.RLIMIT_CPU, (2 * MOST_SECONDS, 2 * MOST_SECONDS))
    resource.setrlimit(resource.RLIMIT_AS, (3 << 30, 3 << 30))
    os.nice(10)


def run(words, folder):
    """The status, the seconds and the MiB of a command."""
    begun = subprocess.Popen(words, cwd=folder, stdin=subprocess.DEVNULL, stdout=subprocess.PIPE, stderr=subprocess.STDOUT, preexec_fn=bound)
    said = begun.stdout.read()
    _, ended, used = os.wait4(begun.pid, 0)
    begun.returncode = os.waitstatus_to_exitcode(ended)
    return begun.returncode, used.ru_utime + used.ru_stime, used.ru_maxrss / 1024, said.decode(errors="replace").strip()[:90]


def figures(program, numbers):
    """What each command takes for a design, or nothing if its text is too long."""
    texts = {"a.ccn": design(numbers), "a.defs": definitions(numbers), "a.case": f"{'Out 1' if numbers['level'] else 'SwOut 1 1'}\n"
             + " ".join(["1"] * numbers["fields"]) + "\n-\n", "a.packets": "0 " + "00" * 600 + "\n"}
    if len(texts["a.ccn"]) + len(texts["a.defs"]) > MOST_BYTES:
        return None, []
    told = []
    with tempfile.TemporaryDirectory() as folder:
        for name, text in texts.items():
            (pathlib.Path(folder) / name).write_text(text)
        told.append(("check", *run([program, "check", "a.ccn"], folder)))
        told.append(("compile", *run([program, "compile", "a.ccn", "a.defs", "out"], folder)))
        told.append(("step", *run([program, "step", "a.ccn", "a.defs", "0", "a.case"], folder)))
        if told[1][1] == 0:
            told.append(("forward", *run([program, "forward", "out", "a.packets"], folder)))
    return texts, told


def drawn(source):
    """Numbers of a design, most of them small; half of the designs are of one level without assumptions."""
    numbers = {name: 1 + int((most - 1) * source.random() ** 4) for name, most in MOST.items()}
    return numbers | ({"level": 0, "assumptions": 0} if source.random() < 0.5 else {})


def changed(numbers, source):
    """The numbers of a design with some of them changed."""
    numbers = dict(numbers)
    for name in source.sample(sorted(MOST), source.randint(1, 3)):
        least = 1 if name in ("chain", "calls", "arguments", "fields", "ports", "hosts", "switches") else 0
        near = numbers[name] + source.choice([-2, -1, 1, 2, 8])
        numbers[name] = min(MOST[name], max(least, source.choice([near, source.randint(least, MOST[name]), MOST[name], least, numbers[name] * 2])))
    return numbers


def main(program, seconds=600, seed=1, folder=TOP / "out" / "slow"):
    program, source, folder = str(pathlib.Path(program).resolve()), random.Random(seed), pathlib.Path(folder)
    folder.mkdir(parents=True, exist_ok=True)
    start = {name: 1 for name in MOST} | {"width": 0, "ports": 4, "level": 0, "unused": 0, "place": 0, "assumptions": 0, "asks": 0, "hops": 0}
    best, worst, over, tried, statuses, until = [(0.0, start)], {}, 0, 0, {}, time.monotonic() + seconds
    while time.monotonic() < until:
        numbers = changed(source.choice(best)[1], source) if source.random() < 0.8 else drawn(source)
        texts, told = figures(program, numbers)
        if not told:
            continue
        tried += 1
        value = 0.0
        for command, status, took, memory, line in told:
            statuses[command, status] = statuses.get((command, status), 0) + 1
            value = max(value, took / MOST_SECONDS, memory / MOST_MEBIBYTES)
            for what, figure in (("seconds", took), ("MiB", memory)):
                if figure > worst.get((command, what), (0,))[0]:
                    worst[command, what] = (figure, status, line, len(texts["a.ccn"]) + len(texts["a.defs"]), tried)
                    for name, text in texts.items():
                        (folder / f"{command}-{what}{pathlib.Path(name).suffix}").write_text(text)
            if took > MOST_SECONDS or memory > MOST_MEBIBYTES:
                over += 1
                print(f"OVER: {command} {took:.1f} s {memory:.0f} MiB, status {status}, {line}", flush=True)
                for name, text in texts.items():
                    (folder / f"over-{over}-{command}{pathlib.Path(name).suffix}").write_text(text)
        # (the size counts a little, so that of two as slow the shorter one stays)
        best = sorted([*best, (value - (len(texts["a.ccn"]) + len(texts["a.defs"])) / MOST_BYTES / 100000, numbers)], key=lambda it: -it[0])[:24]
    print(f"{tried} designs; statuses: " + ", ".join(f"{command} {status}: {count}" for (command, status), count in sorted(statuses.items())))
    for (command, what), (figure, status, line, size, at) in sorted(worst.items()):
        print(f"most {what} of {command}: {figure:.2f}, status {status}, {size} bytes, design {at}: {line}")
    return 1 if over else 0


if __name__ == "__main__":
    if len(sys.argv) < 2:
        sys.exit(__doc__)
    sys.exit(main(sys.argv[1], *map(int, sys.argv[2:4]), *sys.argv[4:5]))
