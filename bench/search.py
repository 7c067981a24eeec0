#!/usr/bin/env python3
"""How long searches and the checks of logs take, and whether a program in C says the same of logs.

    bench/search.py                  all of it
    bench/search.py FOLDER           the same, with the crates and the built program kept in this folder, for a later run
    bench/search.py FOLDER LISTS     in place of it searches through this many small lists of clauses, made by chance
    bench/search.py FOLDER refused   in place of it refuses each allocation of some searches in turn
    bench/search.py FOLDER NAME..    in place of it searches through these lists alone: `made`, those that this script makes; `hard`, larger ones, which
                                     may take minutes; `hostile`, those that ask for much; `goals`, those of terms; or a file of DIMACS
    bench/search.py FOLDER hosts READING [COUNT..]
                                     in place of it searches through the assumption of a design over so many hosts, 10 to 1,000 if no counts are
                                     given, whose clauses another reading of designs in the folder READING makes
    bench/search.py FOLDER owed READING DESIGN..
                                     in place of it searches through what each obligation of these designs asks, whose clauses that reading makes
    bench/search.py FOLDER count ..  what the words behind `count` say, with instructions in place of time, by valgrind: other work on the machine does
                                     not change these

At the end it tells what all lists together take beside MiniSat without its preprocessor, and which of those that take long take over three times as much.
It copies the crates that it needs, with the program `search.rt.txt`, and has `rt run` prove and build what is not kept on this machine. `cc` compiles
`search.c`, the same search in C, which has to make the same log to the byte, `check_log.c` and `refuse.c`. MiniSat and CaDiCaL are asked if they are there; GNU time tells the peaks of memory.
"""

import collections
import dataclasses
import importlib
import os
import pathlib
import random
import re
import shutil
import subprocess
import sys
import tempfile

TOP = pathlib.Path(__file__).resolve().parent.parent
TESTS = TOP / "crates" / "solver_tests"
DATA = TESTS / "data"
NEEDED = ["cocoon_num", "numbering", "cnf_core", "proof_check", "cdcl", "case_files", "bv_terms", "bit_blast"]
# The definitions of the tests name this.
NEEDED += ["flat_laws"]
# Each kind with growing sizes, up to the first that takes too long.
FORMULAS = [
    ("exchanged", [2, 4, 6, 8, 10, 12, 14, 24, 32, 64]),
    ("sums", [1, 2, 3, 4, 5, 6, 7, 8]),
    ("comparisons", [4, 8, 16, 32, 64, 128]),
    ("choices", [2, 4, 8, 16, 32, 64, 128]),
]
SOLVERS = [
    ("minisat", ["minisat", "-verb=1", "-no-pre"]),
    ("minisat with its preprocessor", ["minisat", "-verb=1"]),
    ("cadical", ["cadical", "-n"]),
]
MOST_SECONDS = 300
# The least time of so many runs counts, of fewer where all would take longer than this.
RUNS, ALL_MILLIS = 15, 3000
# A list is long if it takes longer than this, or more instructions. It should take at most so many times what MiniSat takes.
LONG_MILLIS, LONG_COUNT, MOST_TIMES = 50, 200_000_000, 3
COUNTED = ["valgrind", "--tool=cachegrind", "--cache-sim=no", "--cachegrind-out-file=/dev/null"]
# A process takes so many times as long under valgrind, at most.
SLOWER = 40
HOSTS = ["10", "40", "100", "200", "500", "1000"]
# So many conflicts are allowed where a list is not hostile.
CONFLICTS = 1_000_000


def run(words, text=""):
    return subprocess.run(words, input=text, stdout=subprocess.PIPE, stderr=subprocess.STDOUT, text=True, timeout=MOST_SECONDS).stdout


def copied(folder, crates, name, modules):
    """The folder of a program of this name, over copies of the crates, with modules of the tests and what is proved of them."""
    for crate in crates:
        for part in ("src", "specs", "proofs"):
            if (TOP / "crates" / crate / part).is_dir():
                shutil.copytree(TOP / "crates" / crate / part, folder / "crates" / crate / part)
    program = folder / "crates" / name
    shutil.copytree(TESTS / "specs", program / "specs")
    for part in ("src", "proofs"):
        (program / part).mkdir()
    for path in (TESTS / "proofs").glob("*.antt"):
        shutil.copy(path, program / "proofs")
    for module in modules:
        shutil.copy(TESTS / "src" / f"{module}.rt", program / "src")
        shutil.copytree(TESTS / "proofs" / module, program / "proofs" / module)
    for path in [*program.rglob("*.antt"), *program.rglob("*.rt")]:
        path.write_text(path.read_text().replace("Rattle.solver_tests.", f"Rattle.{name}."))
    # Without the same handles nothing that is kept on this machine would be taken.
    shutil.copy(TOP / "HANDLES", folder)
    lines = [line for line in (TOP / "crates.txt").read_text().splitlines() if line.split(":")[0] in crates]
    (folder / "crates.txt").write_text("\n".join([*lines, f"{name}: {' '.join(crates)}"]) + "\n")
    return program


def built(folder):
    """The program. It reads texts and makes terms as the tests do."""
    path = folder / "crates" / "search_time" / "out" / "search_time"
    if path.exists():
        return path
    program = copied(folder, NEEDED, "search_time", ["building", "reading"])
    shutil.copy(TOP / "bench" / "search.rt.txt", program / "src" / "main.rt")
    said = subprocess.run(["rt", "run", "--", "clauses"], cwd=program, input="sums 1", stdout=subprocess.PIPE, stderr=subprocess.STDOUT, text=True).stdout
    if not path.exists():
        sys.exit(said)
    return path


@dataclasses.dataclass
class Solved:
    """What the search says of clauses: its answer, its steps, its microseconds, and its log; and of the whole process the milliseconds of processor time
    and the peak in KiB."""
    answer: str
    steps: int
    micros: int
    log: str
    millis: float = 0
    peak: int = 0

    def a_step(self):
        """How many literals and hints a step has, on the average."""
        lines = self.log.splitlines()
        literals = sum(len(line.partition(":")[0].split()) - 1 for line in lines)
        hints = sum(len(line.partition(":")[2].split()) for line in lines)
        return literals / max(1, len(lines)), hints / max(1, len(lines))


def solved(program, text, conflicts=CONFLICTS):
    with tempfile.TemporaryFile("w+") as file, tempfile.NamedTemporaryFile("r") as peak:
        file.write(text)
        file.seek(0)
        # What a process of this script's own has at its start would count as its peak.
        said, used = ended(["/usr/bin/time", "-f", "%M", "-o", peak.name, program, str(conflicts)], file)
        kibibytes = int(peak.read())
    return dataclasses.replace(answer_of(said), millis=(used.ru_utime + used.ru_stime) * 1000, peak=kibibytes)


def answer_of(said):
    head, _, log = said.partition("\n")
    _, answer, steps, micros = head.split(" ")
    return Solved(answer, int(steps), int(micros), log)


def ended(words, given=None, seconds=MOST_SECONDS):
    """What a process says, and what it used, from its start to its end."""
    process = subprocess.Popen(["timeout", str(seconds), *words], stdin=given, stdout=subprocess.PIPE, stderr=subprocess.STDOUT, text=True)
    said = process.stdout.read()
    _, status, used = os.wait4(process.pid, 0)
    process.returncode = 0
    process.stdout.close()
    if os.waitstatus_to_exitcode(status) == 124:
        raise subprocess.TimeoutExpired(words, seconds)
    return said, used


def counted(words, given=None):
    """What a process says, and its instructions."""
    with tempfile.NamedTemporaryFile("r") as log:
        said, _ = ended([*COUNTED, f"--log-file={log.name}", *words], given, MOST_SECONDS * SLOWER)
        return said, int(re.search(r"I +refs: +([\d,]+)", log.read())[1].replace(",", ""))


def told_by(said):
    """The answer and the conflicts of another solver."""
    found = re.search(r"conflicts *: *(\d+)", said)
    return "unsat" if "UNSAT" in said else "sat", found[1] if found else "0"


def processor_time(words, given=None, seconds=MOST_SECONDS):
    """What a process says, and its milliseconds of processor time."""
    said, used = ended(words, given, seconds)
    return said, (used.ru_utime + used.ru_stime) * 1000


def in_c(plain, conflicts, file, ours, run_of):
    """What a run of the search in C takes, whose answer and log have to be these."""
    # (a process that read it before has moved its place)
    os.lseek(file.fileno(), 0, os.SEEK_SET)
    said, took = run_of([plain, str(conflicts)], file)
    head, _, log = said.partition("\n")
    if (head.split(" ")[1:3], log) != ([ours.answer, str(ours.steps)], ours.log):
        sys.exit(f"the search in C has another answer or log, {head}")
    return took


def in_turn(program, plain, text, conflicts):
    """What our search, the same in C and other solvers say of clauses, with the least processor time of whole processes. They run one after the other, again and
    again, so that all meet the same other work on the machine. Of others the answers, the conflicts and the milliseconds."""
    ours, others = solved(program, text, conflicts), {}
    # (some lists that cost us a second others do not end at)
    most = int(min(MOST_SECONDS, max(60, ours.millis / 50)))
    asked = [(name, words) for name, words in SOLVERS if shutil.which(words[0]) and ours.answer != "spent"]
    with tempfile.NamedTemporaryFile("w+", suffix=".cnf") as file:
        file.write(text)
        file.flush()
        for _ in range(max(1, min(RUNS, int(ALL_MILLIS / ours.millis)))):
            again = ours.answer, str(ours.steps), in_c(plain, conflicts, file, ours, processor_time)
            others["in C"] = min(others.get("in C", again), again, key=lambda result: result[2])
            for name, words in [*asked]:
                try:
                    said, millis = processor_time([*words, file.name], None, most)
                except subprocess.TimeoutExpired:
                    asked.remove((name, words))
                    continue
                again = (*told_by(said), millis)
                others[name] = min(others.get(name, again), again, key=lambda result: result[2])
            ours = min(ours, solved(program, text, conflicts), key=lambda result: result.millis)
    return ours, {name: others[name] for name in ["in C", *(name for name, _ in asked)]}


def compared(program, checker, text):
    """The answers of the two programs to a log, which have to be the same, and their microseconds."""
    ours, micros, _, _ = run([program, "check"], text).split()
    theirs, others = run([checker], text).split()
    if ours != theirs:
        sys.exit(f"the answers differ, {ours} and {theirs}, of\n{text}")
    return ours, int(micros), int(others)


def chance_list(luck):
    """Clauses over 3 to 12 variables: empty ones, units, repeated and opposite literals among them."""
    variables = luck.randrange(3, 13)
    longest = luck.choice([2, 3, 3, 4, 6])
    count = luck.randrange(1, variables * [0, 0, 3, 6, 10, 0, 20][longest])
    least = luck.choice([1, 2, 2, 2])
    sizes = [luck.randrange(least, longest + 1) for _ in range(count)]
    if luck.random() < 0.01:
        sizes[luck.randrange(count)] = 0
    return variables, [[luck.choice((1, -1)) * luck.randrange(1, variables + 1) for _ in range(size)] for size in sizes]


def truth_tables(variables):
    """For each variable the assignments that make it true, one bit each."""
    tables = []
    for variable in range(variables):
        half = 1 << variable
        table = ((1 << half) - 1) << half
        for doubled in range(variable + 1, variables):
            table |= table << (1 << doubled)
        tables.append(table)
    return tables


def is_satisfiable(variables, clauses, tables):
    """By all assignments at once."""
    every = (1 << (1 << variables)) - 1
    left = every
    for clause in clauses:
        true = 0
        for literal in clause:
            table = tables[abs(literal) - 1]
            true |= table if literal > 0 else every & ~table
        left &= true
    return left != 0


def try_cases(folder, cases):
    """Has the program of the cases, where it is built, search through the same lists: it also makes the search with smaller budgets, and checks the logs
    of these."""
    program, room = TESTS / "out" / "solver_tests", folder / "lists"
    if not program.exists():
        return
    shutil.rmtree(room, ignore_errors=True)
    room.mkdir()
    lines = []
    for first in range(0, len(cases), 1000):
        part, name = cases[first : first + 1000], f"{first // 1000:03}.dimacs"
        (room / name).write_text("\n\n".join(part) + "\n")
        lines.append(f"  {len(part)} as wanted | searches 1000000 {name}\n")
    (room / "lists.cases").write_text("".join(lines))
    said = subprocess.run([program, "lists.cases"], cwd=room, stdout=subprocess.PIPE, text=True).stdout
    print(f"by the program of the cases, {len(cases)} lists in parts of 1000: {said.splitlines()[-1]}")


def try_lists(program, checker, count, folder):
    """Searches through lists made by chance: each answer against all assignments, each log by both checks."""
    cases = []
    luck, tables = random.Random(7), {variables: truth_tables(variables) for variables in range(3, 13)}
    found = {"sat": 0, "unsat": 0}
    for first in range(0, count, 1000):
        lists = [chance_list(luck) for _ in range(min(1000, count - first))]
        texts = ["\n".join([f"p cnf {variables} {len(clauses)}", *(" ".join(map(str, [*clause, 0])) for clause in clauses)]) for variables, clauses in lists]
        answers = run([program, "lists"], "\n\n".join(texts) + "\n").split("\n\n")
        for (variables, clauses), text, answer in zip(lists, texts, answers, strict=False):
            head, _, log = answer.partition("\n")
            wanted = "sat" if is_satisfiable(variables, clauses, tables[variables]) else "unsat"
            if head != f"{wanted} true":
                sys.exit(f"{head}, but it is {wanted}:\n{text}")
            if wanted == "unsat" and run([checker], f"{text}\n{log}\n").split()[0] != "true":
                sys.exit(f"the log does not derive the empty clause:\n{text}\n{log}")
            found[wanted] += 1
            cases.append(f"c {wanted} {len(cases)}\n{text}")
    if sum(found.values()) != count:
        sys.exit(f"{sum(found.values())} answers to {count} lists")
    print(f"lists with the answer of all assignments: {found['sat']} that are satisfied, and {found['unsat']} that are not, whose logs both checks accept")
    try_cases(folder, cases)


def mutated(step, luck):
    """A step with one hint left out, one literal turned, or two hints exchanged."""
    literals, _, hints = step[2:].partition(":")
    literals, hints = literals.split(), hints.split()
    kind = luck.randrange(3)
    if kind == 0 and hints:
        hints.pop(luck.randrange(len(hints)))
    elif kind == 1 and literals:
        at = luck.randrange(len(literals))
        literals[at] = str(-int(literals[at]))
    elif hints:
        one, two = luck.randrange(len(hints)), luck.randrange(len(hints))
        hints[one], hints[two] = hints[two], hints[one]
    return f"s {' '.join(literals)} : {' '.join(hints)}"


def judge_logs(program, checker):
    """Logs of the tests, those of the searches of the tests, and such with a change."""
    luck = random.Random(23)
    count = {"true": 0, "false": 0}
    cases = [case for name in ("logs", "searches", "random") for case in (DATA / f"{name}.dimacs").read_text().split("\n\n")]
    for case in cases:
        texts = [case]
        if case.startswith("c unsat"):
            log = solved(program, case).log.splitlines()
            texts = ["\n".join([case, *log])]
            for _ in range(10):
                at = luck.randrange(len(log))
                texts.append("\n".join([case, *log[:at], mutated(log[at], luck), *log[at + 1:]]))
        for text in texts:
            count[compared(program, checker, text.strip() + "\n")[0]] += 1
    print(f"logs with the same answer: {count['true']} that derive the empty clause, and {count['false']} that do not")


def instructions(words, function, text):
    """The instructions of a function in one run, by valgrind; none where it is not there."""
    if not shutil.which("valgrind"):
        return None
    with tempfile.NamedTemporaryFile() as file:
        run(["valgrind", "--tool=callgrind", f"--callgrind-out-file={file.name}", *words], text)
        found = re.search(rf"^ *([\d,]+) .*{function}", run(["callgrind_annotate", "--inclusive=yes", file.name]), re.MULTILINE)
    return int(found[1].replace(",", "")) if found else None


def long_log(hints):
    """A log of so many hints: chains of implications, each derived anew from its links, and at the end the empty clause."""
    length = 100
    lines = [f"p cnf {length + 1 + hints // length} {length + 2}"]
    lines += [f"-{at} {at + 1} 0" for at in range(1, length + 1)]
    lines += ["1 0", f"-{length + 1} 0"]
    chain = " ".join(str(at) for at in range(length))
    lines += [f"s -1 {length + 1} : {chain}"] * (hints // length - 1)
    lines.append(f"s : {length} {chain} {length + 1}")
    return "\n".join(lines) + "\n"


def wide_log(hints):
    """A log of so many hints to clauses of ten literals, of which all but one are false."""
    width, length = 9, 100
    first = length + 1
    names = range(first + 1, first + 1 + width)
    lines = [f"p cnf {first + width} {length + width + 2}"]
    false = " ".join(str(name) for name in names)
    lines += [f"{false} -{at} {at + 1} 0" for at in range(1, length + 1)]
    lines += [f"-{name} 0" for name in names]
    lines += ["1 0", f"-{first} 0"]
    chain = " ".join(str(at) for at in range(length))
    lines += [f"s {false} -1 {first} : {chain}"] * (hints // length - 1)
    units = " ".join(str(length + at) for at in range(width))
    lines.append(f"s : {units} {length + width} {chain} {length + width + 1}")
    return "\n".join(lines) + "\n"


def searched_log(program, hints):
    """A log with so many hints at least: that of a search, whose steps but the last are there again and again."""
    clauses = run([program, "clauses"], "exchanged 8")
    steps = solved(program, clauses).log.splitlines()
    count = sum(len(step.partition(":")[2].split()) for step in steps)
    return "\n".join([clauses.strip(), *steps[:-1] * -(-hints // count), steps[-1]]) + "\n"


def time_checks(program, checker):
    logs = [
        ("clauses of two literals", long_log(1_000_000)),
        ("clauses of eleven literals", wide_log(1_000_000)),
        ("the clauses of a search", searched_log(program, 1_000_000)),
    ]
    for kind, text in logs:
        runs = [compared(program, checker, text) for _ in range(30)]
        assert all(answer == "true" for answer, _, _ in runs)
        ours, theirs = min(micros for _, micros, _ in runs), min(micros for _, _, micros in runs)
        print(f"1,000,000 hints to {kind}: {ours / 1000:.1f} ms, in C {theirs / 1000:.1f} ms, ratio {ours / theirs:.2f}")
        # The program makes both checks, and each of them derives the steps.
        ours, theirs = instructions([program, "check"], "each_derived", text), instructions([checker], "derives", text)
        if ours and theirs:
            print(f"    {ours // 2:,} instructions, in C {theirs:,}, ratio {ours / 2 / theirs:.2f}")


def sizes_of(text):
    head = re.search(r"^p cnf (\d+) (\d+)$", text, re.MULTILINE)
    return f"{int(head[1]):,} variables, {int(head[2]):,} clauses"


@dataclasses.dataclass
class Series:
    """Searches through lists, one after the other, and what each took beside MiniSat without its preprocessor: its name, ours and theirs."""
    program: pathlib.Path
    plain: pathlib.Path
    checker: pathlib.Path
    counts: bool
    beside: list = dataclasses.field(default_factory=list)

    def search(self, name, text, conflicts=CONFLICTS):
        """Whether it did not take too long."""
        try:
            said = self.count(name, text, conflicts) if self.counts else self.time(name, text, conflicts)
        except subprocess.TimeoutExpired:
            print(f"{name}: longer than {MOST_SECONDS} s", flush=True)
            return False
        print(f"{name}: {sizes_of(text)}, {said}", flush=True)
        return True

    def time(self, name, text, conflicts):
        given, others = in_turn(self.program, self.plain, text, conflicts)
        if any(other != given.answer for other, _, _ in others.values()):
            sys.exit(f"{name}: {given.answer}, but {others}")
        if given.answer == "unsat" and run([self.checker], f"{text.strip()}\n{given.log}").split()[0] != "true":
            sys.exit(f"{name}: the log does not derive the empty clause")
        if "minisat" in others:
            self.beside.append((name, given.millis, others["minisat"][2]))
        literals, hints = given.a_step()
        log = f" of {literals:.1f} literals and {hints:.1f} hints" if given.log else ""
        beside = "".join(f", {solver} {conflicts} conflicts {millis:.1f} ms, {given.millis / max(millis, 0.1):.2f} times" for solver, (_, conflicts, millis) in others.items())
        return (
            f"{given.answer}, {given.steps:,} steps{log}, {given.micros / 1000:.1f} ms, {given.millis:.1f} ms of a processor in all,"
            f" {given.peak / 1024:.0f} MiB{beside}"
        )

    def count(self, name, text, conflicts):
        with tempfile.NamedTemporaryFile("w+", suffix=".cnf") as file:
            file.write(text)
            file.seek(0)
            said, ours = counted([self.program, str(conflicts)], file)
            given = answer_of(said)
            plain = in_c(self.plain, conflicts, file, given, counted)
            line = f"{given.answer}, {given.steps:,} steps, {ours / 1e6:,.1f} million instructions, in C {plain / 1e6:,.1f} million, {ours / plain:.2f} times"
            if given.answer == "spent" or not shutil.which("minisat"):
                return line
            said, theirs = counted([*SOLVERS[0][1], file.name])
        other, found = told_by(said)
        if other != given.answer:
            sys.exit(f"{name}: {given.answer}, but {other}")
        self.beside.append((name, ours, theirs))
        return f"{line}, minisat {found} conflicts {theirs / 1e6:,.1f} million, {ours / theirs:.2f} times"

    def tell(self):
        """What all lists take together, and which long ones take too many times as much."""
        if len(self.beside) < 2:
            return
        times = sum(ours for _, ours, _ in self.beside) / sum(theirs for _, _, theirs in self.beside)
        print(f"{len(self.beside)} lists together: {times:.2f} times minisat")
        least = LONG_COUNT if self.counts else LONG_MILLIS
        for name, ours, theirs in self.beside:
            if ours > max(least, MOST_TIMES * theirs):
                print(f"over {MOST_TIMES} times: {name}, {ours / theirs:.2f} times")


def dimacs(variables, clauses):
    return "\n".join([f"p cnf {variables} {len(clauses)}", *(" ".join(map(str, [*clause, 0])) for clause in clauses)]) + "\n"


def pigeonholes(holes, units=0):
    """One pigeon more than there are holes, each in one, and no two in one; behind these so many other variables, each in a clause of its own."""
    place = lambda pigeon, hole: pigeon * holes + hole + 1
    clauses = [[place(pigeon, hole) for hole in range(holes)] for pigeon in range(holes + 1)]
    pairs = [(one, two) for one in range(holes + 1) for two in range(one)]
    clauses += [[-place(one, hole), -place(two, hole)] for hole in range(holes) for one, two in pairs]
    last = (holes + 1) * holes
    return dimacs(last + units, clauses + [[last + name] for name in range(1, units + 1)])


def threes(variables, seed):
    """Clauses of three literals by chance, as many as make a hard list."""
    luck = random.Random(seed)
    return dimacs(variables, [[luck.choice((1, -1)) * name for name in luck.sample(range(1, variables + 1), 3)] for _ in range(round(variables * 4.26))])


def made():
    """Names and texts of lists that ask for a search."""
    for holes in (6, 7, 8, 9):
        yield f"pigeonholes {holes}", pigeonholes(holes)
    for variables in (100, 150, 200, 250):
        for seed in (1, 2):
            yield f"threes {variables} {seed}", threes(variables, seed)


def hard():
    yield "pigeonholes 10", pigeonholes(10)
    for seed in (1, 2):
        yield f"threes 300 {seed}", threes(300, seed)


def hostile():
    """Names, texts and budgets of lists that ask for much."""
    for holes in (9, 10):
        yield f"pigeonholes {holes}", pigeonholes(holes), 20_000
    for seed in (1, 2):
        yield f"threes 400 {seed}", threes(400, seed), 200_000
    many = 4_000_000
    yield "a unit against the last of its clauses", dimacs(many, [[1], *([-1, name] for name in range(2, many)), [-1, -2]]), CONFLICTS
    long = 1_000_000
    yield "a long clause and a unit against each literal", dimacs(long, [list(range(1, long + 1)), *([-name] for name in range(1, long + 1))]), CONFLICTS
    yield "a long clause in a chain of implications", dimacs(long, [list(range(1, long + 1)), *([-name, name + 1] for name in range(1, long)), [-long]]), CONFLICTS
    some = 100_000
    order = [1, 2, *range(some, 2, -1)]
    yield "a long clause whose last literals become false first", dimacs(some, [list(range(1, some + 1)), [-1], *([one, -next] for one, next in zip(order, order[1:]))]), CONFLICTS
    yield "a long clause whose literals become false in their order", dimacs(long, [list(range(1, long + 1)), [-1], *([name, -name - 1] for name in range(1, long))]), CONFLICTS
    yield "units", dimacs(1 << 20, [[name] for name in range(1, (1 << 20) + 1)]), CONFLICTS
    yield "pigeonholes 8 with units beside", pigeonholes(8, 1 << 20), 20_000
    yield "clauses that have one literal", dimacs(200_001, [[1, -2 * name, 2 * name + 1] for name in range(1, 100_001)]), CONFLICTS


def refuse_allocations(program, folder):
    """Searches with each allocation refused in turn, alone and with all after it: the answer is the same, or there is none."""
    library = folder / "refuse.so"
    subprocess.run(["cc", "-shared", "-fPIC", "-o", library, TOP / "bench" / "refuse.c"], check=True)

    def tried(text, refused):
        places = {**os.environ, "LD_PRELOAD": str(library), **refused}
        ended = subprocess.run([program, "lists"], input=text, env=places, stdout=subprocess.PIPE, stderr=subprocess.PIPE, text=True)
        return ended.returncode, ended.stdout, int(ended.stderr.split()[-2])

    for case in (DATA / "watches.dimacs").read_text().split("\n\n"):
        name, text = case.partition("\n")[0], case.strip() + "\n"
        status, answer, last = tried(text, {})
        if status != 0:
            sys.exit(f"{name}: status {status}")
        ends = collections.Counter()
        for on in ("0", "1"):
            for number in range(1, last + 1):
                status, said, _ = tried(text, {"REFUSE": str(number), "ON": on})
                if (status, said) == (0, answer):
                    ends["the same answer"] += 1
                elif status == 1 and not said:
                    ends["no memory"] += 1
                else:
                    sys.exit(f"{name}: with allocation {number} refused, status {status} and\n{said}")
        print(f"{name}: {last} allocations, each refused, alone and with all after it: {dict(ends)}", flush=True)


def search_goals(series):
    for kind, sizes in FORMULAS:
        for size in sizes:
            if not series.search(f"{kind} {size}", run([series.program, "clauses"], f"{kind} {size}")):
                break


def search_hosts(series, folder, reading, *counts):
    """Searches for a host that does not meet the assumption of the design that `refcli.py` of the reading makes, with its definitions."""
    sys.path.insert(0, reading)
    texts = importlib.import_module("refcli").gen_texts
    for count in counts or HOSTS:
        files = folder / "hosts.ccn", folder / "hosts.defs"
        for path, text in zip(files, texts(int(count)), strict=True):
            path.write_bytes(text)
        asked = [sys.executable, f"{reading}/verify.py", "acnf", *files, "0", "--dimacs"]
        clauses = subprocess.run(asked, stdout=subprocess.PIPE, text=True, check=True).stdout
        series.search(f"an assumption over {count} hosts", clauses)


def search_owed(series, reading, *designs):
    made = importlib.import_module("scale").Reading(reading)
    for design in map(pathlib.Path, designs):
        for number, clauses in enumerate(made.lists(design.read_text(), None, 1)):
            series.search(f"obligation {number} of {design.stem}", clauses)


def search_all(series):
    search_goals(series)
    for file in ("searches", "random"):
        for case in (DATA / f"{file}.dimacs").read_text().split("\n\n"):
            head = case.partition("\n")[0].split(" ", 2)
            series.search(head[2], case.strip() + "\n")
    search_lists(series, ["made"])


def search_lists(series, names):
    for name in names:
        if name in ("made", "hard"):
            for title, text in made() if name == "made" else hard():
                series.search(title, text)
        elif name == "goals":
            search_goals(series)
        elif name == "hostile":
            for title, text, conflicts in hostile():
                series.search(title, text, conflicts)
        else:
            path = pathlib.Path(name)
            series.search(path.stem, path.read_text())


def search_named(series, folder, *lists):
    if lists[:1] == ("hosts",):
        search_hosts(series, folder, *lists[1:])
    elif lists[:1] == ("owed",):
        search_owed(series, *lists[1:])
    elif lists:
        search_lists(series, lists)
    else:
        search_all(series)
    series.tell()


def measure(folder, *lists):
    program = built(folder)
    checker = folder / "check_log"
    subprocess.run(["cc", "-O2", "-o", checker, TOP / "bench" / "check_log.c"], check=True)
    if lists == ("refused",):
        return refuse_allocations(program, folder)
    if len(lists) == 1 and lists[0].isdigit():
        return try_lists(program, checker, int(lists[0]), folder)
    plain = folder / "search"
    subprocess.run(["cc", "-O2", "-o", plain, TOP / "bench" / "search.c"], check=True)
    counts = lists[:1] == ("count",)
    if not lists:
        judge_logs(program, checker)
        time_checks(program, checker)
    search_named(Series(program, plain, checker, counts), folder, *lists[1 if counts else 0 :])


def main():
    if len(sys.argv) > 1:
        folder = pathlib.Path(sys.argv[1]).resolve()
        folder.mkdir(exist_ok=True)
        measure(folder, *sys.argv[2:])
    else:
        with tempfile.TemporaryDirectory() as name:
            measure(pathlib.Path(name))


if __name__ == "__main__":
    main()
