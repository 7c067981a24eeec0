#!/usr/bin/env python3
"""Certificates of designs, checked by `recheck` and by a program in C over clauses that are made from the design by the pages alone.

    bench/recheck.py cases [FILE]            prints the cases of a file of crates/obligation_tests, steps.cases if none is named, with what is wanted of each
    bench/recheck.py same COUNT DESIGN [CERTS]
                                             changes the certificates of a design in so many ways, by chance, and compares which is the first that
                                             is not accepted
    bench/recheck.py time DESIGN [CERTS]     the time of both, and the memory of `recheck`
    bench/recheck.py --reading FOLDER clauses SCRIPT FIRST COUNT
                                             has a script of the folder print designs, by numbers from FIRST on, and compares the clauses of both

The clauses are those of bench/design_clauses.py; with `--reading FOLDER` in front those of another reading of the language, which shares nothing with this
repository. It needs the program of crates/obligation_tests (`rt run` there builds it; OBLIGATION_TESTS names another) and `cc`. Without CERTS the program makes the
certificates, each by one search.

The time of the check alone is that of certificates with each log's steps, but the last, repeated so often: reading is taken off by a run that ends at the
number of certificates, and all that does not grow with the logs by a run on the certificates as they are.
"""

import json
import os
import pathlib
import random
import re
import subprocess
import sys
import tempfile

import design_clauses

TOP = pathlib.Path(__file__).resolve().parent.parent
DATA = TOP / "crates" / "obligation_tests" / "data"
PROGRAM = os.environ.get("OBLIGATION_TESTS", TOP / "crates" / "obligation_tests" / "out" / "obligation_tests")
RUNS, REPEATED = 5, 20


def asked(word, text):
    """What the program prints for this input, its least processor time of one run in seconds, and its memory in MiB."""
    with tempfile.TemporaryFile() as file:
        file.write(text.encode())
        file.seek(0)
        process = subprocess.Popen([PROGRAM, word], stdin=file, stdout=subprocess.PIPE)
        printed = process.stdout.read().decode().strip()
        _, _, used = os.wait4(process.pid, 0)
    return printed, used.ru_utime + used.ru_stime, used.ru_maxrss >> 10


def text_of(certs):
    return json.dumps({"certs": certs, "cocoon": 1}, separators=(",", ":"))


def rechecked(design, certs):
    return asked("recheck", f"{design}\ncertificates\n{text_of(certs)}")


class Fault(Exception):
    """Why bytes are no file of certificates."""


class Pages:
    """What the pages make of a design: its obligations, and clauses as DIMACS writes them."""

    def __init__(self):
        self.kept = {}

    def owed(self, design):
        if design not in self.kept:
            self.kept[design] = design_clauses.Owed(design)
        return self.kept[design]

    def count(self, design):
        """How many obligations there are, and the leaves of the first tree that has too many."""
        owed = self.owed(design)
        return len(owed.obligations), owed.over

    def query(self, design, number, instances):
        """The clauses of an obligation's query, or how many there are if these are too many; nothing if an instance does not fit."""
        return design_clauses.clauses_of(self.owed(design), number, instances)

    def certs(self, text):
        try:
            value = json.loads(text)
        except ValueError:
            raise Fault("not json") from None
        if not isinstance(value, dict) or set(value) != {"certs", "cocoon"}:
            raise Fault("shape")
        if not listed(value["certs"], is_cert):
            raise Fault("shape /certs")
        if type(value["cocoon"]) is not int or value["cocoon"] != 1:
            raise Fault("shape /cocoon")
        return value["certs"]


def listed(value, test):
    return isinstance(value, list) and all(map(test, value))


def below(bits):
    return lambda value: type(value) is int and 0 <= value < 1 << bits


def is_literal(value):
    return type(value) is int and 0 < abs(value) < 1 << 31


def is_pair(first, second):
    return lambda value: isinstance(value, list) and len(value) == 2 and first(value[0]) and second(value[1])


def is_cert(value):
    steps = is_pair(lambda clause: listed(clause, is_literal), lambda hints: listed(hints, below(32)))
    instances = is_pair(below(32), lambda values: listed(values, below(64)))
    return isinstance(value, dict) and set(value) == {"instances", "log"} and listed(value["instances"], instances) and listed(value["log"], steps)


class Reading(Pages):
    """What another reading makes of a design."""

    def __init__(self, folder, scratch):
        super().__init__()
        sys.path.insert(0, folder)
        import clauses, inline, instances, load, verify
        self.clauses, self.inline, self.instances, self.load, self.verify = clauses, inline, instances, load, verify
        self.scratch = pathlib.Path(scratch)

    def owed(self, design):
        """The design, its terms and its obligations, and the leaves of a tree that has too many."""
        if design not in self.kept:
            path = self.scratch / "design.ccn"
            path.write_text(design)
            checked = self.load.load_design(str(path))
            try:
                self.kept[design] = (checked, *self.verify.build(checked), None)
            except self.inline.Paths as fault:
                self.kept[design] = (checked, None, [], fault.count)
        return self.kept[design]

    def count(self, design):
        _, _, obligations, over = self.owed(design)
        return len(obligations), over

    def query(self, design, number, instances):
        checked, terms, obligations, _ = self.owed(design)
        obligation = obligations[number]
        if not all(self.instances.fits(checked, obligation.level, of, values) for of, values in instances):
            return None
        before = self.instances.before_flatten(checked, obligation.level, obligation.formula, instances, terms)
        if self.instances.pairs_of(before, terms) > 20_000:
            count = self.instances.flat_size(before, terms)[1]
            if count > design_clauses.MOST_CLAUSES:
                return count
        goal, _ = self.instances.query_of(checked, obligation, instances, terms)
        count = self.clauses.count(terms, goal)[1]
        if count > design_clauses.MOST_CLAUSES:
            return count
        cnf, _ = self.clauses.blast(terms, goal)
        return f"p cnf {cnf.vars} {len(cnf.clauses)}\n" + "".join(" ".join(map(str, (*clause, 0))) + "\n" for clause in cnf.clauses)

    def certs(self, text):
        try:
            certs = self.load.certs_of(text.encode())
        except self.load.CertFault as fault:
            raise Fault(str(fault).replace("notjson", "not json").removesuffix(" -")) from None
        return [{"instances": instances, "log": log} for instances, log in certs]


class Checkers:
    """The programs in C that check logs: one that reads files of certificates, and one that takes its own time."""

    def __init__(self, scratch):
        self.scratch = pathlib.Path(scratch)
        for name in ("check_certs", "check_log"):
            subprocess.run(["cc", "-O2", "-o", self.scratch / name, TOP / "bench" / f"{name}.c"], check=True)

    def derives(self, clauses, cert):
        """Whether the log of a certificate derives the empty clause."""
        paths = self.scratch / "clauses", self.scratch / "certs.json"
        paths[0].write_text(clauses)
        paths[1].write_text(text_of([cert]))
        return subprocess.run([self.scratch / "check_certs", *paths, "0"], stdout=subprocess.DEVNULL).returncode == 0

    def micros(self, clauses, log):
        """The microseconds that the check of a log takes."""
        steps = "".join(f"s {' '.join(map(str, [*clause, 0]))} : {' '.join(map(str, hints))}\n" for clause, hints in log)
        answer, micros = subprocess.run([self.scratch / "check_log"], input=clauses + steps, stdout=subprocess.PIPE, text=True, check=True).stdout.split()
        if answer != "true":
            sys.exit("recheck.py: a log derives nothing")
        return int(micros)


def wanted(reading, checkers, design, text):
    """What is wanted of certificates."""
    try:
        certs = reading.certs(text)
    except Fault as fault:
        return str(fault)
    count, over = reading.count(design)
    if over is not None:
        return f"leaves {over}"
    if len(certs) != count:
        return f"count {len(certs)} {count}"
    for number, cert in enumerate(certs):
        query = reading.query(design, number, cert["instances"])
        if isinstance(query, int):
            return f"clauses {query}"
        if query is None or not checkers.derives(query, cert):
            return f"refused {number}"
    return "accepted"


def expanded(text):
    """A text of a case with its pieces written out."""

    def piece(found):
        repeated = re.fullmatch(r"(\d+) (.*)", found[1], re.S)
        if repeated:
            return "".join(repeated[2].replace("#", str(at)) for at in range(int(repeated[1])))
        return (DATA / found[1]).read_text()

    return re.sub(r'"([^"]*)"', piece, text)


def cases(reading, checkers, file):
    above = {}
    for line in file.read_text().splitlines():
        _, between, words = line.partition("| ")
        if not between or not line.startswith("  "):
            word, _, rest = line.partition(" ")
            above[word] = rest
            print(line)
            continue
        old, _, new = words.partition(" ")[2].partition(" => ")
        text = expanded(above["certs"])
        if old and old not in text:
            sys.exit(f"recheck.py: nothing to edit: {words}")
        text = text.replace(old, new, 1) if old else text
        print(f"  {wanted(reading, checkers, expanded(above['design']), text.replace(chr(39), chr(34))):11} | {words}")


def changed(source, certs):
    """The certificates with one change of a log or of an instance, or with two entries exchanged."""
    certs = json.loads(json.dumps(certs))
    cert = source.choice(certs)
    log = cert["log"]
    step = source.choice(log)
    kind = source.randrange(10)
    if kind == 0:
        step[1].pop(source.randrange(len(step[1])))
    elif kind == 1:
        at = source.randrange(len(step[1]))
        step[1][at] = max(0, step[1][at] + source.choice((-1, 1, 100)))
    elif kind == 2:
        step[1].insert(source.randrange(len(step[1]) + 1), source.choice(step[1]))
    elif kind == 3 and step[0]:
        at = source.randrange(len(step[0]))
        step[0][at] = -step[0][at] if source.random() < 0.5 else abs(step[0][at]) + 1
    elif kind == 4:
        log.remove(step)
    elif kind == 5:
        # (a copy of a step at the end: the last clause is not empty, unless it is a copy of the last)
        log.append(step)
    elif kind == 6:
        log.insert(len(log) - 1, [[1], [0]])
    elif kind == 7:
        one, other = source.randrange(len(certs)), source.randrange(len(certs))
        certs[one], certs[other] = certs[other], certs[one]
    elif kind == 8:
        cert["instances"].append([source.randrange(3), [source.randrange(300)]])
    else:
        at = source.randrange(len(step[1]) or 1)
        step[1][at : at + 2] = reversed(step[1][at : at + 2])
    return certs


def given(design, words):
    """The certificates of a file, or of one search each."""
    text = pathlib.Path(words[0]).read_text() if words else asked("certify", design)[0]
    if not text.startswith("{"):
        sys.exit(f"recheck.py: {text}")
    return json.loads(text)["certs"]


def same(reading, checkers, count, design, certs):
    source, differ, told = random.Random(1), 0, {}
    for number in range(count + 1):
        own = changed(source, certs) if number else certs
        ours = rechecked(design, own)[0]
        theirs = wanted(reading, checkers, design, text_of(own))
        told[ours.split()[0]] = told.get(ours.split()[0], 0) + 1
        if ours != theirs:
            differ += 1
            print(f"{number}: {ours}, wanted {theirs}")
    print(f"{count + 1} lists of {len(certs)} certificates, {', '.join(f'{many} {word}' for word, many in sorted(told.items()))}; {differ} differ")
    return differ


def drawn(source, owed):
    """Some instances by chance, of assumptions of any level."""
    chosen = [source.randrange(len(owed.assumptions)) for _ in range(source.randrange(1, 4))]
    return [(of, [source.randrange(1 << width) for _, width in owed.assumptions[of][1]]) for of in chosen]


def compared(reading, folder, script, first, count):
    """Compares the clauses of two readings, of at most twelve obligations of a design, with instances and without."""
    pages, queries, differ = Pages(), 0, 0
    for seed in range(first, first + count):
        printed = subprocess.run([sys.executable, pathlib.Path(folder, script), str(seed)], capture_output=True, text=True, check=True).stdout
        design, source = printed.split("----\n")[0], random.Random(seed)
        if reading.count(design) != pages.count(design):
            print(f"{seed}: {reading.count(design)} and {pages.count(design)} obligations")
            differ += 1
            continue
        owed = pages.owed(design)
        for number in sorted(source.sample(range(len(owed.obligations)), min(12, len(owed.obligations)))):
            for instances in ([], drawn(source, owed)) if owed.assumptions else ([],):
                queries += 1
                if reading.query(design, number, instances) != pages.query(design, number, instances):
                    print(f"{seed}: obligation {number} with {instances}")
                    differ += 1
    print(f"{count} designs, {queries} queries; {differ} differ")
    return bool(differ)


def repeated(certs, times):
    """The certificates with all steps of a log, but the last, so often."""
    return [{"instances": cert["instances"], "log": cert["log"][:-1] * times + cert["log"][-1:]} for cert in certs]


def least(design, certs):
    """The least time of some runs, the answer, and the memory."""
    runs = [rechecked(design, certs) for _ in range(RUNS)]
    return min(run[1] for run in runs), runs[0][0], max(run[2] for run in runs)


def times(reading, checkers, design, certs):
    steps = sum(len(cert["log"]) for cert in certs)
    hints = sum(len(hints) for cert in certs for _, hints in cert["log"])
    print(f"{len(certs)} certificates, {steps} steps, {hints} hints, {len(text_of(certs))} bytes")
    whole, answer, memory = least(design, certs)
    reads, counted, _ = least(design, certs + certs[:1])
    print(f"all of it: {whole:.3f} s, {memory} MiB, {answer}; up to the number alone: {reads:.3f} s, {counted}")
    middle = len(certs) // 2
    half, answer, _ = least(design, certs[:middle] + [{"instances": [], "log": []}] + certs[middle + 1 :])
    if half > reads:
        print(f"without what comes before the first certificate: {whole - reads:.3f} s, up to the middle {half - reads:.3f} s ({answer}), all against half {(whole - reads) / (half - reads):.2f}")
    if len(certs) > 100:
        return
    more = repeated(certs, REPEATED)
    longer, answer, _ = least(design, more)
    longer_reads = least(design, more + more[:1])[0]
    check = (longer - longer_reads - whole + reads) / (REPEATED - 1)
    micros = 0
    for number, cert in enumerate(more):
        query = reading.query(design, number, cert["instances"])
        micros += min(checkers.micros(query, cert["log"]) for _ in range(RUNS))
    print(f"the check alone: {check * 1000:.2f} ms ({answer}); the program in C: {micros / 1000 / REPEATED:.2f} ms")


def main(folder, word, words):
    sys.setrecursionlimit(100_000)
    with tempfile.TemporaryDirectory() as scratch:
        reading, checkers = Reading(folder, scratch) if folder else Pages(), Checkers(scratch)
        if word == "cases":
            return cases(reading, checkers, pathlib.Path(words[0]) if words else DATA / "steps.cases")
        if word == "clauses":
            return compared(reading, folder, words[0], int(words[1]), int(words[2]))
        if word == "same":
            design = pathlib.Path(words[1]).read_text()
            return bool(same(reading, checkers, int(words[0]), design, given(design, words[2:])))
        design = pathlib.Path(words[0]).read_text()
        return times(reading, checkers, design, given(design, words[1:]))


if __name__ == "__main__":
    words = sys.argv[1:]
    folder = words[1] if words[:1] == ["--reading"] and words[1:] else None
    words = words[2:] if folder else words
    if not words or words[0] not in ("cases", "same", "time", "clauses") or (words[0] == "clauses" and not folder):
        sys.exit(__doc__)
    sys.exit(main(folder, words[0], words[1:]))
