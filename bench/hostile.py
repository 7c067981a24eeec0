#!/usr/bin/env python3
"""Runs the built program on files that were mutated, and reports what no page promises.

    bench/hostile.py PROGRAM [RUNS] [SEED] [WORKERS]     so many runs (10,000), from this seed (1), in so many processes (one for
                                                         each processor)

The corpus are the designs, definitions and cases of examples/ (or of the folder that CORPUS names), the bundles that `compile` writes of
them with their certificates, and packets for their hosts. In
each run one file is mutated one to four times: a byte is replaced, a piece is cut out, doubled, or put in from another file of the
corpus, lines are exchanged or one is left out, a number becomes one at a border, a name, a number or a mark becomes another one of the file,
or the file is cut off. Certificates, the file of a network and rows are mutated as trees in two of three runs: a part is left out, doubled,
exchanged with another or replaced by a copy of one, or a number becomes another. A mutated program or rows file gets its digest in the file of
the network anew in most runs, so that more is looked at than the digest. One run of 32 is of `gen`, with numbers that may be of no form, and the
others are of `check`, `compile`, `update`, `step` and `forward` alike.

A run is reported where the program ends by a signal, takes more of the processor or of memory than it may, ends with a status that its
command does not have, says something on the standard error, prints what is no report of its command with this status, changes or makes a file
though it refuses, or, in one run of 16, gives another answer or writes other files when it is run again. What a mutated design compiled to is
compared in the ways that bench/agreed.py names: a difference is reported, too. Besides, it is reported

- where the definitions that are printed of a failure are not refused by `compile` with the same first line, unless they break an assumption,
  or a search for one is given up;
- where an `update` that succeeds leaves other programs, rows or another file of the network than `compile` writes of the same texts, changes
  another file, or accepts certificates that bench/design_clauses.py does not accept; and where it refuses certificates that were mutated as trees
  and does not tell the first that this does not accept (in one run of 8);
- where an `update` or a `compile` over a bundle, of which a call on files or an allocation fails (one of three runs of `update`, and one of
  five of `compile`), changes another file than those that it writes, or leaves what `forward` neither refuses, nor runs as the old network or
  the new one; or where the same words do not mend it;
- where the line of `gen` is not the one that was worked out.

Run N is the same whenever it is run and with however many processes, as long as the examples are: `bench/hostile.py PROGRAM 1 N` repeats
it. The last lines say how often each status came, and the most that a run took. It needs Python and a C compiler; the gate does not run it.
"""

import collections
import concurrent.futures
import hashlib
import json
import os
import pathlib
import random
import re
import shutil
import struct
import subprocess
import sys
import tempfile

import agreed

TOP = pathlib.Path(__file__).resolve().parent.parent
CORPUS = pathlib.Path(os.environ.get("CORPUS") or TOP / "examples")
MEMORY_FOLDER = "/dev/shm" if os.access("/dev/shm", os.W_OK) else None
# Seconds of the processor and MiB of memory that a run of each command may take, and seconds of the clock.
SECONDS = {"check": 20, "compile": 20, "update": 10, "step": 2, "forward": 2, "gen": 10}
MEMORY = {"check": 512, "compile": 512, "update": 256, "step": 64, "forward": 128, "gen": 256}
WAIT = 1200
# Bytes of memory that it may ask for: with more it ends with status 12, which is reported.
ADDRESSES = 4 << 30
# So many conflicts and rounds are allowed in most runs.
CONFLICTS, ROUNDS = 500, 6
LIMITED = ["--conflicts", str(CONFLICTS), "--rounds", str(ROUNDS)]
COMMANDS = ("check", "compile", "update", "step", "forward")
RUNS_OF_A_TASK = 250
BORDERS = ["0", "1", "7", "63", "64", "65", "255", "256", "257", "65535", "65536", "4294967295", "4294967296", "18446744073709551615", "18446744073709551616"]

# ---- the reports of each command and status

TEXT_FAULTS = "BadByte|BadNumber|OpenComment|Unexpected|TooDeep"
RULES = (
    "Twice|UnknownName|LateFunction|UnknownRole|NotRefinable|SinkRefined|NoHost|NoSwitch|ZeroCount|TooWide|HeaderWidth|WrongWidth|NotBool|WrongCount|"
    "BadSlice|AfterSend|PacketInGuard|SinkForm|HeaderChanged|GuardForm|NotSwitchForm|NotWire|LastChoice|ForkForm|HiddenChoice"
)
NUMBERS = r"(-|\d+( \d+)*)"
LANGUAGE = rf"language d\.ccn \d+:\d+ ({TEXT_FAULTS}|{RULES})"
DEFINITIONS = rf"definitions d\.defs (\d+:\d+ ({TEXT_FAULTS}|UnknownFunction|WrongRow|TwoDefaults|GuardRows|ForkRows)|NoDefault [A-Za-z_]\w*)"
CONFLICTED, SPENT = rf"budget conflicts ({CONFLICTS}|20000)", rf"budget (rounds ({ROUNDS}|64)|conflicts ({CONFLICTS}|20000)) obligation \d+"
RUN = (
    rf"level \d+ role [A-Za-z_]\w* leaf \d+\nat [A-Za-z_]\w* {NUMBERS}\npacket {NUMBERS}\nchoices {NUMBERS}\nto [A-Za-z_]\w* {NUMBERS}\n"
    rf"sent {NUMBERS}(\n(default|define) [^\n]*;)*"
)
OF_DESIGN = r"limit (refines|within|ports|roles|functions|assumptions|params|headers|fields|paths|expanded|rows)"
BUNDLE = r"bundle lab\.(net\.json|s\d+\.(p4|rows\.json)) "
NOT_OF_FORM = r"(missing|notjson|shape (-|/[a-z]+)"
FORMS = {
    ("check", 0): r"ok levels \d+ obligations \d+",
    ("check", 1): rf"refuted {RUN}",
    ("check", 3): LANGUAGE,
    ("check", 5): rf"hopbound {RUN}",
    ("check", 6): rf"{SPENT}|{CONFLICTED} assumption \d+",
    ("check", 10): rf"limit file d\.ccn over \d+|({OF_DESIGN}|limit (leaves|clauses)) \d+ over \d+",
    ("compile", 0): r"compiled switches \d+ hosts \d+ links \d+ obligations \d+",
    ("compile", 1): rf"refuted {RUN}",
    ("compile", 3): LANGUAGE,
    ("compile", 4): DEFINITIONS + rf"|broken assumption \d+ at {NUMBERS}",
    ("compile", 5): rf"hopbound {RUN}",
    ("compile", 6): rf"{SPENT}|{CONFLICTED} assumption \d+",
    ("compile", 10): rf"limit file (d\.ccn|d\.defs|new\.\S+) over \d+|({OF_DESIGN}|limit (switches|hosts|tables|sites|members|leaves|clauses)) \d+ over \d+",
    ("update", 0): r"updated switches \d+ hosts \d+ links \d+ obligations \d+",
    ("update", 3): LANGUAGE,
    ("update", 4): DEFINITIONS + rf"|broken assumption \d+ at {NUMBERS}",
    ("update", 6): rf"{CONFLICTED} assumption \d+",
    ("update", 7): rf"bundle lab\.certs\.json {NOT_OF_FORM}|count \d+ \d+|refused \d+)|bundle lab\.net\.json {NOT_OF_FORM}|wiring (ports|(switches|hosts|links) \d+))",
    ("update", 10): rf"limit file (d\.ccn|d\.defs|lab\.\S+) over \d+|({OF_DESIGN}|limit (switches|hosts|tables|sites|members|leaves|clauses)) \d+ over \d+",
    ("step", 0): rf"nothing|[A-Za-z_]\w* {NUMBERS} : {NUMBERS}",
    ("step", 3): LANGUAGE,
    ("step", 4): DEFINITIONS,
    ("step", 10): rf"limit file \S+ over \d+|{OF_DESIGN} \d+ over \d+|limit level \d+ over \d+",
    ("step", 11): r"line \S+ [1-9]\d* Form",
    ("forward", 7): BUNDLE
    + r"(missing|notjson|shape (-|/[a-z]+)|p4 (Lex|Unexpected|TooDeep|Kind) \d+|stale [0-9a-f]{64} [0-9a-f]{64}"
    + r"|load (MissingTable \d+|UnknownTable \d+|RowShape \d+ \d+|GroupShape \d+))",
    ("forward", 10): r"limit file \S+ over \d+|limit packet \d+ over 65535|limit copies 65537 over 65536",
    ("forward", 11): r"line p\.txt [1-9]\d* (Form|NoSuchHost)",
    ("gen", 0): r"gen hosts \d+ packets \d+ delivered \d+ dropped \d+",
    ("gen", 2): r"usage cocoon check compile update forward step live gen",
}
# What a run prints of which calls are refused, besides the reports of its command.
FAULTS = {
    8: re.compile(rb"read fault (d\.ccn|d\.defs|lab\.(certs|net)\.json)\n|"),
    9: re.compile(rb"write fault (d\.ccn\.budget\.json|lab\.\S+)\n|"),
    12: re.compile(rb"no memory\n|"),
}
FORMS = {of: re.compile(rf"({form})\n".encode()) for of, form in FORMS.items()}
PACKET = re.compile(rb"(\d+) delivered (\d+) travelling \d+\n((?:> \d+ (?:-|(?:[0-9a-f]{2})+)\n)*)")


def is_forwarded(printed):
    """Whether this tells of packets 1, 2 and so on, each with as many deliveries as are told."""
    at = 0
    for index, found in enumerate(PACKET.finditer(printed), 1):
        if found.start() != at or int(found[1]) != index or int(found[2]) != found[3].count(b"\n"):
            return False
        at = found.end()
    return at == len(printed)


def is_report(command, status, printed):
    if (command, status) == ("forward", 0):
        return is_forwarded(printed)
    return FORMS[command, status].fullmatch(printed) is not None


# ---- runs of the program

Done = collections.namedtuple("Done", "status out err seconds memory")


def runner_in(folder):
    """Builds bench/runner.c, and the library of bench/refuse.c."""
    built = {"runner": ["runner.c"], "refuse.so": ["-shared", "-fPIC", "refuse.c"]}
    for name, words in built.items():
        subprocess.run(["cc", "-O2", "-o", f"{folder}/{name}", *(word if word.startswith("-") else TOP / "bench" / word for word in words)], check=True)


class Program:
    """The built program, run in the current folder by bench/runner.c. What it prints goes into files in memory, which are read when it has ended."""

    def __init__(self, path, folder):
        self.path, self.library = path, f"{folder}/refuse.so"
        self.outputs = [os.memfd_create(name) for name in ("out", "err")]
        ends = os.pipe(), os.pipe()
        (take, self.asks), (self.answers, give) = ends
        high = [os.dup2(end, end + 100) for end in (take, give, *self.outputs)]
        actions = [(os.POSIX_SPAWN_DUP2, end, to) for end, to in zip(high, (0, 1, 3, 4))]
        words = ["runner", str(max(SECONDS.values()) + 1), str(WAIT), str(ADDRESSES)]
        os.posix_spawn(f"{folder}/runner", words, {}, file_actions=actions)
        for end in (take, give, *high):
            os.close(end)

    def run(self, words, path=None, settings=()):
        parts = [os.getcwd(), path or self.path, str(len(settings)), *settings, "program", *words]
        text = b"".join(part.encode() + b"\0" for part in parts)
        os.write(self.asks, struct.pack("=I", len(text)) + text)
        status, microseconds, memory = struct.unpack("=qqq", os.read(self.answers, 24))
        printed = [self.taken(output) for output in self.outputs]
        return Done(os.waitstatus_to_exitcode(status), *printed, microseconds / 1e6, memory)

    def refused(self, words, source):
        """A run of which a call on files or an allocation fails, and maybe all after it."""
        what = source.choice([f"FAULT={source.randint(1, 40)}", f"FAULT={source.randint(1, 40)}", f"REFUSE={int(10 ** source.uniform(0, 4.5))}"])
        more = source.choice([[], [], ["ON=1"]]) + [f"ERROR={source.choice([5, 28])}"]
        return self.run(words, settings=[f"LD_PRELOAD={self.library}", what, *more])

    def taken(self, output):
        """What stands in the file, which is empty afterwards."""
        size = os.fstat(output).st_size
        if size == 0:
            return b""
        text = os.pread(output, size, 0)
        os.ftruncate(output, 0)
        os.lseek(output, 0, os.SEEK_SET)
        return text


def mark(state):
    return state.st_mtime_ns, state.st_size, state.st_ino


def bytes_of(name):
    file = os.open(name, os.O_RDONLY)
    text = os.read(file, os.fstat(file).st_size + 1)
    os.close(file)
    return text


class Room:
    """A folder with files. It knows how each was left, so that a change is seen by a look at the folder alone."""

    def __init__(self, folder, files):
        self.folder, self.files, self.left = folder, files, {}
        folder.mkdir()
        self.enter()
        for name, text in files.items():
            self.put(name, text)

    def enter(self):
        os.chdir(self.folder)

    def put(self, name, text):
        file = os.open(name, os.O_WRONLY | os.O_CREAT | os.O_TRUNC)
        os.write(file, text)
        os.close(file)
        self.left[name] = mark(os.stat(name))

    def is_as_left(self, name, text):
        """Whether no file is another one; of the one that was written last the bytes are looked at, since a clock is coarse."""
        names = os.listdir()
        is_known = len(names) == len(self.left) and all(name in self.left for name in names)
        return is_known and all(mark(os.stat(name)) == self.left[name] for name in names) and bytes_of(name) == text

    def taken(self):
        """The files that the run made, by their names; they are removed."""
        made = {name: bytes_of(name) for name in os.listdir() if name not in self.left}
        for name in made:
            os.unlink(name)
        return made


# ---- the corpus

Job = collections.namedtuple("Job", "room words targets")


def packets_for(net):
    """Packets of the hosts of a network: with the numbers of two hosts, from the first bytes that are all zero to some at random."""
    source = random.Random(len(net))
    hosts = [host[0] for host in json.loads(net)["hosts"]][:8]
    sizes = [size for size in (1, 4, 6) if all(host < 256**size for host in hosts)][:2]
    packets = [bytes(size) for size in (0, 1, 8)] + [source.randbytes(size) for size in (1, 4, 8, 12, 20)]
    pairs = [(host, one.to_bytes(size, "big") + two.to_bytes(size, "big") + b"*" * 4) for host in hosts[:4] for other in hosts[:4] for one, two in ((host, other), (other, host)) for size in sizes]
    pairs += [(host, packet) for host in hosts for packet in packets]
    return "".join(f"{host} {packet.hex() or '-'}\n" for host, packet in pairs).encode()


def texts_of_examples():
    """Each design that has definitions, with the cases beside it, or where there is none two others."""
    for definitions in sorted(CORPUS.rglob("*.defs")):
        design = definitions.with_suffix(".ccn")
        if not design.exists():
            continue
        cases = sorted(design.parent.glob("*.case")) or sorted((TOP / "examples").rglob("*.case"))[:2]
        texts = {"d.ccn": design.read_bytes(), "d.defs": definitions.read_bytes()}
        packets = design.with_name("packets.txt")
        texts |= {"p.txt": packets.read_bytes()} if packets.exists() else {}
        yield texts | {f"{number}.case": case.read_bytes() for number, case in enumerate(cases)}


def with_bundle(program, folder, texts):
    """The texts with the files of the bundle that they compile to, and packets; without where the design is not compiled."""
    room = Room(folder, texts)
    if program.run(["compile", "d.ccn", "d.defs", "lab"]).status:
        return texts
    bundle = room.taken()
    made, found = packets_for(bundle["lab.net.json"]), texts.get("p.txt", b"")
    if program.run(["forward", "lab", "p.txt"]).status:
        found = b""  # they are of another network
    room.taken()
    return texts | bundle | {"p.txt": found + made}


def jobs_of(files, room):
    """What is run in a room: words of each command with the files that are mutated."""
    texts = ["d.ccn", "d.defs"]
    for limits in (LIMITED, LIMITED, LIMITED, []):
        yield Job(room, ["check", "d.ccn", *limits], ["d.ccn"])
        yield Job(room, ["compile", *texts, "new", *limits], texts)
    for case in sorted(name for name in files if name.endswith(".case")):
        for level in "012":
            yield Job(room, ["step", *texts, level, case], [*texts, case, case])
    if "lab.net.json" in files:
        switches = sorted(name for name in files if name.startswith("lab.s"))
        certificates, network = ["lab.certs.json"], ["lab.net.json"]
        yield Job(room, ["compile", *texts, "lab", *LIMITED], ["d.defs", *texts])
        for limits in (LIMITED[:2], []):
            yield Job(room, ["update", *texts, "lab", *limits], [*texts, "d.defs"])
            yield Job(room, ["update", *texts, "lab", *limits], [*texts, "d.defs", *certificates * 3, *network * 2, switches[0]] if switches else [*certificates, *network])
        # `forward` does not look at certificates.
        for hops in (["--hops", "3"], []):
            yield Job(room, ["forward", "lab", "p.txt", *hops], [*network, *switches, "p.txt"])


# ---- mutations, each of bytes that are not empty


def replaced(text, source, pool):
    at = source.randrange(len(text))
    return text[:at] + bytes([source.randrange(256)]) + text[at + 1 :]


def piece(text, source, most=40):
    start = source.randrange(len(text))
    return start, min(len(text), start + source.randint(1, most))


def cut_out(text, source, pool):
    start, end = piece(text, source)
    return text[:start] + text[end:]


def doubled(text, source, pool):
    start, end = piece(text, source)
    return text[:end] + text[start:end] * source.choice([1, 1, 1, 2, 200]) + text[end:]


def spliced(text, source, pool):
    other = source.choice(pool)
    start, end = piece(other, source) if other else (0, 0)
    at = source.randrange(len(text))
    return text[:at] + other[start:end] + text[at:]


def lines_exchanged(text, source, pool):
    lines = text.split(b"\n")
    first, second = source.randrange(len(lines)), source.randrange(len(lines))
    lines[first], lines[second] = lines[second], lines[first]
    return b"\n".join(lines)


NUMBER = re.compile(rb"\d+")
# A word is a literal, by its width; a name; another number; or a mark. Two words of one kind have the same last group, and of literals the same text in it.
WORD = re.compile(rb"\b(\d+w)[0-9a-fA-Fx]+\b|\b([A-Za-z_])\w*|\b(\d)\w*|([-+&|^~!=<>?]+)")
TRIES = 12


def line_left_out(text, source, pool):
    lines = text.split(b"\n")
    del lines[source.randrange(len(lines))]
    return b"\n".join(lines)


def at_border(text, source, pool):
    number = NUMBER.search(text, source.randrange(len(text)))
    return text[: number.start()] + source.choice(BORDERS).encode() + text[number.end() :] if number else text


def kind(word):
    return word.lastindex, word[1]


def word_exchanged(text, source, pool):
    """A word becomes another one of its kind, where some tries find one."""
    word = WORD.search(text, source.randrange(len(text)))
    for _ in range(TRIES if word else 0):
        other = WORD.search(text, source.randrange(len(text)))
        if other and kind(other) == kind(word) and other[0] != word[0]:
            return text[: word.start()] + other[0] + text[word.end() :]
    return text


def cut_off(text, source, pool):
    return text[: source.randrange(len(text))]


MUTATIONS = [replaced, replaced, cut_out, doubled, spliced, lines_exchanged, line_left_out, line_left_out, at_border, at_border]
MUTATIONS += [word_exchanged, word_exchanged, word_exchanged, cut_off]


def places_of(tree):
    """All places of a tree: each a list or an object, and an index or a key of it."""
    left = [tree]
    while left:
        one = left.pop()
        keys = range(len(one)) if isinstance(one, list) else one if isinstance(one, dict) else ()
        yield from ((one, key) for key in keys)
        left += [one[key] for key in keys]


def tree_mutated(text, source):
    """A JSON text of which a part is another one."""
    tree = json.loads(text)
    places = list(places_of(tree))
    at, key = source.choice(places)
    change = source.randrange(6)
    if change == 0:
        del at[key]
    elif change == 1 and isinstance(at, list):
        at.insert(key, at[key])
    elif change == 2 and isinstance(at[key], int):
        at[key] = source.choice([at[key] + 1, at[key] - 1, -at[key], int(source.choice(BORDERS))])
    elif change <= 4:
        # with a part of the same depth in most cases: another item of the list, or the same part of another one
        other, name = source.choice([(one, name) for one, name in source.sample(places, min(len(places), 40)) if type(one[name]) is type(at[key])] or [(at, key)])
        at[key], other[name] = (other[name], at[key]) if change == 3 else (json.loads(json.dumps(other[name])), other[name])
    else:
        at[key] = source.choice([[], {}, None, True, "", [at[key]], 1.5])
    return json.dumps(tree, separators=(",", ":"), sort_keys=True).encode()


def mutated(name, text, source, pool):
    """The text of a file, mutated, and whether as a tree."""
    times = source.choice([1, 1, 2, 4])
    if name.endswith(".json") and source.randrange(3):
        try:
            for _ in range(times):
                text = tree_mutated(text, source)
        except (ValueError, IndexError):
            pass  # nothing is left to be mutated, or a part was put into itself
        return text, True
    for _ in range(times):
        if text:
            text = source.choice(MUTATIONS)(text, source, pool)
    return text, False


def with_digest(net, old, new):
    """The file of the network with the digest of a file's new bytes."""
    digests = [hashlib.sha256(text).hexdigest().encode() for text in (old, new)]
    return net.replace(*digests)


# ---- one run


def delivered(hosts, packets):
    """How many packets a generated network delivers: those from a host to the next one."""
    return sum(number // hosts % hosts == (number % hosts + 1) % hosts for number in range(packets))


def generated_words(source):
    """The words of a `gen`, and the numbers that they are, or nothing."""
    hosts = source.choice([*map(str, range(1, 13)), *map(str, range(13, 41, 3)), "07", "0", "200" if source.randrange(40) == 0 else "201", source.choice(BORDERS), "", "-1", "1x", "00000001"])
    packets = source.choice([str(source.randrange(1, 200)) for _ in range(12)] + ["1000", "0", "100001", source.choice(BORDERS), "0000003", "00000003", "+1", "--", "--hops"])
    more = [] if source.randrange(8) else [source.choice(["1", "--rounds", "gen", "--"])]
    words = [hosts, packets, *more]
    # The first `--` is the end of options, wherever it stands.
    numbers = [*words]
    if "--" in numbers:
        numbers.remove("--")
    fit = len(numbers) == 2 and all(len(word) < 8 and word.isdecimal() and 1 <= int(word) <= most for word, most in zip(numbers, (200, 100_000)))
    return ["gen", *words], tuple(map(int, numbers)) if fit else None


class Worker:
    """What a process of runs keeps: the program, a room for each design of the corpus, and the jobs."""

    def __init__(self, program, folder, corpus):
        self.program = Program(program, folder)
        self.home = pathlib.Path(folder) / str(os.getpid())
        self.home.mkdir()
        self.rooms = [Room(self.home / str(number), files) for number, files in enumerate(corpus)]
        jobs = [job for room in self.rooms for job in jobs_of(room.files, room)]
        self.jobs = [[job for job in jobs if job.words[0] == command] for command in COMMANDS]
        self.jobs = [some for some in self.jobs if some]
        self.pool = [text for files in corpus for text in files.values()]
        self.counts, self.most, self.lines = collections.Counter(), {}, []

    def tried(self, seed):
        """One run; what is wrong with it gets a line."""
        source = random.Random(seed)
        if source.randrange(32) == 0:
            return self.tried_gen(seed, source)
        job = source.choice(source.choice(self.jobs))
        target = source.choice(job.targets)
        room, old = job.room, job.room.files[target]
        new, is_tree = mutated(target, old, source, self.pool)
        room.enter()
        room.put(target, new)
        if target.startswith("lab.s") and source.random() < 0.875:
            room.put("lab.net.json", with_digest(room.files["lab.net.json"], old, new))
        into = job.words[3] if job.words[0] in ("compile", "update") else ""
        is_refused = into == "lab" and (job.words[0] == "compile" or source.randrange(3) == 0)
        try:
            if is_refused:
                wrong = self.refused(job, target, new, source)
            else:
                wrong = self.complaint(job, target, new, source, seed % 16 == 0, is_tree)
        except Exception as failure:  # a fault of the script is told as one of the run, and other runs go on
            wrong = f"the script fails: {failure!r}"
        if wrong:
            self.lines.append(f"seed {seed}: {' '.join(job.words)} with {target}: {wrong}")
        self.left_as_it_was(room)

    def tried_gen(self, seed, source):
        """A run of `gen`, in a room whose files it leaves alone."""
        words, numbers = generated_words(source)
        room = self.rooms[seed % len(self.rooms)]
        room.enter()
        done = self.program.run(words)
        wrong = self.unfit("gen", done)
        if not wrong and done.out != self.wanted(numbers):
            wrong = f"prints {done.out[:200]}, and {self.wanted(numbers)} was worked out"
        if not wrong and not room.is_as_left("d.ccn", room.files["d.ccn"]):
            wrong = "a file is changed or made"
        if wrong:
            self.lines.append(f"seed {seed}: {' '.join(words)}: {wrong}")
            self.left_as_it_was(room)

    def wanted(self, numbers):
        """The line of a `gen`."""
        if not numbers:
            return b"usage cocoon check compile update forward step live gen\n"
        hosts, packets = numbers
        arrived = delivered(hosts, packets)
        return f"gen hosts {hosts} packets {packets} delivered {arrived} dropped {packets - arrived}\n".encode()

    def unfit(self, command, done, refused=()):
        """What is wrong with how a run of this command ended and with what it printed, or nothing; `refused` are statuses that it may have besides."""
        status = done.status
        what = command if not refused else f"{command} stopped"
        self.counts[what, status] += 1
        most = self.most.get(command, (0, 0, 0))
        self.most[command] = [max(most[0], done.seconds), max(most[1], done.memory), most[2] + done.seconds]
        if status < 0:
            return f"signal {-status} after {done.seconds} seconds"
        if done.seconds > SECONDS[command]:
            return f"{done.seconds} seconds"
        if done.memory > MEMORY[command] * 1024:
            return f"{done.memory} KiB"
        if refused:
            if not re.fullmatch(rb"\d+ \d+\n", done.err):
                return "says something on the standard error"
            if status in refused and refused[status].fullmatch(done.out):
                return None
            # a report that could not be put is a prefix of one
            if status in refused and not done.out.endswith(b"\n"):
                return None
        elif done.err:
            return "says something on the standard error"
        if (command, status) not in FORMS and (command, status) != ("forward", 0):
            return f"status {status}, and prints {done.out[:200]}"
        return None if is_report(command, status, done.out) else f"prints {done.out[:300]}"

    def complaint(self, job, target, new, source, is_twice, is_tree):
        """What is wrong with a run of the job, or nothing."""
        done = self.program.run(job.words)
        command, status = job.words[0], done.status
        wrong = self.unfit(command, done)
        if wrong:
            return wrong
        if command == "update" and status == 0:
            return self.updated(job, target, new, is_twice)
        made = job.room.taken()
        if not (status == 0 if command == "compile" else False) and sorted(made) != (["d.ccn.budget.json"] if status == 6 else []):
            return f"{sorted(made)} is made"
        if not job.room.is_as_left(target, new):
            return "a file is changed"
        if is_twice:
            again = self.program.run(job.words)
            if (again.out, job.room.taken()) != (done.out, made):
                return "another answer in the second run"
        if status == 6:
            json.loads(made["d.ccn.budget.json"])
        if status in (1, 5) and command == "check":
            return self.unreal(job, done)
        if command == "update" and target == "lab.certs.json" and is_tree and done.out.startswith(b"bundle lab.certs.json refused") and source.randrange(8) == 0:
            return self.differs(done.out)
        return self.disagreement(job.room, made, target, new, source) if command == "compile" and status == 0 else None

    def unreal(self, job, done):
        """What is wrong with the definitions of a failure, or nothing."""
        pathlib.Path("failure.defs").write_bytes(b"\n".join(done.out.split(b"\n")[6:]))
        again = self.program.run(["compile", "d.ccn", "failure.defs", "new", *job.words[2:]])
        self.counts["failures, by compile", again.status] += 1
        job.room.taken()
        is_same = again.status == done.status and again.out.split(b"\n")[0] == done.out.split(b"\n")[0]
        return None if is_same or re.match(rb"broken assumption |budget conflicts \d+ assumption ", again.out) else f"{again.out[:200]} by the definitions of {done.out[:400]}"

    def updated(self, job, target, new, is_twice):
        """What is wrong with the bundle that an `update` left, or nothing."""
        room = job.room
        held = {name: bytes_of(name) for name in os.listdir()}
        was = room.files | {target: new}
        written = {name for name in held if re.fullmatch(r"lab\.(s\d+\.(p4|rows\.json)|net\.json)", name)}
        if any(held[name] != was.get(name) for name in set(held) - written) or set(was) - set(held):
            return "another file is changed or made, or one is gone"
        compiled = self.program.run(["compile", "d.ccn", "d.defs", "two", *LIMITED])
        self.counts["updates, by compile", compiled.status] += 1
        if compiled.status == 0:
            two = {f"lab{name[3:]}": bytes_of(name) for name in os.listdir() if name.startswith("two.") and name != "two.certs.json"}
            if any(held.get(name) != text for name, text in two.items()):
                return "another bundle than that of a compile"
        elif compiled.status in (3, 4, 10) or compiled.status in (1, 5):
            return f"compile ends with {compiled.status} and {compiled.out[:200]}"
        forwarded = self.program.run(["forward", "lab", "p.txt"])
        if forwarded.status not in (0, 10, 11):
            return f"forward ends with {forwarded.status} and {forwarded.out[:200]}"
        if is_twice:
            again = self.program.run(job.words)
            if again.status or any(bytes_of(name) != held[name] for name in held):
                return "another answer in the second run"
        if target == "lab.certs.json" and new != room.files[target] and is_other(new, room.files[target]):
            checked = subprocess.run([sys.executable, TOP / "bench" / "design_clauses.py", "check", "d.ccn", "lab.certs.json"], stdout=subprocess.PIPE, stderr=subprocess.PIPE, text=True)
            self.counts["other certificates accepted", checked.returncode] += 1
            if checked.returncode:
                return f"certificates are accepted of which design_clauses.py says {checked.stdout[-200:]} {checked.stderr[-200:]}"
        return None

    def differs(self, line):
        """What is wrong with the number of the certificate that is refused, or nothing."""
        checked = subprocess.run([sys.executable, TOP / "bench" / "design_clauses.py", "check", "d.ccn", "lab.certs.json"], stdout=subprocess.PIPE, stderr=subprocess.PIPE, text=True)
        found = re.search(r"; not (\d+)", checked.stdout)
        self.counts["refused certificates", checked.returncode] += 1
        if checked.returncode == 0:
            return f"{line} of certificates that design_clauses.py accepts"
        return None if not found or int(found[1]) == int(line.split()[-1]) else f"{line}, and design_clauses.py says {checked.stdout[:200]}"

    def refused(self, job, target, new, source):
        """What is wrong with a run of which calls are refused, with what it left, and with the same words again; or nothing."""
        room, command = job.room, job.words[0]
        # `net.json` may name another file of a switch here, so the old network is the one that stands
        old = self.forwarded()
        was = {name: bytes_of(name) for name in os.listdir()}
        done = self.program.refused(job.words, source)
        wrong = self.unfit(command, done, FAULTS)
        if wrong:
            return f"stopped, {wrong}"
        beside = [name for name in os.listdir() if name not in was and re.fullmatch(r"(d\.ccn\.budget|lab\.\S+)\.(json|p4)(\.\d+)?\.new", name)]
        for name in beside:
            os.unlink(name)
        held = {name: bytes_of(name) for name in os.listdir()}
        between = self.forwarded()
        again = self.program.run(job.words)
        wrong = self.unfit(command, again)
        if wrong:
            return f"again, {wrong}"
        now, new_net = {name: bytes_of(name) for name in os.listdir()}, self.forwarded()
        kept = r"lab\.(s\d+\.(p4|rows\.json)|net\.json" + (r"|certs\.json)" if command == "compile" else ")")
        for name in set(was) | set(held):
            left = held.get(name)
            may = [was.get(name), now.get(name)] if again.status == 0 and re.fullmatch(kept, name) or again.status == 6 and name == "d.ccn.budget.json" else [was.get(name)]
            if left not in may:
                return f"{name} is neither the old file nor the new one after status {done.status}"
        if again.status == 0 and done.status == 0 and held != now:
            return "another bundle in the second run"
        if again.status != 0 and done.status == 0:
            return f"status 0, and again {again.status}"
        what = "old" if between == old else "new" if between == new_net else "refused" if between[0] == 7 else "mixed"
        self.counts[f"after a stopped {command}", what] += 1
        if what == "mixed":
            return f"forward gives {between[1][:200]}, neither the old network {old[1][:200]} nor the new one {new_net[1][:200]}"
        return None

    def forwarded(self):
        done = self.program.run(["forward", "lab", "p.txt"])
        return done.status, done.out

    def disagreement(self, room, made, target, new, source):
        """What is wrong with the bundle that a design was compiled to, or nothing."""
        texts = [new if name == target else room.files[name] for name in ("d.ccn", "d.defs")]
        compared = agreed.Compared(self.program, texts, made, source)
        wrong = compared.difference()
        self.counts += compared.counts
        room.taken()
        return wrong

    def left_as_it_was(self, room):
        room.taken()
        for name, text in room.files.items():
            if name not in os.listdir() or room.left[name] != mark(os.stat(name)) or bytes_of(name) != text:
                room.put(name, text)


def is_other(text, other):
    """Whether two JSON texts are of two values."""
    try:
        return json.loads(text) != json.loads(other)
    except ValueError:
        return True


WORKER = None


def begin(program, folder, corpus):
    global WORKER
    WORKER = Worker(program, folder, corpus)


def task(seeds):
    """The runs of some seeds: the counts, the most that a run of each command took, and the lines."""
    WORKER.counts, WORKER.most, WORKER.lines = collections.Counter(), {}, []
    for seed in seeds:
        WORKER.tried(seed)
    return WORKER.counts, WORKER.most, WORKER.lines


def main():
    program = os.path.abspath(sys.argv[1])
    runs, first, workers = (int(word) for word in (sys.argv[2:] + ["10000", "1", str(os.cpu_count())][len(sys.argv) - 2 :]))
    counts, most, wrong = collections.Counter(), {}, 0
    home = os.getcwd()
    with tempfile.TemporaryDirectory(dir=MEMORY_FOLDER) as folder:
        runner_in(folder)
        alone = Program(program, folder)
        corpus = [with_bundle(alone, pathlib.Path(folder) / f"corpus{number}", texts) for number, texts in enumerate(texts_of_examples())]
        os.chdir(home)
        tasks = [range(start, min(start + RUNS_OF_A_TASK, first + runs)) for start in range(first, first + runs, RUNS_OF_A_TASK)]
        with concurrent.futures.ProcessPoolExecutor(workers, initializer=begin, initargs=(program, folder, corpus)) as pool:
            for counted, used, lines in pool.map(task, tasks):
                counts += counted
                for command, (seconds, memory, all_seconds) in used.items():
                    so_far = most.get(command, (0, 0, 0))
                    most[command] = (max(so_far[0], seconds), max(so_far[1], memory), so_far[2] + all_seconds)
                wrong += len(lines)
                for line in lines:
                    print(line, flush=True)
    print(f"{runs} runs from seed {first}, {wrong} wrong;", ", ".join(f"{what} {status}: {count}" for (what, status), count in sorted(counts.items(), key=str)))
    used = (f"{command} {seconds:.2f} s {memory / 1024:.1f} MiB, in all {all_seconds:.0f} s" for command, (seconds, memory, all_seconds) in sorted(most.items()))
    print("the most that a run took:", "; ".join(used))
    return 1 if wrong else 0


if __name__ == "__main__":
    if not 2 <= len(sys.argv) <= 5:
        sys.exit(__doc__)
    sys.exit(main())
