"""What parts of the built program must agree on, of a design that was compiled. bench/hostile.py asks it of mutated designs.

- `forward` against `step`: packets go through the bundle, and once more by hand. There each body of the last level is a run of `step`: the entry
  role's at the host, then, for each visit, that of the ingress switch role and that of the egress one where the first sent to, up to the sink.
  Where the ingress body has a `fork`, each last argument of a row of a function under a fork is tried as the choice, in ascending order. What is
  delivered (hosts, bytes and their order) and how many copies still travel has to be what `forward` prints. Packets that would take more
  than 600 runs are not followed.
- `emit`, then `read`: `forward` reads the programs, rows and network that `compile` wrote, so it ends with status 0, or with 10 where there are too
  many copies. Where TEXT_TESTS names the program of crates/text_tests, each program is read and printed, and has to have the same text.
- `text`, then `bind`: where DESIGN_TESTS names the program of crates/design_tests, the text of the tables is printed, read and bound, and has to give the
  same tables. The printed text is then compiled in the place of the definitions, and has to give the same bundle, byte for byte.
"""

import collections
import json
import os
import pathlib
import re

PACKETS = 3
MOST_RUNS = 600
TEXT_TESTS, DESIGN_TESTS = (os.environ.get(name) for name in ("TEXT_TESTS", "DESIGN_TESTS"))

# ---- a design that was compiled, so that its text and that of its definitions keep all rules

TOKEN = re.compile(r"//[^\n]*|/\*.*?\*/|([A-Za-z0-9_]+|&&&|<=|>=|==|!=|=>|\+\+|\S)", re.DOTALL | re.ASCII)
LITERAL = re.compile(r"(\d+)w(0x[0-9a-fA-F]+|\d+)")


def tokens(text):
    """The tokens of a text, without comments."""
    return [token[1] for token in TOKEN.finditer(text.decode("latin-1")) if token[1]]


def literal(token):
    """The width and the value of a literal, or nothing."""
    found = LITERAL.fullmatch(token)
    return found and (int(found[1]), int(found[2], 16) if found[2].startswith("0x") else int(found[2]))


class Design:
    """What is looked up in the text of a design: its last level, how packets enter, the names of its roles, and the choices that a fork may have."""

    def __init__(self, design, definitions):
        words, rows = tokens(design), tokens(definitions)
        self.level = words.count("refine")
        self.widths = self.widths_of(words)
        host, switch = words.index("host"), words.index("switch")
        self.entry, self.sink = words[host + 2], words[host + 4]
        self.ingress = words[switch + 2]
        self.choices = self.choices_of(words, rows)
        self.numbers = collections.defaultdict(list)
        for width, value in filter(None, map(literal, words + rows)):
            self.numbers[width].append(value)

    def widths_of(self, words):
        """The widths of all fields: those of the declaration of the packet, which ends with two braces."""
        end = next(at for at, word in enumerate(words) if word == "}" == words[at + 1])
        return [int(words[at + 2]) for at in range(end) if words[at] == "bit"]

    def choices_of(self, words, rows):
        """The last arguments in the rows of the functions that stand in the conditions `| m(..)` of forks."""
        conditions = [words.index("|", at) + 1 for at, word in enumerate(words) if word == "fork"]
        functions = {next(word for word in words[at:] if word != "(") for at in conditions}
        of_forks = [at for at, word in enumerate(rows) if word == "define" and rows[at + 1] in functions]
        return sorted({literal(rows[rows.index(")", at) - 1])[1] for at in of_forks})

    def entered(self, data):
        """The fields and the payload of a packet, or nothing where it is too short."""
        size = sum(self.widths) // 8
        if len(data) < size:
            return None
        left, bits, fields = sum(self.widths), int.from_bytes(data[:size], "big"), []
        for width in self.widths:
            left -= width
            fields.append(bits >> left & (1 << width) - 1)
        return fields, data[size:]

    def bytes_of(self, fields, payload):
        """The bytes of a packet that leaves."""
        bits = 0
        for width, field in zip(self.widths, fields):
            bits = bits << width | field
        return bits.to_bytes(sum(self.widths) // 8, "big") + payload

    def packet(self, source):
        """A packet whose fields often have numbers that stand in the texts; one in ten is cut off."""
        fields = [source.choice(self.numbers[width] + [0, source.getrandbits(width)]) for width in self.widths]
        data = self.bytes_of(fields, source.randbytes(source.randrange(4)))
        return data if source.randrange(10) else data[: source.randrange(len(data))]


# ---- packets that are followed by hand


class TooMany(Exception):
    """A packet would take too many runs."""


class Unlike(Exception):
    """What differs from what is wanted."""


class Chain:
    """Follows packets from body to body, each a run of `step`."""

    def __init__(self, program, design):
        self.program, self.design, self.known = program, design, {}

    def step(self, role, values, fields, choice=None):
        """Where the body of the role sends, and which fields: a role, its values and the fields; or nothing."""
        case = f"{role} {' '.join(map(str, values))}\n{' '.join(map(str, fields))}\n{'-' if choice is None else choice}\n"
        if case not in self.known:
            if len(self.known) == MOST_RUNS:
                raise TooMany
            self.known[case] = self.run(case)
        return self.known[case]

    def run(self, case):
        pathlib.Path("chain.case").write_text(case)
        done = self.program.run(["step", "d.ccn", "d.defs", str(self.design.level), "chain.case"])
        if done.status or done.err:
            raise Unlike(f"step of {case.split()} has status {done.status} and prints {done.out}")
        if done.out == b"nothing\n":
            return None
        location, _, fields = done.out.decode().rstrip("\n").partition(" : ")
        role, *values = location.split(" ")
        return role, [int(value) for value in values], [int(field) for field in fields.split(" ")]

    def follow(self, at, visits, payload):
        """What is delivered of a packet that stands before a switch: hosts with bytes, and how many copies travel after so many visits."""
        if visits == 0:
            return [], 1
        delivered, travelling = [], 0
        for choice in (None, *self.design.choices):
            leaving = self.step(*at, choice)
            arrived = leaving and self.step(*leaving)
            if not arrived:
                continue
            role, values, fields = arrived
            if role == self.design.sink:
                delivered.append((values[0], self.design.bytes_of(fields, payload)))
            else:
                further, still = self.follow(arrived, visits - 1, payload)
                delivered, travelling = delivered + further, travelling + still
        return delivered, travelling

    def sent(self, host, data, visits):
        """What is delivered of bytes that enter at a host, and how many copies travel."""
        packet = self.design.entered(data)
        at = packet and self.step(self.design.entry, [host], packet[0])
        if not at:
            return [], 0
        if at[0] != self.design.ingress:
            raise Unlike(f"the entry role sends to {at[0]}")
        return self.follow(at, visits, packet[1])


# ---- the comparisons


class Compared:
    """The bundle `new` of the design and the definitions that stand in the current folder as d.ccn and d.defs."""

    def __init__(self, program, texts, bundle, source):
        self.program, self.texts, self.bundle, self.source = program, texts, bundle, source
        self.counts = collections.Counter()

    def difference(self):
        """What differs, or nothing. Files that it makes stay in the folder."""
        for name, text in self.bundle.items():
            pathlib.Path(name).write_bytes(text)
        try:
            self.compare_packets()
            if TEXT_TESTS and self.source.randrange(8) == 0:
                self.compare_programs()
            if DESIGN_TESTS and self.source.randrange(8) == 0:
                self.compare_definitions()
        except Unlike as unlike:
            return str(unlike)
        return None

    def compare_packets(self):
        design = Design(*self.texts)
        hosts = [host[0] for host in json.loads(self.bundle["new.net.json"])["hosts"]]
        packets = [(self.source.choice(hosts), design.packet(self.source)) for _ in range(PACKETS if hosts else 0)]
        visits = self.source.choice([1, 2, 3, 5, 16])
        given = "".join(f"{host} {data.hex() or '-'}\n" for host, data in packets)
        pathlib.Path("chain.txt").write_text(given)
        done = self.program.run(["forward", "new", "chain.txt", "--hops", str(visits)])
        chain, wanted = Chain(self.program, design), ""
        if done.status == 10 and done.out == b"limit copies 65537 over 65536\n":
            self.counts["compared", "packets with too many copies"] += 1
            return
        try:
            for number, (host, data) in enumerate(packets, 1):
                delivered, travelling = chain.sent(host, data, visits)
                wanted += f"{number} delivered {len(delivered)} travelling {travelling}\n"
                wanted += "".join(f"> {to} {data.hex() or '-'}\n" for to, data in delivered)
                self.counts["compared", "deliveries"] += len(delivered)
        except TooMany:
            self.counts["compared", "packets with too many runs"] += 1
            wanted = None
        if done.status or done.err or wanted is not None and done.out != wanted.encode():
            raise Unlike(f"forward of {given.split()} in {visits} visits has status {done.status} and prints {done.out[:300]}, by hand it is {wanted and wanted[:300]}")
        self.counts["compared", "packets"] += len(packets)

    def compare_programs(self):
        """Each program of the bundle is read, printed, and then the same."""
        programs = sorted(name for name in self.bundle if name.endswith(".p4"))
        pathlib.Path("printed.txt").write_text("ask programs\n" + "".join(f"  same | printed {name}\n" for name in programs))
        done = self.program.run(["printed.txt"], TEXT_TESTS)
        if programs and done.status or done.err:
            raise Unlike(f"programs are printed otherwise than they were read: {done.out[:300]}")
        self.counts["compared", "programs"] += len(programs)

    def compare_definitions(self):
        """The text of the tables reads as the same tables, and compiles to the same bundle."""
        pathlib.Path("text.txt").write_text(f"design d.ccn\nask text\n\n  | {' '.join(tokens(self.texts[1]))}\n")
        done = self.program.run(["text.txt"], DESIGN_TESTS)
        found = re.search(rb"\n    found  ([^\n]*)\n1 cases, 1 differ\n$", done.out)
        if done.status != 1 or done.err or not found or b", which reads as others" in found[1]:
            raise Unlike(f"the text of the tables: {done.out[-300:]}")
        pathlib.Path("text.defs").write_bytes(found[1])
        compiled = self.program.run(["compile", "d.ccn", "text.defs", "two"])
        bundle = {f"new{path.name[3:]}": path.read_bytes() for path in pathlib.Path().glob("two.*")}
        if compiled.status or bundle != self.bundle:
            raise Unlike(f"the text of the tables compiles to another bundle: {compiled.out[:300]}")
        self.counts["compared", "definitions"] += 1
