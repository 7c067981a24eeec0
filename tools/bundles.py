"""Bundles: their files are read, and packets are followed through them. docs/FORMATS.md says what they mean; nothing here is proved."""

import hashlib
import itertools
import json
import pathlib
import sys
import typing

from programs import Apply, If, Program, Return, Set, cut

DROPS, LEAVES, COPIES = 0, 1, 2
MOST_SAMPLES = 4_096


class Looked(typing.NamedTuple):
    """A table that was applied: its values, and the row that decided, from 1; None of the default."""

    line: int
    table: int
    values: list
    row: int | None
    result: int


class Copy(typing.NamedTuple):
    """What becomes of one copy at a switch: the port and the bytes, or why it was dropped; and what decided."""

    member: int | None
    port: int | None
    data: bytes
    why: str
    looked: list


class Switch:
    def __init__(self, number, program, rows):
        self.number, self.program = number, Program(program)
        self.tables = {table["table"]: table for table in rows["tables"]}
        self.groups = {number: members for number, members in rows["groups"]}

    def look(self, number, values):
        table = self.tables[number]
        for at, row in enumerate(table["rows"], 1):
            if all(value & mask == known & mask for value, (known, mask) in zip(values, row["key"])):
                return at, row["value"]
        return None, table["default"]

    def run(self, block, state, looked):
        """Runs statements; the line of the `return` that ended them, or None."""
        for one in block:
            if isinstance(one, Set):
                state[one.target] = one.value(state)
            elif isinstance(one, Return):
                return one.line
            elif isinstance(one, If):
                ended = self.run(one.then if one.test(state) else one.other, state, looked)
                if ended:
                    return ended
            elif isinstance(one, Apply):
                table = self.program.tables[one.table]
                values = [state[key] for key in table.keys]
                row, state[table.result] = self.look(one.table, values)
                looked.append(Looked(one.line, one.table, values, row, state[table.result]))
        return None

    def copy(self, member, state, payload, looked, ended):
        """What leaves in this state, which a control ended at this line."""
        if state["verdict"] == DROPS:
            return Copy(member, None, b"", f"dropped by line {ended}" if ended else "dropped, since no line sends it", looked)
        emitted = joined(self.program.headers, [state[name] for name, _ in self.program.headers])
        return Copy(member, state["egress_port"], emitted + payload, f"sent by line {ended}", looked)

    def visit(self, port, data):
        """The copies that one visit makes of these bytes, in at a port."""
        parts = parted(self.program.headers, data)
        if not parts:
            return [Copy(None, None, b"", f"dropped: {len(data)} bytes are fewer than the headers have", [])]
        state, looked, payload = dict.fromkeys([*self.program.meta, "verdict", "egress_port", "group"], 0), [], parts[1]
        state.update({name: value for (name, _), value in zip(self.program.headers, parts[0])}, port=port)
        ended = self.run(self.program.ingress, state, looked)
        if state["verdict"] != COPIES:
            return [self.copy(None, state, payload, looked, ended)]
        members = self.groups.get(state["group"], [])
        if not members:
            return [Copy(None, None, b"", f"dropped: group {state['group']} of line {ended} has no members", looked)]
        made = []
        for member in members:
            mine, seen = {**state, "rid": member, "verdict": DROPS, "egress_port": 0}, []
            made.append(self.copy(member, mine, payload, seen, self.run(self.program.egress, mine, seen)))
        return [made[0]._replace(looked=looked + made[0].looked), *made[1:]]


class Bundle:
    """The network of a bundle, by the files that its `net.json` names."""

    def __init__(self, name):
        self.name = name
        net = json.loads(self.read("net.json"))
        self.ports, self.digests = net["ports"], dict(map(tuple, net["files"]))
        self.hosts = {host[0]: tuple(host[1:]) for host in net["hosts"]}
        self.links = {(link[0], link[1]): (link[2], *link[3:]) for link in net["links"]}
        self.switches = {number: Switch(number, self.read(f"s{number}.p4"), json.loads(self.read(f"s{number}.rows.json"))) for number in net["switches"]}

    def read(self, kind):
        path = pathlib.Path(f"{self.name}.{kind}")
        try:
            found = path.read_bytes()
        except OSError as error:
            sys.exit(f"{path}: {error.strerror}")
        if kind != "net.json" and self.digests.get(kind) != hashlib.sha256(found).hexdigest():
            sys.exit(f"{path}: it is not the file that {self.name}.net.json names: compile again")
        return found.decode()

    @property
    def layout(self):
        """The fields of a packet, with their widths."""
        return next(iter(self.switches.values())).program.headers if self.switches else []

    def samples(self, host_width, counted=()):
        """Packets of the numbers that rows have, and hosts, whose numbers are so wide. Fields that are counted have their largest value."""
        values = {width: {0} for _, width in self.layout}
        values.setdefault(host_width, set()).update(self.hosts)
        for switch in [*self.switches.values()][:1]:
            for number, table in switch.tables.items():
                for place, meta in enumerate(switch.program.tables[number].keys):
                    values.setdefault(switch.program.widths[meta], set()).update(row["key"][place][0] for row in table["rows"])
        choices = [[cut(width)] if name in counted else sorted(values[width]) for name, width in self.layout]
        return [joined(self.layout, chosen) for chosen in itertools.islice(itertools.product(*choices), MOST_SAMPLES)]


def joined(layout, values):
    """The bytes of a packet with these values of its fields."""
    bits = 0
    for (_, width), value in zip(layout, values):
        bits = bits << width | value & cut(width)
    return bits.to_bytes(sum(width for _, width in layout) // 8, "big")


def parted(layout, data):
    """The values of the fields of a packet's bytes, and its payload; None of bytes that are too few."""
    size = sum(width for _, width in layout) // 8
    if len(data) < size:
        return None
    bits, values = int.from_bytes(data[:size], "big"), []
    for _, width in reversed(layout):
        values.insert(0, bits & cut(width))
        bits >>= width
    return values, data[size:]


def said(end):
    """Where a link leads."""
    if end is None:
        return "nowhere"
    return f"host {end[1]}" if end[0] == "host" else f"switch {end[1]}, port {end[2]}"


def packets(path):
    """The packets of a file, with their hosts."""
    try:
        lines = [line.split() for line in pathlib.Path(path).read_text().splitlines()]
        return [(int(words[0]), b"" if words[1] == "-" else bytes.fromhex(words[1])) for words in lines if words]
    except (OSError, ValueError, IndexError) as error:
        sys.exit(f"{path}: {error}")
