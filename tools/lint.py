#!/usr/bin/env python3
"""What is likely a mistake in a network, with its place in the definitions.

    tools/lint.py DESIGN DEFS OUT

OUT is the bundle that was compiled of both. It prints a line for each remark, `FILE:LINE: REMARK`, and ends with status 1 if there is one. What is
remarked may be meant, and a network without a remark may be wrong: `cocoon` promises what the design says, and no tool knows what was meant.
"""

import argparse
import typing

from bundles import Bundle, said
from rounds import rounds
from texts import Design, definitions


class Remark(typing.NamedTuple):
    """A remark with its place. Its marks are hosts, by their numbers, and ports, each with its switch."""

    place: str
    text: str
    marks: set


class Lint:
    def __init__(self, design, defs, out):
        self.design, self.rows, self.bundle = Design(design), definitions(defs), Bundle(out)
        self.files, self.remarks = (design, defs), []

    def remark(self, lines, text, marks=(), of_design=False):
        """Notes a remark at the first of some lines, and which hosts and ports it speaks of."""
        lines = sorted(set(lines)) or [1]
        more = f" (lines {', '.join(map(str, lines))})" if len(lines) > 1 else ""
        self.remarks.append(Remark(f"{self.files[0 if of_design else 1]}:{lines[0]}", text + more, {*marks}))

    def deciding(self, *values, truths=False):
        """The lines of the rows that decide of these values, of all functions of numbers, or of truth values, with as many parameters."""
        found = [next((it for it in rows if it.matches(values)), None) for rows in self.rows.values()]
        return [row.line for row in found if row and row.is_truth == truths]

    # ---- what is attached and linked

    def hosts(self):
        places = {}
        for host, place in self.bundle.hosts.items():
            if not place:
                self.remark(self.deciding(host, truths=True), f"host {host} is attached to no port", [host])
            else:
                places.setdefault(place, []).append(host)
        for (switch, port), hosts in places.items():
            if len(hosts) > 1:
                lines = [line for host in hosts for line in self.deciding(host)]
                self.remark(lines, f"hosts {', '.join(map(str, hosts))} are all attached to port {port} of switch {switch}", [*hosts, (switch, port)])
            end = self.bundle.links.get((switch, port))
            if len(hosts) == 1 and end != ("host", hosts[0]):
                lines = self.deciding(switch, port) + self.deciding(*hosts)
                self.remark(lines, f"host {hosts[0]} sends to port {port} of switch {switch}, which leads to {said(end)}", [*hosts, (switch, port)])

    def trunks(self):
        for place, end in self.bundle.links.items():
            if end[0] == "switch" and self.bundle.links.get(end[1:]) != ("switch", *place):
                back = said(self.bundle.links.get(end[1:]))
                told = f"the trunk from switch {place[0]}, port {place[1]}, leads to {said(end)}, and that leads back to {back}"
                self.remark(self.deciding(*place), told, [place, end[1:]])

    def members(self):
        for switch in [*self.bundle.switches.values()][:1]:
            found = [(group, member) for group, members in switch.groups.items() for member in members if member >= self.bundle.ports]
            for group, member in found if switch.program.sends_to_member() else []:
                lines = [row.line for name in self.design.forks for row in self.rows.get(name, []) if row.result and row.keys[-1][0] == member]
                self.remark(lines, f"group {group} has the member {member}, and switches have the ports 0 to {self.bundle.ports - 1}")

    # ---- rows

    def hidden(self):
        for name, rows in self.rows.items():
            for at, row in enumerate(rows):
                first = next((it for it in rows[:at] if it.covers(row)), None)
                denied = next((it for it in rows[:at] if it.meets(row) and it.result and not row.result), None) if row.is_truth else None
                if first and denied:
                    self.remark([row.line], f"`{name}` denies here what line {denied.line} permits before: this row never decides")
                elif first:
                    self.remark([row.line], f"this row of `{name}` never decides: line {first.line} matches all that it matches, and comes first")
                elif denied:
                    self.remark([row.line], f"`{name}` denies here what line {denied.line} permits before, in part")

    def counters(self):
        for line, field, sign, is_tested in self.design.counters():
            if not is_tested:
                wraps = "below 0" if sign == "-" else "above its largest value"
                self.remark([line], f"`pkt.{field}` is counted and never tested before: {wraps} it wraps", of_design=True)

    # ---- packets that go round

    def loops(self):
        counted = {"h.h_" + field.replace(".", ".f_") for _, field, _, _ in self.design.counters()}
        for around, sent in rounds(self.bundle, self.design.host_width, counted):
            lines = [line for one in around for looked in one.looked for line in self.lines_of(one.switch, looked)]
            goes = " -> ".join(f"switch {one.switch}, port {one.exit}" for one in around)
            self.remark(lines, f"packets go round: {goes}; as {sent}", [(one.switch, one.exit) for one in around])

    def lines_of(self, switch, looked):
        """The line of the row that decided: the function is one that has the table's rows."""
        wanted = [(tuple(map(tuple, row["key"])), row["value"]) for row in self.bundle.switches[switch].tables[looked.table]["rows"]]
        for rows in self.rows.values():
            if looked.row and [(tuple((value & mask, mask) for value, mask in row.keys), row.result) for row in rows] == wanted:
                return [rows[looked.row - 1].line]
        return []


def remarks(design, defs, out):
    lint = Lint(design, defs, out)
    for check in (lint.hosts, lint.trunks, lint.members, lint.hidden, lint.counters, lint.loops):
        check()
    return lint.remarks


def main():
    words = argparse.ArgumentParser(description=__doc__, formatter_class=argparse.RawDescriptionHelpFormatter)
    for word in ("DESIGN", "DEFS", "OUT"):
        words.add_argument(word)
    words = words.parse_args()
    found = remarks(words.DESIGN, words.DEFS, words.OUT)
    for remark in found:
        print(f"{remark.place}: {remark.text}")
    return 1 if found else 0


if __name__ == "__main__":
    raise SystemExit(main())
