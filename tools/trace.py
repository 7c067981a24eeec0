#!/usr/bin/env python3
"""A packet's way through a bundle, visit by visit: which row or line decided, where each copy went, and why others were dropped.

    tools/trace.py OUT PACKETS [--hops N]

The lines that are not indented are those that `cocoon forward` prints of the same bundle and packets.
"""

import argparse
import sys

from bundles import Bundle, packets

HOPS, MOST_HOPS, MOST_COPIES = 16, 64, 65_536


class Way:
    """One packet's copies, followed from its host: what is told of them, what is delivered, and how many travel on."""

    def __init__(self, bundle, hops):
        self.bundle, self.hops, self.told, self.delivered, self.travelling, self.runs = bundle, hops, [], [], 0, 0
        # (of each visit: switch, port, and the copy that went on)
        self.visits = []

    def tell(self, depth, text):
        self.told.append("  " * (depth + 1) + text)

    def enter(self, host, data):
        place = self.bundle.hosts[host]
        if not place:
            self.tell(0, f"host {host} is attached to no port")
            return
        self.visit(0, *place, data)

    def visit(self, depth, switch, port, data):
        if depth == self.hops:
            self.travelling += 1
            self.tell(depth, f"still on its way after {depth} visits, before switch {switch}, port {port}")
            return
        self.tell(depth, f"switch {switch}, in at port {port}: {data.hex() or '-'}")
        copies = self.bundle.switches[switch].visit(port, data)
        self.runs += 1 + sum(copy.member is not None for copy in copies)
        if self.runs > MOST_COPIES:
            sys.exit(f"its copies make more than {MOST_COPIES} runs")
        for copy in copies:
            for looked in copy.looked:
                row = "the default" if looked.row is None else f"row {looked.row}"
                self.tell(depth + 1, f"line {looked.line}: t{looked.table}({', '.join(map(str, looked.values))}) = {looked.result}, by {row}")
            self.follow(depth, switch, port, copy)

    def follow(self, depth, switch, port, copy):
        of = "" if copy.member is None else f"copy {copy.member} "
        if copy.port is None:
            self.tell(depth + 1, of + copy.why)
            return
        end = self.bundle.links.get((switch, copy.port))
        self.visits.append((depth, switch, port, copy, end))
        if end is None:
            self.tell(depth + 1, f"{of}{copy.why} to port {copy.port}, which leads nowhere: dropped")
        elif end[0] == "host":
            self.tell(depth + 1, f"{of}{copy.why} to port {copy.port}, which leads to host {end[1]}: delivered")
            self.delivered.append((end[1], copy.data))
        else:
            self.tell(depth + 1, f"{of}{copy.why} to port {copy.port}, which leads to switch {end[1]}")
            self.visit(depth + 1, end[1], end[2], copy.data)


def main():
    words = argparse.ArgumentParser(description=__doc__, formatter_class=argparse.RawDescriptionHelpFormatter)
    words.add_argument("out", metavar="OUT")
    words.add_argument("packets", metavar="PACKETS")
    words.add_argument("--hops", type=int, default=HOPS, choices=range(1, MOST_HOPS + 1), metavar="N")
    words = words.parse_args()
    bundle = Bundle(words.out)
    for number, (host, data) in enumerate(packets(words.packets), 1):
        if host not in bundle.hosts:
            sys.exit(f"{words.packets}: the network has no host {host}")
        way = Way(bundle, words.hops)
        way.enter(host, data)
        print(f"{number} delivered {len(way.delivered)} travelling {way.travelling}")
        for at, copy in way.delivered:
            print(f"> {at} {copy.hex() or '-'}")
        print("\n".join(way.told))


if __name__ == "__main__":
    main()
