#!/usr/bin/env python3
"""A bundle as a picture: its switches, trunks and hosts, with the number of the port at each end.

    tools/picture.py OUT [--dot]                            an SVG on the standard output, or a graph for Graphviz
    tools/picture.py OUT --lint DESIGN DEFS                 with the remarks of tools/lint.py, and what they speak of in red
    tools/picture.py OUT --trace PACKETS NUMBER             with the way of one packet of a file in red
"""

import argparse
import sys
import textwrap
from xml.sax.saxutils import escape

from bundles import Bundle, packets
from lint import remarks
from notation import address, host_width
from trace import HOPS, Way

STEP, ROW, EDGE, BOX, HOST, LETTER = 120, 104, 24, (112, 46), (104, 34), 7
STYLE = """  <style>
    text { font: 13px sans-serif; fill: #24292f; text-anchor: middle }
    .small { font-size: 11px; fill: #57606a }
    line { stroke: #57606a; stroke-width: 1.5 } .trunk { stroke-width: 3 }
    rect { fill: #f6f8fa; stroke: #57606a }
    .switch { fill: #ddf4ff; stroke: #0969da } .alone { stroke-dasharray: 4 }
    line.red, rect.red { stroke: #cf222e; stroke-width: 3 }
    text.red { font-size: 12px; fill: #cf222e; text-anchor: start }
    @media (prefers-color-scheme: dark) {
      text { fill: #e6edf3 }
      .small { fill: #9da7b3 } line { stroke: #9da7b3 }
      rect { fill: #22272e; stroke: #9da7b3 } .switch { fill: #10304f; stroke: #58a6ff }
      line.red, rect.red { stroke: #ff7b72 } text.red { fill: #ff7b72 }
    }
  </style>"""


class Picture:
    def __init__(self, bundle, marks, lines):
        self.bundle, self.marks, self.lines, self.width = bundle, marks, lines, host_width(bundle)
        self.at, self.hosts = {}, {number: [] for number in bundle.switches}
        for host, place in bundle.hosts.items():
            if place:
                self.hosts[place[0]].append((place[1], host))
        self.alone = [host for host, place in bundle.hosts.items() if not place]
        self.place()

    def tiers(self):
        """The switches by how far they are from one with hosts, the farthest first; what no trunk joins to one comes with those that have hosts."""
        left, tier = set(self.bundle.switches), {number for number, hosts in self.hosts.items() if hosts}
        found, joined = [], {(place[0], end[1]) for place, end in self.bundle.links.items() if end[0] == "switch"}
        while tier:
            found.append(sorted(tier))
            left -= tier
            tier = {b for pair in joined for a, b in (pair, pair[::-1]) if a in found[-1] and b in left}
        if left:
            found[:1] = [sorted([*left, *(found[0] if found else [])])]
        return found[::-1]

    def place(self):
        tiers = self.tiers()
        widths = [[STEP * max(1, len(self.hosts[number])) for number in tier] for tier in tiers]
        self.wide = max([sum(row) for row in widths] + [STEP * len(self.alone), STEP]) + 2 * EDGE
        for level, (tier, row) in enumerate(zip(tiers, widths)):
            left, stretch = EDGE, (self.wide - 2 * EDGE) / sum(row)
            for number, width in zip(tier, (stretch * it for it in row)):
                self.at[number] = (left + width / 2, EDGE + BOX[1] / 2 + ROW * level)
                for place, (_, host) in enumerate(sorted(self.hosts[number])):
                    self.at["host", host] = (left + (place + 0.5) * width / len(self.hosts[number]), EDGE + BOX[1] / 2 + ROW * (level + 1))
                left += width
        self.lines = [part for line in self.lines for part in textwrap.wrap(line, int((self.wide - 2 * EDGE) / LETTER))]
        bottom = max([y for _, y in self.at.values()], default=0)
        self.at |= {("host", host): (EDGE + STEP * (place + 0.5), bottom + ROW) for place, host in enumerate(self.alone)}
        self.high = max([y for _, y in self.at.values()], default=0) + BOX[1] / 2 + EDGE + 18 * len(self.lines)

    def edges(self):
        """Each edge once: what it joins, the port at each end or None, and whether a mark is on it."""
        done = set()
        for place, end in self.bundle.links.items():
            if end[0] == "switch" and (end[1:], place) not in done:
                done.add((place, end[1:]))
                yield (place[0], end[1]), (place[1], end[2]), "trunk", place in self.marks or end[1:] in self.marks
        for host, place in self.bundle.hosts.items():
            if place:
                yield (place[0], ("host", host)), (place[1], None), "", host in self.marks or place in self.marks

    def svg(self):
        yield f'<svg xmlns="http://www.w3.org/2000/svg" width="{self.wide:.0f}" height="{self.high:.0f}" viewBox="0 0 {self.wide:.0f} {self.high:.0f}"'
        yield f'  role="img" aria-label="{len(self.bundle.switches)} switches and {len(self.bundle.hosts)} hosts">'
        yield STYLE
        labels = []
        for ends, ports, kind, is_red in self.edges():
            (x1, y1), (x2, y2) = (self.at[end] for end in ends)
            name = " ".join([kind] * bool(kind) + ["red"] * is_red)
            yield f'  <line{f""" class="{name}" """.rstrip() if name else ""} x1="{x1:.0f}" y1="{y1:.0f}" x2="{x2:.0f}" y2="{y2:.0f}"/>'
            for port, (x, y), (to_x, to_y) in zip(ports, ((x1, y1), (x2, y2)), ((x2, y2), (x1, y1))):
                share = 34 / max(abs(to_y - y), 0.5 * abs(to_x - x), 1)
                aside, above = (0, -5) if y == to_y else (8, 4)
                labels += [f'  <text class="small" x="{x + (to_x - x) * share + aside:.0f}" y="{y + (to_y - y) * share + above:.0f}">{port}</text>'] * (port is not None)
        for key, (x, y) in self.at.items():
            is_host = isinstance(key, tuple)
            wide, high = HOST if is_host else BOX
            names = [] if is_host else ["switch"]
            names += ["alone"] * (is_host and key[1] in self.alone) + ["red"] * (is_host and key[1] in self.marks)
            told = address(key[1], self.width) if is_host else f"switch {key}"
            yield f'  <rect{f""" class="{" ".join(names)}" """.rstrip() if names else ""} x="{x - wide / 2:.0f}" y="{y - high / 2:.0f}" width="{wide}" height="{high}" rx="{3 if is_host else 8}"/>'
            yield f'  <text x="{x:.0f}" y="{y + 5:.0f}">{told}</text>'
        yield from labels
        for number, line in enumerate(self.lines):
            yield f'  <text class="red" x="{EDGE}" y="{self.high - 18 * (len(self.lines) - number) + 4:.0f}">{escape(line)}</text>'
        yield "</svg>"

    def dot(self):
        yield "graph network {"
        for key in self.at:
            name, shape = (f"host {address(key[1], self.width)}", "plaintext") if isinstance(key, tuple) else (f"switch {key}", "box")
            yield f'  "{name}" [shape={shape}];'
        for ends, ports, _, is_red in self.edges():
            names = [f"host {address(end[1], self.width)}" if isinstance(end, tuple) else f"switch {end}" for end in ends]
            told = [f'{side}="{port}"' for side, port in zip(("taillabel", "headlabel"), ports) if port is not None] + ['color="red"'] * is_red
            yield f'  "{names[0]}" -- "{names[1]}" [{", ".join(told)}];'
        yield "}"


def main():
    words = argparse.ArgumentParser(description=__doc__, formatter_class=argparse.RawDescriptionHelpFormatter)
    words.add_argument("OUT")
    words.add_argument("--dot", action="store_true")
    words.add_argument("--lint", nargs=2, metavar=("DESIGN", "DEFS"))
    words.add_argument("--trace", nargs=2, metavar=("PACKETS", "NUMBER"))
    words = words.parse_args()
    bundle, marks, lines = Bundle(words.OUT), set(), []
    if words.lint:
        found = remarks(*words.lint, words.OUT)
        marks = {mark for remark in found for mark in remark.marks}
        lines = [f"{remark.place}: {remark.text}" for remark in found]
    elif words.trace:
        sent = packets(words.trace[0])
        if not 1 <= int(words.trace[1]) <= len(sent):
            sys.exit(f"{words.trace[0]} has {len(sent)} packets")
        way, number = Way(bundle, HOPS), int(words.trace[1])
        way.enter(*sent[number - 1])
        marks = {sent[number - 1][0], *((switch, copy.port) for _, switch, _, copy, _ in way.visits)}
        lines = [f"packet {number}: delivered {len(way.delivered)} travelling {way.travelling}"]
    picture = Picture(bundle, marks, lines)
    print("\n".join(picture.dot() if words.dot else picture.svg()))


if __name__ == "__main__":
    main()
