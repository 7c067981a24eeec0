#!/usr/bin/env python3
"""Addresses as people write them, to and from what `cocoon` reads and prints. It reads the standard input, and prints on the standard output.

    tools/addresses.py texts [--back]         designs and definitions: 10.0.2.7, 10.0.2.0/24 and 00:00:5e:00:53:01 to literals, or back
    tools/addresses.py packets OUT [--back]   files of packets: lines `HOST : VALUE .. [+ PAYLOAD]`, a value for each field, to lines `HOST BYTES`, or back
    tools/addresses.py report OUT             what `forward` and `step` print, with addresses

Numbers of 32 bits are printed with dots and those of 48 bits with colons. Comments stay as they are. OUT is a bundle, which has the fields.
"""

import argparse
import re
import sys

from bundles import Bundle
from notation import COLONS, DOTTED, address, host_width, number, packet, told

COMMENT = r"//[^\n]*|/\*.*?\*/"
WRITTEN = re.compile(rf"(?P<comment>{COMMENT})|(?<![\w.:])(?:(?P<dotted>{DOTTED})(?:/(?P<length>\d+))?|(?P<colons>{COLONS}))(?![\w.:/])", re.S)
READ = re.compile(rf"(?P<comment>{COMMENT})|\b(?P<width>32|48)w(?P<value>0[xX][0-9a-fA-F]+|\d+)(?:\s*&&&\s*32w(?P<mask>0[xX]f*0*))?(?!\w)", re.S)


def literal(found):
    if found["comment"]:
        return found[0]
    if found["colons"]:
        return f"48w0x{number(found['colons']):012x}"
    value = number(found["dotted"])
    if found["length"] is None:
        return f"32w0x{value:08x}"
    length = int(found["length"])
    if length > 32:
        raise ValueError(f"{found[0]} is no prefix")
    mask = (1 << 32) - (1 << 32 - length)
    if value & ~mask:
        raise ValueError(f"{found[0]} has bits beyond its prefix")
    return f"32w0x{value:08x} &&& 32w0x{mask:08x}"


def written(found):
    if found["comment"]:
        return found[0]
    width, value = int(found["width"]), int(found["value"], 0 if found["value"][1:2] in ("x", "X") else 10)
    if value >> width:
        return found[0]
    if not found["mask"]:
        return address(value, width)
    zeros = (1 << 32) - int(found["mask"], 16)
    if width != 32 or zeros & zeros - 1 or value & zeros - 1:
        return found[0]
    return f"{address(value, 32)}/{33 - zeros.bit_length()}"


def packets(bundle, is_back):
    for line in sys.stdin.read().splitlines():
        if line and is_back:
            host, data = packet(bundle, line)
            yield f"{address(host, host_width(bundle))} {told(bundle, data)}"
        elif line:
            host, data = packet(bundle, line)
            yield f"{host} {data.hex() or '-'}"
        else:
            yield line


def report(bundle):
    for line in sys.stdin.read().splitlines():
        role, mark, fields = line.partition(" : ")
        if line.startswith("> "):
            host, data = packet(bundle, line[2:])
            yield f"> {address(host, host_width(bundle))} {told(bundle, data)}"
        elif mark and len(fields.split()) == len(bundle.layout):
            # (of the parameters of a role no width is known: what needs more than 16 bits is taken as a host's)
            values = [address(int(it), host_width(bundle)) if int(it) >> 16 else it for it in role.split()[1:]]
            shown = [address(int(it), width) for it, (_, width) in zip(fields.split(), bundle.layout)]
            yield f"{' '.join([role.split()[0], *values])} : {' '.join(shown)}"
        else:
            yield line


def main():
    words = argparse.ArgumentParser(description=__doc__, formatter_class=argparse.RawDescriptionHelpFormatter)
    kinds = words.add_subparsers(dest="kind", required=True)
    for kind in ("texts", "packets", "report"):
        one = kinds.add_parser(kind)
        if kind != "texts":
            one.add_argument("OUT")
        if kind != "report":
            one.add_argument("--back", action="store_true")
    words = words.parse_args()
    try:
        if words.kind == "texts":
            text = sys.stdin.read()
            sys.stdout.write(READ.sub(written, text) if words.back else WRITTEN.sub(literal, text))
        else:
            made = packets(Bundle(words.OUT), words.back) if words.kind == "packets" else report(Bundle(words.OUT))
            print("\n".join(made))
    except ValueError as error:
        sys.exit(f"addresses: {error}")


if __name__ == "__main__":
    main()
