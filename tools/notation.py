"""Addresses as people write them: numbers of 32 bits with dots, numbers of 48 bits with colons, all others in decimal."""

import re

from bundles import joined, parted

DOTTED = r"\d{1,3}(?:\.\d{1,3}){3}"
COLONS = r"[0-9a-fA-F]{2}(?::[0-9a-fA-F]{2}){5}"
ADDRESS = re.compile(rf"{DOTTED}|{COLONS}")


def number(text):
    """The number that an address, or a number in decimal or hexadecimal, stands for."""
    if re.fullmatch(DOTTED, text):
        parts = [*map(int, text.split("."))]
        if max(parts) > 255:
            raise ValueError(f"{text} is no address")
        return int.from_bytes(bytes(parts), "big")
    return int(text.replace(":", ""), 16) if re.fullmatch(COLONS, text) else int(text, 0)


def address(value, width):
    """A number of this width as people write it."""
    if width == 32:
        return ".".join(map(str, value.to_bytes(4, "big")))
    return value.to_bytes(6, "big").hex(":") if width == 48 else str(value)


def host_width(bundle):
    """How wide the addresses of hosts are: as the narrowest of 32 and 48 bits that some field has and that all hosts fit, where some host needs more than 16."""
    most = max(bundle.hosts, default=0)
    widths = [width for width in (32, 48) if most >> width == 0 and width in (it for _, it in bundle.layout)]
    return widths[0] if most >> 16 and widths else 0


def packet(bundle, text):
    """The host and the bytes of a line `HOST : VALUE .. [+ PAYLOAD]`, or `HOST BYTES` as the program reads it."""
    head, mark, rest = text.partition(" : ")
    if not mark:
        host, data = text.split()
        return number(host), b"" if data == "-" else bytes.fromhex(data)
    values, _, payload = rest.partition(" + ")
    values = [number(value) for value in values.split()]
    if len(values) != len(bundle.layout):
        raise ValueError(f"{len(values)} values, and a packet has {len(bundle.layout)} fields")
    for value, (name, width) in zip(values, bundle.layout):
        if value >> width:
            raise ValueError(f"{value} does not fit {name.removeprefix('h.h_').replace('.f_', '.')}, of {width} bits")
    return number(head), joined(bundle.layout, values) + bytes.fromhex(payload)


def told(bundle, data):
    """A packet's bytes as its fields and its payload; as they are where they are too few."""
    parts = parted(bundle.layout, data)
    if not parts:
        return data.hex() or "-"
    values = " ".join(address(value, width) for value, (_, width) in zip(parts[0], bundle.layout))
    return f": {values} + {parts[1].hex()}" if parts[1] else f": {values}"
