#!/usr/bin/env python3
"""A file of packets with the hosts at which each has to arrive, as a test of a bundle: `cocoon forward` is asked, and what differs is printed.

    tools/intents.py OUT INTENTS [--hops N] [--program COCOON]

A line of INTENTS is a packet, as a file of packets has it or `HOST : VALUE .. [+ PAYLOAD]` with addresses; ` -> `; and the hosts, or `-` for none.
Lines that begin with `#` and empty ones are passed over. Each packet that arrives elsewhere has a line `FILE:LINE: ..`; then the status is 1.
"""

import argparse
import pathlib
import subprocess
import sys
import tempfile

from bundles import Bundle
from notation import address, host_width, number, packet

TOP = pathlib.Path(__file__).resolve().parent.parent


def intents(bundle, path):
    """Each packet with its line, its host and bytes, and the hosts that are wanted."""
    for line, text in enumerate(pathlib.Path(path).read_text().splitlines(), 1):
        sent, mark, wanted = text.partition(" -> ")
        if text.startswith("#") or not text.strip():
            continue
        try:
            if not mark:
                raise ValueError("it has no ` -> `")
            yield line, packet(bundle, sent), sorted(number(host) for host in wanted.split() if host != "-")
        except ValueError as error:
            sys.exit(f"{path}:{line}: {error}")


def arrived(program, out, sent, hops):
    """The hosts at which each packet arrives."""
    with tempfile.NamedTemporaryFile("w", suffix=".txt") as file:
        file.write("".join(f"{host} {data.hex() or '-'}\n" for host, data in sent))
        file.flush()
        ran = subprocess.run([program, "forward", out, file.name, *hops], stdout=subprocess.PIPE, text=True)
    if ran.returncode:
        sys.exit(ran.stdout.strip())
    found = []
    for line in ran.stdout.splitlines():
        if line.startswith("> "):
            found[-1].append(int(line.split()[1]))
        else:
            found.append([])
    return [sorted(hosts) for hosts in found]


def main():
    words = argparse.ArgumentParser(description=__doc__, formatter_class=argparse.RawDescriptionHelpFormatter)
    words.add_argument("OUT")
    words.add_argument("INTENTS")
    words.add_argument("--hops", metavar="N")
    words.add_argument("--program", default=TOP / "cocoon", metavar="COCOON")
    words = words.parse_args()
    bundle = Bundle(words.OUT)
    asked = [*intents(bundle, words.INTENTS)]
    found = arrived(words.program, words.OUT, [sent for _, sent, _ in asked], ["--hops", words.hops] if words.hops else [])
    wrong = [(line, wanted, got) for (line, _, wanted), got in zip(asked, found) if wanted != got]
    for line, *both in wrong:
        wanted, got = (", ".join(address(host, host_width(bundle)) for host in hosts) or "nowhere" for hosts in both)
        print(f"{words.INTENTS}:{line}: it is to arrive at {wanted}, and arrives at {got}".replace("at nowhere", "nowhere"))
    return 1 if wrong else 0


if __name__ == "__main__":
    raise SystemExit(main())
