#!/usr/bin/env python3
"""The rows and groups of a switch of a bundle, as commands for the command line of bmv2's simple_switch; docs/TARGETS.md says how they are used.

    tools/bmv2.py OUT SWITCH
"""

import argparse
import sys

from bundles import Bundle

CONTROL = "V1Ingress.cocoon"


def commands(switch):
    for number, table in switch.tables.items():
        name, action = f"{CONTROL}.t{number}", f"{CONTROL}.a{number}"
        yield f"table_set_default {name} {action} {table['default']:#x}"
        is_exact, done = switch.program.tables[number].is_exact, set()
        for priority, row in enumerate(table["rows"], 1):
            key = " ".join(f"{value:#x}" if is_exact else f"{value & mask:#x}&&&{mask:#x}" for value, mask in row["key"])
            # (the first row of a key decides, and bmv2 takes no second one)
            if key not in done:
                done.add(key)
                yield f"table_add {name} {action} {key} => {row['value']:#x}" + ("" if is_exact else f" {priority}")
    handle = 0
    for group, members in switch.groups.items():
        yield f"mc_mgrp_create {group}"
        for member in members:
            yield f"mc_node_create {member} {member}"
            yield f"mc_node_associate {group} {handle}"
            handle += 1


def main():
    words = argparse.ArgumentParser(description=__doc__, formatter_class=argparse.RawDescriptionHelpFormatter)
    words.add_argument("OUT")
    words.add_argument("SWITCH", type=int)
    words = words.parse_args()
    bundle = Bundle(words.OUT)
    if words.SWITCH not in bundle.switches:
        sys.exit(f"{words.OUT} has no switch {words.SWITCH}")
    print("\n".join(commands(bundle.switches[words.SWITCH])))


if __name__ == "__main__":
    main()
