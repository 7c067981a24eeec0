"""Packets that go round in a bundle, found by following packets of the numbers that its rows and hosts have."""

import itertools
import typing

from bundles import parted


class Stand(typing.NamedTuple):
    """A copy before a switch; then by which port it leaves, and what was looked up."""

    switch: int
    port: int
    data: bytes
    exit: int | None = None
    looked: tuple = ()


class Search:
    def __init__(self, bundle, counted):
        self.bundle, self.counted, self.seen, self.found = bundle, counted, set(), set()

    def key(self, stand):
        """Where a copy is, with its fields except for those that are counted."""
        values = parted(self.bundle.layout, stand.data)[0]
        return stand.switch, stand.port, tuple(value for (name, _), value in zip(self.bundle.layout, values) if name not in self.counted)

    def walk(self, way):
        """Each new round that a copy makes on from here."""
        here = way[-1]
        known = [at for at, one in enumerate(way[:-1]) if self.key(one) == self.key(here)]
        if known:
            around = way[known[0] : -1]
            places = frozenset((one.switch, one.port) for one in around)
            if places not in self.found:
                self.found.add(places)
                yield around
        elif here[:3] not in self.seen:
            self.seen.add(here[:3])
            for copy in self.bundle.switches[here.switch].visit(here.port, here.data):
                end = self.bundle.links.get((here.switch, copy.port))
                if end and end[0] == "switch":
                    yield from self.walk([*way[:-1], here._replace(exit=copy.port, looked=tuple(copy.looked)), Stand(end[1], end[2], copy.data)])


def rounds(bundle, host_width, counted):
    """The rounds, each as the stands of a copy from its first visit of a place to the next one there, with the packet that was sent."""
    search = Search(bundle, counted)
    for data, (host, place) in itertools.product(bundle.samples(host_width, counted), bundle.hosts.items()):
        for around in search.walk([Stand(*place, data)]) if place else ():
            yield around, f"{data.hex()} from host {host}"
