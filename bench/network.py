#!/usr/bin/env python3
"""Writes a recording of a network and of changes to it, to standard output.

    bench/network.py grid SIDE       SIDE x SIDE routers, point-to-point links between neighbours
    bench/network.py ring ROUTERS    a ring of routers
    bench/network.py random ROUTERS  a connected network of degree four on average, with transit networks
    bench/network.py areas ROUTERS   a backbone and two areas of so many routers each
    bench/network.py externals COUNT a random network of 300 routers, one of which has so many external routes

An area holds at most 16,384 routers, and an AS 65,536 external routes: more are refused.

Options: --changes N, how many events follow once all LSAs are there (200 unless given; a metric that changes, a link
that goes or comes, a stub link that changes its metric, a refresh, an external route at another metric), and --seed N.
One seed always writes the same recording. The calculating router is 10.0.0.1, a corner of the grid and a member of each
area.
"""

import argparse
import random

STUB_LINKS = 3
# What `abr` holds of an area and of an AS, and how large the network is beside external routes.
MOST_ROUTERS = 16384
MOST_EXTERNALS = 65536
ROUTERS_BESIDE_EXTERNALS = 300


def address(number):
    return ".".join(str(number >> shift & 255) for shift in (24, 16, 8, 0))


def checksum(lsa):
    """The Fletcher checksum of an LSA, its age left out (RFC 2328, 12.1.7)."""
    c0 = c1 = 0
    for byte in lsa[2:]:
        c0 = (c0 + byte) % 255
        c1 = (c1 + c0) % 255
    behind = len(lsa) - 17  # bytes from the second byte of the field on
    x = (behind * c0 - c1) % 255 or 255
    y = (510 - c0 - x) % 255 or 255
    return bytes([x, y])


def lsa(kind, number, router, sequence, body):
    """An LSA of age 1 (RFC 2328, A.4.1)."""
    header = bytes([0, 1, 2, kind]) + number.to_bytes(4, "big") + router.to_bytes(4, "big")
    header += (0x80000000 + sequence).to_bytes(4, "big")
    rest = (20 + len(body)).to_bytes(2, "big") + body
    return header + checksum(header + b"\0\0" + rest) + rest


def link(number, detail, kind, metric):
    return number.to_bytes(4, "big") + detail.to_bytes(4, "big") + bytes([kind, 0]) + metric.to_bytes(2, "big")


class Area:
    """Routers of an area with point-to-point links, transit networks and stub links."""

    def __init__(self, number, first, count, choose):
        self.number = number
        self.root = 0x0A000001
        self.routers = [self.root] + [first + n for n in range(1, count)]
        self.choose = choose
        self.links = {}  # (router, neighbour) -> metric
        self.lans = []  # lists of members
        self.stubs = {r: [choose.randint(1, 10) for _ in range(STUB_LINKS)] for r in self.routers}
        self.sequence = {r: 0 for r in self.routers}
        self.places = {r: n for n, r in enumerate(self.routers)}
        self.boundary = None  # the AS boundary router, if there is one

    def join(self, a, b):
        for ends in ((a, b), (b, a)):
            self.links[ends] = self.choose.randint(1, 10)

    def point(self, a, b):
        """The address of router a on its link to router b."""
        low, high = sorted((self.places[a], self.places[b]))
        base = 0x60000000 + (self.number << 24) + ((low * len(self.routers) + high) << 2)
        return base + (1 if a < b else 2)

    def member(self, lan, router):
        """The address of a router on a transit network."""
        return 0xC6000000 + (self.number << 20) + (lan << 8) + 1 + self.lans[lan].index(router)

    def router_lsa(self, router):
        self.sequence[router] += 1
        links = []
        for (a, b), metric in self.links.items():
            if a == router:
                links.append(link(b, self.point(a, b), 1, metric))
        for lan, members in enumerate(self.lans):
            if router in members:
                links.append(link(self.member(lan, members[0]), self.member(lan, router), 2, 10))
        place = self.places[router]
        for n, metric in enumerate(self.stubs[router]):
            prefix = 0x14000000 + (self.number << 24) + ((place * STUB_LINKS + n) << 8)
            links.append(link(prefix, 0xFFFFFF00, 3, metric))
        flags = 2 if router == self.boundary else 0
        body = bytes([flags, 0]) + len(links).to_bytes(2, "big") + b"".join(links)
        return lsa(1, router, router, self.sequence[router], body)

    def network_lsa(self, lan):
        members = self.lans[lan]
        body = (0xFFFFFF00).to_bytes(4, "big") + b"".join(r.to_bytes(4, "big") for r in members)
        return lsa(2, self.member(lan, members[0]), members[0], 1, body)

    def interfaces(self):
        """Address and peer of each interface of the calculating router."""
        for a, b in self.links:
            if a == self.root:
                yield self.point(a, b), self.point(b, a)
        for lan, members in enumerate(self.lans):
            if self.root in members:
                yield self.member(lan, self.root), 0

    def install(self, lsa_bytes):
        return f"install {address(self.number)} {lsa_bytes.hex()}"

    def change(self):
        """An event: something of some router's LSA differs."""
        what = self.choose.random()
        router = self.choose.choice(self.routers)
        own = [ends for ends in self.links if ends[0] == router]
        if what < 0.5 and own:
            self.links[self.choose.choice(own)] = self.choose.randint(1, 10)
        elif what < 0.6 and len(own) > 1:
            ends = self.choose.choice(own)
            del self.links[ends]
            line = self.install(self.router_lsa(router))
            self.links[ends] = self.choose.randint(1, 10)
            return [line, self.install(self.router_lsa(router))]
        elif what < 0.9:
            self.stubs[router][self.choose.randrange(STUB_LINKS)] = self.choose.randint(1, 10)
        return [self.install(self.router_lsa(router))]


class Externals:
    """External routes of type 2 that one AS boundary router advertises."""

    def __init__(self, count, router, choose):
        self.router = router
        self.choose = choose
        self.sequence = [0] * count

    def install(self, n):
        self.sequence[n] += 1
        prefix = 0x30000000 + (n << 8)
        body = (0xFFFFFF00).to_bytes(4, "big") + (0x80000000 + self.choose.randint(1, 100)).to_bytes(4, "big") + bytes(8)
        return f"install as {lsa(5, prefix, self.router, self.sequence[n], body).hex()}"

    def change(self):
        """An event: the metric of some external route differs."""
        return [self.install(self.choose.randrange(len(self.sequence)))]


def grid(side, choose):
    area = Area(0, 0x0A000001, side * side, choose)
    for row in range(side):
        for column in range(side):
            here = area.routers[row * side + column]
            if column + 1 < side:
                area.join(here, area.routers[row * side + column + 1])
            if row + 1 < side:
                area.join(here, area.routers[(row + 1) * side + column])
    return [area]


def ring(count, choose):
    area = Area(0, 0x0A000001, count, choose)
    for n in range(count):
        area.join(area.routers[n], area.routers[(n + 1) % count])
    return [area]


def fill(area, choose):
    """A tree and chords, four links a router on average, and a transit network for each ten routers."""
    count = len(area.routers)
    for n in range(1, count):
        area.join(area.routers[n], area.routers[choose.randrange(n)])
    for _ in range(count):
        a, b = choose.sample(area.routers, 2)
        area.join(a, b)
    for _ in range(count // 10):
        area.lans.append(choose.sample(area.routers, min(count, 4)))
    return area


def networks(arguments, choose):
    if arguments.shape == "grid":
        return grid(arguments.size, choose)
    if arguments.shape == "ring":
        return ring(arguments.size, choose)
    if arguments.shape == "externals":
        return [fill(Area(0, 0x0A000001, ROUTERS_BESIDE_EXTERNALS, choose), choose)]
    if arguments.shape == "random":
        return [fill(Area(0, 0x0A000001, arguments.size, choose), choose)]
    return [fill(Area(n, 0x0A000001 + (n << 16), arguments.size, choose), choose) for n in range(3)]


def fault_of_size(shape, size):
    """Returns why there is no such network, or nothing."""
    if size < 3:
        return "a size of three or more"
    if shape == "externals":
        return f"an AS holds at most {MOST_EXTERNALS} external routes, not {size}" if size > MOST_EXTERNALS else ""
    routers = size * size if shape == "grid" else size
    return f"an area holds at most {MOST_ROUTERS} routers, not {routers}" if routers > MOST_ROUTERS else ""


def main():
    parser = argparse.ArgumentParser(description=__doc__, formatter_class=argparse.RawDescriptionHelpFormatter)
    parser.add_argument("shape", choices=["grid", "ring", "random", "areas", "externals"])
    parser.add_argument("size", type=int)
    parser.add_argument("--changes", type=int, default=200)
    parser.add_argument("--seed", type=int, default=1)
    arguments = parser.parse_args()
    fault = fault_of_size(arguments.shape, arguments.size)
    if fault:
        parser.error(fault)
    choose = random.Random(arguments.seed)
    areas = networks(arguments, choose)
    externals = []
    if arguments.shape == "externals":
        areas[0].boundary = areas[0].routers[1]
        externals = [Externals(arguments.size, areas[0].boundary, choose)]
    print("abr 1")
    print("router 10.0.0.1")
    for area in areas:
        print(f"area {address(area.number)} normal")
    number = 0
    for area in areas:
        for own, peer in area.interfaces():
            number += 1
            print(f"interface {number} {address(area.number)} {address(own)} {address(peer)} up")
    for area in areas:
        for router in area.routers:
            print(area.install(area.router_lsa(router)))
        for lan in range(len(area.lans)):
            print(area.install(area.network_lsa(lan)))
    for each in externals:
        for n in range(arguments.size):
            print(each.install(n))
    lines = []
    while len(lines) < arguments.changes:
        lines += choose.choice(areas + externals).change()
    for line in lines[: arguments.changes]:
        print(line)


if __name__ == "__main__":
    main()
