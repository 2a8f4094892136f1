#!/usr/bin/env python3
"""Writes a recording that is built to hurt, to standard output.

    bench/hostile_recordings.py forwards   65,536 AS-external-LSAs for one network, each with a forwarding address: of each,
                                           `abr explain` (198.51.100.9) traces the address
    bench/hostile_recordings.py rolls      a million rolls of a core of 16,000 LSAs
    bench/hostile_recordings.py hops       a neighbour with 5,458 links to one network, and 1,000 routes behind it: each has as
                                           many next hops

Each is well-formed, and other routers of an area may bring an operator's router into such a state. The calculating router is
10.0.0.1. bench/README.md has what they take.
"""

import sys

from network import address, link, lsa

ROOT, NEIGHBOUR, BEHIND = 0x0A000001, 0x0A000002, 0x0A000003
NETWORK = 0xC0000201  # the Designated Router's address, with the mask 255.0.0.0
MASK = 0xFF000000
STUB = 0xFFFFFF00
MOST_EXTERNALS = 65536
MOST_LINKS = 5459
ROLLS = 1_000_000
SUMMARIES = 16_000
ROUTES = 1_000


def front(interface, peer=0):
    yield from ("abr 3", f"router {address(ROOT)}", "compat disabled", "serial 0", "area 0.0.0.0 normal")
    yield f"has interface 1 0.0.0.0 {address(interface)} {address(peer)} up"


def has(lsa_bytes, scope="0.0.0.0"):
    """A line of the base: all of its LSAs are there at once. They ascend by area, LS type, Link State ID and Advertising Router."""
    return f"has lsa {scope} {lsa_bytes.hex()}"


def router_lsa(router, links, flags=0):
    body = bytes([flags, 0]) + len(links).to_bytes(2, "big") + b"".join(links)
    return lsa(1, router, router, 1, body)


def pair(flags):
    """The calculating router and a neighbour, over a point-to-point link."""
    yield from front(0xC6336401, 0xC6336402)
    yield has(router_lsa(ROOT, [link(NEIGHBOUR, 0xC6336401, 1, 10)]))
    forwards = link(0xCB007100, STUB, 3, 1)
    yield has(router_lsa(NEIGHBOUR, [link(ROOT, 0xC6336402, 1, 10), forwards], flags))


def forwards():
    """The LSAs differ in their host bits (RFC 2328, appendix E), and all of them offer 198.48.0.0/12."""
    yield from pair(flags=2)
    for number in range(MOST_EXTERNALS):
        body = (0xFFF00000).to_bytes(4, "big") + (0x80000014).to_bytes(4, "big") + (0xCB007109).to_bytes(4, "big") + bytes(4)
        yield has(lsa(5, 0xC6300000 + number, NEIGHBOUR, 1, body), "as")


def rolls():
    yield from front(0xC6336401, 0xC6336402)
    for number in range(SUMMARIES):
        body = STUB.to_bytes(4, "big") + (10).to_bytes(4, "big")
        yield has(lsa(3, 0x14000000 + (number << 8), NEIGHBOUR, 1, body))
    for _ in range(ROLLS):
        yield "roll"


def hops():
    yield from front(0xC0000202)
    yield has(router_lsa(ROOT, [link(NETWORK, 0xC0000202, 2, 10)]))
    own = [link(NETWORK, 0xC0010000 + number, 2, 10) for number in range(MOST_LINKS - 1)]
    yield has(router_lsa(NEIGHBOUR, [*own, link(BEHIND, 0xC6336401, 1, 10)]))
    stubs = [link(0x14000000 + (number << 8), STUB, 3, 1) for number in range(ROUTES)]
    yield has(router_lsa(BEHIND, [link(NEIGHBOUR, 0xC6336402, 1, 10), *stubs]))
    body = MASK.to_bytes(4, "big") + ROOT.to_bytes(4, "big") + NEIGHBOUR.to_bytes(4, "big")
    yield has(lsa(2, NETWORK, NEIGHBOUR, 1, body))


KINDS = {"forwards": forwards, "rolls": rolls, "hops": hops}


def main():
    if sys.argv[1:] not in [[it] for it in KINDS]:
        sys.exit(__doc__)
    for line in KINDS[sys.argv[1]]():
        print(line)


main()
