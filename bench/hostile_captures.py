#!/usr/bin/env python3
"""Makes a capture that is built to hurt, as a pcap of Ethernet.

    bench/hostile_captures.py KIND FILE

    many_links   two router-LSAs of 5,400 links each, which lead to each other; the router is 10.0.0.9
    hellos       an LSA, and behind it 320 KB of Hellos, an hour apart
    future       an LSA a second, and among them a Hello of the year 2106
    back         an LSA a second, and among them a Hello that was captured a day before
    refused      instances of LSAs that are older than those that came before them

A packet of more than 1,500 bytes comes in fragments, as routers send it. Each checksum is right.
"""
import argparse
import ipaddress
import struct

ROUTER, NEIGHBOUR = "10.0.0.9", "10.0.0.1"
START = 1_700_000_000
HELLO, UPDATE = 1, 4
POINT_TO_POINT, STUB = 1, 3
HOST = 0xFFFFFFFF
# What an IPv4 datagram carries at most behind its header on Ethernet, in whole blocks of eight bytes.
PIECE = 1480
MANY = 5_400
HOUR, DAY = 3_600, 86_400
LAST_SECOND = 0xFFFFFFFF


def number(address):
    """An address as a number."""
    return int(ipaddress.IPv4Address(address))


def inet_sum(data):
    """The checksum of IPv4 and OSPF headers (RFC 1071)."""
    data += b"\0" * (len(data) % 2)
    total = sum(struct.unpack(f">{len(data) // 2}H", data))
    while total >> 16:
        total = (total & 0xFFFF) + (total >> 16)
    return total ^ 0xFFFF


def lsa_sum(lsa):
    """The checksum of an LSA whose own is zero: of all but its age (RFC 2328, 12.1.7)."""
    low = high = 0
    for byte in lsa[2:]:
        low = (low + byte) % 255
        high = (high + low) % 255
    behind = len(lsa) - 2 - 15
    first = (behind * low - high) % 255 or 255
    second = (510 - low - first) % 255 or 255
    return first << 8 | second


def router_lsa(router, links, sequence=1, age=1):
    """A router-LSA; each link is Link ID, Link Data and type, at a metric of 10."""
    body = struct.pack(">HH", 0, len(links)) + b"".join(struct.pack(">IIBBH", *link, 0, 10) for link in links)
    ids = number(router)
    head = struct.pack(">HBBIIi", age, 2, 1, ids, ids, sequence - 0x80000000)
    length = struct.pack(">H", 20 + len(body))
    return head + struct.pack(">H", lsa_sum(head + b"\0\0" + length + body)) + length + body


def ospf(kind, router, body):
    """A packet of the backbone, without authentication."""
    head = struct.pack(">BBHII", 2, kind, 24 + len(body), number(router), 0)
    return head + struct.pack(">HH", inet_sum(head + b"\0\0\0\0" + body), 0) + bytes(8) + body


def update(router, *lsas):
    """A Link State Update."""
    return ospf(UPDATE, router, struct.pack(">I", len(lsas)) + b"".join(lsas))


def hello(router):
    """A Hello of a router that has no neighbour yet."""
    return ospf(HELLO, router, struct.pack(">IHBBIII", 0xFFFFFF00, 10, 2, 1, 40, 0, 0))


class Capture:
    """A pcap, with times in microseconds."""

    def __init__(self, file):
        self.file = file
        self.count = 0
        self.size = file.write(struct.pack("<IHHiIII", 0xA1B2C3D4, 2, 4, 0, 0, 65535, 1))

    def put(self, second, packet, source="192.0.2.1"):
        """A packet of OSPF that was captured at this second, in as many fragments as it needs."""
        self.count = self.count % 0xFFFF + 1
        for start in range(0, len(packet), PIECE):
            piece = packet[start:start + PIECE]
            more = 0x2000 if start + PIECE < len(packet) else 0
            head = struct.pack(">BBHHHBBHII", 0x45, 0xC0, 20 + len(piece), self.count, more | start // 8, 1, 89, 0,
                               number(source), number("224.0.0.5"))
            head = head[:10] + struct.pack(">H", inet_sum(head)) + head[12:]
            frame = bytes.fromhex("01005e000005020000000001 0800") + head + piece
            self.size += self.file.write(struct.pack("<IIII", second, 0, len(frame), len(frame)) + frame)


def many_links(capture):
    """The links of one are gone through for each interface of the other: the last one back is the one that a link joins."""
    peers = number("203.0.0.0")
    own = [(number(NEIGHBOUR), number("10.1.0.0") + it, POINT_TO_POINT) for it in range(255)]
    own += [(number("10.1.0.0"), HOST << 32 - length & HOST, STUB) for length in range(1, 32)]
    own += [(number("198.18.0.0") + it, HOST, STUB) for it in range(len(own) + 1, MANY)]
    own += [(peers + MANY - 1, HOST, STUB)]
    back = [(number(ROUTER), peers + it, POINT_TO_POINT) for it in range(MANY)]
    capture.put(START, update(ROUTER, router_lsa(ROUTER, own)))
    capture.put(START + 1, update(NEIGHBOUR, router_lsa(NEIGHBOUR, back)))


def each_second(capture, seconds):
    """The router-LSA again, with one more link each second."""
    for it in seconds:
        links = [(number("198.18.0.0") + 256 * to, 0xFFFFFF00, STUB) for to in range(it + 1)]
        capture.put(START + it, update(ROUTER, router_lsa(ROUTER, links, it + 1)))


def hellos(capture):
    """Each hour between two packets is 3,600 lines of a recording, once there is an LSA."""
    each_second(capture, range(1))
    packet = hello(ROUTER)
    hours = 0
    while capture.size < 320_000:
        hours += 1
        capture.put(START + HOUR * hours, packet)


def future(capture):
    """What comes behind the packet was captured long before it."""
    each_second(capture, range(10))
    capture.put(LAST_SECOND, hello(NEIGHBOUR), "192.0.2.2")
    each_second(capture, range(10, 20))


def back(capture):
    """What comes behind the packet was captured a day after it."""
    each_second(capture, range(10))
    capture.put(START - DAY, hello(NEIGHBOUR), "192.0.2.2")
    each_second(capture, range(10, 20))


def refused(capture):
    """Twenty instances, and then each but the last again: as it was, and at MaxAge."""
    each_second(capture, range(20))
    for it in range(19):
        links = [(number("198.18.0.0") + 256 * to, 0xFFFFFF00, STUB) for to in range(it + 1)]
        for age in (1, 3_600):
            capture.put(START + 20 + it, update(NEIGHBOUR, router_lsa(ROUTER, links, it + 1, age)), "192.0.2.2")


KINDS = {it.__name__: it for it in (many_links, hellos, future, back, refused)}


def main():
    words = argparse.ArgumentParser(description=__doc__, formatter_class=argparse.RawDescriptionHelpFormatter)
    words.add_argument("kind", choices=sorted(KINDS))
    words.add_argument("file")
    given = words.parse_args()
    with open(given.file, "wb") as file:
        KINDS[given.kind](Capture(file))


if __name__ == "__main__":
    main()
